#!/usr/bin/env python3
"""The plate's one-pole constants: the 32-bit floats nearest e^(-7π/5) and e^(-π/5), in exact arithmetic.

π is bracketed by 10^9 × π rounded down and up, and e^x, at x = k × π/5, by partial sums of its series: the sum up to
x^24/24! at the lower π lies below e^x, and the sum at the upper π with the last term counted twice lies above it, since
from there on each term is at most half of the one before it. Prints for each constant the bracket of e^(-x), the pattern,
and how far the bracket lies inside the two half-way points to the neighbouring floats, in units of the last place.
"""
from fractions import Fraction
from math import factorial

PI_LOW, PI_HIGH = Fraction(3141592653, 10**9), Fraction(3141592654, 10**9)
TERMS = 24


def partial_sum(x):
    return sum(x**k / factorial(k) for k in range(TERMS + 1))


def bracket(k):
    """e^(-k π/5) lies between the two."""
    low, high = k * PI_LOW / 5, k * PI_HIGH / 5
    assert 2 * high <= TERMS + 1
    return 1 / (partial_sum(high) + high**TERMS / factorial(TERMS)), 1 / partial_sum(low)


def value(pattern):
    """The value of a positive normal float."""
    exponent, digits = pattern >> 23, pattern & 0x7FFFFF
    return Fraction(2**23 + digits) * Fraction(2) ** (exponent - 150)


def nearest(low, high):
    pattern = 0x0080_0000
    step = 1 << 30
    while step:
        if pattern + step < 0x7F80_0000 and value(pattern + step) <= low:
            pattern += step
        step >>= 1
    if low - value(pattern) > value(pattern + 1) - low:
        pattern += 1
    below = (value(pattern - 1) + value(pattern)) / 2
    above = (value(pattern) + value(pattern + 1)) / 2
    assert below < low <= high < above, "the bracket is too wide"
    return pattern, below, above


for k in (7, 1):
    low, high = bracket(k)
    pattern, below, above = nearest(low, high)
    unit = value(pattern + 1) - value(pattern)
    print(f"e^(-{k}π/5) is from {float(low):.12e} to {float(high):.12e}")
    print(f"  pattern {pattern:08x}, room below {float((low - below) / unit):.3f}, above {float((above - high) / unit):.3f}")
