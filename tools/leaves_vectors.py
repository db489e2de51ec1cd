#!/usr/bin/env python3
"""Writes the questions and the expected lines of the program leaves_trial: leaves_vectors.py FOLDER.

FOLDER/stdin has the questions, four little-endian words each: which leaf, and what it is asked. FOLDER/stdout has a line
with two words for each. The answers are worked out here from document 01, and of a converter's words and of noise from document 02 [1] and [2], in
exact fractions, with one rounding to a 32-bit float after each operation. Nothing is random: the spread values come from a fixed sequence.
"""
import os
import struct
import sys
from fractions import Fraction
from math import exp, floor, pi

NAN = 0x7FC0_0000
INF = 0x7F80_0000
SIGN = 0x8000_0000
OUTSIDE = (0xFFFF_FFFF, 0)


# ---- floats, as patterns

def bits(x):
    return struct.unpack("<I", struct.pack("<f", x))[0]


def is_nan(w):
    return w % SIGN > INF


def is_inf(w):
    return w % SIGN == INF


def value(w):
    """The value of a finite float."""
    exponent, digits = w % SIGN >> 23, w & 0x7F_FFFF
    size = Fraction(digits, 2**149) if exponent == 0 else Fraction(2**23 + digits) * Fraction(2) ** (exponent - 150)
    return -size if w >= SIGN else size


def rounded(x, minus_zero=False):
    """The float nearest to a fraction, at a tie the even one."""
    if x == 0:
        return SIGN if minus_zero else 0
    sign, size = (SIGN, -x) if x < 0 else (0, x)
    exponent = -149
    while size / Fraction(2) ** exponent >= 2**24:
        exponent += 1
    units = size / Fraction(2) ** exponent
    whole = floor(units)
    rest = units - whole
    if rest > Fraction(1, 2) or (rest == Fraction(1, 2) and whole % 2 == 1):
        whole += 1
    if whole == 2**24:
        whole, exponent = 2**23, exponent + 1
    if whole < 2**23:
        return sign + whole
    if exponent + 150 >= 255:
        return sign + INF
    return sign + (exponent + 150 << 23) + whole - 2**23


def add(x, y):
    if is_nan(x) or is_nan(y) or (is_inf(x) and is_inf(y) and x != y):
        return NAN
    if is_inf(x) or is_inf(y):
        return x if is_inf(x) else y
    return rounded(value(x) + value(y), x >= SIGN and y >= SIGN)


def neg(x):
    return x ^ SIGN


def sub(x, y):
    return NAN if is_nan(y) else add(x, neg(y))


def mul(x, y):
    sign = (x ^ y) & SIGN
    if is_nan(x) or is_nan(y):
        return NAN
    if is_inf(x) or is_inf(y):
        return NAN if x % SIGN == 0 or y % SIGN == 0 else sign + INF
    return rounded(value(x) * value(y), sign != 0)


def div(x, y):
    """By a y that is finite and not zero."""
    sign = (x ^ y) & SIGN
    if is_nan(x):
        return NAN
    return sign + INF if is_inf(x) else rounded(value(x) / value(y), sign != 0)


def below(x, y):
    if is_nan(x) or is_nan(y):
        return False
    order = lambda w: (1 if w < SIGN else -1) if is_inf(w) else 0
    if order(x) or order(y):
        return order(x) < order(y)
    return value(x) < value(y)


def within(x, most):
    return not is_nan(x) and not is_nan(most) and not below(x, 0) and not below(most, x)


# ---- document 01

ONE, THOUSAND, RATE = bits(1.0), bits(1000.0), bits(44100.0)

# near enough: neither lies close to half-way between two floats (one_pole_constants.py)
B_SEVEN_FIFTHS, B_ONE_FIFTH = bits(exp(-7 * pi / 5)), bits(exp(-pi / 5))


def sine(phase):
    if not within(phase, ONE):
        return OUTSIDE
    u = floor(value(phase) * 2**24)
    q, r = u // 2**22 % 4, u % 2**22
    t = 2**22 - r if q % 2 else r
    z = t * t // 2**20
    h = 60
    for k in (2692, 78547, 1337020, 10837479, 26353589):
        h = k - z * h // 2**24
    v = t * h // 2**23
    return rounded(Fraction(-v if q > 1 else v, 2**23)), 0


def in_samples(ms):
    return mul(div(ms, THOUSAND), RATE)


def delay_length(ms):
    if not within(ms, bits(3000.0)):
        return 12, 0
    return 0, max(1, floor(value(in_samples(ms))))


def all_pass_length(ms):
    if not within(ms, bits(3000.0)):
        return 12, 0
    if value(ms) == 0:
        return 0, 132300
    n = floor(value(in_samples(ms)))
    return (0, n) if n else (12, 0)


def position(m, n):
    if n > 132300:
        return OUTSIDE
    w, top = in_samples(m), bits(float(n))
    if is_nan(w) or below(w, 0):
        w = 0
    elif below(top, w):
        w = top
    pos = neg(w)
    if below(pos, 0):
        pos = add(pos, top)
    i = floor(value(pos))
    return i, rounded(value(pos) - i)


def phase_step(phase, f):
    by = div(f, RATE)
    after = add(phase, by)
    return by, sub(after, ONE) if below(ONE, after) else after


def one_pole(b, y1, x):
    a = sub(ONE, b)
    return a, add(mul(x, a), mul(b, y1))


# ---- document 02 [1]: words are patterns of 24 bits

def word_in(word):
    if word >= 2**24:
        return OUTSIDE
    return rounded(Fraction(word if word < 2**23 else word - 2**24, 2**23)), 0


def word_out(w):
    if is_nan(w):
        return 0, 0
    if is_inf(w):
        whole = -(2**23) if w >= SIGN else 2**23
    else:
        whole = round(value(w) * 2**23)  # of a fraction: the nearest whole number, at a tie the even one
    return max(-(2**23), min(2**23 - 1, whole)) % 2**24, 0


# ---- document 02 [2]: noise, bit by bit

def shifted(bit, by):
    """A list of 32 bits, the lowest first, with the bits moved up by so many places; down where that is negative."""
    return [bit[i - by] if 0 <= i - by < 32 else 0 for i in range(32)]


def noise(start, steps):
    state = start or 2463534242
    for _ in range(steps):
        bit = [state >> i & 1 for i in range(32)]
        for by in (13, -17, 5):
            bit = [(p + q) % 2 for p, q in zip(bit, shifted(bit, by))]
        state = sum(b << i for i, b in enumerate(bit))
    return state, rounded(Fraction(state // 2**8 - 2**23, 2**23))


def answer(leaf, a, b, c):
    if leaf == 0:
        return (NAN if is_nan(a) else a), 0
    if leaf == 1:
        return int(a % SIGN < INF), int(within(a, b))
    if leaf == 2:
        return sine(a)
    if leaf == 3:
        return delay_length(a)
    if leaf == 4:
        return all_pass_length(a)
    if leaf == 5:
        return position(a, b)
    if leaf == 6:
        return phase_step(a, b)
    if leaf == 7:
        return one_pole(a, b, c)
    if leaf == 8:
        return B_SEVEN_FIFTHS, B_ONE_FIFTH
    if leaf == 11:
        return noise(a, b)
    return word_in(a) if leaf == 9 else word_out(a)


# ---- the questions

def spread():
    """Numbers below 2^32, always the same."""
    state = 1
    while True:
        state = (state * 6364136223846793005 + 1442695040888963407) % 2**64
        yield state >> 32


def questions():
    some = spread()
    part = lambda most: bits(next(some) / 2**32 * most)
    odd = [0, SIGN, 1, SIGN + 1, INF, SIGN + INF, INF + 1, NAN, SIGN + NAN, 0xFFFF_FFFF, 0x7F7F_FFFF, ONE, ONE + 1]
    for w in odd + [next(some) for _ in range(16)]:
        yield 0, w, 0, 0
    for most in (ONE, bits(3000.0), RATE):
        for w in odd + [most - 1, most, most + 1, SIGN + most]:
            yield 1, w, most, 0
    for u in [k << 20 for k in range(17)] + [(k << 22) + d for k in range(5) for d in (-1, 1)] + [3, 12345678]:
        yield 2, bits(u / 2**24) if u >= 0 else bits(-1.0), 0, 0
    for w in odd + [part(1.0) for _ in range(64)]:
        yield 2, w, 0, 0
    shortest = bits(1000 / 44100)
    lengths = [bits(ms) for ms in (100.0, 30.0, 0.01, 50.0, 1.0, 2999.99, 3000.0, 3000.1, -1.0)]
    for w in odd + lengths + [shortest + d for d in (-2, -1, 0, 1, 2)] + [part(3000.0) for _ in range(32)]:
        yield 3, w, 0, 0
        yield 4, w, 0, 0
    for n in (1, 2, 210, 4410, 132300, 132301):
        for w in odd + [bits(1e-9), bits(1e-10), bits(n / 44.1), bits(1e30)] + [part(n / 44.1) for _ in range(12)]:
            yield 5, w, n, 0
    for p, f in ((0, RATE), (ONE, RATE), (ONE, 0), (SIGN, SIGN), (bits(0.5), bits(22050.0)), (ONE - 1, 1), (ONE - 1, bits(440.0))):
        yield 6, p, f, 0
    for _ in range(32):
        yield 6, part(1.0), part(44100.0), 0
    for b in (B_SEVEN_FIFTHS, B_ONE_FIFTH, 0, ONE, bits(-0.5)):
        for y1, x in ((0, 0), (SIGN, SIGN), (INF, 0), (NAN, ONE), (ONE, bits(-1.0)), (1, 1), (part(2.0), part(1.0)), (part(1e-3), part(1e3))):
            yield 7, b, y1, x
    yield 8, 0, 0, 0
    for word in (0, 1, 2, 0x7F_FFFF, 0x80_0000, 0x80_0001, 0xFF_FFFF, 0x100_0000, 0x55_5555, 0xAA_AAAA):
        yield 9, word, 0, 0
    for _ in range(32):
        yield 9, next(some) >> 8, 0, 0
    # halves, quarters and three quarters of a step beside whole numbers of steps, of either sign
    ties = [rounded(Fraction(4 * n + k, 2**25)) for n in (0, 1, 2, 3, 2**22 - 2, 2**22 - 1) for k in (1, 2, 3)]
    ends = [rounded(Fraction(n, 2**24)) for n in (2**24 - 3, 2**24 - 2, 2**24 - 1, 2**24, 2**24 + 1)]
    for w in odd + ties + ends + [bits(2.0), bits(1e30)]:
        yield 10, w, 0, 0
        yield 10, w ^ SIGN, 0, 0
    for _ in range(64):
        yield 10, part(1.0) ^ next(some) // 2**31 * SIGN, 0, 0
        yield 10, next(some), 0, 0
    for start in (0, 1, 2, 2463534242, 0x8000_0000, 0xFFFF_FFFF, 0xFF, 0x100):
        for steps in (0, 1, 2, 3, 4, 31, 32, 100):
            yield 11, start, steps, 0
    for _ in range(32):
        yield 11, next(some), next(some) % 64, 0
    yield 11, 0, 3000, 0


def main(folder):
    asked = list(questions())
    with open(f"{folder}/stdin", "wb") as out:
        for q in asked:
            out.write(struct.pack("<4I", *q))
    with open(f"{folder}/stdout", "w") as out:
        for q in asked:
            out.write("%08x %08x\n" % answer(*q))


if len(sys.argv) != 2 or not os.path.isdir(sys.argv[1]):
    sys.exit(__doc__)
main(sys.argv[1])
