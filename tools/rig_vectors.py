#!/usr/bin/env python3
"""Writes what the program rig must write: rig_vectors.py >crates/rig/stdout.

A reading of its own, from documents 01 and 02 [2]: no board's bytes, no memory and no blocks, but a sample of each node at each time.
The generator is checked first: the first values that are published for its default start, and its samples' range.
"""
import struct
import sys

START = 2463534242
SIZE, BLOCKS = 2, 4


def step(state):
    state ^= state << 13 & 0xFFFF_FFFF
    state ^= state >> 17
    return state ^ (state << 5 & 0xFFFF_FFFF)


def noise(state):
    """The samples from a state on, each with the state that it is of."""
    while True:
        state = step(state)
        yield state, ((state >> 8) - 2**23) / 2**23


def single(x):
    """The nearest float of 32 bits. A sum or product of two such floats is first rounded to 53 digits, which changes no result."""
    return struct.unpack("<f", struct.pack("<f", x))[0]


def printed(heard):
    """Node 0's samples on the printed board: pass 1, add 2 of 1 and 4, delay 3 of 2 by one, mul 4 of 3 by 0.5, destination 0 of 3.
    The wire from 3 to 4 is late: it brings the sample of a block earlier."""
    add, delay = [], []
    for t, x in enumerate(heard):
        delay.append(add[t - 1] if t else 0.0)
        mul = single((delay[t - SIZE] if t >= SIZE else 0.0) * 0.5)
        add.append(single(x + mul))
        yield single(0.0 + delay[t])


def main():
    first = [s for s, _ in (pair for pair, _ in zip(noise(START), range(3)))]
    if first != [723471715, 2497366906, 2064144800]:
        sys.exit("the generator is another: %s" % first)
    heard = [x for (_, x), _ in zip(noise(START), range(SIZE * BLOCKS))]
    for x in heard:
        if not -1 <= x < 1 or single(x) != x:
            sys.exit("%r is no sample" % x)
    given = list(printed(heard))
    for k in range(0, SIZE * BLOCKS, SIZE):
        for channel in range(2):
            sys.stdout.buffer.write(struct.pack("<%df" % SIZE, *given[k:k + SIZE]))


if len(sys.argv) != 1:
    sys.exit(__doc__)
main()
