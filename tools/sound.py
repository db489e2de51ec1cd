#!/usr/bin/env python3
"""Writes examples/sound.wav: three plucked strings, half a second, 16 bits, one channel.

Use: python3 tools/sound.py examples/sound.wav

A string is a ring of noise in which each sample becomes the mean of itself and the next, a little softer (Karplus and
Strong). Whole numbers only, so the file is the same everywhere.
"""
import struct
import sys

RATE = 44100
FRAMES = RATE // 2
NOTES = ((0, 200), (7000, 159), (14000, 134))  # where a string is plucked, and its length: 220, 277 and 329 Hz


def pluck(length, frames, seed):
    ring = []
    for _ in range(length):
        seed = (seed * 1103515245 + 12345) % 2**31
        ring.append((seed >> 15) % 20001 - 10000)
    for i in range(frames):
        at, after = i % length, (i + 1) % length
        yield ring[at]
        ring[at] = (ring[at] + ring[after]) * 498 // 1000


def main():
    sound = [0] * FRAMES
    for k, (start, length) in enumerate(NOTES):
        for i, x in enumerate(pluck(length, FRAMES - start, k + 1)):
            sound[start + i] += x
    data = struct.pack("<%dh" % FRAMES, *(max(-32768, min(32767, x)) for x in sound))
    head = struct.pack("<4sI4s4sIHHIIHH4sI", b"RIFF", 36 + len(data), b"WAVE", b"fmt ", 16, 1, 1, RATE, 2 * RATE, 2, 16, b"data", len(data))
    with open(sys.argv[1], "wb") as f:
        f.write(head + data)


main()
