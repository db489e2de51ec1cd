#!/usr/bin/env python3
"""Boards for judge_run, with the answers of a second reading of document 01: writes the crate's stdin and stdout.

Use: python3 tools/board_vectors.py crates/judge_run
"""
import os
import random
import struct
import sys

MIN = {1: 0, 2: 0, 3: 0, 4: 2, 5: 1, 6: 1, 7: 1, 8: 1, 9: 1, 10: 0}
MAX = {1: 1, 2: 8, 3: 8, 4: 2, 5: 2, 6: 2, 7: 1, 8: 2, 9: 1, 10: 0}


def bits(x):
    return struct.unpack("<I", struct.pack("<f", x))[0]


def finite(f):
    return (f >> 23) & 255 != 255


def node_ok(t, n, f, i, lines):
    line = {7: n, 8: 2 * n}.get(t, 0)
    if t not in MIN or (t == 3) != (i == 0) or i >= 64 or lines + line > 262144:
        return None
    if t in (7, 8) and not 1 <= n <= 132300 or t not in (7, 8) and n != 0:
        return None
    if t in (5, 6, 8, 9, 10):
        if not finite(f):
            return None
        x = struct.unpack("<f", struct.pack("<I", f))[0]
        if t == 10 and not 0 <= x <= 44100:
            return None
    elif f != 0:
        return None
    return line


def judge(s):
    at, last, nodes, wires, lines = 0, 0, [], [], 0
    while True:
        left = len(s) - at
        if left < 4:
            return 1, at
        size, kind = struct.unpack_from("<HH", s, at)
        if left < size:
            return 1, at
        if kind not in (1, 2, 3, 4) or (last == 0) != (kind == 1) or kind < last:
            return 2, at
        if size != {1: 8, 2: 14, 3: 8, 4: 4}[kind]:
            return 1, at
        if kind == 1:
            block, inp = struct.unpack_from("<HH", s, at + 4)
            if not 1 <= block <= 128:
                return 3, at
        elif kind == 2:
            t, n, f = struct.unpack_from("<HII", s, at + 4)
            line = node_ok(t, n, f, len(nodes), lines)
            if line is None:
                return 4, at
            lines += line
            nodes.append(t)
        elif kind == 3:
            a, t = struct.unpack_from("<HH", s, at + 4)
            if a >= len(nodes) or t >= len(nodes) or a == t or len(wires) == 128:
                return 5, at
            wires.append((a, t))
        else:
            if at + 4 != len(s):
                return 1, at + 4
            break
        at, last = at + size, kind
    if not nodes:
        return 6, 0
    into = [len({a for a, t in wires if t == i}) for i in range(len(nodes))]
    if inp >= len(nodes) or nodes[inp] != 1 or into[inp]:
        return 6, inp
    for i, t in enumerate(nodes):
        if not MIN[t] <= into[i] <= MAX[t]:
            return 6, i
    return 0, 4 * (sum(3 + block * (2 if t in (3, 4) else 1) for t in nodes) + lines)


def head(block, inp):
    return struct.pack("<HHHH", 8, 1, block, inp)


def node(t, n=0, f=0):
    return struct.pack("<HHHII", 14, 2, t, n, f)


def wire(a, t):
    return struct.pack("<HHHH", 8, 3, a, t)


END = struct.pack("<HH", 4, 4)


def board(block, inp, nodes, wires):
    return head(block, inp) + b"".join(node(*n) for n in nodes) + b"".join(wire(*w) for w in wires) + END


EXAMPLE = board(2, 1, [(3,), (1,), (6,), (7, 1), (5, 0, bits(0.5))], [(1, 2), (2, 3), (3, 4), (4, 2), (3, 0)])


def cases():
    yield EXAMPLE
    yield b""
    for k in range(len(EXAMPLE)):
        yield EXAMPLE[:k]
    yield EXAMPLE + b"\0"
    for block in (0, 1, 128, 129):
        yield board(block, 1, [(3,), (1,)], [])
    for k in (63, 64, 65):
        yield board(1, 1, [(3,)] + [(1,)] * (k - 1), [])
    for k in (127, 128, 129):
        yield board(1, 1, [(3,), (1,)], [(1, 0)] * k)
    for f in (0, 1 << 31, bits(44100.0), bits(44100.0) + 1, bits(-1.0), 0x7F800000, 0x7FC00000, (1 << 31) + 1):
        yield board(1, 1, [(3,), (1,), (10, 0, f)], [])
        yield board(1, 1, [(3,), (1,), (5, 0, f)], [(1, 2)])
    for n in (0, 1, 132300, 132301, 65536):
        yield board(1, 1, [(3,), (1,), (7, n)], [(1, 2)])
        yield board(1, 1, [(3,), (1,), (8, n, 0), (7, 2)], [(1, 2), (1, 3)])
    yield board(1, 1, [(3,), (1,), (5,)], [(1, 2), (1, 2), (0, 2)])
    yield board(1, 1, [(3,), (1,), (5,)], [(1, 2), (1, 2), (0, 2), (2, 2)])
    yield board(1, 0, [(3,), (1,)], [])
    yield board(1, 2, [(3,), (1,)], [])
    yield board(1, 1, [(3,), (1,)], [(0, 1)])
    yield head(1, 0) + END
    # two lines of 131,072 fill all, and one value more is too much
    for n in (131072, 131073):
        yield board(1, 1, [(3,), (1,), (7, 131072), (7, n)], [(1, 2), (1, 3)])
        yield board(1, 1, [(3,), (1,), (8, n, 0)], [(1, 2)])
    # eight sources, nine, and nine wires from eight
    passes = [(1,)] * 9
    for k in (8, 9):
        for t in (0, 10):
            yield board(2, 1, [(3,)] + passes + [(2,)], [(i + 1, t) for i in range(k)])
    yield board(2, 1, [(3,)] + passes + [(2,)], [(i % 8 + 1, 10) for i in range(9)])
    yield board(2, 1, [(3,)] + passes + [(2,)], [(i % 9 + 1, 10) for i in range(128)])
    # each type with each number of distinct sources, wired once or twice
    for t in range(1, 11):
        fields = {7: (1, 0), 8: (1, 0)}.get(t, (0, 0))
        if t == 3:
            continue
        for k in range(4):
            for times in (1, 2):
                yield board(3, 1, [(3,), (1,), (1,), (1,), (1,), (t,) + fields], [(i + 2, 5) for i in range(k) for _ in range(times)])
    # a type that is none, fields that must be zero, and the destination elsewhere or missing
    for n in ((0,), (11,), (256,), (1, 1), (1, 0, 1), (2, 0, 1 << 31), (5, 1, 0), (7, 1, 1), (9, 1, 0), (3,)):
        yield board(1, 1, [(3,), (1,), n], [(1, 2)])
    yield board(1, 0, [(1,)], [])
    # kinds out of order, unknown kinds, lengths that are wrong for a kind, and the order of these refusals
    h, d, p = head(1, 1), node(3), node(1)
    for b in (
        h, h + h, d + h, END, h + END + END, h + d + p + wire(1, 0) + p + END, h + wire(0, 1) + END, h + d + p + END + b"\0\0\0\0",
        struct.pack("<HH", 4, 9), h + struct.pack("<HH", 4, 0), h + struct.pack("<HHI", 8, 4, 0), h + struct.pack("<HH", 0, 4), h + struct.pack("<HH", 0, 5),
        h + struct.pack("<HH", 3, 2), h + struct.pack("<HH", 9, 2), h + d + p + struct.pack("<HHI", 8, 2, 0), struct.pack("<HHI", 8, 256, 0), struct.pack("<HH", 9, 9),
    ):
        yield b
    rng = random.Random(1)
    for _ in range(150):
        b = bytearray(EXAMPLE)
        for _ in range(rng.choice((1, 1, 2))):
            b[rng.randrange(len(b))] = rng.choice((0, 1, 2, 3, 4, 5, 8, 14, 255, rng.randrange(256)))
        yield bytes(b)


def main():
    if len(sys.argv) != 2 or not os.path.isdir(sys.argv[1]):
        sys.exit(__doc__)
    folder = sys.argv[1]
    with open(folder + "/stdin", "wb") as i, open(folder + "/stdout", "w") as o:
        for b in cases():
            i.write(struct.pack("<H", len(b)) + b)
            o.write("%d %d\n" % judge(b))


main()
