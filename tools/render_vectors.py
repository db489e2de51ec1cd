#!/usr/bin/env python3
"""Sounds, boards and a list for render, with what a second reading of document 01 and docs/RENDER.md says: writes the
crate's data/ and stdout.

Use: python3 tools/render_vectors.py crates/render

The boards are played sample by sample, as "Reading by samples" has it: at each time every reached node applies its row of
the table to what its wires bring; a late wire brings the sample of N earlier.
"""
import math
import os
import struct
import subprocess
import sys
from fractions import Fraction

import card_vectors
from card_vectors import Bad, float_bits

PASS, SUM, DESTINATION, BALANCE, MUL, ADD, DELAY, ALLPASS, ONEPOLE, SINE = range(1, 11)
NAN = float("nan")


# ---- floats: each operation in double and then rounded once to single, which is the single operation


def single(x):
    try:
        return struct.unpack("<f", struct.pack("<f", x))[0]
    except OverflowError:
        return math.copysign(math.inf, x)


def of_bits(bits):
    return struct.unpack("<f", struct.pack("<I", bits))[0]


def bits(x):
    return struct.pack("<I", 0x7FC00000) if x != x else struct.pack("<f", x)


def add(x, y):
    return single(x + y)


def mul(x, y):
    return single(x * y)


def sine(phase):
    u = math.floor(phase * 2**24)
    q, r = u // 2**22 % 4, u % 2**22
    t = 2**22 - r if q % 2 else r
    z, h = t * t // 2**20, 60
    for k in (2692, 78547, 1337020, 10837479, 26353589):
        h = k - z * h // 2**24
    v = t * h // 2**23
    return (-v if q > 1 else v) / 2**23


# ---- boards


class Board:
    def __init__(self, data):
        self.size, self.input = struct.unpack_from("<HH", data, 4)
        self.nodes, self.wires, at = [], [], 8
        while data[at + 2] == 2:
            kind, n, f = struct.unpack_from("<HII", data, at + 4)
            self.nodes.append((kind, n, of_bits(f)))
            at += 14
        while data[at + 2] == 3:
            self.wires.append(struct.unpack_from("<HH", data, at + 4))
            at += 8
        self.order = []
        self.visit(0, set())
        self.place = {v: i for i, v in enumerate(self.order)}

    def sources(self, v):
        return list(dict.fromkeys(a for a, t in self.wires if t == v))

    def visit(self, v, marked):
        marked.add(v)
        for u in (a for a, t in self.wires if t == v):
            if u not in marked:
                self.visit(u, marked)
        self.order.append(v)

    def late(self, u, v):
        return self.place[u] >= self.place[v]

    def tail(self):
        listed = [self.nodes[v] for v in self.order]
        if any(self.late(a, t) for a, t in self.wires if a in self.place and t in self.place):
            return None
        if any(kind not in (1, 2, 3, 4, 5, 7) for kind, _, _ in listed):
            return None
        return sum(n for kind, n, _ in listed if kind == DELAY)


class Player:
    """A board at a time: what each node gave (both channels), what it consumed, phase and y1."""

    def __init__(self, board):
        self.board = board
        self.gave = [([], []) for _ in board.nodes]
        self.took = [[] for _ in board.nodes]
        self.carry = [0.0] * len(board.nodes)
        self.into = [board.sources(v) for v in range(len(board.nodes))]
        self.two = [[a for a, t in board.wires if t == v][:2] for v in range(len(board.nodes))]

    def brought(self, u, v, t, channel=0):
        if u not in self.board.place:
            return 0.0
        if channel and self.board.nodes[u][0] not in (DESTINATION, BALANCE):
            channel = 0
        at = t - self.board.size if self.board.late(u, v) else t
        return self.gave[u][channel][at] if at >= 0 else 0.0

    def total(self, v, t, channel):
        x = 0.0
        for u in self.into[v]:
            x = add(x, self.brought(u, v, t, channel))
        return x

    def all_pass(self, v, t, n, g, x, m):
        xs, ys = self.took[v], self.gave[v][0]
        if m is None:
            a = xs[t - n] if t >= n else 0.0
            b = ys[t - n] if t >= n else 0.0
        else:
            w = mul(single(m / 1000.0), 44100.0)
            if w != w or w < 0:
                w = 0.0
            if w > n:
                w = float(n)
            pos = add(-w, float(n)) if -w < 0 else 0.0
            i = math.floor(pos)
            r = single(pos - i)
            k = t - n

            def get(line, j):
                j = k + j % n
                return line[j] if j >= 0 else 0.0

            rest = add(1.0, -r)
            a = add(mul(get(xs, i), r), mul(get(xs, i + 1), rest))
            b = add(mul(get(ys, i), r), mul(get(ys, i + 1), rest))
        xs.append(x)
        return add(add(mul(-g, x), a), mul(g, b))

    def sample(self, v, t, sound):
        kind, n, f = self.board.nodes[v]
        two = [self.brought(u, v, t) for u in self.two[v]] if len(self.into[v]) == 2 else None
        x = self.brought(self.into[v][0], v, t) if self.into[v] else 0.0
        if kind == PASS:
            if self.into[v]:
                return x
            if v == self.board.input:
                return sound
            return self.gave[v][0][t - self.board.size] if t >= self.board.size else 0.0
        if kind == SUM:
            return self.total(v, t, 0)
        if kind == MUL:
            return mul(*two) if two else mul(x, f)
        if kind == ADD:
            return add(*two) if two else add(x, f)
        if kind == DELAY:
            self.took[v].append(x)
            return self.took[v][t - n] if t >= n else 0.0
        if kind == ALLPASS:
            return self.all_pass(v, t, n, f, two[0] if two else x, two[1] if two else None)
        if kind == ONEPOLE:
            self.carry[v] = add(mul(x, add(1.0, -f)), mul(f, self.carry[v]))
            return self.carry[v]
        phase = self.carry[v]
        step = add(phase, single(f / 44100.0))
        self.carry[v] = add(step, -1.0) if step > 1 else step
        return sine(phase)

    def step(self, t, sound):
        for v in self.board.order:
            left, right = self.gave[v]
            kind = self.board.nodes[v][0]
            if kind == DESTINATION:
                left.append(self.total(v, t, 0))
                right.append(self.total(v, t, 1))
            elif kind == BALANCE:
                left.append(self.brought(self.two[v][0], v, t))
                right.append(self.brought(self.two[v][1], v, t))
            else:
                left.append(self.sample(v, t, sound))


def played(board, sounds, frames):
    player = Player(board)
    for t in range(frames):
        player.step(t, sounds[t] if t < len(sounds) else 0.0)
    left, right = player.gave[0]
    return b"".join(bits(left[t]) + bits(right[t]) for t in range(frames))


# ---- WAV files


def chunk(name, body):
    return name + struct.pack("<I", len(body)) + body + b"\0" * (len(body) % 2)


def fmt(tag, channels, width, rate=44100, frame=None, sub=None):
    frame = channels * width // 8 if frame is None else frame
    body = struct.pack("<HHIIHH", tag, channels, rate, rate * frame, frame, width)
    if sub is not None:
        body += struct.pack("<HHIH", 22, width, 0, sub) + bytes.fromhex("000000001000800000aa00389b71")
    return chunk(b"fmt ", body)


def riff(*chunks):
    body = b"WAVE" + b"".join(chunks)
    return b"RIFF" + struct.pack("<I", len(body)) + body


def word_of(x):
    """A float's word of 24 bits: the whole number nearest to 2^23 times it, of two the even one, held at both ends; a NaN is 0."""
    if x != x:
        n = 0
    elif math.isinf(x):
        n = 2**23 if x > 0 else -(2**23)
    else:
        n = round(Fraction(x) * 2**23)
    return max(-(2**23), min(n, 2**23 - 1)).to_bytes(3, "little", signed=True)


def out_file(frames, words):
    """The WAV file of some frames of floats, as they are or as words of 24 bits."""
    if words:
        data = b"".join(word_of(x) for x, in struct.iter_unpack("<f", frames))
        return riff(fmt(1, 2, 24), chunk(b"data", data))
    n = len(frames) // 8
    head = struct.pack("<HHIIHHH", 3, 2, 44100, 44100 * 8, 8, 32, 0)
    return riff(chunk(b"fmt ", head), chunk(b"fact", struct.pack("<I", n)), chunk(b"data", frames))


WIDTH = {(1, 8): 1, (1, 16): 2, (1, 24): 3, (1, 32): 4, (3, 32): 4}


class Problem(Exception):
    pass


def advice(name, options=""):
    return "; try: sox %s -r 44100%s -e signed -b 24 new.wav" % (name, options)


def format_of(body, name):
    if len(body) < 16:
        raise Problem("fmt chunk cut short")
    tag, channels, rate, _, frame, width = struct.unpack_from("<HHIIHH", body)
    if tag == 0xFFFE:
        if len(body) < 40:
            raise Problem("fmt chunk cut short")
        tag = struct.unpack_from("<H", body, 24)[0]
    if rate != 44100:
        raise Problem("%d Hz: only 44100 is read" % rate + advice(name))
    if channels not in (1, 2):
        raise Problem("%d channels: only 1 and 2 are read" % channels + advice(name, " -c 2"))
    if tag not in (1, 3):
        raise Problem("%d as format: only 1 (whole numbers) and 3 (floats) are read" % tag + advice(name))
    if (tag, width) not in WIDTH:
        raise Problem("%d bits: only 8, 16, 24 and 32 bit whole numbers and 32 bit floats are read" % width + advice(name))
    if frame != channels * WIDTH[tag, width]:
        raise Problem("%d bytes a frame do not fit channels and bits" % frame)
    return tag, channels, WIDTH[tag, width]


def sample(data, tag):
    if tag == 3:
        return of_bits(struct.unpack("<I", data)[0])
    if len(data) == 1:
        return (data[0] - 128) / 128
    return single(int.from_bytes(data, "little", signed=True) / 2 ** (8 * len(data) - 1))


def taken_as(left, right, channel):
    if channel == "left":
        return left
    if channel == "right":
        return right
    return mul(add(left, right), 0.5)


def sounds_of(data, name, channel):
    """The samples of a WAV file, each frame taken as one, and whether its frames are of two."""
    if data[:4] != b"RIFF" or data[8:12] != b"WAVE":
        raise Problem("not a WAV file")
    at, known = 12, None
    while at + 8 <= len(data):
        kind, size = data[at:at + 4], struct.unpack_from("<I", data, at + 4)[0]
        if kind == b"data" and size in (0, 0xFFFFFFFF):
            size = len(data) - at - 8
        body = data[at + 8:at + 8 + size]
        at += 8 + size + size % 2
        if kind == b"fmt ":
            known = format_of(body, name)
        elif kind == b"data":
            if known is None:
                raise Problem("no fmt chunk before the data")
            tag, channels, width = known
            frame = channels * width
            if size % frame:
                raise Problem("%d bytes of data are no whole frames" % size)
            if channels == 1 and channel in ("left", "right"):
                raise Problem("mono: it has neither left nor right")
            sounds = []
            for i in range(len(body) // frame):
                x = sample(body[frame * i:frame * i + width], tag)
                if channels == 2:
                    x = taken_as(x, sample(body[frame * i + width:frame * i + frame], tag), channel)
                if math.isnan(x) or math.isinf(x):
                    raise Problem("sample %d is infinite or NaN" % i)
                sounds.append(x)
            if len(body) < size:
                raise Problem("cut short: %d of %d bytes of data are there" % (len(body), size))
            return sounds, channels == 2
    raise Problem("no data chunk")


# ---- boards and sounds of the list


def node(kind, n=0, f=0.0):
    return struct.pack("<HHHI", 14, 2, kind, n) + struct.pack("<f", f)


def board(size, source, nodes, wires):
    out = struct.pack("<HHHH", 8, 1, size, source) + b"".join(node(*n) for n in nodes)
    return out + b"".join(struct.pack("<HHHH", 8, 3, a, t) for a, t in wires) + struct.pack("<HH", 4, 4)


PRINTED = board(2, 1, [(3,), (1,), (6,), (7, 1), (5, 0, 0.5)], [(1, 2), (2, 3), (3, 4), (4, 2), (3, 0)])
# delays, a sum, a product of two, a balance: a tail of 5 + 19
TAIL = board(
    7, 1, [(3,), (1,), (7, 5), (5, 0, -0.7), (2,), (5,), (7, 19), (4,), (1,)],
    [(1, 2), (2, 3), (1, 4), (3, 4), (2, 4), (4, 5), (2, 5), (5, 6), (4, 7), (6, 7), (7, 0), (4, 0), (2, 0)])
# a sine, an add, a one-pole and all-passes of both kinds, with blocks of 5
MOVING = board(
    5, 1, [(3,), (1,), (10, 0, 441.0), (5, 0, 0.1), (6, 0, 0.15), (8, 9, 0.6), (8, 4, -0.5), (9, 0, 0.3), (4,)],
    [(1, 5), (2, 3), (3, 4), (4, 5), (5, 6), (6, 7), (7, 8), (1, 8), (8, 0)])


# the printed board's loop with its late wire into a delay, of n samples
def loop(size, n):
    return board(size, 1, [(3,), (1,), (6,), (5, 0, 0.5), (7, n)], [(1, 2), (2, 3), (3, 4), (4, 2), (3, 0)])


def noise(count, seed=1):
    out = []
    for _ in range(count):
        seed = (seed * 1103515245 + 12345) % 2**31
        out.append(seed / 2**30 - 1)
    return out


def whole(sounds, width):
    return b"".join(int(x * 2 ** (width - 1)).to_bytes(width // 8, "little", signed=True) for x in sounds)


def floats(sounds):
    return b"".join(struct.pack("<f", x) for x in sounds)


# a file whose data chunk, of so many bytes at the end, names another length
def unsized(file, bytes, length):
    at = len(file) - bytes - 4
    return file[:at] + struct.pack("<I", length) + file[at + 4:]


def ties():
    """Samples halfway between two words, beside these, at the ends and past them, either sign; and some with nothing to round."""
    halves = [n + 0.5 for n in (0, 1, 2, 3, 100, 101, 2**22 - 1, 2**22, 2**23 - 3, 2**23 - 2, 2**23 - 1)]
    out = []
    for n in halves:
        out += [n, single(n * (1 - 2**-24)), single(n * (1 + 2**-23))]
    out += [2**23 - 1, 2**23, 2**23 + 1, 1.5 * 2**23, 2**24, 1e-30, 1, 0, 2**-149 * 2**23]
    return [sign * n / 2**23 for n in out for sign in (1, -1)] + [3e38, -3e38]


def make_files():
    sounds = noise(41)
    edges = [0x8000, 0x7FFF, 0xFFFF, 1, 0, 0x8001]
    words16 = struct.pack("<6H", *edges) + whole(sounds, 16)
    words24 = b"".join((w << 8 | w >> 8).to_bytes(3, "little") for w in edges) + whole(sounds, 24)
    # ties to even either way, sizes that are rounded up to the next power of two, and both ends
    words32 = struct.pack("<9I", 0x80000000, 0x7FFFFFFF, 0x80000001, 0xFFFFFFFF, 1, 0x40000040, 0x400000C0, 0x40000041, 0xBFFFFFC0) + whole(sounds, 32)
    data = lambda body: chunk(b"data", body)
    files = {
        "printed.board": PRINTED,
        "damaged.board": PRINTED[:8] + node(3) + node(1) + node(6) + node(7, 0) + PRINTED[64:],
        "unknown.card": b"block 4 input in\nout: destination\nin: pass\nwire in outt\n",
        "refused.card": b"block 4 input in\nout: destination\nin: pass\necho: delay 0\nwire in echo\nwire echo out\n",
        "tail.board": TAIL,
        "moving.board": MOVING,
        # a product of a sound with itself; a sound times four
        "square.board": board(3, 1, [(3,), (1,), (5,), (1,)], [(1, 2), (3, 2), (1, 3), (2, 0)]),
        # the square of a sound to the left, and zero times the square to the right: NaN where the square is infinite
        "nothing.board": board(4, 1, [(3,), (1,), (5,), (1,), (5, 0, 0.0), (4,)], [(1, 2), (3, 2), (1, 3), (2, 4), (2, 5), (4, 5), (5, 0)]),
        "loud.board": board(4, 1, [(3,), (1,), (5, 0, 4.0)], [(1, 2), (2, 0)]),
        # the sound to the left, and half of it to the right
        "sides.board": board(4, 1, [(3,), (1,), (5, 0, 0.5), (4,)], [(1, 2), (1, 3), (2, 3), (3, 0)]),
        # the sound to both sides, as it is
        "pass.board": board(6, 1, [(3,), (1,)], [(1, 0)]),
        "loop16.board": loop(16, 5),
        "loop4.board": loop(4, 17),
        "loop4_uncorrected.board": loop(4, 5),
        "plate64.board": plate_bytes(0.3, 64, 2864),
        "plate64_uncorrected.board": plate_bytes(0.3, 64),
        "mono16.wav": riff(fmt(1, 1, 16), data(words16)),
        "copy.wav": riff(fmt(1, 1, 16), data(words16)),
        "mono24.wav": riff(chunk(b"LIST", b"odd"), fmt(1, 1, 24), chunk(b"odd ", b"?"), data(words24)),
        "mono32.wav": riff(fmt(3, 1, 32), data(floats(sounds + [1e-40, -0.0, 3e38]))),
        "mono8.wav": riff(fmt(1, 1, 8), data(bytes([0, 255, 128, 127, 1, 129]) + bytes(range(3, 250, 7)))),
        "mono32w.wav": riff(fmt(1, 1, 32), data(words32)),
        "stereo8.wav": riff(fmt(1, 2, 8), data(bytes(range(5, 245, 6)))),
        "stereo16.wav": riff(fmt(1, 2, 16), data(words16[:88]), chunk(b"end ", b"")),
        "stereo24.wav": riff(fmt(1, 2, 24), data(words24[:138])),
        "stereo32.wav": riff(fmt(3, 2, 32), data(floats(noise(50, 7)))),
        "extended16.wav": riff(fmt(0xFFFE, 1, 16, sub=1), data(words16)),
        "extended32.wav": riff(fmt(0xFFFE, 2, 32, sub=3), data(floats(noise(12, 9)))),
        "empty.wav": riff(fmt(1, 1, 16), data(b"")),
        "long.wav": riff(fmt(1, 1, 16), data(whole(noise(700) + [0.0] * 5300, 16))),
        # lengths that say nothing: up to the file's end
        "open0.wav": unsized(riff(fmt(1, 1, 16), data(words16)), len(words16), 0),
        "openF.wav": unsized(riff(fmt(1, 2, 24), data(words24[:138])), 138, 0xFFFFFFFF),
        "open_odd.wav": unsized(riff(fmt(1, 2, 16), data(words16[:90])), 90, 0),
        # one channel is not finite, which is no matter where the other is taken alone
        "half_nan.wav": riff(fmt(3, 2, 32), data(floats([0.25, math.nan, -0.5, math.inf, 0.75, 0.0]))),
        # what comes out is infinite, NaN and above full scale
        "extreme.wav": riff(fmt(3, 1, 32), data(floats([0.5, 1.0, -1.0, 1.0000001, -3e38, 2e38, 0.0, 3e38] + noise(9)))),
        "one_loud.wav": riff(fmt(3, 1, 32), data(floats([0.5, 1.0] + [x / 2 for x in noise(1500)] + [-1.5, 0.75]))),
        "quiet.wav": riff(fmt(1, 2, 16), data(whole([x / 8 for x in noise(20, 3)], 16))),
        "ties.wav": riff(fmt(3, 1, 32), data(floats(ties()))),
        "taken.wav.part": b"of another render\n",
        "text.wav": b"no sound at all\n",
        "nothing.wav": b"",
        "riff.wav": b"RIFF" + struct.pack("<I", 4) + b"AVI ",
        "early.wav": riff(data(words16), fmt(1, 1, 16)),
        "without.wav": riff(fmt(1, 1, 16), chunk(b"fact", b"1234")),
        "short_fmt.wav": riff(chunk(b"fmt ", b"\1\0\1\0"), data(words16)),
        "short_extended.wav": riff(fmt(0xFFFE, 1, 16), data(words16)),
        "rate.wav": riff(fmt(1, 1, 16, rate=48000), data(words16)),
        "three.wav": riff(fmt(1, 3, 16), data(words16[:90])),
        "twelve.wav": riff(fmt(1, 1, 12), data(words16)),
        "double.wav": riff(fmt(3, 1, 64), data(words16)),
        "adpcm.wav": riff(fmt(2, 2, 4, frame=1024), data(words16)),
        "padded24.wav": riff(fmt(1, 1, 24, frame=4), data(words16[:92])),
        "odd.wav": riff(fmt(1, 2, 16), data(words16[:90])),
        "cut.wav": riff(fmt(1, 1, 16), chunk(b"data", whole(noise(100), 16)))[:-100],
        "nan.wav": riff(fmt(3, 1, 32), data(floats(noise(17)) + bytes.fromhex("0100807f") + floats(noise(3)))),
        "infinite.wav": riff(fmt(3, 1, 32), data(floats(noise(600) + [-math.inf, 0.0]))),
        "loud.wav": riff(fmt(3, 2, 32), data(floats([0.5, 0.5, 3e38, 3e38]))),
    }
    return files


CASES = """
# good: each format, each board; the WAV file on standard output
mono16.wav - board tail.board
mono24.wav - board tail.board
mono32.wav - board tail.board
mono8.wav - board tail.board
mono32w.wav - board tail.board
stereo8.wav - board tail.board
stereo16.wav - board tail.board   # to the end of the tail
stereo24.wav - board tail.board
stereo32.wav - board tail.board
extended16.wav - board tail.board
extended32.wav - board tail.board
empty.wav - board tail.board
mono16.wav - board printed.board 0
stereo32.wav - board moving.board 0
long.wav - plate 0.3 0
mono16.wav - plate x3f400000 0

# one preset at two block sizes, with the one line corrected and without (tools/two_sizes.py compares what is written)
mono16.wav - board loop16.board 0
mono16.wav - board loop4.board 0                # the same stream as loop16.board
mono16.wav - board loop4_uncorrected.board 0    # another stream than loop16.board
long.wav - board plate64.board 0                # the same stream as 0.3
long.wav - board plate64_uncorrected.board 0    # another stream than 0.3

# good: into a file, and on from there
mono16.wav out.wav board printed.board 1
stereo16.wav endless.wav board printed.board
stereo32.wav again.wav board moving.board 0
\tagain.wav  -\tboard tail.board 0

# one channel of two, and words in any order
stereo16.wav - board tail.board mono
stereo16.wav - board tail.board left
stereo16.wav - board tail.board right 0
stereo24.wav - board tail.board 0 right
half_nan.wav - board tail.board left
mono16.wav - board tail.board mono
quiet.wav quiet_out.wav board tail.board          # mixed, and that is told
quiet.wav quiet_out.wav board tail.board right 0  # written again
quiet_out.wav - board tail.board 0 left
mono16.wav copy.wav board tail.board 0            # a copy of the input is not the input
copy.wav - board tail.board 0 left

# lengths that say nothing
open0.wav - board tail.board
openF.wav - board tail.board mono
open_odd.wav - board tail.board

# samples that are worth a line
extreme.wav - board printed.board 0
extreme.wav extreme_out.wav board square.board 0
long.wav loud_out.wav board loud.board 0
one_loud.wav one_out.wav board sides.board 0

# words of 24 bits: rounded, held at full scale; a sound of such words comes back as it was
ties.wav - board pass.board 0                     # what is rounded next
ties.wav - board pass.board 0 24bit
extreme.wav - board printed.board 0 24bit
extreme.wav - board nothing.board 0               # infinite to the left, NaN to the right
extreme.wav extreme_24.wav board nothing.board 24bit 0
extreme_24.wav - board pass.board left 24bit
extreme_24.wav - board pass.board right 24bit
one_loud.wav - board sides.board 24bit 0 mono
mono24.wav words.wav board pass.board 0 24bit
words.wav - board pass.board left 24bit
words.wav - board pass.board 24bit 0
stereo24.wav - board tail.board right 24bit 0
stereo32.wav - board moving.board 24bit 0
long.wav - plate 0.3 0 24bit
empty.wav - board pass.board 24bit

# to what is no file, and beside a file that is taken
mono16.wav /dev/null board tail.board
mono16.wav taken.wav board tail.board

# the input
missing.wav - plate 0.5
text.wav - plate 0.5
nothing.wav - plate 0.5
riff.wav - plate 0.5
early.wav - plate 0.5
without.wav - plate 0.5
short_fmt.wav - plate 0.5
short_extended.wav - plate 0.5
rate.wav - plate 0.5
three.wav - plate 0.5
twelve.wav - plate 0.5
double.wav - plate 0.5
adpcm.wav - plate 0.5
padded24.wav - plate 0.5
odd.wav - plate 0.5
cut.wav - plate 0.5
nan.wav - plate 0.5
infinite.wav - plate 0.5
loud.wav - plate 0.5

# the cards of examples/, and cards that are none
long.wav - card echo.card 0
long.wav - card pingpong.card 0
long.wav - card chorus.card 0
long.wav - card widener.card 0
long.wav - card room.card 0
long.wav - card plate.card 0
mono16.wav - card unknown.card
mono16.wav - card refused.card
mono16.wav - card missing.card
mono16.wav refused.card card refused.card

# the board, the other words and the output
mono16.wav - board damaged.board
mono16.wav - board missing.board
mono16.wav - plate x7f800000
mono16.wav - plate loud
mono16.wav - plate 0.1234567890123456789012345678901234567890
mono16.wav - plate 1e39
mono16.wav - spring 0.5
mono16.wav - plate 0.5 601
mono16.wav - plate 0.5 -1
mono16.wav mono16.wav plate 0.5
mono16.wav ./mono16.wav plate 0.5
mono16.wav missing/out.wav plate 0.5
mono16.wav tail.board board tail.board
mono16.wav ./tail.board board tail.board 0 mono
mono16.wav list plate 0.5
mono16.wav ./list board tail.board
mono16.wav - plate
mono16.wav - plate 0.5 1 1
mono16.wav - plate 0.5 left 1 right
mono16.wav - plate 0.5 24bit 1 24bit
mono16.wav - plate 0.5 progress 24bit progress
mono16.wav - plate 0.5 24bits
mono16.wav - plate 0.5 loud
mono16.wav - plate 0.5 1.5
mono16.wav - plate 0.5 left
mono16.wav - plate 0.5 1 right
half_nan.wav - plate 0.5 right
"""

USAGE = """render IN.wav OUT.wav plate MIX [SECONDS] [mono|left|right] [24bit] [progress]
render IN.wav OUT.wav board FILE [SECONDS] [mono|left|right] [24bit] [progress]
render IN.wav OUT.wav card FILE [SECONDS] [mono|left|right] [24bit] [progress]
render list FILE, render check FILE
IN: WAV, 44100 Hz, mono or stereo, 8, 16, 24 or 32 bit whole numbers or 32 bit floats
OUT: WAV, stereo, 32 bit floats, or 24 bit whole numbers by 24bit; - is standard output
MIX: 0 is the sound alone, 1 the plate alone; SECONDS: how long OUT goes on after IN, up to 600
docs/RENDER.md has more
"""


def plate_bytes(mix, size=128, line=2800):
    """The bytes of tools/plate_bytes.py, with another mix in nodes 41, 47 and 1 - mix in 43, 49, and perhaps another block size and another
    line of node 15."""
    mix = single(mix)
    here = os.path.dirname(os.path.abspath(__file__))
    out = bytearray(subprocess.run([sys.executable, here + "/plate_bytes.py"], stdout=subprocess.PIPE, check=True).stdout)
    for v, x in ((41, mix), (47, mix), (43, add(1.0, -mix)), (49, add(1.0, -mix))):
        struct.pack_into("<f", out, 8 + 14 * v + 10, x)
    struct.pack_into("<H", out, 4, size)
    struct.pack_into("<I", out, 8 + 14 * 15 + 6, line)
    return bytes(out)


def mix_of(word):
    try:
        x = of_bits(float_bits(word))
    except Bad as answer:
        raise Problem(str(answer))
    if math.isinf(x) or math.isnan(x):
        raise Problem("mix not finite")
    return x


def board_of(files, form, what):
    if form == "plate":
        return plate_bytes(mix_of(what))
    if form not in ("board", "card"):
        raise Problem("neither plate nor board nor card")
    if what not in files:
        raise Problem("cannot be opened")
    if form == "card":
        return card_of(files[what])
    refused = card_vectors.judge_bytes(files[what])
    if refused:
        raise Problem("refused %d %d: %s" % refused)
    return files[what]


def card_of(data):
    """The bytes of a card's board; or what `card bytes` answers."""
    if len(data) > 69631:
        raise Problem("text too long: at most 69631 bytes")
    text = data.decode()
    try:
        said = card_vectors.read(text)
    except Bad as bad:
        raise Problem(str(bad))
    try:
        card_vectors.judge(*said)
    except card_vectors.Refused as refused:
        raise Problem(card_vectors.refusal(text, *said, refused).split("\n")[0])
    return card_vectors.board(*said)


def asked(words):
    """Seconds and channel, each None where no word says it, and whether words of 24 bits are asked for; or the word that is refused, and why."""
    seconds = channel = None
    said = set()
    for word in words:
        if word in ("mono", "left", "right"):
            if channel:
                return word, "a channel is named already", None
            channel = word
        elif word in ("24bit", "progress"):
            if word in said:
                return word, "is said already", None
            said.add(word)
        elif word.isdigit() and int(word) <= 600:
            if seconds is not None:
                return word, "seconds are given already", None
            seconds = int(word)
        elif word[0] in "0123456789-+.":
            return word, "seconds are a whole number up to 600", None
        else:
            return word, "neither seconds nor mono, left, right, 24bit or progress", None
    return seconds, channel, "24bit" in said


def level(out, places, words):
    if not places:
        return ""
    frame = places[0] // 2
    ms = (frame * 1000 + 22050) // 44100
    samples = "1 sample" if len(places) == 1 else "%d samples" % len(places)
    return "%s: %s %s, the first at %d.%03d s (frame %d)\n" % (out, samples, words, ms // 1000, ms % 1000, frame)


def warnings(out, frames):
    values = struct.unpack("<%df" % (len(frames) // 4), frames)
    bad = [i for i, x in enumerate(values) if not math.isfinite(x)]
    loud = [i for i, x in enumerate(values) if math.isfinite(x) and abs(x) > 1]
    return level(out, bad, "infinite or NaN") + level(out, loud, "above full scale")


MIXED = "stereo, mixed to one channel ((left + right) / 2); left or right takes one alone"


def rendered(files, words):
    if len(words) < 4:
        return USAGE.encode()
    name, out, form, what = words[:4]
    seconds, channel, in_words = asked(words[4:])
    if isinstance(seconds, str):
        return ("%s: %s\n" % (seconds, channel)).encode()
    there = os.path.normpath(out)
    at = out
    try:
        if form in ("board", "card") and there in files and there == os.path.normpath(what):
            raise Problem("is the board's file")
        if there == "list":
            raise Problem("is the list")
        at = form if form not in ("plate", "board", "card") else what
        b = Board(board_of(files, form, what))
        at = name
        if name not in files:
            raise Problem("cannot be opened")
        sounds, stereo = sounds_of(files[name], name, channel)
        if seconds is not None:
            more = 44100 * seconds
        else:
            more = 176400 if b.tail() is None else b.tail()
        at = out
        if there == os.path.normpath(name):
            raise Problem("is the input")
        if out + ".part" in files:
            at = out + ".part"
            raise Problem("is there already: remove it, unless a render is writing it")
        if "/" in out and out != "/dev/null":
            raise Problem("cannot be opened for writing")
        frames = played(b, sounds, len(sounds) + more)
        said = warnings(out, frames) + ("%s: %s\n" % (name, MIXED) if stereo and channel is None else "")
        if out == "-":
            return out_file(frames, in_words) + said.encode()
        files[out] = out_file(frames, in_words)
        return ("%s: %d samples in, %d out\n" % (out, len(sounds), len(sounds) + more) + said).encode()
    except Problem as p:
        return ("%s: %s\n" % (at, p)).encode()


def main():
    if len(sys.argv) != 2 or not os.path.isdir(sys.argv[1]):
        sys.exit(__doc__)
    folder = sys.argv[1]
    files = make_files()
    for name in ("echo", "pingpong", "chorus", "widener", "room", "plate"):
        with open(os.path.join(os.path.dirname(os.path.abspath(__file__)), "../examples", name + ".card"), "rb") as f:
            files[name + ".card"] = f.read()
    files["list"] = CASES.encode()
    os.makedirs(folder + "/data", exist_ok=True)
    for name, data in files.items():
        with open(folder + "/data/" + name, "wb") as f:
            f.write(data)
    with open(folder + "/args", "w") as f:
        f.write("check\nlist\n")
    with open(folder + "/stdout", "wb") as f:
        for line in CASES.split("\n"):
            words = line.split("#")[0].split()
            if words:
                f.write(rendered(files, words))


main()
