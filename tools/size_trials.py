#!/usr/bin/env python3
"""Tries `card size` on random boards: what it writes and says is what a second reading has, and what it writes sounds the same.

Use: tools/build.sh card render; python3 tools/size_trials.py [BOARDS [SEED]]

Of each accepted board, at a random size: the words on standard error and the bytes on standard output are those of `sized` in
tools/card_vectors.py; the way back gives the board's own bytes; `render` writes the same bytes of both. Where a line was corrected, the board is
rendered once more with the size alone changed, which shows that the comparison can fail. Not part of the gate. Prints what is not as it should
be and ends with status 1, or prints how often each answer came.
"""
import collections
import os
import random
import re
import struct
import subprocess
import sys
import tempfile

from card_vectors import ROOT, SOURCES, Bad, board, judge, sized

PASS, SUM, DESTINATION, BALANCE, MUL, ADD, DELAY, ALLPASS, ONEPOLE, SINE = range(1, 11)


def of_float(r, low, high):
    """The bits of a float between two whole numbers of thousandths."""
    return struct.unpack("<I", struct.pack("<f", r.randrange(low, high + 1) / 1000))[0]


def random_size(r):
    return r.choice((1, 2, 4, 16, 64, 128, r.randrange(1, 129)))


def random_node(r, kind):
    n = r.choice((1, 2, 3, r.randrange(1, 9), r.randrange(1, 300))) if kind in (DELAY, ALLPASS) else 0
    if kind == DELAY and r.randrange(12) == 0:
        n = 132300 - r.randrange(200)
    if kind == ALLPASS and r.randrange(30) == 0:
        n = 131072 - r.randrange(200)
    f = {MUL: (-900, 900), ADD: (-20, 20), ALLPASS: (-900, 900), ONEPOLE: (-900, 900), SINE: (0, 44100000)}.get(kind)
    return kind, n, of_float(r, *f) if f else 0


def forward(r, ranks):
    """Wires that lead forward, but for a few; by ranks."""
    back = r.choice((0, 0, 0.1, 0.3))
    wires = []
    for at, kind in enumerate(ranks):
        few, many = SOURCES[kind - 1]
        for _ in range(r.randint(max(few, kind == DESTINATION), min(many, 3)) if at else 0):
            others = [k for k in (range(at, len(ranks)) if r.random() < back else range(at)) if k != at]
            wires.append((r.choice(others + [0] * len(others) or [0]), at))
    return wires


def behind(wires, node):
    """The nodes that a node leads to."""
    found = {node}
    while any(a in found and b not in found for a, b in wires):
        found |= {b for a, b in wires if a in found}
    return sorted(found - {node})


def loop(r, ranks, wires):
    """A delay takes its wire from a node that it leads to, and that node leads to the destination."""
    end = len(ranks) - 1
    choices = [(b, a) for a, kind in enumerate(ranks) if kind == DELAY for b in behind(wires, a) if b != end]
    if choices:
        source, delay = r.choice(choices)
        wires = [(a, b) for a, b in wires if b != delay] + [(source, delay)]
        wires.insert(0 if r.randrange(4) else len(wires), (source, end))
    return wires


def filled(r, nodes):
    """With an all-pass that brings the lines together near 262,144."""
    lines = sum(n * (kind == DELAY) + 2 * n * (kind == ALLPASS) for kind, n, _ in nodes)
    at = next((i for i, node in enumerate(nodes) if node[0] == ALLPASS), None)
    if at is None or lines > 262144:
        return nodes
    kind, n, f = nodes[at]
    return nodes[:at] + [(kind, n + (262144 - lines) // 2 - r.randrange(64), f)] + nodes[at + 1:]


def random_board(r):
    """Most have a loop through a delay; one of eight has a wire twice."""
    kinds = (PASS, BALANCE, MUL, MUL, ADD, ALLPASS, ONEPOLE, SINE) + 4 * (SUM,) + 3 * (DELAY,)
    ranks = [PASS] + [r.choice(kinds) for _ in range(r.randrange(2, 13))] + [DESTINATION]
    wires = forward(r, ranks)
    r.shuffle(wires)
    if r.randrange(6):
        wires = loop(r, ranks, wires)
    if wires and r.randrange(8) == 0:
        wires.append(r.choice(wires))
    numbers = list(range(1, len(ranks)))
    r.shuffle(numbers)
    numbers.append(0)  # the destination is node 0
    nodes = [None] * len(ranks)
    for at, kind in enumerate(ranks):
        nodes[numbers[at]] = random_node(r, kind)
    if r.randrange(8) == 0:
        nodes = filled(r, nodes)
    return (random_size(r), numbers[0]), nodes, [(numbers[a], numbers[b]) for a, b in wires]


def sound(r, count):
    """A WAV file of floats: noise, then silence."""
    loud = r.randrange(1, count)
    values = [of_float(r, -1000, 1000) if i < loud else 0 for i in range(count)]
    data = struct.pack("<%dI" % count, *values)
    return b"RIFF" + struct.pack("<I", 36 + len(data)) + b"WAVEfmt " + struct.pack("<IHHIIHH", 16, 3, 1, 44100, 176400, 4, 32) + b"data" + struct.pack("<I", len(data)) + data


def run(program, *words, given=b""):
    return subprocess.run([os.path.join(ROOT, "target/bin", program), *words], input=given, capture_output=True)


def rendered(folder, made):
    name = os.path.join(folder, "b.board")
    open(name, "wb").write(made)
    return run("render", os.path.join(folder, "in.wav"), "-", "board", name, "0").stdout


def trial(r, folder, head, nodes, wires):
    """The answer that a board gave, with whether the size alone would not have done; and what was wrong, or None."""
    size = random_size(r)
    made = board(head, nodes, wires)
    words, new_head, new_nodes, corrected = sized(head, nodes, wires, size)
    answer = re.sub(r"\d+", "n", words)
    expected = b"" if words.startswith("not") else board(new_head, new_nodes, wires)
    got = run("card", "size", str(size), given=made)
    if (got.stderr.decode(), got.stdout) != (words + "\n", expected):
        return answer, False, "size %d: %r" % (size, got.stderr)
    if not expected or expected == made:
        return answer, False, None
    if run("card", "size", str(head[0]), given=expected).stdout != made:
        return answer, False, "size %d: not the same bytes on the way back" % size
    here = rendered(folder, made)
    if here[:4] != b"RIFF" or rendered(folder, expected) != here:
        return answer, False, "size %d: another sound" % size
    return answer, corrected and rendered(folder, board(new_head, nodes, wires)) != here, None


def main():
    count, seed = (int(w) for w in (sys.argv[1:] + ["1000", "1"][len(sys.argv) - 1:])[:2])
    r = random.Random(seed)
    answers, needed, tried, wrong = collections.Counter(), 0, 0, 0
    with tempfile.TemporaryDirectory() as folder:
        while tried < count:
            head, nodes, wires = random_board(r)
            try:
                judge(head, nodes, wires)
            except Bad:
                continue
            tried += 1
            open(os.path.join(folder, "in.wav"), "wb").write(sound(r, r.randrange(300, 1500)))
            answer, heard, fault = trial(r, folder, head, nodes, wires)
            answers[answer] += 1
            needed += heard
            if fault:
                wrong += 1
                print(fault, board(head, nodes, wires).hex())
    for answer, times in sorted(answers.items()):
        print("%6d  %s" % (times, answer))
    print("%d boards, seed %d: %d wrong; with the size alone changed %d of the corrected sounded otherwise" % (tried, seed, wrong, needed))
    sys.exit(1 if wrong else 0)


if __name__ == "__main__":
    main()
