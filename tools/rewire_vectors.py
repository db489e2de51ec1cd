#!/usr/bin/env python3
"""What `rewire` must write for a board that is accepted: a second reading of documents 01 (visiting list, late wires, 5, 6) and 02, [8].

Use: python3 tools/rewire_vectors.py crates/rewire/data/printed.board < crates/rewire/stdin > crates/rewire/stdout
"""
import struct
import sys

SOURCES = {1: (0, 1), 2: (0, 8), 3: (0, 8), 4: (2, 2), 5: (1, 2), 6: (1, 2), 7: (1, 1), 8: (1, 2), 9: (1, 1), 10: (0, 0)}


def read(board):
    """Input node, types of the nodes, wires."""
    nodes, wires, at = [], [], 0
    while at < len(board):
        length, kind = struct.unpack_from("<HH", board, at)
        if kind == 1:
            entry = struct.unpack_from("<HH", board, at + 4)[1]
        elif kind == 2:
            nodes.append(struct.unpack_from("<H", board, at + 4)[0])
        elif kind == 3:
            wires.append(struct.unpack_from("<HH", board, at + 4))
        at += length
    return entry, nodes, wires


def six(entry, nodes, wires):
    """The node that check 6 refuses, or None."""
    counts = [len({s for s, t in wires if t == v}) for v in range(len(nodes))]
    if counts[entry]:
        return entry
    return next((v for v, n in enumerate(counts) if not SOURCES[nodes[v]][0] <= n <= SOURCES[nodes[v]][1]), None)


def visiting(wires):
    marked, listed = set(), []

    def go(v):
        marked.add(v)
        for s, t in wires:
            if t == v and s not in marked:
                go(s)
        listed.append(v)

    go(0)
    return listed


def lines(wires):
    listed = visiting(wires)
    yield "order " + " ".join(map(str, listed))
    for s, t in wires:
        if s in listed and t in listed and listed.index(s) >= listed.index(t):
            yield f"late {s} {t}"


def change(entry, nodes, wires, sign, s, t):
    """The changed wires, or the refusal's line."""
    new = list(wires)
    if sign == b"+":
        if s >= len(nodes) or t >= len(nodes) or s == t or len(wires) == 128:
            return f"refused 5 {8 + 14 * len(nodes) + 8 * len(wires)}"
        new.append((s, t))
    elif (s, t) not in new:
        return f"refused 16 {t}"
    else:
        del new[len(new) - 1 - new[::-1].index((s, t))]
    node = six(entry, nodes, new)
    return new if node is None else f"refused 6 {node}"


def told(board, text):
    entry, nodes, wires = read(board)
    yield from lines(wires)
    for k, row in enumerate(text.removesuffix(b"\n").split(b"\n"), 1):
        words = row.split()
        if not words:
            continue
        if len(words) != 3 or words[0] not in (b"+", b"-") or not all(w.isdigit() and int(w) < 65536 for w in words[1:]):
            yield f"line {k} is no change"
            return
        s, t = int(words[1]), int(words[2])
        yield f"{words[0].decode()} {s} {t}"
        new = change(entry, nodes, wires, words[0], s, t)
        if isinstance(new, str):
            yield new
        else:
            wires = new
            yield from lines(wires)


if __name__ == "__main__":
    for line in told(open(sys.argv[1], "rb").read(), sys.stdin.buffer.read()):
        print(line)
