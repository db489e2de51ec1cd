#!/usr/bin/env python3
"""Brings must-fail edits over a change of spelling.

    tools/turn_edits.py BEFORE [CRATE..]

BEFORE is a checkout from before the change; the tree at hand is from after it. Each file of specs/ and src/ is laid beside itself
of before, line by line, and the words that stand at the same place give the new spelling of the old ones; an edit's texts are
respelled by them. An edit is written only where each of its old texts then stands in today's file exactly once; the others are
printed. An import that today's file has already falls out; any other is added to the file's line of the same module, or to that
of the Prelude where there is no such line.
"""
import collections
import difflib
import glob
import os
import re
import sys

BEFORE = sys.argv[1]
PRELUDE = "Rattle.std.specs.Prelude"
TOKEN = re.compile(r"[^\s(){}\[\];,.`\"]+|[^\s]")
USE = re.compile(r"use ([^{}]*)\.\{(.*)\}")
words = collections.defaultdict(collections.Counter)


def read(path):
    with open(path, encoding="utf-8") as f:
        return f.read().replace("·", ".")


def bare(text):
    return re.sub(r"[\W_]", "", text).lower()


def learn(before, now):
    """Counts which word of `now` stands where a word of `before` stood."""
    a, b = before.split("\n"), now.split("\n")
    lines = difflib.SequenceMatcher(None, [bare(x) for x in a], [bare(x) for x in b], autojunk=False)
    for _, i, k, j, l in lines.get_opcodes():
        for x, y in zip(a[i:k], b[j:l]) if k - i == l - j else ():
            x, y = ([t for t in TOKEN.findall(z) if bare(t)] for z in (x, y))
            for s, t in zip(x, y) if len(x) == len(y) else ():
                words[s][t] += 1


def tight(text):
    """`(x .f)` is `x.f` today, and `(g x .f)` is `(g x).f`."""
    while True:
        m = re.search(r"(?<=[^\s({\[]) (\.[\w-]+)", text)
        if not m:
            return text
        depth, i, start = 0, m.start(), m.start()
        while i > 0:
            depth += (text[i - 1] in ")}]") - (text[i - 1] in "({[")
            if depth < 0:
                break
            if depth == 0 and text[i - 1] == " " and (re.fullmatch(r"[^\w(){}\[\]]+|\w*[,;.]", text[:i].split()[-1])):
                break
            i -= 1
            start = i if text[i] != " " else start
        subject, rest = text[start:m.start()], text[m.end():]
        if " " in re.sub(r"\([^()]*\)", "", re.sub(r"\([^()]*\)", "", re.sub(r"\([^()]*\)", "", subject))):
            subject = "(" + subject + ")"
        if text[start - 1:start] == "(" and rest[:1] == ")":
            start, rest = start - 1, rest[1:]
        text = text[:start] + subject + m[1] + rest


def respelled(text):
    return tight(TOKEN.sub(lambda m: words[m[0]].most_common(1)[0][0] if m[0] in words else m[0], text.replace("·", ".")))


def imports(old, new, now):
    """A pair that changes the names of a `use` line, on today's line; None if all names are there already."""
    module, was = USE.fullmatch(respelled(old)).groups()
    was, will = ([re.sub(r"^_(\W+)_$", r"◌\1◌", x) for x in y.split(", ")] for y in (was, USE.fullmatch(respelled(new))[2]))
    here = {x for m in USE.finditer(now) for x in m[2].split(", ")}
    more, gone = [x for x in will if x not in was and x not in here], [x for x in was if x not in will]
    line = next(m for top in (module, PRELUDE) for m in USE.finditer(now) if m[1] == top)
    if not gone:
        first = line[2].split(", ")[0]
        return (f"use {line[1]}.{{{first}", f"use {line[1]}.{{{', '.join(more)}, {first}") if more else None
    return line[0], f"use {line[1]}.{{{', '.join([x for x in line[2].split(', ') if x not in gone] + more)}}}"


def turn(path):
    crate, name, old, out, bad = path.split(os.sep + "must-fail")[0], None, None, [], []
    for line in read(path).rstrip("\n").split("\n"):
        word, _, text = line.partition(": ")
        if word == "file":
            name, now = text, read(os.path.join(crate, text))
            out.append(line)
        elif word == "old":
            old = text
        elif word == "new":
            pair = old, text
            if name.endswith(".antt") and USE.fullmatch(old) and USE.fullmatch(text):
                pair = imports(old, text, now)
            elif name.endswith(".antt") or now.count(old) != 1:
                pair = respelled(old), respelled(text)
            if pair:
                out += ["old: " + pair[0], "new: " + pair[1]]
                bad += [pair[0]] if now.count(pair[0]) != 1 else []
    for text in bad:
        print(f"{path}: does not stand once: {text}")
    if not bad and "\n".join(out) + "\n" != read(path):
        with open(path, "w", encoding="utf-8") as f:
            f.write("\n".join(out) + "\n")


for kind in ("specs/**/*.antt", "src/**/*.rt"):
    for path in glob.glob("crates/*/" + kind, recursive=True):
        if os.path.exists(os.path.join(BEFORE, path)):
            learn(read(os.path.join(BEFORE, path)), read(path))
for path in sorted(glob.glob("crates/*/must-fail/*.edit")):
    if not sys.argv[2:] or path.split(os.sep)[1] in sys.argv[2:]:
        turn(path)
