#!/usr/bin/env python3
"""Holds what `render` writes of one preset at two block sizes against each other, byte for byte.

crates/render/data/list names, in comments, which outputs are the same stream as an earlier one and which are not; crates/render/stdout has the
outputs, and `rt ci` sees that the program writes just these. Prints what is not as said and ends with status 1, or prints one line.
"""
import pathlib
import re
import struct
import sys

folder = pathlib.Path(__file__).resolve().parent.parent / "crates/render"


TOLD = re.compile(rb"\S+: (\d+ samples? (infinite or NaN|above full scale), |stereo, mixed )")


def outputs(data):
    """The answers in their order: a WAV file, or a line. What is told of a sound that was written is no answer of its own."""
    while data:
        end = 8 + struct.unpack_from("<I", data, 4)[0] if data[:4] == b"RIFF" else data.index(b"\n") + 1
        if not TOLD.match(data):
            yield data[:end]
        data = data[end:]


USAGE = 8  # lines that a wrong number of words is answered with
lines = [line for line in (folder / "data/list").read_text().split("\n") if line.split("#")[0].split()]
written = list(outputs((folder / "stdout").read_bytes()))
short = sum(len(line.split("#")[0].split()) < 4 for line in lines)
wrong = [] if len(lines) + (USAGE - 1) * short == len(written) else ["%d lines, %d outputs" % (len(lines), len(written))]
earlier, compared = {}, 0
for line, output in zip(lines, written):
    what = line.split("#")[0].split()[3:4]
    said = re.search(r"# (the same|another) stream (?:as|than) (\S+)", line)
    if said:
        compared += 1
        if output[:4] != b"RIFF" or (output == earlier.get(said[2])) != (said[1] == "the same"):
            wrong.append("not as said: " + line)
    if what:
        earlier.setdefault(what[0], output)

if wrong or not compared:
    print("\n".join(wrong or ["nothing to compare"]))
    sys.exit(1)
print("two sizes: %d streams compared" % compared)
