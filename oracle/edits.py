#!/usr/bin/env python3
"""edits.py FROM TO: the glicol synth crate's sources from FROM, edited, in TO.

Two kinds of edits, each named below: the four things that document 01 replaces in the Rust (sine, one-pole b, sum order and
the limits of w), and what a build of the files that are there needs. Of the six places where document 01 decides, NaN
patterns and the input need no edit: they are ways of comparing (docs/DIFFERENCES.md, "The comparison"). An edit that does
not apply exactly as often as said stops the script.
"""
import os
import re
import shutil
import sys

FILES = """buffer context graph lib node/mod node/boxed node/pass node/sum node/delay/delayms node/delay/delayn
node/effect/balance node/effect/plate node/filter/apfmsgain node/filter/onepole node/operator/add node/operator/mod
node/operator/mul node/oscillator/sin_osc""".split()

# file, how often, pattern (a regular expression), text in its place
REPLACED = [
    # sine
    ("node/oscillator/sin_osc", 2, r"\(self\.phase \* 2\.0.*?\.sin\(\)", "crate::replaced::sine(self.phase)"),
    # one-pole b: only the constructor; messages and second inputs of a one-pole are left out of the port
    ("node/filter/onepole", 1, r"let b = [^;]*rate\)\.exp\(\)", "let b = crate::replaced::one_pole_b(rate)"),
    # sum order: an input knows how many wires were handed over before it, and sums go by it
    ("node/mod", 1, r"(?=    pub node_id: usize,)", "    pub wire: usize,\n"),
    ("node/mod", 1, r"node_id: usize\) -> Self", "node_id: usize, wire: usize) -> Self"),
    ("node/mod", 1, r"(?=            node_id,)", "            wire,\n"),
    ("graph", 1, r"for in_n in (.*?) \{", r"for (wire, in_n) in \1.enumerate() {"),
    ("graph", 1, r"to_index\(in_n\)\);(?=\n *processor)", "to_index(in_n), wire);"),
    ("node/sum", 2, r"inputs\.values\(\)(?= \{\n *let in_buffers)", "crate::replaced::by_first_wire(inputs)"),
    # limits of w; the loop after it then turns at most once
    ("node/filter/apfmsgain", 1, r"-mod_buf (.*?);", r"-crate::replaced::limited(mod_buf \1, self.bufx.len());"),
    # The input goes into the input node's buffer as `Plate` does it: the comparison writes there, and no edit is needed.
]

BUILDING = [
    # the parser and the parts that are not there
    ("lib", 1, r"#!\[doc.*?\]\n", "pub mod replaced;\n"),
    ("lib", 1, r"use glicol_parser::\{.*?\};\n", ""),
    ("lib", 1, r" +compound, .*?\n", "    delay, effect, filter, operator, oscillator,\n"),
    ("lib", 1, r" *SetToSeq\(.*?\n", ""),
    ("lib", 1, r" *SetParam\(.*?\n", ""),
    ("lib", 1, r"#\[derive\([^)]*\)\]\npub enum GlicolPara.*", ""),
    ("node/mod", 5, r"pub mod (signal|sequencer|envelope|compound|synth);\n", ""),
    # so that a plate can be run on an input block without a graph around it
    ("node/mod", 1, r"pub\(crate\) fn new", "pub fn new"),
    # so that the nodes inside a plate can be looked at
    ("node/effect/plate", 1, r"(?=context: AudioContext<N>,)", "pub "),
]

# The lists of files in folders whose mod.rs is not there.
FOLDERS = {
    "delay": ["delayms", "delayn"],
    "effect": ["balance", "plate"],
    "filter": ["apfmsgain", "onepole"],
    "oscillator": ["sin_osc"],
}


def main(source, target):
    text = {}
    for name in FILES:
        path = os.path.join(source, name + ".rs")
        if not os.path.isfile(path):
            sys.exit(f"edits.py: no {path}: the folder of the original Rust is the synth crate's src")
        text[name] = open(path).read()
    for name, times, pattern, new in REPLACED + BUILDING:
        text[name], found = re.subn(pattern, new, text[name], flags=re.S)
        if found != times:
            sys.exit(f"edits.py: {name}.rs: {pattern} found {found} times, not {times}")
    for folder, names in FOLDERS.items():
        text[f"node/{folder}/mod"] = "".join(f"mod {n};\npub use {n}::*;\n" for n in names)
    for name, content in text.items():
        path = os.path.join(target, name + ".rs")
        os.makedirs(os.path.dirname(path), exist_ok=True)
        if not os.path.isfile(path) or open(path).read() != content:
            open(path, "w").write(content)
    here = os.path.dirname(os.path.abspath(__file__))
    shutil.copy2(os.path.join(here, "glicol", "replaced.rs"), target)


if __name__ == "__main__":
    main(*sys.argv[1:])
