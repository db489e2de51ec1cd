#!/usr/bin/env python3
"""Holds docs/COVERAGE.md against the repository: every path, name and must-fail edit that it cites is there, and it cites every must-fail edit.
The same for the files and names of README.md's list "To believe it, read".

A path in backquotes stands below crates/ or at the repository's top; names in parentheses right behind it must be words of that file, its
comments aside; `crate: name` is crates/crate/must-fail/name.edit. In README's list a file without a folder stands in that of the file before it.
Prints what is missing and ends with status 1, or prints one line.
"""
import pathlib
import re
import sys

root = pathlib.Path(__file__).resolve().parent.parent
page = (root / "docs/COVERAGE.md").read_text()
missing = []
paths = names = 0

def text_of(file):
    """The file, without the comments of Rattle and antt."""
    mark = {".rt": "//", ".antt": "--"}.get(file.suffix)
    lines = file.read_text(errors="replace").splitlines()
    return "\n".join(re.sub(rf"(^|\s){mark}(\s.*|$)", "", line) for line in lines) if mark else "\n".join(lines)


def look(file, path, in_it):
    """The names in backquotes that are no words of the file."""
    global names
    text = text_of(file) if file.is_file() else ""
    for name in re.findall(r"`([^`]+)`", in_it or ""):
        names += 1
        if not re.search(r"(?<![\w-])" + re.escape(name) + r"(?![\w-])", text):
            missing.append(f"{path}: has no {name}")


cited = re.compile(r"`([\w.-]+(?:/[\w.-]+)*/?)`(?: \((`[^)]*`)\))?")
for match in cited.finditer(page):
    path, in_it = match.group(1), match.group(2)
    if "/" not in path and not path.endswith((".txt", ".md")):
        continue
    file = next((p for p in (root / "crates" / path, root / path) if p.exists()), None)
    if file is None:
        missing.append(f"{path}: no such file")
        continue
    paths += 1
    look(file, path, in_it)

listed = re.compile(r"`([\w/]+\.antt)`(?: \(([^)]*)\))?")
table = (root / "README.md").read_text().split("### To believe it, read")[1].split("The definitions use these types")[0]
for match in listed.finditer(table):
    path, in_it = match.group(1), match.group(2)
    folder = pathlib.Path(path).parent if "/" in path else folder
    file = root / "crates" / folder / pathlib.Path(path).name
    if not file.exists():
        missing.append(f"README.md: {folder}/{pathlib.Path(path).name}: no such file")
        continue
    paths += 1
    look(file, f"README.md: {path}", in_it)

edits = set(re.findall(r"`([a-z_]+): (\w+)`", page))
for crate, name in sorted(edits):
    if not (root / "crates" / crate / "must-fail" / f"{name}.edit").exists():
        missing.append(f"{crate}: no must-fail edit {name}")
for file in sorted(root.glob("crates/*/must-fail/*.edit")):
    if (file.parts[-3], file.stem) not in edits:
        missing.append(f"{file.parts[-3]}: must-fail edit {file.stem} is not on the page")

if missing:
    print("\n".join(missing))
    sys.exit(1)
print(f"coverage: {paths} citations, {names} names, {len(edits)} must-fail edits")
