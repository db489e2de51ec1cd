#!/usr/bin/env python3
"""Respells the repository's own names of specs/ and proofs/ as today's Rattle spells them. Run once, right after
/opt/rattle/port/port.py, at the top of the repository.

Definitions, lemmas, fields and variables in lower camel case become snake case (`judgeOf`, `judge_of`); in a lemma's or a
field's name a dash stays where it joins two names and becomes `_` where it joins a plain word (`judge-exact`, `judge_exact`);
types with a dash become upper camel case. Where two names fall together in one file, the lemma gets `_lem`. Names of Rust
functions, fields and files, of the library and of what rattle generates are left alone, and so are strings.
Files: .antt, the clauses of .rt, README.md and docs/. must-fail/*.edit are not turned here (tools/turn_edits.py).
"""
import collections
import os
import re
import sys

ROOT = sys.argv[1] if len(sys.argv) > 1 else "."
KIT = "/opt/rattle/rattle"
TOKEN = re.compile(r"[^\s(){}\[\];,.`\"]+")
DECL = re.compile(r"^(\s*)((?:abbrev |unfoldable )?(?:pub )?(?:abbrev |unfoldable )?(?:record |data )?)([^\s:(){}]+) (?:[({][^:]*: .*[)}] )*:(?: (.*))?$")
# sides of a dash that are names though no definition here has them
WORDS = set("""append length take drop set map cons snoc zero suc nil sum mem add sub mul div mod pow min max le lt eq cond not or and
get_or round floor neg pos refl reverse sort head tail fold all each paste words bytes part""".split())


def files(*ends, top="crates"):
    for d, ds, fs in os.walk(os.path.join(ROOT, top)):
        ds[:] = sorted(x for x in ds if x not in ("out", ".git", "data"))
        for f in sorted(fs):
            if f.endswith(ends):
                yield os.path.join(d, f)


def read(p):
    with open(p, encoding="utf-8") as f:
        return f.read()


def snake(n):
    out = []
    for i, ch in enumerate(n):
        before = n[i - 1] if i else ""
        if ch.isupper() and ch.isascii() and i and (before.islower() or before.isdigit()) and before.isascii():
            out.append("_" + ch.lower())
        elif ch.isupper() and ch.isascii() and i and before.isupper():
            out.append(ch.lower())
        else:
            out.append(ch)
    return "".join(out)


def kind_of(p):
    if "/specs/" in p:
        return "specs"
    return "proofs" if re.search(r"/proofs/[^/]*$", p) else "function"


def library():
    seen = set()
    for lib in "core std std_alloc std_heap std_io std_collections logic antt libc io os".split():
        for d, _, fs in os.walk(os.path.join(KIT, lib)):
            for f in fs:
                if f.endswith(".antt"):
                    with open(os.path.join(d, f), encoding="utf-8", errors="replace") as t:
                        seen.update(TOKEN.findall(t.read()))
    return seen


def main():
    lib = library()
    where = collections.defaultdict(set)  # name -> (kind, field or top, a definition)
    tokens = set()
    for p in files(".antt"):
        for line in read(p).split("\n"):
            if line.startswith("--"):
                continue
            tokens.update(TOKEN.findall(line))
            m = DECL.match(line)
            if m:
                definition = kind_of(p) == "specs" and not m.group(1) and bool(m.group(2).replace("pub", "").strip())
                where[m.group(3)].add((kind_of(p), "field" if m.group(1) else "top", definition))
    names = {snake(n) for n, w in where.items() if any(x[2] for x in w)} | WORDS
    turned = {}
    for t in sorted(tokens):
        if t in lib or not re.match(r"^[a-z]", t) or re.search(r"[=:λ≡→↦∷+*]", t):
            continue
        if re.match(r"^[a-z][\w']*?[a-z0-9][A-Z]", t) and "-" not in t and t in where or re.fullmatch(r"[a-z][a-z0-9]*(?:[A-Z][a-z0-9]*)+'?", t):
            turned[t] = snake(t)
    for t, w in sorted(where.items()):
        if "-" not in t or t in lib:
            continue
        if all(k == "function" for k, _, _ in w):
            continue  # goals' names, and lemmas of one function's proof
        if t[0].isupper():
            turned[t] = "".join(x[:1].upper() + x[1:] for x in t.split("-"))
            continue
        parts = [snake(x) for x in t.split("-")]
        if any(f == "field" for _, f, _ in w):
            turned[t] = "_".join(parts)
            continue
        out = "_".join(parts)
        for i in range(1, len(parts)):
            left, right = "_".join(parts[:i]), "_".join(parts[i:])
            if left in names and right in names:
                out = left + "-" + right
        if out != t:
            turned[t] = out
    # names that fall together in one file: the lemma's or the field's, if it had a dash, gets `_lem`
    for p in files(".antt"):
        here = set(TOKEN.findall(re.sub(r"(?m)^\s*--.*$", "", read(p))))
        by_name = collections.defaultdict(set)
        for t in here:
            by_name[turned.get(t, t)].add(t)
        for new, olds in sorted(by_name.items()):
            declared = sorted(o for o in olds if o in where)
            if len(declared) < 2:
                continue
            dashed = [o for o in declared if "-" in o]
            for o in dashed:
                turned[o] = snake(o).replace("-", "_") + "_lem"
            if not dashed:
                print("fall together:", new, {o: sorted(where[o]) for o in declared}, p, file=sys.stderr)
    if "--plan" in sys.argv:
        for a, b in sorted(turned.items()):
            print(a, b)
        return
    for a, b in (x.split("=") for x in OTHERWISE.split()):
        turned[a] = b
    apply(turned)


# where two names fall together in a file, and neither has a dash
OTHERWISE = """found_in=found_in_lem last_block=last_block_lem value_in=value_in_lem size_fits=size_fits_lem out_of_range=out_of_range_lem"""


def words(text, turned, after_dot=True):
    def one(m):
        t = m.group(0)
        if t in turned:
            return turned[t]
        return t
    return TOKEN.sub(one, text)


def apply(turned):
    changed = 0
    for p in files(".antt"):
        text = read(p)
        new = words(text, turned)
        if new != text:
            changed += 1
            with open(p, "w", encoding="utf-8") as f:
                f.write(new)
    for p in files(".rt"):
        text = read(p)
        out = []
        inside = False
        for line in text.split("\n"):
            s = line.strip()
            if s.startswith("ghost use") or re.match(r"(requires|ensures|ghost)\b", s):
                inside = True
            if inside or s.startswith("//"):
                out.append(words(line, turned))
            else:
                out.append(line)
            if inside and (s.endswith("}") or s.endswith(";")):
                inside = False
        new = "\n".join(out)
        if new != text:
            changed += 1
            with open(p, "w", encoding="utf-8") as f:
                f.write(new)
    pages = [os.path.join(ROOT, "README.md")] + [p for p in files(".md", top="docs")]
    for p in pages:
        text = read(p)
        new = re.sub(r"`[^`\n]+`", lambda m: words(m.group(0), turned), text)
        if new != text:
            changed += 1
            with open(p, "w", encoding="utf-8") as f:
                f.write(new)
    print(changed, "files")


main()
