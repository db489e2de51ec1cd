#!/usr/bin/env python3
"""sides.py OLD NEW [--private] [--crate NAME ..] [--count] [--moved]: what stands in the crates of the folder OLD and not, or differently, in NEW,
as Markdown, crate by crate, the old text above the new one: public functions (signature and clauses), structs and enums with their ghost
fields, public constants, traits and impls' ghost items, definitions of specs/, and theorems (name : type; those of specs/ are among its
definitions, those of proofs/ are the `pub` ones). With --private also private functions and types and the proofs' own lemmas.
An item of the same name and text elsewhere in its crate counts as the same; --moved lists it. --count prints numbers only.
By text alone: comments and white space count for nothing; a path that only changed its module in a `use` line doesn't show."""
import collections, glob, os, re, sys

ARGS = [a for a in sys.argv[1:] if not a.startswith("--")]
FLAGS = {a for a in sys.argv[1:] if a.startswith("--")}
WORD = r"[A-Za-z_][A-Za-z0-9_]*"


def bare(t):
    """A .rt text without comments (strings stay)."""
    out, i, n = [], 0, len(t)
    while i < n:
        if t.startswith("//", i):
            j = t.find("\n", i)
            i = n if j < 0 else j
        elif t[i] == '"':
            j = i + 1
            while j < n and t[j] != '"':
                j += 2 if t[j] == "\\" else 1
            out.append(t[i : j + 1])
            i = j + 1
        elif t[i] == "'" and (m := re.match(r"'(?:\\(?:u\{[0-9a-fA-F_]+\}|x[0-9a-fA-F]{2}|.)|[^'\\\n])'", t[i:])):
            out.append(m[0])
            i += m.end()
        else:
            out.append(t[i])
            i += 1
    return "".join(out)


def closing(t, i, a="{", b="}"):
    deep = 0
    for k in range(i, len(t)):
        deep += (t[k] == a) - (t[k] == b)
        if not deep:
            return k + 1
    return len(t)


def squeeze(s):
    s = re.sub(r"\s+", " ", s).strip()
    return re.sub(r",\s*([)}\]])", r"\1", re.sub(r"([(\[])\s+", r"\1", s))


def head_end(t, i):
    """Where a function's body begins (its `{` or `;`), from behind its name, and its clauses."""
    clauses, n, angle = [], len(t), 0
    while i < n:
        c = t[i]
        if c in "([":
            i = closing(t, i, c, ")" if c == "(" else "]")
        elif c == "<" or (c == ">" and t[i - 1] != "-"):
            angle = max(0, angle + (1 if c == "<" else -1))
            i += 1
        elif c == "{" and angle:
            i = closing(t, i)
        elif c in "{;":
            return clauses, i
        elif (m := re.compile(r"(requires|ensures|ghost)(\*?)\b").match(t, i)) and not (t[i - 1].isalnum() or t[i - 1] == "_"):
            j = t.find("{", m.end())
            k = closing(t, j)
            clauses.append((i, k, squeeze(t[i:k])))
            i = k
        elif m := re.compile(WORD).match(t, i):
            i = m.end()
        else:
            i += 1
    return clauses, n


def attributes(t, i):
    """The #[..] lines right before i."""
    out = []
    while True:
        s = t[:i].rstrip()
        if not s.endswith("]"):
            return out[::-1]
        j = s.rfind("#[")
        if j < 0 or closing(s, j + 1, "[", "]") != len(s):
            return out[::-1]
        out.append(squeeze(s[j:]))
        i = j


def rust(crate, path, raw, items):
    t = bare(raw)
    if re.search(r"#\[cfg\(test\)\]", t):
        t = re.sub(r"#\[cfg\(test\)\]\s*mod\s+\w+\s*\{", lambda m: m[0], t)
    stack = []
    module = re.sub(r"^src/|\.rt$|/mod(?=\.rt)", "", path).replace("/", "::")
    module = "" if module in ("lib", "main") else module
    for m in re.finditer(r"\b(impl|trait|mod|fn|struct|enum|const|static|type)\b", t):
        while stack and m.start() >= stack[-1][0]:
            stack.pop()
        if any(s[2] for s in stack):
            continue
        word = m[1]
        start = t.rfind("\n", 0, m.start()) + 1
        before = t[start : m.start()]
        if word == "fn":
            w = re.compile(WORD).search(t, m.end())
            if not w or t[m.end() : w.start()].strip():
                continue
            pre = re.search(r"(?:pub(?:\s*\([^)]*\))?\s+)?(?:const\s+|unsafe\s+|final\s+|extern\s+\"C\"\s+)*$", t[: m.start()])[0]
            clauses, end = head_end(t, w.end())
            first = clauses[0][0] if clauses else end
            attrs = [a for a in attributes(t, m.start() - len(pre)) if "no_mangle" in a or "test" in a or "derive" in a]
            if any("test" in a for a in attrs):
                continue
            in_trait = any(s[3] in ("trait", "timpl") for s in stack)
            owner = "::".join(s[1] for s in stack if s[1])
            name = "::".join(x for x in (module, owner, w[0]) if x)
            public = pre.strip().startswith("pub") and "pub(" not in pre or in_trait or w[0] == "main"
            text = "\n".join(attrs + [squeeze(pre + t[m.start() : first])] + ["    " + c[2] for c in clauses])
            items[crate, "fn" if public else "private fn", name] = text
            if t[end : end + 1] == "{":
                stack.append((closing(t, end), "", False, "body"))
        elif word in ("struct", "enum"):
            w = re.compile(r"\s*(" + WORD + ")").match(t, m.end())
            if not w or any(s[3] == "body" for s in stack):
                continue
            public = bool(re.search(r"\bpub\s+$", before)) or "pub" in before.split()
            j = m.end()
            while j < len(t) and t[j] not in "{;":
                j = closing(t, j, "(", ")") if t[j] == "(" else j + 1
            end = closing(t, j) if t[j : j + 1] == "{" else j + 1
            body = t[j:end]
            rows = [l.strip() for l in body.split("\n") if l.strip()]
            text = "\n".join(attributes(t, start) + [squeeze(t[start:j]) + (" " + rows[0] if rows else "")] + ["    " + squeeze(r) for r in rows[1:-1]] + rows[-1:] * (len(rows) > 1))
            items[crate, ("type" if public else "private type"), "::".join(x for x in (module, w[1]) if x)] = text
            if t[j : j + 1] == "{":
                stack.append((end, w[1], False, word))
        elif word in ("const", "static", "type"):
            if any(s[3] == "body" for s in stack):
                continue
            w = re.compile(r"\s+(" + WORD + r")\s*(?::|=|<)").match(t, m.end())
            if not w or not re.search(r"\bpub\s+$", before):
                continue
            end = t.find(";", m.end())
            owner = "::".join(s[1] for s in stack if s[1])
            items[crate, "constant", "::".join(x for x in (module, owner, w[1]) if x)] = squeeze(t[start : end + 1])
        else:
            j = m.end()
            while j < len(t) and t[j] not in "{;":
                j = closing(t, j, "(", ")") if t[j] == "(" else j + 1
            if t[j : j + 1] != "{":
                continue
            name = squeeze(t[m.end() : j])
            name = re.sub(r"\s+where\b.*$", "", name)
            end = closing(t, j)
            tests = word == "mod" and any("cfg(test)" in a for a in attributes(t, start))
            if word == "impl":
                name = re.sub(r"^<.*?>\s+", "", name)
                trait = " for " in name
                if not trait:
                    name = re.sub(r"<.*$", "", name)
                stack.append((end, f"<{name}>" if trait else name, tests, "timpl" if trait else "impl"))
                if trait and not tests:
                    ghosts = [squeeze(t[j + g.start() : closing(t, t.find("{", j + g.start()))]) for g in re.finditer(r"\bghost\s+(?!use\b)\w[\w']*\s*[:=]", t[j:end])]
                    items[crate, "impl", "::".join(x for x in (module, name) if x)] = "\n".join([squeeze(t[m.start() : j])] + ["    " + g for g in ghosts])
            else:
                short = re.split(r"[<:\s]", name.strip())[0]
                stack.append((end, short, tests, word))
                if word == "trait" and not tests:
                    items[crate, "type", "::".join(x for x in (module, short) if x)] = squeeze(t[start:j]) + "\n" + "\n".join("    " + squeeze(t[j + g.start() : closing(t, t.find("{", j + g.start()))]) for g in re.finditer(r"\bghost\s+(?!use\b)\w[\w']*\s*[:=]", t[j:end]))


DECL = re.compile(r"( *)((?:(?:abbrev|opaque|unfoldable|pub|instance)\s+)*)(?:(record|data)\s+)?([^\s:(){},.=|\[\]]+)((?:\s+[^=]*?)?)\s*:(?:\s|$)")
SKIP = {"use", "mod", "open", "module", "infixl", "infixr", "infix", "prefix", "let", "λ", "unfolding", "where", "in", "go", "elim", "constructor"}


def declarations(raw):
    """[(name, words, module parameters, text)]: each declaration of an .antt file; a definition by cases with its equations."""
    lines = []
    for l in raw.split("\n"):
        l = re.sub(r"(^|\s)--(\s.*|$)", r"\1", l).rstrip()
        lines.append(l)
    out, frames, cur = [], [], None  # frames: (indent, telescope); cur: [name, words, indent, tele, lines]

    def close():
        nonlocal cur
        if cur:
            out.append((cur[0], cur[1], " ".join(f[1] for f in cur[3] if f[1]), cur[4]))
        cur = None

    i = 0
    while i < len(lines):
        l = lines[i]
        if not l.strip():
            i += 1
            continue
        indent = len(l) - len(l.lstrip())
        while frames and indent <= frames[-1][0]:
            close()
            frames.pop()
        base = frames[-1][2] if frames and frames[-1][2] is not None else (0 if not frames else None)
        if frames and frames[-1][2] is None:
            frames[-1] = (frames[-1][0], frames[-1][1], indent)
            base = indent
        if cur and indent > cur[2]:
            cur[4].append(l)
            i += 1
            continue
        s = l.strip()
        if m := re.match(r"(?:pub\s+)?module\s+(\S+)\s*(.*)$", s):
            close()
            text, k = s, i
            while not re.search(r"\bwhere\s*$", text) and k + 1 < len(lines):
                k += 1
                text += " " + lines[k].strip()
            tele = squeeze(re.sub(r"\bwhere\s*$", "", re.sub(r"^(?:pub\s+)?module\s+\S+", "", text)))
            frames.append((indent, tele, None))
            i = k + 1
            continue
        if re.match(r"(pub\s+)?(use|mod|infix[lr]?|prefix|open|export)\b", s):
            close()
            k = i
            i += 1
            continue
        m = DECL.match(l)
        if m and m[4] not in SKIP and not (cur and m[4] == cur[0]) and not s.startswith("unfolding"):
            close()
            cur = [m[4], m[2].split() + ([m[3]] if m[3] else []), indent, list(frames), [l]]
        elif cur is None and (m := re.match(r" *((?:(?:abbrev|opaque|unfoldable|pub|instance)\s+)*)(?:(record|data)\s+)?([^\s:(){},.=|\[\]]+)", l)) and m[3] not in SKIP:
            cur = [m[3], m[1].split() + ([m[2]] if m[2] else []), indent, list(frames), [l]]
        elif cur is not None and not re.match(r"\s*unfolding\b", l) and not s.split()[0] == cur[0] and (m := re.match(r" *((?:(?:abbrev|opaque|unfoldable|pub|instance)\s+)+)(?:(record|data)\s+)?([^\s:(){},.=|\[\]]+)\s*((?:[({].*)?)$", l)):
            close()
            cur = [m[3], m[1].split() + ([m[2]] if m[2] else []), indent, list(frames), [l]]
        elif cur is not None:
            cur[4].append(l)
        i += 1
    close()
    return out


def statement(name, lines):
    """Of a theorem the lines up to its first equation or `unfolding` line."""
    out = [lines[0]]
    indent = len(lines[0]) - len(lines[0].lstrip())
    for l in lines[1:]:
        if len(l) - len(l.lstrip()) <= indent and l.strip():
            break
        out.append(l)
    text = "\n".join(out)
    return text


def dedent(lines):
    least = min((len(l) - len(l.lstrip()) for l in lines if l.strip()), default=0)
    return "\n".join(l[least:] for l in lines if l.strip())


def antt(crate, path, raw, items):
    inside = path.startswith("specs/")
    for name, words, tele, lines in declarations(raw):
        if inside:
            kind, text = "definition", dedent(lines)
        else:
            kind = "theorem" if "pub" in words else "lemma"
            if "abbrev" in words or "unfoldable" in words or "record" in words or "data" in words:
                kind, text = ("proofs' definition", dedent(lines))
                if "pub" not in words:
                    kind = "proofs' private definition"
            else:
                text = dedent(statement(name, lines).split("\n"))
        if tele:
            text = f"[{tele}]\n{text}"
        where = re.sub(r"^(specs|proofs)/|\.antt$", "", path).replace("/", ".")
        key = crate, kind, f"{where}.{name}"
        items[key] = items[key] + "\n" + text if key in items else text


def function_proof(path):
    return os.path.basename(path) in ("Answers.antt", "Invariants.antt", "Proof.antt")


def read(root):
    items = {}
    for c in sorted(os.listdir(root + "/crates")):
        base = f"{root}/crates/{c}"
        for folder, dirs, files in os.walk(base):
            dirs[:] = sorted(d for d in dirs if d not in ("out", "target", ".git", "must-fail"))
            for f in sorted(files):
                p = os.path.join(folder, f)
                rel = os.path.relpath(p, base)
                raw = lambda: open(p, encoding="utf-8", errors="replace").read()
                if f.endswith(".rt") and rel.startswith("src/"):
                    rust(c, rel, raw(), items)
                elif f.endswith(".antt") and rel.startswith(("specs/", "proofs/")) and not function_proof(rel) and f != "Lib.antt":
                    antt(c, rel, raw(), items)
    return items


def last(n):
    return re.split(r"::|\.(?=[^.]*$)", n)[-1] if "::" not in n else n.split("::")[-1]


ORDER = ["fn", "type", "impl", "constant", "definition", "theorem", "proofs' definition", "private fn", "private type", "lemma", "proofs' private definition"]
SHOWN = ORDER[:7]


def pairs(old, new):
    """[(crate, kind, name, old text, new name, new text)] of the items that differ; then those that moved."""
    norm = lambda t: squeeze(t)
    rows, moved, used = [], [], set()
    left = [k for k in old if not (k in new and norm(new[k]) == norm(old[k]))]
    used |= {k for k in old if k in new and norm(new[k]) == norm(old[k])}
    by_name = collections.defaultdict(list)
    for k in new:
        by_name[k[0], last(k[2])].append(k)
    anywhere = collections.defaultdict(list)
    for k in new:
        anywhere[last(k[2])].append(k)
    family = lambda kind: "fn" if "fn" in kind else "type" if "type" in kind else "thm" if kind in ("theorem", "lemma") else "def" if "definition" in kind else kind
    rest = []
    for k in left:  # the same text elsewhere
        c = [q for q in anywhere[last(k[2])] if q not in used and q not in old and family(q[1]) == family(k[1]) and norm(new[q]) == norm(old[k])]
        c.sort(key=lambda q: q[0] != k[0])
        if c:
            used.add(c[0])
            moved.append((k, c[0]))
        else:
            rest.append(k)
    for k in rest:
        if k in new:
            q = k
        else:
            c = [q for q in by_name[k[0], last(k[2])] if q not in used and q not in old and family(q[1]) == family(k[1])]
            q = c[0] if c else None
        if q:
            used.add(q)
        rows.append((k, old[k], q, new[q] if q else None))
    for q in new:
        if q not in used and not any(r[2] == q for r in rows) and not (q in old):
            rows.append((None, None, q, new[q]))
    return rows, moved


def main():
    old, new = read(ARGS[0]), read(ARGS[1])
    only = set(ARGS[2:])
    rows, moved = pairs(old, new)
    kinds = ORDER if "--private" in FLAGS else SHOWN
    by = collections.defaultdict(list)
    for k, a, q, b in rows:
        r = k or q
        if r[1] not in kinds and not (q and q[1] in kinds):
            continue
        by[r[0]].append((k, a, q, b))
    count = collections.Counter()
    for c in sorted(by):
        if only and c not in only:
            continue
        if "--count" not in FLAGS:
            print(f"## {c}\n")
        for k, a, q, b in sorted(by[c], key=lambda r: (ORDER.index((r[0] or r[2])[1]), (r[0] or r[2])[2])):
            state = "new" if k is None else "gone" if q is None else "changed"
            count[(k or q)[1], state] += 1
            if "--count" in FLAGS:
                continue
            name = (k or q)[2]
            title = f"`{name}`" + (f" → `{q[2]}`" if k and q and q[2] != k[2] else "") + (f" ({q[1]})" if k and q and q[1] != k[1] else "")
            print(f"**{(k or q)[1]} {title}**" + ("" if state == "changed" else f": {state}") + "\n")
            lang = "rust" if "::" in name or (k or q)[1] in ("fn", "type", "impl", "constant", "private fn", "private type") else "agda"
            if a is not None:
                print(f"old\n```{lang}\n{a}\n```")
            if b is not None:
                print(f"new\n```{lang}\n{b}\n```")
            print()
        if "--moved" in FLAGS:
            for k, q in moved:
                if k[0] == c and k[1] in kinds:
                    print(f"- moved, the same: {k[1]} `{k[2]}` → {'' if q[0] == k[0] else q[0] + ' '}`{q[2]}`")
            print()
    totals = collections.defaultdict(dict)
    for (kind, state), n in count.items():
        totals[kind][state] = n
    print("| what | changed | gone | new |\n|---|---|---|---|")
    for kind in kinds:
        if kind in totals:
            t = totals[kind]
            print(f"| {kind} | {t.get('changed', 0)} | {t.get('gone', 0)} | {t.get('new', 0)} |")


main()
