#!/usr/bin/env python3
"""places.py [ROOT]: counts the places of docs/DESIGN-PASS.md in crates/, point by point; -v lists them.

A place is a line (points 1, 3, 4, 6, 7), a function or a group of functions (2, 5), a clause (5) or a proof file and its
answers (8) that the rule below finds. The rules are by text: what they find is read before it is changed or kept.
"""
import glob, itertools, os, re, sys

args = [a for a in sys.argv[1:] if a != "-v"]
verbose = "-v" in sys.argv
root = args[0] if args else os.path.join(os.path.dirname(os.path.abspath(__file__)), "..")
files = sorted(glob.glob(os.path.join(root, "crates/*/src/**/*.rt"), recursive=True))
text = {os.path.relpath(f, root): open(f).read() for f in files}


def lines(pattern, only=None):
    """file:line of each code line that the pattern matches"""
    rule = re.compile(pattern)
    found = []
    for name, body in text.items():
        for n, line in enumerate(body.split("\n"), 1):
            code = line.split("//")[0]
            if "ghost use" not in code and not re.match(r"\s*(requires|ensures|×|→)", code) and rule.search(code):
                found.append(f"{name}:{n}: {line.strip()}")
    return found


def enums():
    """enums that stand for Option or Result: a variant says that there is nothing, or why; an error's own enum is none"""
    rule = re.compile(r"^(?:pub )?enum (\w+)[^{]*\{(.*?)^\}", re.S | re.M)
    word = r"^\s+(Bad|Broken|Nothing|OutOfRange|Refused|Kept|Closed|No|Long|NoTag|NoBits|NotRead|Ends|Short|Other|Cut)\b"
    return [
        f"{name}: enum {m.group(1)}"
        for name, body in text.items()
        for m in rule.finditer(body)
        if re.search(word, m.group(2), re.M) and not re.search(r"Error$|^Reason$|^Wrong$", m.group(1))
    ]


def functions():
    """each function as (file, name, parameters, contract, body)"""
    head = re.compile(r"^( *)(?:pub )?(?:unsafe )?(?:extern \"C\" )?fn (\w+)", re.M)
    for name, body in text.items():
        for m in head.finditer(body):
            rest = body[m.end():]
            end = re.search(rf"^{m.group(1)}\}}", rest, re.M)
            whole = rest[: end.start()] if end else rest
            if whole.startswith("<"):
                depth = 0
                for k, c in enumerate(whole):
                    depth += (c == "<") - (c == ">" and whole[k - 1] != "-")
                    if depth == 0:
                        whole = whole[k + 1:]
                        break
            depth, at = 0, 0
            for k, c in enumerate(whole):
                depth += (c == "(") - (c == ")")
                if depth == 0:
                    at = k
                    break
            params, after = whole[1:at], whole[at + 1:]
            if re.match(r"[^{]*(\{[^{}]*\}[^{]*)*;\n", after.split("\n\n")[0] + "\n") and not re.match(rf"[^;]*^{m.group(1)}\{{\n", after, re.M):
                yield name, m.group(2), params, after.split(";\n")[0], ""  # a trait's function without a body
                continue
            cut = re.search(rf"\{{\n(?={m.group(1)}    )|^{m.group(1)}\{{\n", after, re.M)
            yield name, m.group(2), params, after[: cut.start()] if cut else after, after[cut.end():] if cut else ""


def shape(body):
    """a body without its names, numbers and texts"""
    code = re.sub(r"//[^\n]*", "", body)
    code = re.sub(r'b?"(?:[^"\\]|\\.)*"', "T", code)
    code = re.sub(r"\b(?!let|mut|for|in|if|else|while|loop|match|return|as|break|self)[A-Za-z_]\w*(?:::\w+)*\b", "n", code)
    code = re.sub(r"\b0x[0-9a-f_]+\b|\b\d[\d_.]*\b", "1", code)
    return re.sub(r"\s+", "", code)


def twins():
    """functions of three or more lines whose bodies differ in names, numbers and texts alone"""
    groups = {}
    for name, f, params, contract, body in functions():
        if body.count("\n") >= 3:
            groups.setdefault(shape(body), []).append(f"{name}: {f}")
    return [" = ".join(g) for g in groups.values() if len(g) > 1]


def together():
    """functions that share three or more parameters, or two of a named group, with two or more others of their crate"""
    groups = [
        {"sources", "targets", "wires"}, {"counts", "lists", "seconds"}, {"lefts", "rights"}, {"list", "count", "places"},
        {"nodes", "count"}, {"number", "place"}, {"input", "output", "run"}, {"out", "at"},
    ]
    every = {}
    for name, f, params, contract, body in functions():
        names = frozenset(re.findall(r"(\w+):", params))
        every.setdefault(name.split("/")[1], []).append((name, f, names))
    found = []
    for crate, fs in every.items():
        for name, f, names in fs:
            hit = next((sorted(g & names) for g in groups if len(g & names) >= 2), None)
            if not hit and len(names) >= 3:
                for three in itertools.combinations(sorted(names), 3):
                    if sum(set(three) <= other for _, _, other in fs) >= 3:
                        hit = list(three)
                        break
            if hit:
                found.append(f"{name}: {f}: {', '.join(hit)}")
    return found


def facts():
    """facts that stand in the clauses of three or more functions"""
    seen = {}
    for name, f, params, contract, body in functions():
        facts_here = set()
        for clause in re.findall(r"(?:requires|ensures)[^{]*\{(.*?)\}\s*(?=\n\s*(?:requires|ensures|$)|\Z)", contract, re.S):
            facts_here |= {re.sub(r"\s+", " ", fact).strip("( )") for fact in re.split(r"\s×\s", clause.strip())}
        for fact in facts_here:
            seen.setdefault(fact, []).append(f"{name}: {f}")
    return [f"{fact}: {len(fs)} functions" for fact, fs in sorted(seen.items()) if len(fs) >= 3]


def index_loops():
    """loops `for i in a..b` in which i is the index of a slice or an array"""
    head = re.compile(r"^( *)for (\w+) in [^{\n]*\.\.[^{\n]* \{\n(.*?)^\1\}", re.S | re.M)
    return [
        f"{name}:{body.count(chr(10), 0, m.start()) + 1}: {m.group(0).splitlines()[0].strip()}"
        for name, body in text.items()
        for m in head.finditer(body)
        if re.search(rf"\w\[[^\]]*\b{m.group(2)}\b[^\]]*\]|_at\([^)]*\b{m.group(2)}\b|load\([^)]*\b{m.group(2)}\b", m.group(3))
    ]


def proofs():
    """(proof files, answers, lines of proofs)"""
    names = glob.glob(os.path.join(root, "crates/*/proofs/**/*.antt"), recursive=True)
    names = [n for n in names if "/out/" not in n]
    answers = sum(len(re.findall(r"^(?:returns|ensures|requires|[a-z]\w*)[\w.-]* [^:\n]*= ", open(n).read(), re.M)) for n in names if n.endswith("Answers.antt"))
    kept = [n for n in names if re.search(r"/(Answers|Invariants|Proof)\.antt$", n)]
    return len(kept), answers, sum(open(n).read().count("\n") for n in names)


points = {
    "1 enums like Option or Result": enums(),
    "1 a flag, an answer or a sentinel beside a value": lines(r"^\s+(pub )?(refused: Answer|(good|less|timed|picked|checked|stereo|adding|two): bool),|\bconst (ENDLESS|NONE|NOTHING|OUTSIDE): |\badding: bool|\btwo: bool"),
    "1 an answer's or a flag's test by hand": lines(r"\.number (==|!=) 0|\b(whole|source|target|size|input|power|taken|compared|under|above)\.(good|less)\b|\bmarks\[\w+\] == [01]\b"),
    "1 numbers for kinds": lines(r"^(pub )?const [A-Z_]+: (usize|u16|u32) = \d{1,2};|\bt: (u16|usize)\b|\bkind: u(16|32)\b|\bleaf: u32\b"),
    "1 refusals by number": lines(r"\bRefused\(u32|\bEnds\(u32\)|, u32>|\bnumber: u32\b"),
    "2 twins": twins(),
    "3 loops with while or loop": lines(r"^\s*(while .*|loop) \{$"),
    "3 loops over an index": index_loops(),
    "4 conversions, comparisons and copies by hand": lines(r"\b(wide|same|least|bit|counted|marked)\(|% 256\) as u8|\* 256\b"),
    "5 parameters that travel together": together(),
    "5 facts in three or more contracts": facts(),
    "6 arrays with a length beside, parallel arrays": lines(r"^\s+(pub )?\w+: (&(mut )?|&'a )?\[(u8|u16|u32|usize|NodeRecord|f32|bool|\(u8, u8\)); (\d+|N)\],$|^const [A-Z]+: \[(u8|u16|u32); \d+\]"),
    "7 a switch on which step to run": lines(r"\bStop::|\bFault::(NotFinite|Loud)|match (kind|leaf|mode|number|form|call|u32_at\(.*\)) \{|\badding: bool|\bform: (Form|&\[u8\])"),
}
for point, found in points.items():
    print(f"{len(found):4} {point}")
    if verbose:
        for f in found:
            print("       " + f)
files_, answers, long = proofs()
print(f"{files_:4} 8 proof files of functions, with {answers} answers; {long} lines of proofs in all")
