#!/usr/bin/env python3
"""Lists what moved between two commits: definitions, types, contracts, code, statements, proofs and must-fail edits.

Use: python3 tools/moved.py OLD [NEW]
OLD and NEW are commits. Without NEW it is the working tree: tracked files and untracked ones that are not ignored.

What is told apart, crate by crate:
    definitions              abbrev, unfoldable, record and data in specs/, and a plain declaration of a type, number or list
    definitions of proofs    the same in proofs/
    statements, proofs       any other declaration in specs/ and proofs/: its type; and its clauses, with where and unfolding
                             Invariants.antt and Answers.antt (or Proof.antt) in proofs/F, of the function F, are a proof each
    types                    struct, enum, const in src/
    contracts, code          a function's attributes, signature, requires and ensures; and its body
    must-fail                the edits

A declaration's text has the parameters of the sections (module .. where) around it, a method's the head of its impl. Text is
compared word by word: comments, blank lines, use and mod lines, a file's own attributes (#![..]), the order of declarations, line
breaks, indentation and commas before a closing bracket do not count. So a promise is called the same if its own words are; what they mean, the definitions
that it names say.
A name that a file takes from another module than before, though it did not move there, is under "names from elsewhere".

What happened:
    added, removed    it has no counterpart in the other commit
    changed           the same name at the same place, or ("from ..") at another where most words are the same. Behind the name
                      is what changed of it: "names only" if just names that are listed as renamed, "section" for parameters
    moved             the same name and text in another file or crate
    renamed           the same text, but for its own name

A proof goes with its statement, code with its contract, a function's proof with the function. What goes from crate to crate is
listed in both and counted where it now is. (+a −b) are lines, and no line count has blanks and comments in it. A line that the
parser gives to no item, or to two, is told on standard error and at the end.
"""
import collections
import difflib
import functools
import pathlib
import re
import signal
import subprocess
import sys
import textwrap

root = pathlib.Path(__file__).resolve().parent.parent
KINDS = ("definitions", "definitions of proofs", "types", "contracts", "code", "statements", "proofs", "must-fail")
TABLED = ("definitions", "contracts", "code", "statements", "proofs")
STATES = ("added", "changed", "removed", "renamed", "moved")
AREAS = {"src": "code", "specs": "specs", "proofs": "proofs"}
ENDINGS = {"src": ".rt", "specs": ".antt", "proofs": ".antt", "must-fail": ".edit"}
PROOF = re.compile(r"(?:crates/\w+/)?(proofs/.+)/((?:Proof|Invariants|Answers)\.antt)")
VALUES = ("Type", "ℕ", "ℤ", "Bool", "List", "Float")
warnings = []

# ---- the files of a commit or of the working tree


def git(*words, given=None):
    run = subprocess.run(["git", "--no-optional-locks", *words], cwd=root, input=given, capture_output=True)
    if run.returncode:
        sys.exit(f"git {' '.join(words)}: {run.stderr.decode().strip()}")
    return run.stdout


def named(commit):
    return git("log", "-1", "--format=%h (%s)", commit, "--").decode().strip() if commit else "the working tree"


def is_read(path):
    parts = path.split("/")
    return parts[0] == "crates" and len(parts) > 3 and parts[2] in ENDINGS and path.endswith(ENDINGS[parts[2]])


def texts(commit):
    """The files of crates that are read: path → text."""
    if not commit:
        paths = git("ls-files", "-z", "--cached", "--others", "--exclude-standard").decode().split("\0")
        return {p: (root / p).read_text("utf-8") for p in sorted(set(paths)) if is_read(p) and (root / p).is_file()}
    entries = [e.split("\t", 1) for e in git("ls-tree", "-r", "-z", commit).decode().split("\0") if e]
    wanted = [(path, about.split()[2]) for about, path in entries if is_read(path)]
    out = git("cat-file", "--batch", given="".join(f"{blob}\n" for _, blob in wanted).encode())
    found, at = {}, 0
    for path, _ in wanted:
        end = out.index(b"\n", at)
        size = int(out[at:end].split()[2])
        found[path] = out[end + 1:end + 1 + size].decode()
        at = end + size + 2
    return found


def other_files(old, new):
    """Of each changed file that is not read: (path, lines added, lines removed, path before or None)."""
    commits = [old, new] if new else [old]
    fields = git("diff", "--numstat", "-M", "-z", "--no-ext-diff", "--no-textconv", *commits, "--").decode().split("\0")
    found, k = [], 0
    while k < len(fields) - 1:
        plus, minus, path = fields[k].split("\t")
        before = None
        if not path:
            before, path = fields[k + 1:k + 3]
            k += 2
        k += 1
        found.append((path, plus, minus, before))
    if not new:
        for path in git("ls-files", "-z", "--others", "--exclude-standard").decode().split("\0")[:-1]:
            data = (root / path).read_bytes() if (root / path).is_file() else b""
            found.append((path, "-" if b"\0" in data else str(len(data.splitlines())), "0", None))
    return sorted(f for f in found if not is_read(f[0]))


# ---- items


class Half:
    """What is compared: a kind of KINDS, the text in parts (name of the part → words), and its lines."""

    def __init__(self, kind, parts, lines):
        self.kind, self.parts, self.lines = kind, parts, lines

    def text(self, blanks=()):
        return tuple((part, tuple("·" if w in blanks else w for w in words)) for part, words in self.parts.items())


class Item:
    """A declaration, function, type, edit or a function's proof: one half, or a promise and what keeps it."""

    def __init__(self, path, name, halves, own=None):
        self.crate, self.file = path.split("/", 2)[1:]
        self.name, self.halves, self.nth = name, halves, 0
        self.blanks = {own or last(name)}  # the words by which it names itself

    def text(self, blanks=()):
        return tuple(h.text(blanks) for h in self.halves)

    def family(self):
        return "definitions" if self.halves[0].kind.startswith("definitions") else self.halves[0].kind, len(self.halves)


def last(name):
    """A name without the module or type that it is in."""
    return re.split(r"\.|::", name)[-1]


def words_of(text):
    """The words of antt; a comma or semicolon before a closing bracket is layout."""
    found = re.findall(r"[(){},;]|[^\s(){},;]+", text)
    return tuple(w for w, then in zip(found, found[1:] + [""]) if not (w in ",;" and then in (")", "}")))


# ---- antt: lines, chunks (a line and what is indented below it), declarations


def antt_lines(text):
    """(number, indentation, text) of each line, without blanks and comments."""
    found = []
    for number, line in enumerate(text.split("\n"), 1):
        line = re.sub(r"(^|\s)--.*", "", line).rstrip()
        if line:
            found.append((number, len(line) - len(line.lstrip()), line.strip()))
    return found


def chunks(lines):
    found = []
    for line in lines:
        if line[1] <= lines[0][1] and line[2][0] not in "})]" or not found:
            found.append([])
        found[-1].append(line)
    return found


def joined(lines):
    return words_of(" ".join(line[2] for line in lines))


class Declaration:
    def __init__(self, name, mods, form, section, lines):
        self.name, self.mods, self.form, self.section = name, mods, form, section
        self.head, self.body = lines, []


def section_head(chunk):
    """How many lines a section's head has."""
    return next((k for k, line in enumerate(chunk, 1) if line[2].split()[-1] == "where"), len(chunk))


def at_top(words, *wanted):
    """The place of the first of the wanted words outside brackets, or none."""
    depth = 0
    for k, word in enumerate(words):
        depth += (word in "({") - (word in ")}")
        if depth == 0 and word in wanted:
            return k
    return None


def is_signature(words, mods):
    colon = at_top(words, ":", "=")
    return len(words) > 1 and (words[1] == ":" or bool(mods) or (colon is not None and words[colon] == ":"))


def is_clause(words, name):
    return words[0] == name or "◌" in name and all(part in words for part in name.split("◌") if part)


def declarations(lines, section, prefix, strays):
    """The declarations of a block of lines of one indentation; section are the words of the sections around it."""
    found, fixity = [], ()
    for chunk in chunks(lines):
        words = joined(chunk)
        mods = [w for w in words[:2] if w in ("pub", "abbrev", "unfoldable")]
        rest = words[len(mods):] or words
        if chunk[0][1] < lines[0][1]:
            strays += [line[0] for line in chunk]
        elif rest[0] in ("use", "mod", "open"):
            continue
        elif rest[0] in ("infix", "infixl", "infixr"):
            fixity = rest  # of the declaration below it
        elif rest[0] == "module":
            head = section_head(chunk)
            inner = joined(chunk[:head])[len(mods) + 1:-1]
            name = "" if inner[:1] == ("_",) else f"{inner[0]}." if inner else ""
            if chunk[head:]:
                found += declarations(chunk[head:], section + inner[1:], prefix + name, strays)
        elif rest[0] in ("record", "data") and rest[1:2] != (":",):
            found.append(Declaration(prefix + rest[1], mods, rest[0], section, chunk))
        elif rest[0] == "unfolding" and found:
            found[-1].body += chunk
        elif is_signature(rest, mods):
            found.append(Declaration(prefix + rest[0], mods, " ".join(m for m in mods if m != "pub"), section + fixity, chunk))
            fixity = ()
        else:
            owner = next((d for d in reversed(found) if is_clause(rest, d.name[len(prefix):])), None)
            if owner:
                owner.body += chunk
            else:
                strays += [line[0] for line in chunk]
    return found


def defines(d, words):
    """A declaration that is no statement: by its form, or because its type says that it is a type, a number, a list."""
    if d.form:
        return True
    while (arrow_at := at_top(words, "→")) is not None:
        words = words[arrow_at + 1:]
    words = words[at_top(words, ":") + 1:] if at_top(words, ":") is not None else words
    return bool(words) and words[0] in VALUES and at_top(words, "≡", "≢", "<", "≤", "↔") is None


def antt_item(path, d):
    own = joined(d.head)[len(d.mods):]
    head, body = [line[2] for line in d.head], [line[2] for line in d.body]
    kind = "definitions of proofs" if path.split("/")[2] == "proofs" else "definitions"
    parts = {"visibility": ("pub",) if "pub" in d.mods else (), "section": d.section}
    if d.form in ("record", "data"):
        end = own.index("where") + 1 if "where" in own else len(own)
        parts |= {"form": (d.form,), "signature": own[2:end], "fields" if d.form == "record" else "constructors": own[end:]}
        return Item(path, d.name, [Half(kind, parts, head)])
    if defines(d, own):
        parts |= {"form": (d.form or "plain",), "signature": own[1:], "clauses": joined(d.body)}
        return Item(path, d.name, [Half(kind, parts, head + body)])
    return Item(path, d.name, [Half("statements", parts | {"type": own[1:]}, head), Half("proofs", {"proof": joined(d.body)}, body)])


def antt_items(path, text, warn):
    if PROOF.fullmatch(path):
        return [function_proof(path, antt_lines(text))]
    lines, strays = antt_lines(text), []
    found = declarations(lines, (), "", strays)
    for number in strays:
        warn(number, "belongs to no declaration")
    for d in found:
        if d.form not in ("record", "data") and not any(line[2].split()[0] != "unfolding" for line in d.body):
            warn(d.head[0][0], f"{d.name} has no clauses")
    return [antt_item(path, d) for d in found]


def function_proof(path, lines):
    """A file of proofs/F as one proof."""
    kept = [line for chunk in chunks(lines) if chunk[0][2].split()[0] != "use" for line in chunk]
    return Item(path, path.split("/")[-2], [Half("proofs", {"proof": joined(kept)}, [line[2] for line in kept])])


# ---- Rattle: tokens, items by their brackets

WHOLE = r"b?\"(?:\\.|[^\"\\])*\"|b?'(?:\\x..|\\.|[^'\\])'"
TOKEN = re.compile(WHOLE + r"|\w+|&&|\|\||->|=>|::|\.\.=?|<<=?|>>=?|[-+*/%^&|=!<>]=|\S", re.S)
COMMENT = re.compile(f"({WHOLE})" + r"|//[^\n]*|/\*.*?\*/", re.S)
USE = re.compile(r"^[ \t]*(?:pub )?(?:ghost )?use\b[^;]*;|^#!\[.*\]$", re.M)


def spaces(match):
    return re.sub(r"[^\n]", " ", match.group())


def rt_code(text):
    """The text with spaces in place of comments."""
    return COMMENT.sub(lambda m: m.group() if m.group(1) else spaces(m), text)


def rt_words(tokens):
    found = [t.group() for t in tokens]
    return tuple(w for w, then in zip(found, found[1:] + [""]) if not (w == "," and then and then in ")]}>"))


class Rattle:
    """The items of one file."""

    def __init__(self, path, text, warn):
        self.path, self.found = path, []
        self.code = USE.sub(spaces, rt_code(text))
        self.tokens = list(TOKEN.finditer(self.code))
        self.given = collections.Counter()
        self.items(0, len(self.tokens), "", ())
        for number, line in enumerate(self.code.split("\n"), 1):
            if line.strip() and self.given[number] != 1:
                warn(number, "belongs to no item" if not self.given[number] else "belongs to two items")

    def at(self, k):
        return self.tokens[k].group() if k < len(self.tokens) else ""

    def closing(self, k):
        """The place after the bracket that closes the one at k."""
        depth = 0
        while k < len(self.tokens):
            depth += (self.at(k) in "([{") - (self.at(k) in ")]}")
            k += 1
            if depth == 0:
                return k
        return k

    def until(self, k, *ends):
        """The place of the first of the ends at or after k, outside brackets."""
        while k < len(self.tokens) and self.at(k) not in ends:
            k = self.closing(k) if self.at(k) in "([{" else k + 1
        return k

    def lines(self, start, end):
        """The lines from token start to before token end."""
        if start >= end:
            return []
        text = self.code[self.tokens[start].start():self.tokens[end - 1].end()]
        return [line.strip() for line in text.split("\n") if line.strip()]

    def take(self, start, end):
        """Gives the lines of these tokens to one item."""
        first = self.code.count("\n", 0, self.tokens[start].start())
        after = self.code.count("\n", 0, self.tokens[end - 1].end()) + 1
        for line in range(first, after):
            self.given[line + 1] += 1

    def items(self, k, end, prefix, head):
        while k < end:
            k = self.item(k, prefix, head)

    def item(self, start, prefix, head):
        k, parts = start, {"visibility": (), "attributes": (), "impl": head}
        while self.at(k) == "#":
            k = self.closing(k + 1 + (self.at(k + 1) == "!"))
        parts["attributes"] = rt_words(self.tokens[start:k])
        if self.at(k) == "pub":
            then = self.closing(k + 1) if self.at(k + 1) == "(" else k + 1
            parts["visibility"] = rt_words(self.tokens[k:then])
            k = then
        word = k
        while self.at(word) in ("extern", "unsafe", "const", "ghost", '"C"') and self.at(word + 1) in ("extern", "unsafe", "fn", '"C"'):
            word += 1
        if self.at(word) == "fn":
            return self.function(start, k, word, prefix, parts)
        if self.at(word) in ("impl", "trait", "mod"):
            return self.group(start, word, prefix, head)
        if self.at(word) in ("struct", "enum", "union", "const", "static", "type"):
            return self.type(start, k, word, prefix, parts)
        end = self.until(k, ";", "{", "}")
        return self.closing(end) if self.at(end) == "{" else end + 1

    def function(self, start, k, word, prefix, parts):
        clauses = {"requires": (), "ensures": ()}
        signature = end = self.until(word, "{", ";", "requires", "ensures")
        while self.at(end) in clauses:
            then = self.closing(self.until(end, "{"))
            clauses[self.at(end)] += rt_words(self.tokens[end:then])
            end = self.until(then, "{", ";", "requires", "ensures")
        after = self.closing(end) if self.at(end) == "{" else end + 1
        parts |= {"signature": rt_words(self.tokens[k:signature])} | clauses
        self.found.append(Item(self.path, prefix + self.at(word + 1), [
            Half("contracts", parts, self.lines(start, end)),
            Half("code", {"body": rt_words(self.tokens[end:after])}, self.lines(end, after)),
        ]))
        self.take(start, after)
        return after

    def group(self, start, word, prefix, head):
        body = self.until(word, "{", ";")
        if self.at(body) != "{":
            self.take(start, body + 1)
            return body + 1
        after = self.closing(body)
        inner = rt_words(self.tokens[word:body])
        self.items(body + 1, after - 1, f"{prefix}{' '.join(inner[1:])}::", head + inner)
        self.take(start, body + 1)
        self.take(after - 1, after)
        return after

    def type(self, start, k, word, prefix, parts):
        end = self.until(word, ";", "=", "{")
        after = self.closing(end) if self.at(end) == "{" else self.until(end, ";") + 1
        parts["declaration"] = rt_words(self.tokens[k:after])
        self.found.append(Item(self.path, prefix + self.at(word + 1), [Half("types", parts, self.lines(start, after))]))
        self.take(start, after)
        return after


def edit_item(path, text):
    lines = [line.strip() for line in text.split("\n") if line.strip()]
    return Item(path, pathlib.PurePath(path).stem, [Half("must-fail", {"text": tuple(text.split())}, lines)])


@functools.lru_cache(maxsize=None)
def items_of(path, text):
    def warn(number, what):
        warnings.append(f"{path}:{number}: {what}")
        print(warnings[-1], file=sys.stderr)

    if path.endswith(".edit"):
        return [edit_item(path, text)]
    found = antt_items(path, text, warn) if path.endswith(".antt") else Rattle(path, text, warn).found
    seen = collections.Counter()
    for item in found:
        item.nth = seen[item.family(), item.name]
        seen[item.family(), item.name] += 1
    return found


def line_count(path, text):
    if path.endswith(".antt"):
        return len(antt_lines(text))
    return sum(1 for line in rt_code(text).split("\n") if line.strip())


# ---- which item is which


def is_known_by(item):
    """Whether the first half says enough to know the item by: a statement, or a contract that ensures something."""
    parts = item.halves[0].parts
    return len(item.halves) == 2 and ("type" in parts or bool(parts.get("ensures")))


def unseen(text):
    """A text without its visibility."""
    return tuple(part for part in text if part[0] != "visibility")


def promise(item, blanks=()):
    return unseen(item.halves[0].text(blanks)) if is_known_by(item) else None


# Each finds pairs among the items that are left: by a key, none if it does not apply; whether the key must be one item's alone;
# and whether the two, of one crate or by a route from file to file, must be alike: at the place, moved, renamed, moved and changed.
PASSES = (
    (lambda i: (i.crate, i.file, i.name, i.nth), False, None),
    (lambda i: (i.crate, i.name, i.text()), False, None),
    (lambda i: (i.name, i.text()), False, None),
    (lambda i: (i.name, tuple(unseen(t) for t in i.text())), False, None),
    (lambda i: promise(i) and (i.crate, i.name, promise(i)), False, None),
    (lambda i: promise(i) and (i.name, promise(i)), False, None),
    (lambda i: (i.crate, i.file, i.text(i.blanks)), True, None),
    (lambda i: promise(i) and (i.crate, i.file, promise(i, i.blanks)), True, None),
    (lambda i: (i.crate, i.text(i.blanks)), True, None),
    (lambda i: (i.crate, i.name), True, "crate"),
    (lambda i: i.name, True, "route"),
)


def all_words(item):
    return [w for h in item.halves for words in h.parts.values() for w in words]


def alike(old, new, routes):
    """Most words are the same; of items in two crates, something else also went that way."""
    if routes is not None and route(old, new) not in routes:
        return False
    return difflib.SequenceMatcher(None, all_words(old), all_words(new), autojunk=False).ratio() >= 0.6


def route(old, new):
    return old.crate, old.file, new.crate, new.file


def is_elsewhere(old, new):
    return (old.crate, old.file) != (new.crate, new.file)


def by_key(items, key):
    found = collections.defaultdict(list)
    for item in items:
        found[key(item)].append(item)
    found.pop(None, None)
    return found


def without(items, gone):
    gone = {id(i) for i in gone}
    return [i for i in items if id(i) not in gone]


def pairs(olds, news, found):
    """Items before and after that are the same one, the removed and the added; found are the pairs that are known so far."""
    for key, alone, near in PASSES:
        olds, news = without(olds, (a for a, _ in found)), without(news, (b for _, b in found))
        routes = {route(*pair) for pair in found} if near == "route" else None
        left, right = by_key(olds, key), by_key(news, key)
        for k in left:
            if not alone or len(left[k]) == len(right.get(k, ())) == 1:
                found += [pair for pair in zip(left[k], right.get(k, ())) if not near or alike(*pair, routes)]
    return found, without(olds, (a for a, _ in found)), without(news, (b for _, b in found))


def proof_place(item):
    """Where the proof of a function stands, or a proof that is a file."""
    if found := PROOF.fullmatch(item.file):
        return item.crate, found[1].replace("+", "")
    module = item.file.removeprefix("src/").removesuffix(".rt")
    return item.crate, "/".join(["proofs"] + [module] * (module not in ("lib", "main")) + item.name.split("::"))


def proofs_moved(functions, olds, news):
    """The proofs of functions that are at another place or have another name."""
    before, after = ({(proof_place(p), PROOF.fullmatch(p.file)[2]): p for p in side} for side in (olds, news))
    ends = {proof_place(old): proof_place(new) for old, new in functions if proof_place(old) != proof_place(new)}
    return [(old, after[ends[at], file]) for (at, file), old in before.items() if at in ends and (ends[at], file) in after]


def put_names(words, names):
    return tuple(re.sub(r"[^.]+", lambda m: names.get(m.group(), m.group()), w) for w in words)


def with_names(item, names):
    """An item's text without its own name, and with other names in place of those that were renamed."""
    return tuple((part, put_names(words, names)) for text in item.text(item.blanks) for part, words in text)


def renamed_too(matched):
    """The renamed names; adds to the pairs those that differ by their own name and other renamed ones, until there are no more."""
    while True:
        names = {last(a.name): last(b.name) for found, _, _ in matched for a, b in found if a.name != b.name}
        more = 0
        for found, olds, news in matched:
            left = by_key(olds, lambda i: (i.crate, i.file, with_names(i, names)))
            right = by_key(news, lambda i: (i.crate, i.file, with_names(i, {})))
            for old, new in [(left[k][0], right[k][0]) for k in left if len(left[k]) == len(right.get(k, ())) == 1]:
                found.append((old, new))
                olds.remove(old)
                news.remove(new)
                more += 1
        if not more:
            return names


# ---- what happened to each half


class Event:
    def __init__(self, kind, state, old, new, notes=(), plus=0, minus=0):
        self.kind, self.state, self.old, self.new = kind, state, old, new
        self.notes, self.plus, self.minus = list(notes), plus, minus
        self.item = new or old


def counted(old, new):
    plus = minus = 0
    for tag, a, b, c, d in difflib.SequenceMatcher(None, old, new, autojunk=False).get_opcodes():
        if tag != "equal":
            plus, minus = plus + d - c, minus + b - a
    return plus, minus


def differences(old, new, names):
    """The parts in which two halves differ."""
    parts = [p for p in {**old.parts, **new.parts} if old.parts.get(p, ()) != new.parts.get(p, ())]
    if parts and all(put_names(old.parts.get(p, ()), names) == new.parts.get(p, ()) for p in parts):
        return ["names only"]
    told = {"form": "{} → {}".format(*(" ".join(h.parts.get("form", ())) for h in (old, new))),
            "visibility": "now pub" if new.parts.get("visibility") else "no longer pub"}
    return [told.get(p, p) for p in parts if p not in ("proof", "body", "text", "declaration")]


def half_event(old, new, k, names):
    """What happened to half k of an item that is there before and after."""
    before, after = old.halves[k], new.halves[k]
    kind = min(before.kind, after.kind)  # a definition that comes from specs/ or goes there is one of specs/
    if old.name != new.name and before.text(old.blanks) == after.text(new.blanks):
        return Event(kind, "renamed", old, new)
    if before.parts == after.parts and old.name == new.name:
        return Event(kind, "moved" if is_elsewhere(old, new) else "same", old, new)
    return Event(kind, "changed", old, new, differences(before, after, names), *counted(before.lines, after.lines))


def events(old, new):
    """What happened to every item of two commits."""
    families = collections.defaultdict(lambda: ([], []))
    for side, files in enumerate((old, new)):
        for path, text in files.items():
            for item in items_of(path, text):
                families[item.family()][side].append(item)
    functions = pairs(*families.pop(("contracts", 2), ([], [])), [])
    proofs = families.pop(("proofs", 1), ([], []))
    matched = [functions, pairs(*proofs, proofs_moved(functions[0], *proofs))] + [pairs(*sides, []) for sides in families.values()]
    names = renamed_too(matched)
    told = []
    for found, removed, added in matched:
        told += [half_event(a, b, k, names) for a, b in found for k in range(len(b.halves))]
        told += [Event(h.kind, "removed", i, None, minus=len(h.lines)) for i in removed for h in i.halves]
        told += [Event(h.kind, "added", None, i, plus=len(h.lines)) for i in added for h in i.halves]
    return told


# ---- names that a file takes from elsewhere


def taken(text):
    """Name → module, of a file's use lines."""
    found = {}
    for line in re.findall(r"^(?:pub )?(?:ghost )?use ([^;\n]+)", text, re.M):
        if match := re.match(r"(\S+?)(?:\.|::)\{(.*)\}", line):
            found |= {name.split(" as ")[-1].strip(): match.group(1) for name in match.group(2).split(",")}
        elif match := re.match(r"(\S+) as (\S+)", line):
            found[match.group(2)] = match.group(1)
        elif "::" in line:
            found[line.split("::")[-1]] = line.rsplit("::", 1)[0]
    return found


def module_file(module, crate, files):
    """The crate and file of a module, as items have them; a library's module as it is."""
    if match := re.match(r"Rattle\.(\w+)\.((?:specs|proofs)\..*)", module):
        file = match.group(2).replace(".", "/")
        declared = re.match(r"specs/declared/(.*?)/[A-Z]", file)
        return match.group(1), f"src/{declared.group(1)}.rt" if declared else f"{file}.antt"
    first, *rest = module.split("::")
    if first == "crate":
        return crate, f"src/{'/'.join(rest) or 'lib'}.rt"
    if f"crates/{crate}/src/{'/'.join([first] + rest)}.rt" in files:
        return crate, f"src/{'/'.join([first] + rest)}.rt"
    return first, f"src/{'/'.join(rest) or 'lib'}.rt"


def said(path, text):
    """The words of all that a file says but its proofs."""
    halves = [h for item in items_of(path, text) for h in item.halves if h.kind != "proofs"]
    return {piece for h in halves for words in h.parts.values() for w in words for piece in [w, *w.split(".")]}


def from_elsewhere(old, new, told):
    """Crate → lines on names that are taken from another module than before, though they did not move there."""
    moves = [(e.old, e.new) for e in told if e.old and e.new]
    went, routes = {(last(b.name), *route(a, b)) for a, b in moves}, {route(a, b) for a, b in moves}
    owned = {(i.crate, i.file, last(i.name)) for path, text in old.items() for i in items_of(path, text)}
    found = collections.defaultdict(list)
    for path in sorted(p for p in set(old) & set(new) if old[p] != new[p] and not p.endswith(".edit")):
        crate, file = path.split("/", 2)[1:]
        before, after = taken(old[path]), taken(new[path])
        names = collections.defaultdict(list)
        for name in before.keys() & after.keys() & said(path, new[path]):
            a, b = module_file(before[name], crate, old), module_file(after[name], crate, new)
            if a != b and (name, *a, *b) not in went and ((*a, name) in owned or (*a, *b) not in routes):
                names[before[name], after[name]].append(name)
        found[crate] += [f"{file}: {', '.join(sorted(n))} from {b}, before from {a}" for (a, b), n in sorted(names.items())]
    return found


# ---- the report


def lines_text(plus, minus):
    return " ".join(t for t in (f"+{plus}" if plus else "", f"−{minus}" if minus else "") if t)


def listed(text, depth=0):
    print(textwrap.fill(text, 130, initial_indent="  " * depth + "- ", subsequent_indent="  " * depth + "  ",
                        break_long_words=False, break_on_hyphens=False))


def place(item, crate):
    return item.file if item.crate == crate else f"{item.crate}/{item.file}"


def state_of(event, promises):
    """What happened, and for code and proofs whether the promise changed too."""
    if event.state != "changed" or event.kind not in ("code", "proofs") or len(event.new.halves) == 1:
        return event.state
    if event.notes == ["names only"]:
        return "changed by renamed names only"
    word = "contract" if event.kind == "code" else "statement"
    return f"changed, {word} as before" if promises[id(event.new)] != "changed" else f"changed with the {word}"


def where(event, crate):
    if event.state in ("added", "removed") or not is_elsewhere(event.old, event.new):
        return place(event.item, crate)
    if event.state == "changed":
        return f"{place(event.new, crate)}, from {place(event.old, crate)}"
    return f"{place(event.old, crate)} → {place(event.new, crate)}"


def title(event):
    """A name; two if it was renamed."""
    if event.old and event.new and event.old.name != event.new.name:
        return f"{event.old.name} → {event.new.name}"
    return event.item.name


def behind(event):
    """What stands behind a name: what changed, and the lines."""
    notes = [] if event.kind in ("code", "proofs") else event.notes
    told = ", ".join([*notes, lines_text(event.plus, event.minus)]).removesuffix(", ")
    return f" ({told})" if told else ""


def print_group(kind, at, group):
    """The items of one kind to which the same happened in one file."""
    plus, minus = sum(e.plus for e in group), sum(e.minus for e in group)
    if PROOF.fullmatch(group[0].item.file):
        listed(at + behind(group[0]), 1)
    elif kind == "proofs" or group[0].state == "moved":
        names = ", ".join(title(e) for e in group) if len(group) <= 6 or kind != "proofs" else f"{len(group)} {kind}"
        size = lines_text(plus, minus)
        listed(f"{at}: {names}" + (f" ({size})" if size else ""), 1)
    else:
        listed(f"{at}: {', '.join(title(e) + behind(e) for e in group)}", 1)


def print_kind(kind, crate, told, promises):
    states = collections.defaultdict(lambda: collections.defaultdict(list))
    for event in told:
        if event.kind == kind:
            states[STATES.index(event.state), state_of(event, promises)][where(event, crate)].append(event)
    if states:
        print(f"\n### {kind}\n")
    for (_, state), places in sorted(states.items()):
        if kind == "must-fail" and state != "moved":
            listed(f"{state}: {', '.join(title(e) for group in places.values() for e in group)}")
        else:
            listed(state)
            for at, group in sorted(places.items()):
                print_group(kind, at, group)


def arrow(a, b):
    return f"{a} → {b}" if a != b else f"{a}"


def area_lines(files):
    found = collections.Counter()
    for path, text in files.items():
        _, crate, area, _ = path.split("/", 3)
        if area in AREAS:
            found[crate, AREAS[area]] += line_count(path, text)
    return found


def silent_files(crate, old, new, told):
    """Files that changed, but no item of them, and that were understood."""
    busy = {(i.crate, i.file) for e in told if e.state != "same" for i in (e.old, e.new) if i}
    busy |= {tuple(text.split(":")[0].split("/", 2)[1:]) for text in warnings}
    mine = [p for p in sorted(set(old) | set(new)) if p.split("/")[1] == crate and old.get(p) != new.get(p)]
    return [p.split("/", 2)[2] for p in mine if tuple(p.split("/", 2)[1:]) not in busy]


def file_line(path, plus, minus, before):
    size = "binary" if plus == "-" else lines_text(int(plus), int(minus))
    return (f"{before} → {path}" if before else path) + (f" ({size})" if size else "")


def print_crate(crate, told, lines, silent, others, elsewhere, promises):
    areas = ", ".join(f"{area} {arrow(lines[0][crate, area], lines[1][crate, area])}" for area in AREAS.values())
    print(f"\n## {crate}: lines of {areas}")
    for kind in KINDS:
        print_kind(kind, crate, told, promises)
    rest = [("names from elsewhere", elsewhere), ("other files", others)]
    for name, found in rest + [("comments, use and mod lines, order or layout alone", [", ".join(silent)] if silent else [])]:
        if found:
            print(f"\n### {name}\n")
        for text in found:
            listed(text)


def print_files(texts, title):
    if texts:
        print(f"\n## {title}\n")
    for text in texts:
        listed(text)


def tally(told, kind):
    states = collections.Counter(e.state for e in told if e.kind == kind)
    return "/".join(str(n) for n in (states["same"], states["added"], states["changed"], states["removed"],
                                     states["moved"] + states["renamed"]))


def print_table(crates, told, lines):
    print("\n## All crates: lines, and how many are the same / added / changed / removed / moved or renamed\n")
    print("| crate | " + " | ".join([f"{a} lines" for a in AREAS.values()] + list(TABLED)) + " |")
    print("|---" * (1 + len(AREAS) + len(TABLED)) + "|")
    for crate in crates + ["all"]:
        mine = [e for e in told if crate == "all" or e.item.crate == crate]
        sums = [[sum(n for (c, area), n in side.items() if area == a and crate in ("all", c)) for side in lines] for a in AREAS.values()]
        print("| " + " | ".join([crate] + [arrow(*s) for s in sums] + [tally(mine, kind) for kind in TABLED]) + " |")


def crate_of(path):
    parts = path.split("/")
    return parts[1] if parts[0] == "crates" and len(parts) > 2 else None


def main():
    if len(sys.argv) not in (2, 3) or sys.argv[1].startswith("-"):
        sys.exit("use: python3 tools/moved.py OLD [NEW]")
    sys.stdout.reconfigure(encoding="utf-8")
    signal.signal(signal.SIGPIPE, signal.SIG_DFL)
    before, after = sys.argv[1], sys.argv[2] if len(sys.argv) == 3 else None
    old, new = texts(before), texts(after)
    told = sorted(events(old, new), key=lambda e: (e.item.crate, e.item.file))
    promises = {id(e.new): e.state for e in told if e.new and e.kind in ("contracts", "statements")}
    elsewhere, others = from_elsewhere(old, new, told), other_files(before, after)
    lines = area_lines(old), area_lines(new)
    print(f"# From {named(before)} to {named(after)}")
    quiet, busy = [], []
    for crate in sorted({crate_of(p) for p in [*old, *new, *(f[0] for f in others)]} - {None}):
        mine = [e for e in told if e.state != "same" and crate in {i.crate for i in (e.old, e.new) if i}]
        silent = silent_files(crate, old, new, told)
        own = [file_line(f[0].split("/", 2)[2], *f[1:]) for f in others if crate_of(f[0]) == crate]
        if mine or silent or own or elsewhere[crate]:
            busy.append(crate)
            print_crate(crate, mine, lines, silent, own, elsewhere[crate], promises)
        else:
            quiet.append(crate)
    print_files([file_line(*f) for f in others if not crate_of(f[0])], "Files outside crates")
    print_table(busy, told, lines)
    print(f"\nNothing changed in: {', '.join(quiet) or 'none'}")
    print_files(warnings, "Not understood")


main()
