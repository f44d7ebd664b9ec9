#!/usr/bin/env python3
"""Respells this repository's own names, once, after port.py: words in snake case, types and modules in camel case.

Run at the top. In .antt files, in the clauses and comments of .rt files, and between backquotes in pages:
- a word with a capital within, as `blockCount`, is written in snake case;
- a dash within a word of specs/ or a lemma's name becomes an underscore, but where it joins two names (a fact, a definition or a function of
  the library, and another): those keep it, as the library's own lemmas do.
A lemma's name that would fall together with another one gets `_lem` after it. Prints what it renamed.
"""
import collections
import glob
import re

TOKEN = re.compile(r"[^\s(){}\[\]⌜⌝.,;:«»\"`|]+")
CAMEL = re.compile(r"^[a-z][a-zA-Z0-9]*[A-Z]")
DEFINED = re.compile(r"^\s*(?:abbrev |unfoldable |pub |data |record |\| )*([^\s:(){}]+) :(?:\s|$)")
MADE = re.compile(r"^(invariant|decreases|returns|loop|overflow|bounds|slice-bounds|same-length)(-|$)|-requires(-|$)|-spec$")
LIBRARY = set("length take drop map append get_or set eqb leb ltb max min or and not cond mem xor shl shr mod div".split())


def snake(word):
    word = re.sub(r"([a-z0-9'])([A-Z])", r"\1_\2", word)
    word = re.sub(r"([A-Z]+)([A-Z][a-z])", r"\1_\2", word)
    return word.lower()


def camel_part(part):
    return snake(part) if re.match(r"^[a-z][A-Za-z0-9_]*[A-Z]", part) else part


antt = sorted(glob.glob("crates/*/specs/**/*.antt", recursive=True) + glob.glob("crates/*/proofs/**/*.antt", recursive=True))
sources = sorted(glob.glob("crates/*/src/**/*.rt", recursive=True))
pages = sorted(["README.md", "samples/README.md"] + [p for p in glob.glob("docs/*.md") if not p.startswith("docs/PORT")])
text = {f: open(f, encoding="utf-8").read() for f in antt + sources + pages}


def is_lemma_file(f):
    return "/specs/" in f or re.match(r"^crates/[^/]+/proofs/[^/]+$", f)


def code_lines(f):
    for line in text[f].split("\n"):
        mark = "--" if f.endswith(".antt") else "//"
        yield re.split(r"(?:^|\s)" + mark + r"(?:\s|$)", line, maxsplit=1)[0]


tokens = collections.Counter()
dashed = {}
specs = set()
camel = set()
for f in antt + sources:
    for line in code_lines(f):
        if f.endswith(".antt") and is_lemma_file(f):
            for m in TOKEN.finditer(re.sub(r"^\s*(?:pub )?use [^{\s]*", "", line)):
                if m.start() == 0 or line[m.start() - 1] != ".":
                    tokens[m.group(0)] += 1
        for t in TOKEN.findall(line):
            for part in t.split("-"):
                if CAMEL.match(part):
                    camel.add(t)
    if f.endswith(".antt") and is_lemma_file(f):
        for line in code_lines(f):
            m = DEFINED.match(line)
            if m and not re.search(r"[→≡×]", m.group(1)):
                name = m.group(1)
                if "/specs/" in f:
                    specs.add(name)
                if "-" in name and not MADE.search(name):
                    dashed[name] = f


def camel_of(t):
    return "-".join(camel_part(p) for p in t.split("-"))


words = {camel_of(s) for s in specs} | LIBRARY


def is_name(part):
    return part in words or part[:1].isupper()


def undash(name):
    parts = camel_of(name).split("-")
    out = parts[0]
    for i in range(1, len(parts)):
        left, right = out.split("-")[-1], parts[i]
        keep = (is_name(left) and is_name(right)) or left[:1].isupper()
        if not (re.match(r"^[A-Za-z0-9_']+$", left) and re.match(r"^[A-Za-z0-9_']+$", right)):
            keep = True
        out += ("-" if keep else "_") + right
    return out


# a word of specs/ takes its name in snake case; a lemma whose name falls together with another gets `_lem`
table = {}
taken = set(tokens)
for t in sorted(camel):
    new = camel_of(t)
    if t in dashed:
        continue
    if new in tokens:
        table[new] = new + "_lem"
    table[t] = new
    taken.add(new)
for t in sorted(dashed):
    new = undash(t)
    if new == t:
        continue
    if new in taken or new in table:
        new += "_lem"
    table[t] = new
    taken.add(new)

USE = re.compile(r"^\s*(?:ghost )?(?:pub )?use (\S+)\.\{([^}]*)\}")


def turn_code(line, known):
    def one(m):
        t = m.group(0)
        if t not in table:
            return t
        if any(CAMEL.match(p) for p in t.split("-")):
            return table[t]
        before = line[m.start() - 1] if m.start() else " "
        if before == "." or (known is not None and t not in known):
            return t
        return table[t]
    return TOKEN.sub(one, line)


def turn_comment(line):
    return re.sub(r"`([^`]*)`", lambda m: "`" + TOKEN.sub(lambda k: table.get(k.group(0), k.group(0)), m.group(1)) + "`", line)


count = 0
for f in antt + sources:
    mark = "--" if f.endswith(".antt") else "//"
    known = None
    if f.endswith(".antt") and not is_lemma_file(f):
        known = set()
        for line in text[f].split("\n"):
            m = USE.match(line)
            if m:
                known |= {n.strip().split(" as ")[0] for n in m.group(2).split(",")}
    out = []
    for line in text[f].split("\n"):
        m = re.search(r"(?:^|\s)" + mark + r"(?:\s|$)", line)
        if f.endswith(".rt") and '"' in line.split("//")[0] and "clause" not in line:
            out.append(line)
            continue
        if m:
            out.append(turn_code(line[:m.start()], known) + line[m.start():m.end()] + turn_comment(line[m.end():]))
        else:
            out.append(turn_code(line, known))
    new = "\n".join(out)
    if new != text[f]:
        open(f, "w", encoding="utf-8").write(new)
        count += 1
for f in pages:
    new = "\n".join(turn_comment(line) for line in text[f].split("\n"))
    if new != text[f]:
        open(f, "w", encoding="utf-8").write(new)
        count += 1
for t, new in sorted(table.items()):
    print("renamed:", t, new)
print("files:", count, "names:", len(table))
