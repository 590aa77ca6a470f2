#!/usr/bin/env python3
"""Brings the repository's own names to today's spelling, after the kit's port.py: run once, at the top of the checkout.

Definitions, fields and lemmas of crates/*/specs and crates/*/proofs are in snake case: `startSeats` becomes `start_seats`, and the dashes
of a lemma's name become underscores, but for a dash between the names of two functions, as in `length-take`. Types, and facts that are
spelled as types, keep their names, and so do the functions of src/ and whatever comes from the kit. Lemmas that would get a definition's name, in
APART, end with `_lem`. The must-fail edits, README.md and docs/ (but for the notes on requests and on the port) follow.
"""
import glob
import re
import sys

# A name of an antt file; a dash joins only parts of a name.
TOKEN = re.compile(r"(?<![\w'·-])([A-Za-z_ℕℤ][\w'·₀-₉ℕℤ]*(?:-[\w'·₀-₉ℕℤ*+≤<=]+)*)")
CAMEL = re.compile(r"^[a-z][a-z0-9]*[A-Z]|-[a-z][a-z0-9]*[A-Z]")
KIT_FUNCTIONS = set("sum length map take drop set get_or append replicate cond reverse min ltb eqb leb".split())
# Names that would fall together with another one, and what they are called in their place.
APART = {name: name.replace("-", "_") + "_lem" for name in (
    "all-reach arrivals-long at-most falls-before few-states head-formed line-ill-formed line_read line_refused nearest-rounded nearest-up-to none-due "
    "not-below own-seats pair-formed people-within place-within quotient-test ranking-long released-all same-states seats-long seats-within states-fit"
).split()}

files = sorted(glob.glob("crates/*/specs/**/*.antt", recursive=True) + glob.glob("crates/*/proofs/**/*.antt", recursive=True))
sources = sorted(glob.glob("crates/*/src/**/*.rt", recursive=True))
own = {line.split(":")[0].split()[0] for line in open("crates.txt") if ":" in line and not line.startswith("#")}
text = {f: open(f, encoding="utf-8").read() for f in files + sources}
lemma_files = [f for f in files if not re.search(r"/proofs/[^/]+/", f)]

# What stands in the kit: whatever is imported from there.
kit = set()
for t in text.values():
    for m in re.finditer(r"^\s*(?:pub |ghost )*use ([\w.·'-]+)\.\{([^}]*)\}", t, re.M):
        path = m.group(1).split(".")
        if not (path[0] == "Rattle" and len(path) > 1 and path[1] in own):
            for name in m.group(2).split(","):
                kit.add(name.split(" as ")[0].strip().split(".")[-1])

DEFINED = re.compile(r"^(\s*)(?:(?:abbrev|unfoldable|pub)\s+)*(data\s+|record\s+)?([A-Za-z_][^\s:(){}.]*)\s*(?:(?:\{[^}]*\}|\([^()]*(?:\([^()]*\)[^()]*)*\))\s*)*:\s", re.M)
defined = set()
for f in lemma_files:
    for m in DEFINED.finditer(text[f]):
        if m.group(3) not in ("let", "in", "where"):
            defined.add(m.group(3))
    for m in re.finditer(r"^module\s+(?:pub\s+)?([A-Za-z]\S*)", text[f], re.M):
        defined.discard(m.group(1))


def snake(part):
    return re.sub(r"(?<=[a-z0-9'])([A-Z])", lambda m: "_" + m.group(1).lower(), part) if part[:1].islower() else part


# The functions that a lemma's name can join: the kit's, and those of this repository whose names are no everyday words of a sentence.
words = re.compile(r"^\s*(?:abbrev pub|abbrev|unfoldable pub|unfoldable|pub)\s+([a-z][\w']*)\s*(?=[:({])", re.M)
functions = KIT_FUNCTIONS | {snake(m.group(1)) for f in lemma_files for m in words.finditer(text[f])
                             if m.group(0).lstrip().startswith(("abbrev", "unfoldable")) and "_" in snake(m.group(1))}


def renamed(name):
    if name in APART:
        return APART[name]
    parts = [snake(p) for p in name.split("-")]
    whole = parts[0]
    last = parts[0]
    for p in parts[1:]:
        joins = last in functions and p in functions
        whole += ("-" if joins else "_") + p
        last = p
    return whole


tokens = set()
for f in files + sources:
    tokens |= set(TOKEN.findall(text[f]))
names = {}
for n in sorted(tokens):
    if n in kit or n[:1].isupper() and "-" not in n:
        continue
    if n in APART or n in defined or ("-" not in n and CAMEL.search(n) and "·" not in n):
        new = renamed(n)
        if new != n:
            names[n] = new

# Names that fall together.
back, bad = {}, []
for old, new in names.items():
    back.setdefault(new, []).append(old)
for new, olds in sorted(back.items()):
    if len(olds) > 1:
        bad.append(f"{new}: {', '.join(olds)}")
    if new in tokens or new in kit:
        where = [f for f in files + sources if re.search(r"(?<![\w'·-])" + re.escape(new) + r"(?![\w'·-])", text[f])
                 and any(re.search(r"(?<![\w'·-])" + re.escape(o) + r"(?![\w'·-])", text[f]) for o in olds)]
        if where or new in defined:
            bad.append(f"{new}: {', '.join(olds)} beside it in {', '.join(where)}" + (" DEFINED" if new in defined else ""))
if "--list" in sys.argv:
    for old, new in names.items():
        print(old, new)
    print("\n".join("together: " + b for b in bad))
    raise SystemExit


def turn(m):
    return names.get(m.group(1), m.group(1))


def turn_camel(m):
    n = m.group(1)
    return names[n] if n in names and "-" not in n else n


def turn_quoted(t):
    return re.sub(r"`[^`\n]*`", lambda q: TOKEN.sub(turn, q.group(0)), t)


def turn_line(line, mark):
    """Code in full; a comment's quoted names in full, and elsewhere in it only names in camel case."""
    at = line.find(mark)
    if at < 0:
        return TOKEN.sub(turn, line)
    comment = turn_quoted(line[at:])
    return TOKEN.sub(turn, line[:at]) + TOKEN.sub(turn_camel, comment)


for f in files + sources:
    mark = "--" if f.endswith(".antt") else "//"
    new = "\n".join(turn_line(l, mark) for l in text[f].split("\n"))
    if new != text[f]:
        open(f, "w", encoding="utf-8").write(new)
for f in sorted(glob.glob("crates/*/must-fail/*.edit")):
    t = open(f, encoding="utf-8").read()
    new = "\n".join(l if l.startswith("#") else TOKEN.sub(turn, l) for l in t.split("\n"))
    if new != t:
        open(f, "w", encoding="utf-8").write(new)
for f in ["README.md"] + sorted(glob.glob("docs/*.md")):
    t = open(f, encoding="utf-8").read()
    new = turn_quoted(t)
    if new != t:
        open(f, "w", encoding="utf-8").write(new)
print(f"{len(names)} names")
