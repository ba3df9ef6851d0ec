#!/usr/bin/env python3
"""Lists where the code may have a form of an older Rattle, point by point as docs/DESIGN-PASS.md numbers them.

    python3 tools/places.py [COMMIT]

reads src/ of every crate as it stands in the checkout, or at a commit. It goes by text and lists too much rather
than too little: docs/DESIGN-PASS.md says of each line whether it is a place, and what became of it.
"""
import collections
import re
import subprocess
import sys

COMMIT = sys.argv[1] if len(sys.argv) > 1 else None
ITEM = re.compile(r"^\s*(?:pub(?:\(crate\))? )?(fn|struct|enum|trait|const|impl\S*) ([\w<>' ,:]+?)(?=[(<{:;\s])", re.M)


def files():
    ls = ["git", "ls-tree", "-r", "--name-only", COMMIT, "crates"] if COMMIT else ["git", "ls-files", "crates"]
    names = subprocess.run(ls, capture_output=True, text=True, check=True).stdout.split()
    for name in sorted(n for n in names if "/src/" in n and n.endswith(".rt")):
        if COMMIT:
            yield name, subprocess.run(["git", "show", f"{COMMIT}:{name}"], capture_output=True, text=True, check=True).stdout
        else:
            yield name, open(name, encoding="utf-8").read()


SOURCES = list(files())


def head(title):
    print(f"\n{title}")


def lines(pattern, skip=None):
    """Each line that has the pattern, comments and imports aside."""
    n = 0
    for name, text in SOURCES:
        for i, line in enumerate(text.split("\n"), 1):
            code = line.split("//")[0]
            if re.match(r"\s*(ghost )?use ", code) or not re.search(pattern, code):
                continue
            if skip and re.search(skip, code):
                continue
            n += 1
            print(f"  {name[7:]}:{i}: {code.strip()[:110]}")
    print(f"  = {n}")


head("1a. Enums (which have the shape of Option or Result?)")
lines(r"^\s*(pub(\(crate\))? )?enum ")
head("1b. An Option inside a Result, where none means a fault")
lines(r"Result<Option<", skip=r"Result<Option<u8>|Option<Held>")
head("1c. Flags")
lines(r"\bbool\b")
head("1d. Numbers that stand for a kind, a refusal or none")
lines(r"\bNONE\b|fn (number|code)\b|_CODE\b")

head("2. Items of one name in two files, new, fmt, main and methods of a trait's impl aside")
seen = collections.defaultdict(set)
for name, text in SOURCES:
    for m in re.finditer(r"^(?:pub(?:\(crate\))? )?(fn|struct|enum|trait|const) (\w+)", text, re.M):
        seen[m.group(1), m.group(2)].add(name[7:])
twins = {k: v for k, v in seen.items() if len(v) > 1 and k[1] not in ("new", "fmt", "main")}
for (kind, word), places in sorted(twins.items()):
    print(f"  {kind} {word}: {', '.join(sorted(places))}")
print(f"  = {len(twins)}")
head("2b. Functions of one file whose text differs in a word or two")
n = 0
for name, text in SOURCES:
    bodies = []
    for m in re.finditer(r"^[ ]*(?:pub(?:\(crate\))? )?fn (\w+)[^{]*?(?:\{[^{}]*\}[^{]*?)*?\n[ ]*\{\n(.*?)\n[ ]*\}\n", text, re.M | re.S):
        bodies.append((m.group(1), re.findall(r"\w+|\S", m.group(2))))
    for i, (f, a) in enumerate(bodies):
        for g, b in bodies[i + 1:]:
            if len(a) == len(b) >= 8 and sum(x != y for x, y in zip(a, b)) * 4 <= len(a):
                n += 1
                print(f"  {name[7:]}: {f}, {g}")
print(f"  = {n}")

head("3. Loops: by while, over a range of numbers, or with a count kept by hand")
lines(r"^\s*(while|loop)\b|^\s*for \w+ in [^{]*\.\.|^\s*at \+= ")

head("4a. Conversions by hand")
lines(r"fn (new|code|number|moved|of_piece)\b.*(-> Option<|-> u(8|32|64)\b|\{ *$|$)", skip=r"-> (Slip|Sums|OpenTally|Counter|Remembering|Limits)\b")
head("4b. Order, equality and copies by hand")
lines(r"fn (by_number|eq|cmp|partial_cmp|clone)\b|impl.* (PartialEq|Ord|PartialOrd|Clone) for|^\s*\w+\[\d\] = ")
head("4c. Printing by hand")
lines(r"format!\(|fn order_name")

head("5a. Clauses that stand in three contracts or more")
clauses = collections.Counter()
where = collections.defaultdict(set)
for name, text in SOURCES:
    for m in re.finditer(r"^\s*(?:requires|ensures)(?: \w+)? \{ (.*) \}$", text, re.M):
        c = re.sub(r"\b(self|memory)\.", "m.", m.group(1))
        c = re.sub(r"\.(old|now|entry)\b", ".now", c)
        clauses[c] += 1
        where[c].add(name[7:])
n = 0
for c, k in clauses.most_common():
    if k >= 3:
        n += 1
        print(f"  {k} times: {c[:150]}   ({', '.join(sorted(where[c]))})")
print(f"  = {n}")
head("5b. Parameters that travel together, in three functions or more")
groups = collections.Counter()
for name, text in SOURCES:
    for m in re.finditer(r"^[ ]*(?:pub(?:\(crate\))? )?fn \w+[^(]*\(([^)]*)\)", text, re.M):
        ps = sorted({p.split(":")[0].replace("mut", "").strip(" &_\n") for p in m.group(1).split(",") if ":" in p})
        for i, p in enumerate(ps):
            for q in ps[i + 1:]:
                groups[p, q] += 1
n = 0
for (p, q), k in groups.most_common():
    if k >= 3:
        n += 1
        print(f"  {k} functions: {p}, {q}")
print(f"  = {n}")

head("6. Borrowed buffers in structs, and places in a table")
lines(r"^\s*(pub(\(crate\))? )?\w+: (&'\w+ mut \[|u16,)")

head("7. A match on which step to run, and functions by pointer or dyn")
lines(r"match (\w+\.)*(side|kind)\b|\bdyn\b|: fn\(")
