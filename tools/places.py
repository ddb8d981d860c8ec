#!/usr/bin/env python3
"""Lists places of the source that an older Rattle would write so, by patterns, for each point of docs/DESIGN-PASS.md.

    python3 tools/places.py [--list] [ROOT]

A hit is a place to read and no verdict: docs/DESIGN-PASS.md says which hits are places, and what became of them.
"""
import re
import sys
from collections import Counter, defaultdict
from pathlib import Path

show = "--list" in sys.argv
words = [w for w in sys.argv[1:] if not w.startswith("--")]
root = Path(words[0] if words else ".")
sources = sorted(root.glob("crates/*/src/**/*.rt"))

PATTERNS = [
    # 1: Option, Result and enums
    ("1a", "a refusal or None passed on by hand", r"Err\((\w+)\) => (return )?Err\(|Ok\((\w+)\) => Ok\(\3\)|\bNone => (return )?None\b"),
    ("1b", "let .. else that only returns None or Err", r"else \{\s*return (None|Err\([^;]*\));"),
    ("1c", "if let that only returns Err", r"if let (Err|Some)\([^{]*\{\s*return Err\("),
    ("1d", "an error dropped for None or a number by a match", r"Err\(_\) => (None|\d+|true|false)\b|Err\(_\) => unreachable"),
    ("1e", "a number that stands for none", r", or 0\b|\b0 is a blank|\b0 past\b|\b0 where there\b|else \{ 0 \}|\bor 0\.|\b0 and no"),
    ("1f", "a flag: field, parameter or variable", r"\b\w+: bool\b|let mut \w+ = (true|false);"),
    ("1g", "an enum of the repository", r"^(pub(\(crate\))? )?enum \w+"),
    ("1h", "a refusal written out field by field", r"Fault \{\s*kind"),
    # 3: loops
    ("3a", "while", r"^\s*(while|loop)\b(?! let Some\(\w+\) = \w+\.next\(\))"),
    ("3b", "for over a range", r"for \w+ in [^{]*\.\.[^{]*\{"),
    ("3c", "a counter counted by hand", r"^\s*\w+(\.\w+)? (\+|-)= [12];|^\s*(count|number|n|k|i|total|at|end|rest|cell\.\w+) (\+|-|=)=? [^;]*\b(saturating_add|\+ 1)\b[^;]*;"),
    ("3d", "an index taken from enumerate", r"\.enumerate\(\)"),
    # 4: equality, conversion, printing
    ("4a", "a comparison, copy or hash by hand", r"^impl.*\b(PartialEq|Eq|Ord|PartialOrd|Clone|Copy|Hash)\b.* for "),
    ("4b", "a conversion by hand", r"fn (number|name|to_\w+|from_\w+|of_\w+|\w+_of|digit|read|side_name|face|side_of|narrow|shown|numbered|placed|pulled)\("),
    ("4c", "fields taken out to be printed", r"^\s*let (\w+|\([\w, ]+\)) = (\(?(self|size|map|placement|fault)\.\w+.*)\);|^\s*let (\w+) = self\.\4;"),
    # 6: buffers
    ("6a", "an array of a fixed size", r"\[[\w:]+; \w+\]"),
    ("6b", "a length or count beside", r"^\s*(pub )?(count|len|length): (usize|u32|u8),"),
    ("6c", "reads by index", r"\b[a-z_]\w*\[[a-z_][\w. +*-]*\](?!\()"),
    # 7: switches
    ("7a", "function pointers and tables", r"\bfn\(|&dyn|Box<dyn"),
    ("7b", "a match on a call, step, rule or order", r"match (call|order|self|choice|command|word|kind|turn) \{"),
]

hits = defaultdict(list)
for path in sources:
    text = path.read_text()
    for key, _, pattern in PATTERNS:
        for m in re.finditer(pattern, text, re.M):
            line = text.count("\n", 0, m.start()) + 1
            hits[key].append((f"{path.relative_to(root)}:{line}", " ".join(m.group(0).split())[:90]))

# 2: functions of a crate that differ only in names: the body with each word that is the function's own put aside
bodies = defaultdict(list)
PART = re.compile(r"^( *)(?:pub(?:\(crate\))? )?fn (\w+)", re.M)
requires, groups = defaultdict(set), defaultdict(set)
for path in sources:
    crate = path.relative_to(root).parts[1]
    text = path.read_text()
    for m in PART.finditer(text):
        indent, name = m.group(1), m.group(2)
        end = re.search(r"^" + indent + r"(\}|.*;)$", text[m.end():], re.M)
        body = text[m.start():m.end() + (end.end() if end else 0)]
        where = f"{path.relative_to(root)}:{text.count(chr(10), 0, m.start()) + 1}"
        code = re.sub(r"^\s*(requires|ensures).*$", "", body, flags=re.M)
        inner = code[code.find("{"):] if "{" in code else ""
        shape = re.sub(r"\b[A-Za-z_]\w*\b|\d+|b?\"[^\"]*\"", "x", " ".join(inner.split()))
        if len(shape) > 60:
            bodies[shape].append((where, name))
        for clause in re.findall(r"^\s*requires (?:\w+ )?\{ (.*) \}$", body, re.M):
            for fact in clause.split(" × "):
                requires[crate, fact].add(name)
        head = body[body.find("("):body.find(")")]
        given = re.findall(r"(\w+): (&?(?:mut )?(?:\[\w+\]|[\w:]+))", head)
        for i in range(len(given)):
            for j in range(i + 1, len(given)):
                groups[crate, f"{given[i][0]}, {given[j][0]}"].add(name)

for shape, places in bodies.items():
    if len(places) > 1:
        hits["2a"].append((places[0][0], " ~ ".join(n for _, n in places)))
for (crate, fact), names in requires.items():
    if len(names) >= 3:
        hits["5a"].append((crate, f"{fact}: {', '.join(sorted(names))}"))
for (crate, pair), names in groups.items():
    if len(names) >= 3:
        hits["5b"].append((crate, f"{pair}: {', '.join(sorted(names))}"))
for path in sources:
    crate = path.relative_to(root).parts[1]
    terms = Counter()
    for clause in re.findall(r"ensures [^{]*\{(.*)\}$", path.read_text(), re.M):
        terms.update(set(re.findall(r"\([\w.]+(?: [\w.]+| \([\w. ]+\))+\)", clause)))
    for term, n in terms.items():
        if n >= 3 and len(term) > 24:
            hits["5c"].append((str(path.relative_to(root)), f"{term} in {n} clauses"))

EXTRA = [("2a", "functions of one shape"), ("5a", "a fact required by three functions and more"),
         ("5b", "two parameters that travel together through three functions and more"),
         ("5c", "a term that stands in three clauses of a file and more")]
for key, title in sorted([(k, t) for k, t, _ in PATTERNS] + EXTRA):
    print(f"{key} {len(hits[key]):4} {title}")
    if show:
        for where, what in hits[key]:
            print(f"        {where}  {what}")

# 8: proofs
answers = sum(len(re.findall(r"^pub \S+ : goal", p.read_text(), re.M)) for p in root.glob("crates/*/proofs/**/Answers.antt"))
lemma_lines = sum(len(p.read_text().splitlines()) for p in root.glob("crates/*/proofs/*.antt"))
all_lines = sum(len(p.read_text().splitlines()) for p in root.glob("crates/*/proofs/**/*.antt"))
print(f"8a {answers:4} answers in proofs/")
print(f"8b {lemma_lines:4} lines of lemma files in proofs/")
print(f"8c {all_lines:4} lines in proofs/ in all")
