#!/usr/bin/env python3
"""Spells the definitions and lemmas of this repository as today's Rattle does: snake case, and types in upper camel case.

usage: tools/respell.py [--list]     at the top of the repository, once, right after the toolchain's own respelling

A name that crates/*/specs or crates/*/proofs declares and that has a dash or an inner capital is turned:
  a type            Maps-compose   MapsCompose
  anything else     sideText       side_text
                    short-buffer   short_buffer
but a dash between the full names of functions stays, as in length-splice: that is today's spelling of a lemma about both.
Names that Rattle makes (goals and what stands behind c., g., goal.) stay, and so do the functions of src/, strings and outputs.
Two names that would fall together in one file are refused, and nothing is written; OTHERWISE says how such a name is spelled.
--list writes nothing and prints the table.
"""

import collections
import os
import re
import sys

NAME = r'[^\s(){}.;,@"«»]+'
DECLARED = re.compile(
    rf"(?m)^( *)((?:(?:abbrev|unfoldable|pub|pattern|inline) )*)(?:(record|data|module) )?({NAME})((?: \{{[^{{}}\n]*\}})*)((?: \([^()\n]*\))*) : ?(.*)$"
)
# The library's functions that lemmas of this repository are about.
LIBRARY = "length take drop append map replicate min max sum all filter".split()
# Heads of what Rattle makes: the name behind them is a label.
MADE = {"c", "g", "l", "d", "w", "e", "n", "h", "goal", "need", "given", "at", "args", "now", "old", "new", "last", "initial"}
# Where the rule would make two names one.
OTHERWISE = {
    "rows_of": "laid_rows",
    "rows-of": "rows_of",
    "sheet-of": "sheet_of_lem",
    "side-of": "side_of_lem",
    "sheets-before": "sheets_before_lem",
    "body-of": "body_of_lem",
    "put-mid": "put_mid_lem",
    "part-shown": "part_shown_lem",
    "four-turns": "four_turns_lem",
}
GHOST = re.compile(r"ghost use [^;]*;|\b(?:requires|ensures)\*?(?: \w+)? \{|\bghost\b[^;{]*\{|#\[tactic[^\]]*\]")


def files(*endings):
    for root, folders, names in os.walk("crates"):
        folders[:] = sorted(d for d in folders if d != "out")
        for name in sorted(names):
            if name.endswith(endings):
                yield os.path.join(root, name)


def read(path):
    with open(path, encoding="utf-8") as f:
        return f.read()


def declared():
    """Each declared name, whether it is a type, and the files that declare it."""
    found = collections.defaultdict(lambda: [False, set()])
    for path in files(".antt"):
        for m in DECLARED.finditer(read(path)):
            name, kind, ty = m[4], m[3], m[7].strip()
            if ty == "goal." + name or kind == "module" or name == "--":
                continue
            found[name][0] |= kind in ("record", "data") or re.search(r"Type( \d)?( where)?$", ty) is not None
            found[name][1].add(path)
    return found


def snake(word):
    word = re.sub(r"(?<=[a-z0-9'])[A-Z]", lambda m: "_" + m[0], word)
    return word.lower()


def camel(word):
    return "".join(p[:1].upper() + p[1:] for p in re.split("[-_]", word))


def table():
    found = declared()
    whole = {snake(n) for n, (ty, places) in found.items() if "-" not in n and not ty and any("/specs/" in p for p in places)} | set(LIBRARY)
    turned = {}
    for name, (is_type, _) in sorted(found.items()):
        if name in OTHERWISE:
            new = OTHERWISE[name]
        elif is_type:
            new = camel(name) if "-" in name else name
        elif "-" not in name:
            new = snake(name)
        else:
            parts = [snake(p) for p in name.split("-")]
            new = ("-" if all(p in whole for p in parts) and any(p in LIBRARY or "_" in p for p in parts) else "_").join(parts)
        if new != name:
            turned[name] = new
    return turned


TOKEN = re.compile(rf'"(?:\\.|[^"\\\n])*"|--[^\n]*|{NAME}')


def turn(text, names, comments=True):
    """The text with its names turned. A dashed name behind a head of Rattle's own is a label, and stays."""

    def one(m):
        word = m[0]
        if word.startswith('"'):
            return word
        if word.startswith("--"):
            return re.sub(r"(?<![\w-])[a-z]+(?:[A-Z][a-z0-9]*)+(?![\w-])", lambda k: names.get(k[0], k[0]), word) if comments else word
        if word not in names:
            return word
        if "-" in word and text[m.start() - 1 : m.start()] == ".":
            before = re.search(rf"({NAME})\.$", text[max(0, m.start() - 200) : m.start()])
            if before is None or not before[1][:1].isupper():
                return word
        return names[word]

    return TOKEN.sub(one, text)


def turn_source(text, names):
    """In Rust, what stands in clauses and ghost items; a name with an inner capital also in comments."""
    out, at = [], 0
    while True:
        m = GHOST.search(text, at)
        if m is None:
            break
        out.append(text[at : m.start()])
        end = m.end()
        if m[0].endswith("{"):
            deep = 1
            while deep and end < len(text):
                deep += (text[end] == "{") - (text[end] == "}")
                end += 1
        out.append(turn(text[m.start() : end], names))
        at = end
    out.append(text[at:])
    return "".join(out)


def turn_edit(text, names, found):
    """In an edit, names with an inner capital: no Rust code has them but in clauses."""
    return re.sub(r"(?<![\w-])[a-z]+(?:[A-Z][a-z0-9]*)+(?![\w-])", lambda k: names.get(k[0], k[0]), text)


def main():
    names = table()
    if "--list" in sys.argv:
        for old, new in names.items():
            print(f"{old}\t{new}")
        return 0
    texts, bad = {}, []
    for path in files(".antt", ".rt", ".edit"):
        text = read(path)
        if path.endswith(".antt"):
            new = turn(text, names)
        elif path.endswith(".rt"):
            new = turn_source(text, names)
        else:
            new = turn_edit(text, names, None)
        if path.endswith(".antt"):
            words = set(re.findall(rf"(?<!\.){NAME}(?!\.)", re.sub(r"--[^\n]*", "", text)))
            by_new = collections.defaultdict(set)
            for w in words:
                by_new[names.get(w, w)].add(w)
            for w, olds in by_new.items():
                if len(olds) > 1:
                    bad.append(f"{path}: {' '.join(sorted(olds))} would all be {w}")
        if new != text:
            texts[path] = new
    if bad and "--force" not in sys.argv:
        print("\n".join(bad))
        return 1
    for path, text in texts.items():
        with open(path, "w", encoding="utf-8") as f:
            f.write(text)
    print(f"{len(names)} names, {len(texts)} files")
    return 0


if __name__ == "__main__":
    raise SystemExit(main())
