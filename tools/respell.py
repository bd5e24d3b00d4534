#!/usr/bin/env python3
"""Brings the names of definitions, lemmas, fields and constructors to one spelling: words in snake case, types in camel case.

usage: tools/respell.py [--list|--again]      at the top of the repository, once; --list only prints old and new name. With --again, after a
first run, only names that are still in the old spelling change

It renames what the .antt files of this repository define and no library does: camelCase and dashes become snake_case, a type keeps its capitals.
Code of src/ keeps its names; in .rt files only clauses and imports of ghost names change.
"""

import glob
import re
import sys

FILES = sorted(glob.glob("crates/*/specs/**/*.antt", recursive=True) + glob.glob("crates/*/proofs/**/*.antt", recursive=True))
TOKEN = re.compile(r"[^\s(){}\[\].,;«»\"`]+")
TOP = re.compile(r"^(?:(?:abbrev|unfoldable|pub|opaque)\s+)*(?:(?:record|data|ruleset)\s+)?([^\s(){}:=.]+)\s*(?:[({:=]|where)")
MEMBER = re.compile(r"^\s+(?:\|\s*)?(?:(?:abbrev|unfoldable|pub)\s+)*([^\s(){}:=.,]+)\s*:\s")
NOT_NAMES = {"use", "mod", "pub", "unfolding", "open", "abbrev", "unfoldable", "record", "data", "let", "where", "syntax"}
# Names that would fall together with another one in a file, and the name that each gets.
BY_HAND = {"atRest": "is_at_rest", "outOfRange": "out_of_range_part"}
# Lemmas that have the name which a definition gets: a lemma gives way.
LEMMAS = {"by_number", "row_from", "count_by", "by_value", "by_mode", "by_partial", "step_after", "goes_down", "lines_after"}


def snake(name):
    parts = []
    for part in name.split("-"):
        if part and part[0].isupper():
            parts.append(part)
        else:
            part = re.sub(r"(?<=[a-z0-9])(?=[A-Z])", "_", part)
            part = re.sub(r"(?<=[A-Z])(?=[A-Z][a-z])", "_", part)
            parts.append(part.lower())
    return "_".join(parts)


def defined():
    """The names that this repository defines, and those that it imports from elsewhere."""
    ours, foreign = {}, set()
    crates = {f.split("/")[1] for f in FILES}
    for f in FILES:
        inside = None
        for line in open(f, encoding="utf-8"):
            if line.startswith("--") or not line.strip():
                continue
            if re.match(r"(pub )?use ", line):
                at = re.match(r"(?:pub )?use\s+([^\s{]+)", line).group(1)
                words = at.split(".")
                own = words[0] == "Rattle" and len(words) > 1 and words[1] in crates and "declared" not in words and "contracts" not in words
                if not own and "{" in line:
                    for item in re.search(r"\{(.*)\}", line).group(1).split(","):
                        foreign.add(item.strip().split(" as ")[0].strip())
                continue
            if not line[0].isspace():
                inside = None
                m = TOP.match(line)
                if m and m.group(1) not in NOT_NAMES:
                    ours.setdefault(m.group(1), set()).add(f)
                if re.match(r"(pub )?(abbrev )?(pub )?(record|data)\b", line):
                    inside = True
            else:
                m = MEMBER.match(line)
                if m and m.group(1) not in NOT_NAMES:
                    ours.setdefault(m.group(1), set()).add(f)
    return ours, foreign


def renaming():
    ours, foreign = defined()
    new = {}
    for name in ours:
        if name in BY_HAND:
            new[name] = BY_HAND[name]
            continue
        if name[0].isupper() and "-" not in name:
            continue
        if name in foreign or not re.search(r"[A-Z]|-", name):
            continue
        if re.search(r"[^A-Za-z0-9_'\-]", name):
            continue
        new[name] = snake(name)
    functions = {now for name, now in new.items() if "-" not in name} | {name for name in ours if name not in new}
    for name in new:
        if "-" in name and new[name] in functions and new[name] not in LEMMAS:
            new[name] += "_lem"
    return new, ours, foreign


def lemmas_give_way(text):
    """A lemma of the name of a definition gets `_lem`; what stands behind a dot is a part of the code, or of a path."""
    return re.sub(r"(?<![^\s(){}\[\],;])(" + "|".join(sorted(LEMMAS)) + r")(?![^\s(){}\[\].,;])", r"\1_lem", text)


def respell(text, new, only=None):
    return TOKEN.sub(lambda m: new.get(m.group(0), m.group(0)), text)


def respell_source(text, new):
    """A .rt file: ghost imports, and clauses (between the braces of requires, ensures, ghost and invariant)."""
    out, i = [], 0
    clause = re.compile(r"ghost use [^;]*;|(?:requires|ensures|ghost|invariant)\b[^;{]*\{")
    while True:
        m = clause.search(text, i)
        if not m:
            out.append(text[i:])
            return "".join(out)
        if m.group(0).startswith("ghost use"):
            end = m.end()
        else:
            depth, end = 1, m.end()
            while depth and end < len(text):
                depth += {"{": 1, "}": -1}.get(text[end], 0)
                end += 1
        out.append(text[i : m.start()])
        out.append(respell(text[m.start() : end], new))
        i = end


def main():
    new, ours, foreign = renaming()
    if "--list" in sys.argv:
        for a, b in sorted(new.items()):
            print(a, b)
        return
    for f in FILES:
        old = open(f, encoding="utf-8").read()
        now = respell(lemmas_give_way(old) if "--again" not in sys.argv else old, new)
        if now != old:
            open(f, "w", encoding="utf-8").write(now)
    for f in sorted(glob.glob("crates/*/src/**/*.rt", recursive=True)):
        old = open(f, encoding="utf-8").read()
        now = respell_source(old, new)
        if now != old:
            open(f, "w", encoding="utf-8").write(now)
    for f in sorted(glob.glob("crates/*/must-fail/*.edit")):
        lines = open(f, encoding="utf-8").read().split("\n")
        source, done = "", []
        for line in lines:
            if line.startswith("file:"):
                source = line
            if line.startswith(("old:", "new:")):
                camel = {a: b for a, b in new.items() if source.endswith(".antt") or "-" not in a}
                line = respell(line, camel)
            done.append(line)
        if done != lines:
            open(f, "w", encoding="utf-8").write("\n".join(done))
    for f in sorted(glob.glob("docs/*.md") + ["README.md", "CONTRIBUTING.md"]):
        old = open(f, encoding="utf-8").read()
        now = re.sub(r"`[^`\n]+`", lambda m: respell(m.group(0), new), old)
        if now != old:
            open(f, "w", encoding="utf-8").write(now)


if __name__ == "__main__":
    main()
