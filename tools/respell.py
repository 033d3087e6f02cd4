#!/usr/bin/env python3
"""Brings the repository's own definitions and lemmas to the spelling of today's Rattle, after port.py has run.

usage: python3 tools/respell.py          at the top of the repository: rewrites crates/ in place by the list in respelled.txt
       python3 tools/respell.py --list   only prints what it would rename, from which the list was made, and which names
                                         fall together

A word is in snake case; a dash only joins two names, as in `has-or`, where the first is the word that the lemma is about; a
fact keeps its capital in a lemma's name, as in `Decides-opens`. Names that Rattle makes (those of goals and steps) and names
of src/ stay.
"""

import collections
import os
import re
import sys

TOKEN = re.compile(r"[^\s(){}\[\];,.\"«»|]+")
SIGNATURE = re.compile(r"^(\s*)((?:(?:abbrev|unfoldable|pub|record|data)\s+)*)([^\s:(){}.;,=|]+)\s+(?::|\(.*\)\s*(?:\{.*\}\s*)?:|\{.*\}\s*(?:\(.*\)\s*)?:)\s?(.*)$")
# names that would fall together with another: what stands in their place
INSTEAD = {
    "all-roles": "all_roles-stretches",
    "no-tree": "no_tree_lem",
    "edges-fault": "edge_rows_fault",
    "shelf-fault": "shelves_fault",
}


def files(suffix):
    for folder, dirs, names in os.walk("crates"):
        dirs[:] = sorted(d for d in dirs if d not in ("out", "data", "must-fail"))
        for name in sorted(names):
            if name.endswith(suffix):
                yield os.path.join(folder, name)


def read(path):
    with open(path, encoding="utf-8") as f:
        return f.read()


def declared():
    """The names that specs/ and proofs/ declare: a set of kinds for each, of 'word', 'part' (of a record or data) and 'lemma'."""
    found = collections.defaultdict(set)
    for path in files(".antt"):
        block = -1
        for line in read(path).splitlines():
            indent = len(line) - len(line.lstrip())
            if line.strip() and indent <= block:
                block = -1
            if re.match(r"\s*(?:pub )?(?:record|data) .*where$", line):
                block = indent
            if line.lstrip().startswith(("--", "use ", "mod ", "pub mod ", "module ", "let ", "∙", "λ")):
                continue
            m = SIGNATURE.match(line)
            if m and "goal." not in m[4]:
                word = "abbrev" in m[2] or "unfoldable" in m[2]
                found[m[3]].add("part" if 0 <= block < indent else "word" if word else "lemma")
    return found


def snake(name):
    name = re.sub(r"(?<=[a-z0-9])([A-Z])", lambda m: "_" + m[1].lower(), name)
    return name.replace("-", "_")


def spelled(name, kinds, words):
    """The name in today's spelling: words are the definitions, in their new spelling."""
    if name in INSTEAD:
        return INSTEAD[name]
    if not name[0].isalpha() or not name[0].islower():
        return name
    if "part" in kinds:
        return snake(name)
    parts = name.split("-")
    if parts[0] == "decides" and len(parts) > 1:
        return "Decides-" + snake("-".join(parts[1:]))
    for k in range(len(parts) - 1, 0, -1):
        head = snake("-".join(parts[:k]))
        if head in words:
            return head + "-" + snake("-".join(parts[k:]))
    return snake(name)


def renames():
    found = declared()
    words = {snake(n) for n, kinds in found.items() if "word" in kinds and n[0].islower()}
    return {n: spelled(n, kinds, words) for n, kinds in found.items() if spelled(n, kinds, words) != n}, found


def listed():
    """The names of respelled.txt, the list that is kept so that every tree is turned alike."""
    with open(os.path.join(os.path.dirname(os.path.realpath(__file__)), "respelled.txt"), encoding="utf-8") as f:
        return dict(line.strip().split(" -> ") for line in f)


def respell(text, names):
    """Each token that is one of the names, but for those that Rattle makes: they follow `c.`, `l.` or `goal.`."""

    def turn(m):
        new = names.get(m[0])
        if new is None or re.search(r"(?<![\w'])(?:c|l|goal)\.$", text[max(0, m.start() - 6) : m.start()]):
            return m[0]
        return new

    return TOKEN.sub(turn, text)


def together(names, found):
    """Names that fall together with another, or with a word that a file has already."""
    said = []
    to = collections.defaultdict(set)
    for old, new in names.items():
        to[new].add(old)
    for new, olds in sorted(to.items()):
        if len(olds) > 1:
            said.append(f"{new}: from {', '.join(sorted(olds))}")
        if new in found:
            said.append(f"{new}: stands already, and {', '.join(olds)} would become it")
    for path in list(files(".antt")) + list(files(".rt")):
        tokens = set(TOKEN.findall(read(path)))
        for old, new in names.items():
            if old in tokens and new in tokens:
                said.append(f"{path}: has {new} beside {old}")
    return said


def main(argv):
    if argv == ["--list"]:
        names, found = renames()
        for old, new in sorted(names.items()):
            print(f"{old} -> {new}")
        print("\n".join(["fall together:"] + together(names, found)))
        return 0
    if argv:
        print(__doc__)
        return 2
    names = listed()
    changed = 0
    for path in list(files(".antt")) + list(files(".rt")):
        before = read(path)
        after = respell(before, names)
        if after != before:
            with open(path, "w", encoding="utf-8") as f:
                f.write(after)
            changed += 1
    print(f"{len(names)} names, {changed} files")
    return 0


if __name__ == "__main__":
    raise SystemExit(main(sys.argv[1:]))
