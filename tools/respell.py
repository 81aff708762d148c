#!/usr/bin/env python3
"""Respells this repository's own definitions and lemmas: words in snake case, types in camel case, a prime as '.

usage: tools/respell.py [FOLDER]      once, at the top of the repository, on a tree that the toolchain's port.py has just turned
       tools/respell.py --list        prints the table of names and changes nothing

A name is respelled if a file of specs/ or proofs/ of this repository declares it: `Each-line` becomes `EachLine`, `each-has`
becomes `each_has`. Names of the standard library and the names that the toolchain makes for goals and invariants stay.
It goes over .antt files, the ghost parts of .rt files, must-fail edits, and words between backticks in comments and pages.
It stops, with nothing changed, where a new name falls together with another name in a file.
"""

import collections
import os
import re
import sys

NAME = r"[A-Za-z_][\w'′≢≡]*(?:-[\w'′≢≡]+)*"
WORD = re.compile(r"(?<![\w'′≢≡-])" + NAME + r"(?![\w'′≢≡-])")
DECLARED = re.compile(r"^\s*(?:let\s+)?(?:(?:abbrev|record|data|pub|opaque|unfoldable)\s+)*(" + NAME + r")(?:\s+(?:\{[^}]*\}|\([^)]*\)))*\s*:(?!=)")
BOUND = re.compile(r"(?:\blet|\(|,)\s+(" + NAME + r")\s+(?:[^:=(]*)?[:=]")
GOAL = re.compile(r"\bgoal\.(" + NAME + ")")
ALIAS = re.compile(r"^\s*use [^;\n]* as (" + NAME + ")", re.M)
LIBRARY = re.compile(r"use\s+(?:Rattle\.std|native|Prim)[^{;]*\{([^}]*)\}")
COMMENT = re.compile(r"(^|\s)(?:--|//).*$", re.M)
QUOTED = re.compile(r"`[^`\n]*`")


def files(top):
    """Each file that names stand in, by its ending."""
    for folder, folders, names in os.walk(top):
        folders[:] = sorted(f for f in folders if f not in ("out", "target", ".git", "tools"))
        for name in sorted(names):
            if name.endswith((".antt", ".rt", ".edit", ".md")):
                yield os.path.join(folder, name)


def new_name(name):
    """The name as it is spelled today."""
    plain = name.replace("′", "'")
    if plain[0].isupper():
        first, *more = plain.split("-")
        return first + "".join(m[0].upper() + m[1:] for m in more)
    return plain.replace("-", "_")


def own_names(texts):
    """The names that the repository declares, without those that the toolchain makes or the library has."""
    declared, made = set(), set()
    for path, text in texts.items():
        if not path.endswith(".antt"):
            continue
        code = COMMENT.sub("", text)
        made.update(GOAL.findall(code))
        declared.update(ALIAS.findall(code))
        for found in LIBRARY.findall(code):
            made.update(n.split(" as ")[0].strip() for n in found.split(","))
        for line in code.split("\n"):
            declared.update(DECLARED.findall(line))
            declared.update(BOUND.findall(line))
    return {n for n in declared - made if "-" in n or "′" in n}


def respelled(text, path, table):
    """The text with its names turned; of pages and comments only what stands between backticks."""

    def words(part):
        return WORD.sub(lambda m: table.get(m.group(), m.group()), part)

    def quoted(part):
        return QUOTED.sub(lambda m: words(m.group()), part)

    if path.endswith(".md"):
        return quoted(text)
    mark = "--" if path.endswith(".antt") else "//"
    lines = []
    for line in text.split("\n"):
        found = re.search(r"(^|\s)" + mark, line)
        cut = found.start() if found else len(line)
        lines.append(words(line[:cut]) + quoted(line[cut:]))
    return "\n".join(lines)


def main():
    top = "." if len(sys.argv) < 2 or sys.argv[1].startswith("--") else sys.argv[1]
    texts = {}
    for path in files(top):
        with open(path, encoding="utf-8") as f:
            texts[path] = f.read()
    table = {n: new_name(n) for n in own_names(texts)}
    if "--list" in sys.argv:
        for old, new in sorted(table.items()):
            print(old, new)
        return 0
    clashes = []
    turned = collections.defaultdict(set)
    for old, new in table.items():
        turned[new].add(old)
    for new, olds in turned.items():
        if len(olds) > 1:
            clashes.append(f"{sorted(olds)} would all be {new}")
    for path, text in texts.items():
        if path.endswith(".antt"):
            present = set(WORD.findall(re.sub(r"\buse [^{;\n]*", "", COMMENT.sub("", text))))
            clashes += [f"{path}: {old} would be {table[old]}, which stands there" for old in present if old in table and table[old] in present]
    for clash in clashes:
        print(clash)
    if clashes:
        return 1
    changed = 0
    for path, text in texts.items():
        new = respelled(text, path, table)
        if new != text:
            changed += 1
            with open(path, "w", encoding="utf-8") as f:
                f.write(new)
    print(f"{len(table)} names respelled in {changed} files")
    return 0


sys.exit(main())
