#!/usr/bin/env python3
"""Gives this repository's own definitions, lemmas and fields of records today's spelling.

usage: python3 tools/respell.py [--dry]     at the top, once, on the text that the kit's own port script has turned

A name with dashes becomes snake case (`in-range`: `in_range`), or camel case where it begins with a capital, as a fact or
a type does (`Near-cheapest`: `NearCheapest`). Only names that a file of crates/ declares are turned, as whole words; names
of goals, of the library and of steps of a proof stay. Comments, strings and Rust code stay as they are, but for comments of
specs/ and proofs/, where a whole word is turned too. It says which names fall together with one that stood already.
"""

import collections
import os
import re
import sys

WORD = re.compile(r"[^\s(){}\[\].,;:«»⌜⌝\\\"`|]+")
DECLARED = re.compile(
    r"^\s*((?:(?:abbrev|unfoldable|data|record|pub|ruleset)\s+)*)([^\s:(){}λ.,;=]+)\s+((?:[({].*[)}]\s*)*):(?:\s(.*))?$"
)
# A line of a proof file that answers a goal, or gives an invariant: its name is the kit's.
GOAL = re.compile(r"^goal\.")


def files(root, endings):
    for folder, folders, names in os.walk(os.path.join(root, "crates")):
        folders[:] = sorted(f for f in folders if f != "out")
        for name in sorted(names):
            if name.endswith(endings):
                yield os.path.join(folder, name)


def read(path):
    with open(path, encoding="utf-8") as file:
        return file.read()


def declared(root):
    """The names with a dash that files of crates/ declare, each with the files that do."""
    names = collections.defaultdict(set)
    for path in files(root, (".antt",)):
        for line in read(path).splitlines():
            if line.lstrip().startswith("--"):
                continue
            match = DECLARED.match(line)
            if match and "-" in match[2].strip("-") and not GOAL.match(match[4] or ""):
                names[match[2]].add(path)
    for path in files(root, (".antt", ".rt")):
        for match in re.finditer(r"\bas ([a-z][\w']*-[\w'-]+)", read(path)):
            names[match[1]].add(path)
    return names


def respelt(name):
    if name[0].isupper():
        return "".join(part[:1].upper() + part[1:] for part in name.split("-"))
    return name.replace("-", "_")


def code_of(line):
    """The part of a line of Rust before its comment."""
    return line.split("//")[0]


def turn(text, table):
    return WORD.sub(lambda match: table.get(match[0], match[0]), text)


def turn_rust(text, table):
    lines = []
    for line in text.split("\n"):
        code = code_of(line)
        lines.append((code if '"' in code else turn(code, table)) + line[len(code):])
    return "\n".join(lines)


def collisions(root, table):
    """The new names that stood already in a file where an old one stands."""
    for path in files(root, (".antt", ".rt")):
        words = set(WORD.findall(read(path)))
        for old, new in table.items():
            if old in words and new in words:
                yield old, new, os.path.relpath(path, root)


def main():
    root = os.path.realpath(".")
    table = {name: respelt(name) for name in declared(root)}
    for old, new, path in collisions(root, table):
        print(f"look: {old} becomes {new}, which stands in {path} too")
    taken = collections.Counter(table.values())
    for old, new in sorted(table.items()):
        if taken[new] > 1:
            print(f"look: {old} becomes {new}, as another name does")
    print(f"{len(table)} names")
    if "--dry" in sys.argv:
        return
    for path in files(root, (".antt", ".rt", ".edit")):
        old = read(path)
        new = turn(old, table) if path.endswith(".antt") else turn_rust(old, table)
        if new != old:
            with open(path, "w", encoding="utf-8") as file:
                file.write(new)


main()
