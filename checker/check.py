#!/usr/bin/env python3
"""Compares each stored output of the repository's programs with what the independent checker prints.

check.py            compare all, and say so
check.py --write    write what the checker prints into the stored outputs
check.py --inputs   write the stored dialogues anew
check.py NAME       print what the checker prints for the program NAME
"""

import pathlib
import sys

import cases
import console
import dialogues
import ratecard

ROOT = pathlib.Path(__file__).resolve().parent.parent


def folder(name):
    return ROOT / "crates" / name


def given(name):
    return (folder(name) / "stdin").read_bytes()


def lines(printout):
    return "".join(line + "\n" for line in printout)


PROGRAMS = {
    "cases": lambda: lines(cases.printout()),
    "console": lambda: console.respond(given("console")),
    "ratecard": lambda: lines(ratecard.printout()),
    "replay": lambda: lines(dialogues.replayed(given("replay"))),
}


def compare():
    same = True
    for name, text in sorted(PROGRAMS.items()):
        path = folder(name) / "stdout"
        if path.is_file() and path.read_text() == text():
            print(f"checker: {name}: the stored output is what the checker prints")
        else:
            print(f"checker: {name}: the stored output DIFFERS from what the checker prints")
            same = False
    return same


def main(words):
    if not words:
        return 0 if compare() else 1
    if words == ["--write"]:
        for name, text in PROGRAMS.items():
            (folder(name) / "stdout").write_text(text())
        return 0
    if words == ["--inputs"]:
        (folder("replay") / "stdin").write_bytes(dialogues.stored())
        return 0
    if len(words) == 1 and words[0] in PROGRAMS:
        sys.stdout.write(PROGRAMS[words[0]]())
        return 0
    sys.stderr.write(__doc__)
    return 2


if __name__ == "__main__":
    sys.exit(main(sys.argv[1:]))
