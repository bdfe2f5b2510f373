#!/usr/bin/env python3
"""Shows that misuses of the library do not pass the check.

Each misuse is an edit of a copy of the repository's crates. The check of the edited crate has to fail, and with the
error that is named, at the edited file: any other outcome fails this script.
"""

import pathlib
import shutil
import subprocess
import sys
import tempfile
from typing import NamedTuple

ROOT = pathlib.Path(__file__).resolve().parent.parent


class Misuse(NamedTuple):
    what: str
    crate: str
    file: str
    old: str
    new: str
    error: str


MISUSES = [
    Misuse(
        what="a line is added to a sealed draft",
        crate="ratecard",
        file="src/main.rt",
        old="let list = draft.seal();",
        new="let list = draft.seal(); let _ = draft.add_line(extra);",
        error="error[borrow-e0382]: borrow of moved value: `draft`",
    ),
]


def refused(copy, misuse):
    """Whether the check of the edited copy fails with the misuse's error."""
    path = copy / "crates" / misuse.crate / misuse.file
    source = path.read_text()
    if source.count(misuse.old) != 1:
        print(f"misuse: {misuse.what}: the text to edit does not stand once in {misuse.file}")
        return False
    path.write_text(source.replace(misuse.old, misuse.new))
    folder = copy / "crates" / misuse.crate
    run = subprocess.run(["rt", "check"], cwd=folder, capture_output=True, text=True)
    path.write_text(source)
    said = (run.stdout + run.stderr).splitlines()
    named = any(line.startswith(f"{misuse.file}:") and misuse.error in line for line in said)
    if run.returncode == 1 and named:
        print(f"misuse: {misuse.what}: refused, {misuse.error}")
        return True
    print(f"misuse: {misuse.what}: NOT REFUSED as it should be (status {run.returncode})")
    print("\n".join(said[-20:]))
    return False


def main():
    with tempfile.TemporaryDirectory() as folder:
        copy = pathlib.Path(folder).resolve()
        shutil.copy(ROOT / "crates.txt", copy)
        shutil.copytree(ROOT / "crates", copy / "crates", ignore=shutil.ignore_patterns("out"))
        results = [refused(copy, misuse) for misuse in MISUSES]
    return 0 if all(results) else 1


if __name__ == "__main__":
    sys.exit(main())
