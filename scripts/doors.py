#!/usr/bin/env python3
"""Looks whether each crate takes the lemmas of another crate through its one door, the module `proofs/Laws` or a module of the
folder of that name: whatever else lies in its proofs may change with it alone. Usage: doors.py [FOLDER]   (it starts no program)"""
import os
import re
import sys

TOP = sys.argv[1] if len(sys.argv) > 1 else os.path.join(os.path.dirname(os.path.abspath(__file__)), "..")
DOOR = "Laws"
# a line that brings in another module, in a file of proofs, of definitions or of code; and a lemma that an attribute names
USE = re.compile(r"^\s*(?:ghost |unfoldable |pub )*use (?:package\.)?Rattle\.(\w+)\.proofs\b(?:\.(\w+))?")
USING = re.compile(r"\b(\w+)::proofs::(\w+)")


def files_of(crate):
    """The files of a crate that can name lemmas, without what a check has written."""
    for folder in ("specs", "proofs", "src"):
        for path, folders, names in os.walk(os.path.join(TOP, "crates", crate, folder)):
            folders.sort()
            for name in sorted(names):
                if name.endswith((".antt", ".rt")):
                    yield os.path.join(path, name)


def passed(crate, crates, line):
    """The crate and module that a line takes lemmas of past its door, if it does."""
    named = [USE.match(line)] if not line.lstrip().startswith("#[") else USING.finditer(line)
    for use in named:
        if use and use.group(1) in crates and use.group(1) != crate and use.group(2) != DOOR:
            return f"{use.group(1)}/proofs/{use.group(2) or ''}"
    return None


def main():
    crates = sorted(name for name in os.listdir(os.path.join(TOP, "crates")) if os.path.isdir(os.path.join(TOP, "crates", name, "src")))
    lines = 0
    for crate in crates:
        for path in files_of(crate):
            with open(path, encoding="utf-8") as file:
                for number, line in enumerate(file, 1):
                    if past := passed(crate, crates, line):
                        print(f"doors: {os.path.relpath(path, TOP)}:{number} takes lemmas of {past}, and not of its proofs/{DOOR}")
                        return 1
                    lines += f".proofs.{DOOR}." in line and USE.match(line) is not None
    print(f"doors: {len(crates)} crates take lemmas of each other by {lines} lines, all through proofs/{DOOR}")
    return 0


if __name__ == "__main__":
    sys.exit(main())
