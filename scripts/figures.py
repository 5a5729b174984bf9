#!/usr/bin/env python3
"""Counts how the contracts read: clauses that are wider than 100 and 160 columns, functions with more than twelve clauses, and the
lines of specs and proofs by crate. Each bound below is what the repository has reached; a figure past its bound is an error, and a
landing that brings one down lowers its bound. Usage: figures.py [-v]   (-v names each place; it starts no program)"""
import glob
import os
import re
import sys

TOP = os.path.join(os.path.dirname(os.path.abspath(__file__)), "..")
BOUNDS = {"wider than 100": 242, "wider than 160": 45, "functions with more than 12 clauses": 24}
FUNCTION = re.compile(r"\s*(?:pub(?:\(\w+\))? )?(?:const )?(?:unsafe )?fn (\w+)")
CLAUSE = re.compile(r"\s*(?:requires|ensures)\b")


def sources():
    """Every source, as its path from the top and its lines."""
    for path in sorted(glob.glob(os.path.join(TOP, "crates/*/src/**/*.rt"), recursive=True)):
        with open(path, encoding="utf-8") as file:
            yield os.path.relpath(path, TOP), file.read().split("\n")


def clauses(lines):
    """The clauses of a source, each as its function, its line number and its widest line. One may go on over several lines, to
    the brace that closes it."""
    name, number = "", 0
    while number < len(lines):
        line = lines[number]
        if function := FUNCTION.match(line):
            name = function.group(1)
        if CLAUSE.match(line):
            first, widest, open_braces = number, len(line), line.count("{") - line.count("}")
            while open_braces > 0:
                number += 1
                widest = max(widest, len(lines[number]))
                open_braces += lines[number].count("{") - lines[number].count("}")
            yield name, first + 1, widest
        number += 1


def proof_lines(crate, folder):
    """The lines of a crate's specs or proofs that are neither blank nor a comment."""
    count = 0
    for path in glob.glob(os.path.join(TOP, "crates", crate, folder, "**/*.antt"), recursive=True):
        with open(path, encoding="utf-8") as file:
            count += sum(1 for line in file if line.strip() and not line.strip().startswith("--"))
    return count


def main():
    places = {name: [] for name in BOUNDS}
    total = 0
    for path, lines in sources():
        counts = {}
        for name, number, width in clauses(lines):
            total += 1
            first, count = counts.get(name, (number, 0))
            counts[name] = (first, count + 1)
            for bound in (100, 160):
                if width > bound:
                    places[f"wider than {bound}"].append(f"{path}:{number} {name}, {width} columns")
        for name, (number, count) in counts.items():
            if count > 12:
                places["functions with more than 12 clauses"].append(f"{path}:{number} {name}, {count} clauses")
    print(f"figures: {total} clauses; " + ", ".join(f"{len(found)} {name}" for name, found in places.items()))
    crates = sorted(os.path.basename(path) for path in glob.glob(os.path.join(TOP, "crates/*")))
    for crate in crates:
        specs, proofs = proof_lines(crate, "specs"), proof_lines(crate, "proofs")
        if specs or proofs:
            print(f"figures: {crate}: {specs} lines of specs, {proofs} of proofs")
    if "-v" in sys.argv[1:]:
        for name, found in places.items():
            for place in found:
                print(f"  {name}: {place}")
    for name, found in places.items():
        if len(found) > BOUNDS[name]:
            sys.exit(f"figures: {len(found)} {name}, and the bound is {BOUNDS[name]}")


main()
