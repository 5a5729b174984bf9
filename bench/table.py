#!/usr/bin/env python3
"""The transaction table and the deadlines by themselves: what an entry costs in a map in order of insertion, in plain rows by
number, and in the table; the rates at which many open transactions are ended oldest first and newest first; and the instructions
that expiring a due one takes, at first and at last, by valgrind. It makes a repository of its own with a program that plays them,
in a folder that is thrown away, and takes that program's times by turns. Usage: table.py [BUILT]   (BUILT: an earlier program)"""
import os
import re
import shutil
import statistics
import subprocess
import sys
import tempfile
import time

TOP = os.path.join(os.path.dirname(os.path.abspath(__file__)), "..")
PROGRAM = os.path.join(os.path.dirname(os.path.abspath(__file__)), "table_program.txt")
CRATES = """txn_base: byteorder thiserror
txn_model: txn_base byteorder
txn_timeouts:
txn_table: txn_base txn_model byteorder
table_bench: txn_base txn_table txn_timeouts indexmap
"""
ROUNDS, MANY, OPEN = 9, 1_000_000, 60_000
IN_MAP, IN_ROWS, IN_TABLE, OLDEST, NEWEST, DRAINED = range(1, 7)


def build(folder):
    """Proves and builds the program in a repository of its own."""
    for crate in ("txn_base", "txn_model", "txn_timeouts", "txn_table"):
        shutil.copytree(os.path.join(TOP, "crates", crate), os.path.join(folder, "crates", crate))
    source = os.path.join(folder, "crates", "table_bench", "src")
    os.makedirs(source)
    shutil.copy(PROGRAM, os.path.join(source, "main.rt"))
    with open(os.path.join(folder, "crates.txt"), "w", encoding="utf-8") as file:
        file.write(CRATES)
    subprocess.run(["rt", "run"], cwd=os.path.dirname(source), check=True, stdout=subprocess.DEVNULL)
    return os.path.join(os.path.dirname(source), "out", "table_bench")


def took(program, *words):
    """Seconds of one run, less those of a run that does nothing."""
    times = []
    for ran in (words, (0, 0, 0)):
        begin = time.perf_counter()
        subprocess.run([program, *map(str, ran)], check=True, stdout=subprocess.DEVNULL)
        times.append(time.perf_counter() - begin)
    return times[0] - times[1]


def medians(program, *runs):
    """The median of each run over rounds in which they take turns."""
    rounds = [[took(program, *run) for run in runs] for _ in range(ROUNDS)]
    return [statistics.median(column) for column in zip(*rounds)]


def instructions(program, *words):
    """The instructions of one run."""
    with tempfile.NamedTemporaryFile() as file:
        done = subprocess.run(["valgrind", "--tool=callgrind", f"--callgrind-out-file={file.name}", program, *map(str, words)],
                              check=True, capture_output=True, text=True)
    return int(re.search(r"Collected : (\d+)", done.stderr).group(1))


def measure(program):
    names = ("a map in order of insertion", "plain rows by number", "the table")
    for name, seconds in zip(names, medians(program, *((what, MANY, 0) for what in (IN_MAP, IN_ROWS, IN_TABLE)))):
        print(f"{name}: {seconds / MANY / 4 * 1e9:.1f} ns an entry, over {MANY} transactions of four entries")
    oldest, newest = medians(program, (OLDEST, OPEN, 0), (NEWEST, OPEN, 0))
    print(f"{OPEN} open and ended, oldest first {OPEN / oldest:.0f} a second, newest first {OPEN / newest:.0f}: {oldest / newest:.2f}")
    none, first, most, all_of_them = (instructions(program, DRAINED, OPEN, count) for count in (0, 1000, OPEN - 1000, OPEN))
    print(f"{OPEN} due, expired in order: {(first - none) / 1000:.0f} instructions each of the first thousand, "
          f"{(all_of_them - most) / 1000:.0f} each of the last: {(all_of_them - most) / (first - none):.2f}")


def main():
    if len(sys.argv) > 1:
        measure(os.path.abspath(sys.argv[1]))
        return
    with tempfile.TemporaryDirectory() as folder:
        measure(build(folder))


main()
