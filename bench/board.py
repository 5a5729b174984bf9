#!/usr/bin/env python3
"""Reads of a status off a board of 65,536 committed transactions, three loads each, by one to four threads, against bare atomic
loads of three words by a C program, the two by turns; starts and settles of a plain message by one and two threads; and starts
and settles of whole transactions, five of each, by one thread alone and beside one to four that read statuses all the while. A
round that does nothing is taken off each, so the making of the board isn't counted. Usage: board.py [PROGRAM]
(PROGRAM is crates/txn_board_tests/out/txn_board_tests as `rt run` left it, unless another is named)"""
import os
import statistics
import subprocess
import sys
import tempfile
import time

sys.dont_write_bytecode = True

from behind_pipes import BENCH, compiled

READS, STEPS, TXNS, ROUNDS = 40_000_000, 20_000_000, 5_000_000, 9
PROGRAM = sys.argv[1] if len(sys.argv) > 1 else f"{BENCH}/../crates/txn_board_tests/out/txn_board_tests"


def run(command, threads, rounds):
    """How long a run took, and what it counted: how many rounds, and how many reads were made beside."""
    begin = time.perf_counter()
    told = subprocess.run([*command, str(threads), str(rounds)], check=True, capture_output=True).stdout
    return time.perf_counter() - begin, [int(word) for word in told.split()]


def seconds(command, threads, rounds):
    """How long so many rounds by each thread took, less a run of no round. Each round has to count."""
    took = []
    for count in (0, rounds):
        time_of, told = run(command, threads, count)
        took.append(time_of)
        assert told[0] == threads * count, told
    return took[1] - took[0]


def beside(readers):
    """How many starts and settles one thread made a second beside so many readers, and how many statuses these read."""
    idle, none = run([PROGRAM, "beside"], readers, 0)
    took, told = run([PROGRAM, "beside"], readers, TXNS)
    assert none[0] == 0 and told[0] == TXNS, (none, told)
    return 10 * TXNS / (took - idle), (told[1] - none[1]) / (took - idle)


def main():
    with tempfile.TemporaryDirectory() as top:
        floor = compiled("loads", top)
        for threads in (1, 2, 3, 4):
            ours, theirs = [], []
            for k in range(ROUNDS):
                pair = [("program", [PROGRAM, "status"]), ("floor", [floor])]
                took = {name: seconds(command, threads, READS) for name, command in (pair if k % 2 else pair[::-1])}
                ours.append(threads * READS / took["program"])
                theirs.append(threads * READS / took["floor"])
            ratio = statistics.median(a / b for a, b in zip(ours, theirs))
            print(f"{threads} threads: {statistics.median(ours) / 1e6:.0f} million statuses a second, "
                  f"{statistics.median(theirs) / 1e6:.0f} million times three bare loads; {ratio:.2f}")
        for threads in (1, 2):
            rates = [threads * STEPS / seconds([PROGRAM, "steps"], threads, STEPS) for _ in range(ROUNDS)]
            print(f"{threads} threads: {statistics.median(rates) / 1e6:.0f} million starts and settles of a message a second")
        for readers in (0, 1, 2, 3, 4):
            rates = [beside(readers) for _ in range(ROUNDS)]
            print(f"beside {readers} threads: {statistics.median(rate for rate, _ in rates) / 1e6:.1f} million starts and settles of "
                  f"transactions a second by one thread, {statistics.median(reads for _, reads in rates) / 1e6:.0f} million statuses")


main()
