#!/usr/bin/env python3
"""Whether transactions slow down with what was there before. A coordinator's log and a topic's ledger of 10,000 records each,
and of 1,000,000, are written as bytes: closed transactions, of which each has four records in either file (begun, its part,
decided and closed; three messages in one frame, and the marker). The program is opened on each, in a folder in memory, and
2,000 transactions of one message are measured behind a first one. Five rounds, the two by turns, and the median of each; the
two rates shall differ by less than a fifth. Each reply is compared with the one that must come.
Usage: grown.py [PROGRAM [FOLDER]]   (PROGRAM as `rt run` left it, unless another is named; FOLDER lies in memory)"""
import os
import statistics
import subprocess
import time

from behind_pipes import LEDGER, LOG, PROGRAM, ask, ended, folder
from grammar import COMMIT, OPENED, frame_of
from story import lines_of, replies_of

SIZES, ROUNDS, COUNT = (10_000, 1_000_000), 5, 2_000
NEW, ADD, COMMITTING, COMMITTED = 1, 2, 3, 4
TEXTS = (b"a", b"b", b"c")
RECORDS = 4
DEADLINE, PART = (60_000).to_bytes(8, "big"), (1).to_bytes(4, "big")


def record(kind, number, more=b""):
    return bytes([1, kind]) + bytes(8) + number.to_bytes(8, "big") + more


def write(top, records):
    """Two files of so many records each, in a folder of their own."""
    os.mkdir(top)
    with open(f"{top}/{LOG}", "wb") as log, open(f"{top}/{LEDGER}", "wb") as ledger:
        for number in range(records // RECORDS):
            for kind, more in ((NEW, DEADLINE), (ADD, PART), (COMMITTING, b""), (COMMITTED, b"")):
                log.write(frame_of([record(kind, number, more)]))
            ledger.write(frame_of([record(OPENED, number, text) for text in TEXTS]))
            ledger.write(frame_of([record(COMMIT, number)]))
    return [(path, os.path.getsize(path)) for path in (f"{top}/{LOG}", f"{top}/{LEDGER}")]


def tell(program, number, place):
    for line, wanted in zip(lines_of(number, 1), replies_of(number, 1, place)):
        reply = ask(program, line)
        assert reply == wanted, f"{line!r} is told {reply!r} and not {wanted!r}"


def measured(top, records, files):
    """Transactions a second behind so many records, and how long the first one took, with the opening. Afterwards the files
    are as they were."""
    first, begin = records // RECORDS, time.perf_counter()
    program = subprocess.Popen([PROGRAM, top, "lines", "orders"], stdin=subprocess.PIPE, stdout=subprocess.PIPE, bufsize=0)
    tell(program, first, records)
    opened = time.perf_counter()
    for k in range(1, COUNT + 1):
        tell(program, first + k, records + 2 * k)
    end = time.perf_counter()
    ended(program)
    for path, size in files:
        os.truncate(path, size)
    return COUNT / (end - opened), opened - begin


def main():
    with folder("/dev/shm") as top:
        files = {records: write(f"{top}/{records}", records) for records in SIZES}
        rates, openings = ({records: [] for records in SIZES} for _ in range(2))
        for k in range(ROUNDS):
            for records in SIZES if k % 2 else SIZES[::-1]:
                rate, opening = measured(f"{top}/{records}", records, files[records])
                rates[records].append(rate)
                openings[records].append(opening)
                print(f"{records} records, round {k + 1}: {rate:.0f} transactions a second, opened in {opening:.2f} s", flush=True)
        for records in SIZES:
            found = rates[records]
            print(f"{records} records: {statistics.median(found):.0f} transactions a second (from {min(found):.0f} to {max(found):.0f}), opened in {statistics.median(openings[records]):.2f} s")
        few, many = (statistics.median(rates[records]) for records in SIZES)
        share = 1 - many / few
        print(f"behind {SIZES[1]} records the rate is {abs(share):.1%} {'less' if share > 0 else 'more'} than behind {SIZES[0]}: {'within' if abs(share) < 0.2 else 'NOT within'} a fifth")


main()
