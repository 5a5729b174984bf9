#!/usr/bin/env python3
"""Opening a ledger of a million small records: a run over empty input, against one pass over the same file in pieces of
64 KB, and against another program, where one is named. Five rounds, all by turns, and the median of each; the file is in the
system's cache. The system calls of one opening each are counted by strace, where that is there.
Usage: opening.py [PROGRAM [FOLDER [BEFORE]]]   (PROGRAM as `rt run` left it, unless another is named)"""
import os
import shutil
import statistics
import subprocess
import sys
import time

from behind_pipes import LEDGER, PROGRAM, folder
from grammar import frame_of

RECORDS, BATCH, ROUNDS = 1_000_000, 64, 5
RECORD = bytes.fromhex("01 01 61")


def write(path):
    """Frames of 64 plain messages of one byte each, and a last one with the rest."""
    with open(path, "wb") as file:
        left = RECORDS
        while left > 0:
            count = min(left, BATCH)
            file.write(frame_of([RECORD] * count))
            left -= count
        file.flush()
        os.fsync(file.fileno())


def opened(program, top, *tracer):
    begin = time.perf_counter()
    done = subprocess.run([*tracer, program, top, "lines", "orders"], input=b"", capture_output=True)
    took = time.perf_counter() - begin
    assert (done.returncode, done.stdout, done.stderr) == (0, b"", b""), done
    return took


def reads(program, top):
    """How many reads of files one opening makes."""
    log = f"{top}.trace"
    opened(program, top, "strace", "-f", "-o", log, "-e", "trace=pread64")
    with open(log) as lines:
        return sum("pread64(" in line for line in lines)


def passed(path):
    begin = time.perf_counter()
    with open(path, "rb", buffering=0) as file:
        while file.read(65_536):
            pass
    return time.perf_counter() - begin


def main():
    programs = {"opening": PROGRAM}
    if len(sys.argv) > 3:
        programs["opening, the program before"] = os.path.abspath(sys.argv[3])
    with folder() as top:
        data = f"{top}/data"
        os.mkdir(data)
        path = f"{data}/{LEDGER}"
        write(path)
        ways = {name: lambda program=program: opened(program, data) for name, program in programs.items()}
        ways["one pass in pieces of 64 KB"] = lambda: passed(path)
        rounds = [{name: way() for name, way in ways.items()} for _ in range(ROUNDS)]
        print(f"{RECORDS} records, {os.path.getsize(path)} bytes")
        for name in ways:
            found = [took[name] for took in rounds]
            print(f"{name}: {statistics.median(found):.3f} s (from {min(found):.3f} to {max(found):.3f})")
        if len(programs) > 1:
            after, before = programs
            ratios = [took[after] / took[before] for took in rounds]
            print(f"ratio: {statistics.median(ratios):.2f} (from {min(ratios):.2f} to {max(ratios):.2f})")
        if shutil.which("strace"):
            for name, program in programs.items():
                print(f"{name}: {reads(program, data)} reads of files")


main()
