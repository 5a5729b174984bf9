#!/usr/bin/env python3
"""Gives the program random and mutated lines, and logs and ledgers with mutated bytes, and compares all that it does with the
reading of the grammar in grammar.py: its status, what it puts and says, and the files that it leaves. It stops at the first
disagreement, crash or hang, and shows it. Files lie in memory, where the system has a folder for that.
Usage: fuzz.py [PROGRAM [LINES [FILES [SEED]]]]   (as `rt run` left it; 100000 lines, 10000 files, and the seed 1)"""
import collections
import concurrent.futures
import json
import os
import random
import subprocess
import sys
import tempfile
import time

sys.dont_write_bytecode = True

import fuzz_cases
import grammar
from program import LEDGER, LOG, PROGRAM

LINES, FILES, SEED = ([int(word) for word in sys.argv[2:5]] + [100_000, 10_000, 1][len(sys.argv[2:5]):])
SECONDS = 60
MEMORY = "/dev/shm" if os.path.isdir("/dev/shm") else None


class Disagreement(Exception):
    """The program did something else than the grammar says."""


def written(path, data):
    with open(path, "wb") as file:
        file.write(data)


def read(path):
    with open(path, "rb") as file:
        return file.read()


def run(folder, log, ledger, given):
    """What the program does over these two files and this input: its status, what it puts and says, and the files after it."""
    written(f"{folder}/{LOG}", log)
    written(f"{folder}/{LEDGER}", ledger)
    try:
        done = subprocess.run([PROGRAM, folder, "lines", "orders"], input=given, capture_output=True, timeout=SECONDS)
    except subprocess.TimeoutExpired:
        raise Disagreement(f"it didn't end within {SECONDS} seconds") from None
    return done.returncode, done.stdout, done.stderr.decode(errors="replace"), read(f"{folder}/{LOG}"), read(f"{folder}/{LEDGER}")


def compare_logs(before, found, wanted, first, last):
    """Compares logs that go on behind the one before. Where a transaction was begun, the one that is found has a deadline: its
    timeout, which the other has, behind a moment of the run, in milliseconds."""
    if len(found) != len(wanted):
        raise Disagreement(f"it left the log {shown(found, 4000)}\n  and not {shown(wanted, 4000)}")
    at, found = 0, bytearray(found)
    while at < len(found) and found[at] == 1:
        size = 5 + int.from_bytes(found[at + 1:at + 5], "big")
        if at >= len(before) and found[at + 8] == grammar.NEW:
            begun = int.from_bytes(found[at + 25:at + 33], "big") - int.from_bytes(wanted[at + 25:at + 33], "big")
            if not first <= begun <= last:
                raise Disagreement(f"the deadline at {at} of the log is no timeout behind a moment from {first} to {last}")
            found[at + 25:at + 33] = wanted[at + 25:at + 33]
        at += size
    if found != wanted:
        raise Disagreement(f"it left the log {shown(found, 4000)}\n  and not {shown(wanted, 4000)}")


def shown(data, most=400):
    text = repr(data)
    return text if len(text) <= most else f"{text[:most]}.. ({len(data)} in all)"


def compare(folder, log, ledger, given):
    """Runs the program and the grammar over the same. Gives the status and what was told of each line."""
    status, told, said, log_after, ledger_after = grammar.run(log, ledger, given)
    first = time.time_ns() // 1_000_000
    found = run(folder, log, ledger, given)
    last = time.time_ns() // 1_000_000
    told = [(line, reply) for line, reply in told if reply is not None]
    ended = f"it ended with status {found[0]} and said {shown(found[2])}"
    if found[1] != b"".join(reply.encode() + b"\n" for _, reply in told):
        replies = found[1].split(b"\n")
        for (line, reply), is_put in zip(told + [("the end of the input", "")], replies):
            if reply.encode() != is_put:
                raise Disagreement(f"the line {shown(line)}\n  is told {shown(is_put)}\n  and not {shown(reply.encode())}; {ended}")
        raise Disagreement(f"{len(replies) - 1} replies and not {len(told)}; {ended}")
    if (found[0], found[2]) != (status, said):
        raise Disagreement(f"{ended}, and not with {status} and {shown(said)}")
    if found[4] != ledger_after:
        raise Disagreement(f"it left the ledger {shown(found[4])}\n  and not {shown(ledger_after)}")
    compare_logs(log, found[3], log_after, first, last)
    return status, told


def kind_of(reply):
    """The word of a reply, to count it by."""
    told = json.loads(reply)
    return told.get("ok") or told["no"]


def try_lines(k):
    """One run over an empty ledger and up to a thousand lines."""
    rng = random.Random(f"{SEED} lines {k}")
    given = fuzz_cases.some_lines(rng, min(1000, LINES - 1000 * k))
    with tempfile.TemporaryDirectory(dir=MEMORY) as folder:
        _, told = compare(folder, b"", b"", given)
    return collections.Counter(kind_of(reply) for _, reply in told)


def try_files(k):
    """A hundred runs, each over a log and a ledger of its own."""
    counts = collections.Counter()
    with tempfile.TemporaryDirectory(dir=MEMORY) as folder:
        for i in range(100 * k, min(100 * k + 100, FILES)):
            rng = random.Random(f"{SEED} file {i}")
            log, ledger = fuzz_cases.some_log(rng), fuzz_cases.some_ledger(rng)
            try:
                status, _ = compare(folder, log, ledger, fuzz_cases.look_at(rng))
            except Disagreement as found:
                raise Disagreement(f"file {i}, {shown(log, 4000)} and {shown(ledger, 4000)}:\n{found}") from None
            counts["damaged" if status == 2 else "read"] += 1
    return counts


def in_parallel(what, count, work):
    """Does the pieces of a work, and gives the sum of their counts."""
    total = collections.Counter()
    with concurrent.futures.ThreadPoolExecutor(os.cpu_count()) as pool:
        for k, piece in enumerate([pool.submit(work, k) for k in range(count)]):
            try:
                total += piece.result()
            except Disagreement as found:
                pool.shutdown(cancel_futures=True)
                sys.exit(f"fuzz: {what} {k}, with the seed {SEED}: {found}")
    return total


def main():
    print(f"fuzz: {LINES} lines and {FILES} files with the seed {SEED}, in {MEMORY or tempfile.gettempdir()}", flush=True)
    told = in_parallel("run", -(-LINES // 1000), try_lines)
    kinds = ", ".join(f"{kind} {count}" for kind, count in sorted(told.items()))
    print(f"fuzz: lines: no disagreement; replies by kind: {kinds}", flush=True)
    files = in_parallel("hundred", -(-FILES // 100), try_files)
    print(f"fuzz: files: no disagreement; {files['read']} were read, {files['damaged']} were damaged", flush=True)


main()
