#!/usr/bin/env python3
"""Lines that write no record, read and replied, against a program that only gives each line back through the same pipes:
`status` lines one at a time, by a client that waits for each reply, and `status` lines all at once. Then the share of a durable
publish that goes into its line: publishes to a name that no part has are read and replied, and write nothing. Ten rounds, the
programs by turns; the median of each, and of the rounds' ratios. Seconds are those of a clock on the wall, and processor time
is what the system counts for the program, which other programs beside it move less.
Usage: lines.py [PROGRAM [FOLDER]]   (PROGRAM as `rt run` left it, unless another is named; the disk of FOLDER is measured)"""
import os
import statistics
import threading
import time

from behind_pipes import PROGRAM, ask, compiled, folder, start

ROUNDS, ONE_BY_ONE, AT_ONCE, DURABLE = 10, 5_000, 100_000, 500
STATUS = b'{"do":"status","txn":[0,0]}\n'
PUBLISH = b'{"do":"publish","topic":"orders","data":"' + b"x" * 100 + b'"}\n'
ELSEWHERE = PUBLISH.replace(b"orders", b"nobody")


def processor_time(program):
    """Waits for its end, and gives the processor time that it took."""
    _, status, usage = os.wait4(program.pid, 0)
    program.returncode = os.waitstatus_to_exitcode(status)
    assert program.returncode == 0
    return usage.ru_utime + usage.ru_stime


def one_by_one(command, line, count):
    """Seconds and processor time a line, where each reply is waited for."""
    program, _ = start(command, line)
    begin = time.perf_counter()
    for _ in range(count):
        ask(program, line)
    end = time.perf_counter()
    program.stdin.close()
    return (end - begin) / count, processor_time(program) / count


def at_once(command, line, count):
    """The same, where all lines are written before a reply is waited for."""
    program, _ = start(command, line)
    given, replies = memoryview(line * count), 0

    def write():
        left = given
        while left:
            left = left[program.stdin.write(left):]
        program.stdin.close()

    writer = threading.Thread(target=write)
    begin = time.perf_counter()
    writer.start()
    while piece := program.stdout.read(1 << 20):
        replies += piece.count(b"\n")
    end = time.perf_counter()
    writer.join()
    assert replies == count
    return (end - begin) / count, processor_time(program) / count


def spread(values, digits):
    return f"{statistics.median(values):.{digits}f} (from {min(values):.{digits}f} to {max(values):.{digits}f})"


def told(what, ours, theirs):
    seconds, processor = zip(*ours)
    echo_seconds, echo_processor = zip(*theirs)
    ratios = [b / a for a, b in zip(seconds, echo_seconds)]
    mine, other = 1 / statistics.median(seconds), 1 / statistics.median(echo_seconds)
    print(f"{what}: program {mine:.0f} lines a second, echo {other:.0f}, ratio {spread(ratios, 2)}")
    print(f"{what}: processor time a line in microseconds: program {spread([1e6 * t for t in processor], 2)}, echo {spread([1e6 * t for t in echo_processor], 2)}", flush=True)


def main():
    with folder() as top:
        commands = ([PROGRAM, f"{top}/data", "lines", "orders"], [compiled("echo", top)])
        rows = {"status, one by one": (one_by_one, STATUS, ONE_BY_ONE), "status, at once": (at_once, STATUS, AT_ONCE), "publish elsewhere, at once": (at_once, ELSEWHERE, AT_ONCE)}
        took = {name: ([], []) for name in rows}
        shares = []
        for k in range(ROUNDS):
            for name, (way, line, count) in rows.items():
                for which in (0, 1) if k % 2 else (1, 0):
                    took[name][which].append(way(commands[which], line, count))
            (_, ours), (_, theirs) = (rounds[-1] for rounds in took["publish elsewhere, at once"])
            durable, _ = one_by_one([PROGRAM, f"{top}/data-{k}", "lines", "orders"], PUBLISH, DURABLE)
            shares.append((ours - theirs) / durable)
        for name, (ours, theirs) in took.items():
            told(name, ours, theirs)
        print(f"share of a durable publish that goes into its line, beyond what an echo takes: {spread(shares, 4)}")


main()
