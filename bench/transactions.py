#!/usr/bin/env python3
"""Transactions by one client that waits for each reply through a pipe, `new`, `add`, publishes of 100-byte messages, and
`commit`, against a floor that makes the same appends in the same files and looks at nothing in the lines. One publish of one
message a transaction, fifty rounds of 100 transactions each; 64 publishes of one message, fifty rounds of 10; and one publish
of 64 messages, fifty rounds of 100; program and floor by turns, and the median of the rounds' ratios. Each reply is compared
with the one that must come.
Usage: transactions.py [PROGRAM [FOLDER]]   (PROGRAM as `rt run` left it, unless another is named; the disk of FOLDER is measured)"""
import subprocess
import time

from behind_pipes import LEDGER, LOG, PROGRAM, ask, by_turns, compiled, ended, folder
from story import appends_of, lines_of, replies_of

# Publishes a transaction, messages a publish, and transactions a round.
ROUNDS, ROWS = 50, ((1, 1, 100), (64, 1, 10), (1, 64, 100))
FLOOR = b'{"ok":"floor"}\n'


def exchanges(count, publishes, messages, floor):
    """The lines of so many transactions, each with the reply that must come. A transaction takes a place for each of its
    messages, and one for its marker."""
    for number in range(count):
        lines = lines_of(number, publishes, messages)
        replies = [FLOOR] * len(lines) if floor else replies_of(number, publishes, number * (publishes * messages + 1), messages)
        yield from zip(lines, replies)


def tell(program, story):
    for line, wanted in story:
        reply = ask(program, line)
        assert reply == wanted, f"{line!r} is told {reply!r} and not {wanted!r}"


def seconds(command, count, publishes, messages, floor):
    """How long the transactions take behind a first one."""
    story = list(exchanges(count + 1, publishes, messages, floor))
    program = subprocess.Popen(command, stdin=subprocess.PIPE, stdout=subprocess.PIPE, bufsize=0)
    first = publishes + 3
    tell(program, story[:first])
    begin = time.perf_counter()
    tell(program, story[first:])
    end = time.perf_counter()
    ended(program)
    return end - begin


def row(top, floor, publishes, messages, count):
    appends, name = appends_of(publishes, messages), f"{publishes}-{messages}"

    def ours(k):
        return seconds([PROGRAM, f"{top}/data-{name}-{k}", "lines", "orders"], count, publishes, messages, False)

    def theirs(k):
        files = [f"{top}/{file}-{name}-{k}" for file in (LOG, LEDGER)]
        return seconds([floor, *files, *appends], count, publishes, messages, True)

    by_turns(f"publishes: {publishes}, messages each: {messages}", "transactions", ROUNDS, count, ours, theirs)


def main():
    with folder() as top:
        floor = compiled("floor", top)
        for publishes, messages, count in ROWS:
            row(top, floor, publishes, messages, count)


main()
