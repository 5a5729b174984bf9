#!/usr/bin/env python3
"""A plain reading of the rules of the transaction table and of deadlines, apart from their code: works out what the program
txn_table_tests has to print, prints it, and compares it with crates/txn_table_tests/stdout. Status 1 where they differ. It takes
a few seconds. Usage: table_walks.py

The log is a list of entries, and each answer is read off the whole list: ("new", x), ("add", x, part), ("decide", x, decision) and
("close", x, decision), where x is a pair of the coordinator's number and the transaction's, and a decision is "commit" or "abort".
Deadlines are a list of pairs of a deadline and a number."""
import functools
import itertools
import os
import sys

WANTED = os.path.join(os.path.dirname(os.path.abspath(__file__)), "..", "crates", "txn_table_tests", "stdout")
WORD = 2 ** 64
STATUSES = (None, "open", ("decide", "commit"), ("close", "commit"), ("decide", "abort"), ("close", "abort"))
DECISIONS = (None, "commit", "abort")


def mixed(answers, answer):
    """The number with one answer more, as the program mixes it."""
    return (answers * 6364136223846793005 + answer + 1442695040888963407) % WORD


def all_mixed(answers, before=0):
    return functools.reduce(mixed, answers, before)


# The rules of the log.

def begun(log):
    return [entry[1] for entry in log if entry[0] == "new"]


def status(log, x):
    """A transaction that isn't begun has none; else it has what the last entry says that decides or closes it."""
    if x not in begun(log):
        return None
    said = [(entry[0], entry[2]) for entry in log if entry[0] in ("decide", "close") and entry[1] == x]
    return said[-1] if said else "open"


def decision(log, x):
    return next((entry[2] for entry in log if entry[0] == "decide" and entry[1] == x), None)


def parts(log, x):
    return {entry[2] for entry in log if entry[0] == "add" and entry[1] == x}


def is_closed(log, x):
    return any(entry[0] == "close" and entry[1] == x for entry in log)


def low(log):
    """The least number of a transaction that isn't closed, or their count."""
    return min((x[1] for x in begun(log) if not is_closed(log, x)), default=len(begun(log)))


def undriven(log):
    """The numbers of those that are decided and not closed."""
    return sorted(x[1] for x in begun(log) if decision(log, x) and not is_closed(log, x))


def allows(log, named, entry):
    """Where so many parts are named: a transaction has the next number; a part is added once, and only while it is open; it is
    decided while it is open; and closed once, as it was decided."""
    kind, x = entry[:2]
    if kind == "new":
        return x == (0, len(begun(log)))
    if kind == "close":
        return decision(log, x) == entry[2] and not is_closed(log, x)
    is_open = x in begun(log) and decision(log, x) is None
    return is_open and (kind == "decide" or 1 <= entry[2] <= named and entry[2] not in parts(log, x))


# Every list of entries.

def entries_of(x):
    return [("new", x), ("add", x, 1), ("decide", x, "commit"), ("close", x, "commit"), ("decide", x, "abort"), ("close", x, "abort")]


CHOICES = entries_of((0, 0)) + entries_of((0, 1))
BESIDE = [("add", (0, 0), 2), ("add", (0, 0), 62), ("add", (0, 0), 63), ("add", (0, 0), 0), ("new", (0, 2)), ("new", (1, 0)),
          ("decide", (1, 0), "commit")]


def told(log):
    """What a table answers of itself and of four transactions."""
    driven = undriven(log)
    answers = [len(driven), driven[0] + 1 if driven else 0]
    for x in ((0, 0), (0, 1), (0, 2), (1, 0)):
        answers += [STATUSES.index(status(log, x)), DECISIONS.index(decision(log, x)),
                    sum(2 ** part for part in parts(log, x)), int(1 in parts(log, x))]
    return all_mixed(answers, mixed(len(begun(log)), low(log)))


@functools.lru_cache(maxsize=None)
def told_after(added, log):
    """What is told of the entries that were added, and which may follow these and the staged ones."""
    answers = []
    for entries, few in ((CHOICES, 0), (BESIDE, 61)):
        answers += [int(allows(log, named, entry)) for entry in entries for named in (62, few)]
    return all_mixed(answers, told(added))


@functools.lru_cache(maxsize=None)
def grown(log, entry):
    return log + (entry,) if allows(log, 62, entry) else log


def logs(length, staged):
    taken = answers = 0
    for backwards in itertools.product(CHOICES, repeat=length):
        log, added = (), ()
        for at, entry in enumerate(reversed(backwards)):
            log = grown(log, entry)
            if at < length - staged:
                added = log
        taken += len(log)
        answers = mixed(answers, told_after(added, log))
    return f"{len(CHOICES) ** length} tried, {taken} entries taken, answers {answers}"


# Every order of deadlines.

def told_due(kept):
    """How many are there, and at five moments how many are due and which is the first."""
    answers = [len(kept)]
    for now in (0, 6, 7, 8, WORD - 1):
        due = sorted(item for item in kept if item[0] <= now)
        answers += [len(due), due[0][1] + 1 if due else 0]
    return answers


def orders(drops_first_due):
    tried = dropped = answers = 0
    for backwards in itertools.product((0, 7, 8, WORD - 1), repeat=4):
        deadlines = backwards[::-1]
        for turned in itertools.product(range(4), repeat=4):
            order = turned[::-1]
            if len(set(order)) < 4:
                continue
            kept, told_here = [], 0
            for number in order:
                kept.append((deadlines[number], number))
                told_here = all_mixed(told_due(kept), told_here)
            for number in order:
                kept.remove(min(kept) if drops_first_due else (deadlines[number], number))
                dropped += 1
                told_here = all_mixed(told_due(kept), told_here)
            tried, answers = tried + 1, mixed(answers, told_here)
    return f"{tried} tried, {dropped} dropped, answers {answers}"


def main():
    lines = [f"logs of {length} entries: {logs(length, 0)}" for length in range(6)]
    lines += [f"logs of {length} entries, the last two staged: {logs(length, 2)}" for length in range(6)]
    lines += [f"orders of four deadlines, the first due dropped each time: {orders(True)}",
              f"orders of four deadlines, dropped as they were added: {orders(False)}"]
    print("\n".join(lines))
    with open(WANTED, encoding="utf-8") as file:
        stands = file.read().split("\n")
    if stands != lines + [""]:
        for at in range(max(len(stands), len(lines) + 1)):
            if (stands[at:] or [None])[0] != ((lines + [""])[at:] or [None])[0]:
                print(f"line {at + 1} of crates/txn_table_tests/stdout differs", file=sys.stderr)
        sys.exit(1)


if __name__ == "__main__":
    main()
