#!/usr/bin/env python3
"""Kills the program by signal 9 inside commits and aborts on one folder, restarts it, and looks at every transaction: its
messages are all visible or none, as its status says; and what was told before the kill still stands, in what the program
answers and in the bytes of the ledger. The same end, asked again, then drives a transaction that is stuck, and one that is
still open is ended. It goes on past its rounds until a kill fell between a decision and its close. This is no test of a power
cut: the system keeps what was written.
Usage: kill_commits.py [PROGRAM [ROUNDS [SEED]]]   (PROGRAM as `rt run` left it, unless another is named)"""
import collections
import itertools
import os
import random
import statistics
import sys
import tempfile
import time

sys.dont_write_bytecode = True

import grammar
from killing import ask, ended, kill_inside, line, start, visible
from program import LEDGER

ROUNDS = int(sys.argv[2]) if len(sys.argv) > 2 else 300
SEED = int(sys.argv[3]) if len(sys.argv) > 3 else random.randrange(1 << 32)
CLOSED = {"commit": "committed", "abort": "aborted"}
DECIDED = {"commit": "committing", "abort": "aborting"}
# Whether the messages of a transaction may be there. While it is committing, its marker may stand or not.
THERE = {"open": (False,), "aborting": (False,), "aborted": (False,), "committing": (True, False), "committed": (True,)}


class Transaction:
    """What was told of one transaction: where its messages stand, and the status of its end once that was told."""

    def __init__(self, number):
        self.id, self.messages, self.closed = [0, number], {}, None


class Client:
    """Asks lines of transactions and of plain messages, and keeps what was told. `seconds` are those of each whole end."""

    def __init__(self, folder):
        self.folder, self.transactions, self.plain, self.seconds = folder, [], {}, [0.001]

    def begin(self, program):
        told = ask(program, line(do="new", timeout=60_000))
        assert told == {"ok": "new", "txn": [0, len(self.transactions)]}, told
        self.transactions.append(Transaction(told["txn"][1]))
        return self.transactions[-1]

    def publish(self, program, messages, **more):
        texts = [f"m{random.randrange(1 << 32)}" + "x" * random.randrange(200) for _ in range(random.randint(1, 3))]
        told = ask(program, line(do="publish", topic="orders", data=texts, **more))
        assert told["count"] == len(texts), told
        messages.update((told["at"] + k, text) for k, text in enumerate(texts))

    def fill(self, program, transaction):
        """Adds the topic and publishes to it, with plain messages between."""
        assert ask(program, line(do="add", txn=transaction.id, part="orders")) == {"ok": "add"}
        for _ in range(random.randint(1, 3)):
            self.publish(program, transaction.messages, txn=transaction.id)
            if random.random() < 0.3:
                self.publish(program, self.plain)

    def end(self, program, transaction, how):
        begin = time.perf_counter()
        told = ask(program, line(do=how, txn=transaction.id))
        self.seconds.append(time.perf_counter() - begin)
        assert told == {"ok": how, "status": CLOSED[how]}, told
        transaction.closed = CLOSED[how]

    def until_killed(self):
        """Some whole transactions, and one inside whose end the program is killed."""
        program = start(self.folder)
        for _ in range(random.randint(0, 3)):
            transaction = self.begin(program)
            self.fill(program, transaction)
            self.end(program, transaction, random.choice(("commit", "commit", "abort")))
        transaction = self.begin(program)
        if random.random() < 0.9:
            self.fill(program, transaction)
        how = random.choice(("commit", "commit", "abort"))
        usual = statistics.median(self.seconds[-20:])
        told = kill_inside(program, line(do=how, txn=transaction.id), random.uniform(0, 1.5 * usual))
        if told is not None:
            assert told == {"ok": how, "status": CLOSED[how]}, told
            transaction.closed = CLOSED[how]
        return transaction, how


def look(program, transaction, how, before):
    """What a restart finds of the transaction inside whose end the program was killed: its status, and whether its messages are
    there, or None where it has none."""
    status = ask(program, line(do="status", txn=transaction.id))["status"]
    assert status in ("open", DECIDED[how], CLOSED[how]), f"{status} after a kill inside {how}"
    assert transaction.closed in (None, status), f"{transaction.closed} was told, and now {status}"
    seen = dict(visible(program, before))
    there = {seen.get(place) == text for place, text in transaction.messages.items()}
    assert len(there) < 2, f"some of the messages of a transaction that is {status} are there"
    is_there = there.pop() if there else None
    assert is_there is None or is_there in THERE[status], f"{status}, and its messages are {'' if is_there else 'not '}there"
    return status, is_there


def finish(client, program, transaction, how, status):
    """Ends the transaction: a stuck one by the same end again, and an open one by either."""
    if status == DECIDED[how]:
        client.end(program, transaction, how)
    elif status == "open":
        client.end(program, transaction, random.choice(("commit", "abort")))
    else:
        transaction.closed = status


def whole(client, program, before):
    """Every message from a place on: those of committed transactions and the plain ones, each at its place, and no other; and
    every status as it was told."""
    wanted = dict(client.plain)
    for transaction in client.transactions:
        if transaction.closed == "committed":
            wanted.update(transaction.messages)
    wanted = sorted([place, text] for place, text in wanted.items() if place >= before)
    assert visible(program, before) == wanted, "other messages than those that were told"
    for transaction in client.transactions[-10:] if before else client.transactions:
        told = ask(program, line(do="status", txn=transaction.id))
        assert told == {"ok": "status", "status": transaction.closed}, told


def bytes_kept(client):
    """The ledger's bytes: each message that was acknowledged stands at its place, in its transaction. There is no file before the
    first record of the topic."""
    path = f"{client.folder}/{LEDGER}"
    if not os.path.exists(path):
        assert not client.plain and not any(transaction.messages for transaction in client.transactions), "the ledger is gone"
        return 0
    with open(path, "rb") as file:
        records, _ = grammar.records_of_file(file.read())
    entries = grammar.entries_of(records)
    for place, text in client.plain.items():
        assert entries[place] == (grammar.PLAIN, None, text.encode()), place
    for transaction in client.transactions:
        most, least = (number.to_bytes(8, "big") for number in transaction.id)
        for place, text in transaction.messages.items():
            assert entries[place] == (grammar.OPENED, most + least, text.encode()), place
    return len(entries)


def main():
    random.seed(SEED)
    print(f"kill_commits: {ROUNDS} rounds with the seed {SEED}", flush=True)
    found, length = collections.Counter(), 0
    with tempfile.TemporaryDirectory() as top:
        client = Client(f"{top}/data")
        for number in itertools.count(1):
            between = any(status in DECIDED.values() for status, _ in found)
            if number > ROUNDS and between:
                break
            assert number <= 20 * ROUNDS, "no kill fell between a decision and its close"
            before = length
            transaction, how = client.until_killed()
            program = start(client.folder)
            status, is_there = look(program, transaction, how, before)
            found[status, is_there] += 1
            finish(client, program, transaction, how, status)
            whole(client, program, before)
            ended(program)
            length = bytes_kept(client)
        program = start(client.folder)
        whole(client, program, 0)
        ended(program)
    print(f"kill_commits: {len(client.transactions)} transactions, each all or nothing, and every reply kept", flush=True)
    for (status, is_there), count in sorted(found.items(), key=str):
        messages = {True: "with its messages there", False: "with its messages hidden", None: "without messages"}[is_there]
        print(f"kill_commits: {count} times the transaction was then {status}, {messages}", flush=True)


main()
