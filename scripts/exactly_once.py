#!/usr/bin/env python3
"""Kills the worker of examples/transform.py, its programs or all of them by signal 9 at random lines: before a line is written,
behind it, or behind its reply. Each time it starts the worker again on the same folders; then it counts the results of each
message. This is no test of a power cut: the system keeps what was written.
Usage: exactly_once.py [PROGRAM [KILLS [SEED]]]   (PROGRAM as `rt run` left it, unless another is named)"""
import collections
import json
import os
import random
import signal
import sys
import tempfile
import time

sys.dont_write_bytecode = True
sys.path.insert(1, os.path.join(os.path.dirname(os.path.abspath(__file__)), "..", "examples"))

import transform
from program import PROGRAM

KILLS = int(sys.argv[2]) if len(sys.argv) > 2 else 200
SEED = int(sys.argv[3]) if len(sys.argv) > 3 else random.randrange(1 << 32)
VICTIMS = ("the worker", "the reading program", "the writing program", "all three")
MOMENTS = ("before a line", "behind a line", "behind a reply")
LINES = 24
KILLED = 3


class Plan:
    """Whom to kill, at which line of the worker's, and when."""

    def __init__(self):
        self.left, self.victim, self.moment = random.randint(1, LINES), random.choice(VICTIMS), random.choice(MOMENTS)
        self.delay, self.topics, self.done = random.choice((0, random.uniform(0, 0.003))), {}, False

    def reached(self, moment):
        """Kills, where this is the line and the moment. Where the program isn't there yet, the next line has its turn."""
        if self.left > 0 or self.done or moment != self.moment:
            return
        names = {"the worker": (), "the reading program": ("orders",), "the writing program": ("results",)}.get(self.victim, self.topics)
        programs = [self.topics[name].program for name in names if name in self.topics]
        if not programs and self.victim != "the worker":
            return
        if moment == "behind a line":
            time.sleep(self.delay)
        self.done = True
        for program in programs:
            program.send_signal(signal.SIGKILL)
        if self.victim in ("the worker", "all three"):
            os.kill(os.getpid(), signal.SIGKILL)


def killed_topic(plan):
    """Topics whose worker, or whose programs, are killed by the plan."""

    class Killed(transform.Topic):
        def __init__(self, *words):
            super().__init__(*words)
            plan.topics[self.name] = self

        def put(self, line):
            plan.left -= 1
            plan.reached("before a line")
            super().put(line)
            plan.reached("behind a line")

        def take(self):
            reply = super().take()
            plan.reached("behind a reply")
            return reply

    return Killed


def worker(folders, kind):
    """Transforms all that can be read."""
    topics = [transform.opened(kind, PROGRAM, folder, name) for folder, name in folders]
    transform.work(*topics)
    for topic in topics:
        topic.close()


def killed_worker(folders, plan):
    """A worker in a process of its own, by the plan. Whether a kill came before it was through."""
    child = os.fork()
    if child == 0:
        status = 1
        try:
            worker(folders, killed_topic(plan))
            status = KILLED if plan.done else 0
        except transform.Ended:
            status = KILLED if plan.done else 1
        finally:
            os._exit(status)
    _, status = os.waitpid(child, 0)
    code = os.waitstatus_to_exitcode(status)
    assert code in (0, KILLED, -signal.SIGKILL), f"a worker ended with {code} and wasn't killed"
    return code != 0


def produce(folder, name):
    """Publishes some messages to be transformed: plain ones, and some in transactions that are committed or aborted."""
    topic = transform.opened(transform.Topic, PROGRAM, folder, name)
    more = {}
    if end := random.choice((None, None, "commit", "abort")):
        more = {"txn": topic.granted("new", timeout=60_000)["txn"]}
        topic.granted("add", part=name, **more)
    texts = [f"m{random.randrange(1 << 32)}" for _ in range(random.randint(1, 6))]
    topic.granted("publish", topic=name, data=texts, **more)
    if end:
        topic.granted(end, **more)
    topic.close()


def count_results(folders):
    """Each message has one result, in order, and each transaction is closed. How many messages and transactions there are."""
    source, target = (transform.opened(transform.Topic, PROGRAM, folder, name) for folder, name in folders)
    wanted = [transform.transformed(place, text) for place, text in source.messages(0)]
    found = [text for _, text in target.messages(0) if "result" in json.loads(text)]
    often = collections.Counter(found)
    assert found == wanted, f"{sum(n > 1 for n in often.values())} results more than once, {len(set(wanted) - set(found))} missing"
    number = 0
    while (reply := target.ask("status", txn=[0, number])).get("no") != "not_found":
        assert reply["status"] in ("committed", "aborted"), f"transaction {number} is {reply['status']}"
        number += 1
    source.close()
    target.close()
    return len(wanted), number


def main():
    random.seed(SEED)
    print(f"exactly_once: {KILLS} kills with the seed {SEED}", flush=True)
    kills = collections.Counter()
    with tempfile.TemporaryDirectory() as top:
        folders = ((f"{top}/from", "orders"), (f"{top}/to", "results"))
        while sum(kills.values()) < KILLS:
            produce(*folders[0])
            plan = Plan()
            if killed_worker(folders, plan):
                kills[plan.victim, plan.moment] += 1
        worker(folders, transform.Topic)
        messages, transactions = count_results(folders)
    for (victim, moment), count in sorted(kills.items()):
        print(f"exactly_once: {count} kills of {victim} {moment}", flush=True)
    print(f"exactly_once: {messages} messages in {transactions} transactions, each transformed once", flush=True)


main()
