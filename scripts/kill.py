#!/usr/bin/env python3
"""Kills the program by signal 9 at random moments on one folder, restarts it, and looks whether every message that was
acknowledged is there, in order, and at most one more. This is no test of a power cut: the system keeps what was written.
Usage: kill.py [PROGRAM [ROUNDS [SEED]]]   (PROGRAM as `rt run` left it, unless another is named)"""
import random
import sys
import tempfile

sys.dont_write_bytecode = True

from killing import ask, ended, kill_later, line, start, visible

ROUNDS = int(sys.argv[2]) if len(sys.argv) > 2 else 200
SEED = int(sys.argv[3]) if len(sys.argv) > 3 else random.randrange(1 << 32)


def kept(folder):
    """Every message that is there."""
    program = start(folder)
    found = visible(program, 0)
    ended(program)
    for k, (place, _) in enumerate(found):
        assert place == k, f"place {place} behind {k} messages"
    return [text for _, text in found]


def publish_until_killed(folder, begin, wait):
    """Publishes numbered messages until the program is killed. Gives the texts that were sent and how many were acknowledged."""
    program = start(folder)
    kill_later(program, wait)
    sent, acknowledged = [], 0
    while True:
        text = f"m{begin + len(sent)}" + "x" * random.randrange(0, 300)
        sent.append(text)
        reply = ask(program, line(do="publish", topic="orders", data=text))
        if reply is None:
            break
        assert reply["at"] == begin + acknowledged
        acknowledged += 1
    program.wait()
    return sent, acknowledged


def main():
    random.seed(SEED)
    print(f"kill: {ROUNDS} rounds with the seed {SEED}", flush=True)
    with tempfile.TemporaryDirectory() as top:
        folder = f"{top}/data"
        there, more = [], 0
        for _ in range(ROUNDS):
            sent, acknowledged = publish_until_killed(folder, len(there), random.uniform(0.0, 0.05))
            found = kept(folder)
            least = there + sent[:acknowledged]
            assert found in (least, least + sent[acknowledged:acknowledged + 1]), f"with {len(least)} acknowledged, {len(found)} are there"
            more += len(found) - len(least)
            there = found
    print(f"kill: {len(there)} messages, each acknowledged one there and in order; {more} were there without their reply", flush=True)


main()
