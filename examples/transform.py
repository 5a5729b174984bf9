#!/usr/bin/env python3
"""A consumer that transforms each message of one topic exactly once into another, whatever is killed meanwhile.

It reads the topic `orders` of the folder FROM, and publishes to the topic `results` of the folder TO. Each transaction there has
the results of some messages, and the position behind them: the place from which to read on. Both are committed together, so a
worker that starts again finds the position of the last results that are there, and goes on from it. FROM is only read.

Usage: transform.py PROGRAM FROM TO   (it ends when all is transformed; a service would wait and read again)"""
import json
import subprocess
import sys
import time

MOST = 3
FAR = 1 << 63
START = {"next": 0, "txn": 0}
# How a transaction is ended that a killed worker has left.
ENDS = {"open": "abort", "aborting": "abort", "committing": "commit"}


class Ended(Exception):
    """The program ended without a reply; its status."""


class Topic:
    """The one topic of a folder, asked one line at a time over the program's pipes."""

    def __init__(self, program, folder, name):
        self.name = name
        self.program = subprocess.Popen([program, folder, "lines", name], stdin=subprocess.PIPE, stdout=subprocess.PIPE,
                                        stderr=subprocess.DEVNULL, bufsize=0)

    def put(self, line):
        try:
            self.program.stdin.write(line)
        except BrokenPipeError:
            raise Ended(self.program.wait()) from None

    def take(self):
        reply = self.program.stdout.readline()
        if not reply.endswith(b"\n"):
            raise Ended(self.program.wait())
        return reply

    def ask(self, do, **more):
        """The reply to one request."""
        self.put(json.dumps({"do": do, **more}).encode() + b"\n")
        return json.loads(self.take())

    def granted(self, do, **more):
        """The reply to a request that nothing may refuse."""
        reply = self.ask(do, **more)
        if "ok" not in reply:
            raise Ended(reply)
        return reply

    def read(self, first):
        return self.granted("read", topic=self.name, max=100, **{"from": first})

    def messages(self, first):
        """Every message that can be read from a place on."""
        while messages := self.read(first)["messages"]:
            yield from messages
            first = messages[-1][0] + 1

    def close(self):
        self.program.stdin.close()
        if self.program.wait() != 0:
            raise Ended(self.program.returncode)


def opened(kind, program, folder, name):
    """A topic of this kind. The program of a worker that was killed may hold the folder until it has read its input to the end."""
    for _ in range(1000):
        topic = kind(program, folder, name)
        try:
            topic.read(FAR)
            return topic
        except Ended as ended:
            if ended.args[0] != 5:
                raise
            time.sleep(0.01)
    raise Ended(5)


def last_position(target):
    """The position that was committed last."""
    first = target.read(FAR)["limit"]
    while first > 0:
        first = max(0, first - 100)
        texts = [json.loads(text) for _, text in target.messages(first)]
        positions = [text for text in texts if "next" in text]
        if positions:
            return positions[-1]
    return START


def resume(target):
    """The place to read on from. Every transaction that a killed worker has left is ended first: as it was decided, and by an
    abort where it wasn't. All before that of the last position are closed, since a worker begins none before."""
    number = last_position(target)["txn"]
    while (reply := target.ask("status", txn=[0, number])).get("no") != "not_found":
        if reply["status"] in ENDS:
            target.granted(ENDS[reply["status"]], txn=[0, number])
        number += 1
    return last_position(target)["next"]


def transformed(place, text):
    return json.dumps({"from": place, "result": text.upper()})


def work(source, target):
    """Transforms all that can be read. Gives how many messages."""
    position, count = resume(target), 0
    while messages := source.read(position)["messages"][:MOST]:
        position = messages[-1][0] + 1
        txn = target.granted("new", timeout=60_000)["txn"]
        target.granted("add", txn=txn, part=target.name)
        for place, text in messages:
            target.granted("publish", topic=target.name, txn=txn, data=transformed(place, text))
        target.granted("publish", topic=target.name, txn=txn, data=json.dumps({"next": position, "txn": txn[1]}))
        target.granted("commit", txn=txn)
        count += len(messages)
    return count


def main():
    program, source, target = sys.argv[1:]
    topics = opened(Topic, program, source, "orders"), opened(Topic, program, target, "results")
    print(f"transform: {work(*topics)} messages", flush=True)
    for topic in topics:
        topic.close()


if __name__ == "__main__":
    main()
