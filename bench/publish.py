#!/usr/bin/env python3
"""Durable publishes of 100-byte messages by one client that waits for each reply through a pipe, against a floor that makes
the five calls of an append alone, with frames of the same size. One message a publish, and 64 in one batch. Fifty rounds of
100 lines each, the two by turns; the median of the rounds' ratios.
Usage: publish.py [PROGRAM [FOLDER]]   (PROGRAM as `rt run` left it, unless another is named; the disk of FOLDER is measured)"""
import time

from behind_pipes import PROGRAM, ask, by_turns, compiled, ended, folder, start
from story import MESSAGE, data_of

LINES, ROUNDS = 100, 50
PUBLISHED, FLOOR = b'"ok":"publish"}\n', b'{"ok":"floor"}\n'


def line_of(messages):
    return f'{{"do":"publish","topic":"orders","data":{data_of(messages)}}}\n'.encode()


def frame_size(messages):
    """A head of 5 bytes, and for each record a length of 2 bytes, and a version and a kind."""
    return 5 + messages * (2 + 2 + MESSAGE)


def seconds(command, line, told):
    """How long the lines take behind a first one, where each reply ends as it has to."""
    program, reply = start(command, line)
    assert reply.endswith(told), reply
    begin = time.perf_counter()
    for _ in range(LINES):
        reply = ask(program, line)
        assert reply.endswith(told), reply
    end = time.perf_counter()
    ended(program)
    return end - begin


def row(top, floor, messages):
    line, appends = line_of(messages), f"0:{frame_size(messages)}"
    by_turns(
        f"{messages} a publish", "publishes", ROUNDS, LINES,
        lambda k: seconds([PROGRAM, f"{top}/data-{messages}-{k}", "lines", "orders"], line, PUBLISHED),
        lambda k: seconds([floor, f"{top}/floor-{messages}-{k}", appends], line, FLOOR),
    )


def main():
    with folder() as top:
        floor = compiled("floor", top)
        for messages in (1, 64):
            row(top, floor, messages)


main()
