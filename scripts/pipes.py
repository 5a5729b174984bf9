#!/usr/bin/env python3
"""Talks to the program over pipes, as a client does: one line at a time, two programs on one folder, an output that is
closed early, and words and files that are refused. Usage: pipes.py [PROGRAM]   (as `rt run` left it, unless another is named)"""
import os
import select
import subprocess
import sys
import tempfile

sys.dont_write_bytecode = True

from program import LEDGER, PROGRAM

PUBLISH = b'{"do":"publish","topic":"orders","data":"a"}\n'
READ = b'{"do":"read","topic":"orders","from":0,"max":10}\n'
FIRST = b'{"at":0,"count":1,"ok":"publish"}\n'
SHOWN = b'{"limit":1,"messages":[[0,"a"]],"ok":"read"}\n'
FRAME = bytes.fromhex("01 00 00 00 05 00 03 01 01 61")


def start(folder, *words, **more):
    more = {"stdin": subprocess.PIPE, "stdout": subprocess.PIPE, "stderr": subprocess.PIPE, **more}
    return subprocess.Popen([PROGRAM, folder, *words], bufsize=0, **more)


def run(folder, words, text=b""):
    done = subprocess.run([PROGRAM, *folder, *words], input=text, capture_output=True, timeout=60)
    return done.returncode, done.stdout, done.stderr


def ask(program, line):
    """Writes one line, and gives the whole reply that comes before another is written."""
    program.stdin.write(line)
    reply = b""
    while not reply.endswith(b"\n"):
        ready, _, _ = select.select([program.stdout], [], [], 20)
        assert ready, f"no reply to {line!r}"
        piece = os.read(program.stdout.fileno(), 65536)
        assert piece, f"the program ended at {line!r}"
        reply += piece
    return reply


def same(what, found, wanted):
    assert found == wanted, f"{what}: found {found!r}, wanted {wanted!r}"


def one_line_at_a_time(folder):
    program = start(folder, "lines", "orders")
    same("publish", ask(program, PUBLISH), FIRST)
    with open(f"{folder}/{LEDGER}", "rb") as ledger:
        same("the ledger when the reply is there", ledger.read(), FRAME)
    same("read", ask(program, READ), SHOWN)
    program.stdin.close()
    same("status", program.wait(20), 0)
    same("what it wrote on standard error", program.stderr.read(), b"")


def two_programs_on_one_folder(folder):
    first = start(folder, "lines", "orders")
    same("publish", ask(first, PUBLISH), FIRST)
    same("the second program", run([folder], ["lines", "orders"], READ), (5, b"", b"disk fault\n"))
    same("the first goes on", ask(first, READ), SHOWN)
    first.stdin.close()
    same("status", first.wait(20), 0)
    same("afterwards", run([folder], ["lines", "orders"], READ), (0, SHOWN, b""))


def folder_that_another_program_made(folder):
    late = start(folder, "lines", "orders")
    limit = b'{"limit":0,"messages":[],"ok":"read"}\n'
    same("read of a folder that isn't there", ask(late, READ), limit)
    assert not os.path.exists(folder), "a read made the folder"
    same("the other program", run([folder], ["lines", "orders"], PUBLISH), (0, FIRST, b""))
    same("its publish", ask(late, PUBLISH), b'{"no":"fault","part":"orders"}\n')
    same("status", late.wait(20), 5)
    with open(f"{folder}/{LEDGER}", "rb") as ledger:
        same("the ledger", ledger.read(), FRAME)


def closed_output(folder):
    reader, writer = os.pipe()
    program = start(folder, "lines", "orders", stdout=writer)
    os.close(writer)
    os.close(reader)
    program.stdin.write(PUBLISH)
    program.stdin.close()
    same("status with a closed output", program.wait(20), 4)
    same("what it says", program.stderr.read(), b"write fault\n")


def second_run_reads_the_first(folder):
    same("the first run", run([folder], ["lines", "orders"], PUBLISH), (0, FIRST, b""))
    again = b'{"at":1,"count":1,"ok":"publish"}\n'
    shown = b'{"limit":2,"messages":[[0,"a"],[1,"a"]],"ok":"read"}\n'
    same("the second run", run([folder], ["lines", "orders"], PUBLISH + READ), (0, again + shown, b""))
    same("empty input", run([folder], ["lines", "orders"]), (0, b"", b""))
    with open(f"{folder}/{LEDGER}", "rb") as ledger:
        same("the ledger", ledger.read(), FRAME + FRAME)


def input_that_fails(folder):
    closed = ["sh", "-c", 'exec "$0" "$@" <&-', PROGRAM, folder, "lines", "orders"]
    folder_as_input = ["sh", "-c", 'exec "$0" "$@" </', PROGRAM, folder, "lines", "orders"]
    for command in (closed, folder_as_input):
        done = subprocess.run(command, capture_output=True, timeout=20)
        same(f"{command[2]}", (done.returncode, done.stdout, done.stderr), (3, b"", b"read fault\n"))


def full_output(folder):
    with open("/dev/full", "wb") as full:
        program = start(folder, "lines", "orders", stdout=full)
        program.stdin.write(PUBLISH)
        program.stdin.close()
        same("status with a full output", program.wait(20), 4)
        same("what it says", program.stderr.read(), b"write fault\n")
    same("the message is there", run([folder], ["lines", "orders"], READ), (0, SHOWN, b""))


def file_for_a_folder(folder):
    with open(folder, "wb") as file:
        file.write(b"a file")
    same("a file for a folder", run([folder], ["lines", "orders"], READ), (5, b"", b"disk fault\n"))


def refused_words(folder):
    for first in ([], [""], ["--help"], ["-x"], [b"\xff"]):
        same(f"folder {first}", run(first, ["lines", "orders"] if first else []), (1, b"", b"usage\n"))
    for words in ([], ["lines"], ["lines", "-x"], ["lines", "a!b"], ["lines", "a", "b"], ["lines", ""], ["lines", b"\xff"], ["--help"], ["check"]):
        same(f"words {words}", run([folder], words, PUBLISH), (1, b"", b"usage\n"))
    assert not os.path.exists(folder), "words that are no command line made the folder"


def damaged_ledgers(folder):
    os.mkdir(folder)
    for tail, after in (("00 00 00 00 05 00 03", 10), ("07 ff", 10), ("", 10)):
        with open(f"{folder}/{LEDGER}", "wb") as ledger:
            ledger.write(FRAME + bytes.fromhex(tail))
        same(f"a torn tail {tail!r}", run([folder], ["lines", "orders"], READ), (0, SHOWN, b""))
        same(f"its length after {tail!r}", os.path.getsize(f"{folder}/{LEDGER}"), after)
    for tail in ("01 00 00", "01 00 00 00 00", "01 ff ff ff ff"):
        with open(f"{folder}/{LEDGER}", "wb") as ledger:
            ledger.write(FRAME + bytes.fromhex(tail))
        same(f"damage {tail!r}", run([folder], ["lines", "orders"], READ), (2, b"", b"damaged p01-r0000000002 1\n"))
        same("damage stays as it was", os.path.getsize(f"{folder}/{LEDGER}"), 10 + len(bytes.fromhex(tail)))


CASES = (
    one_line_at_a_time,
    second_run_reads_the_first,
    two_programs_on_one_folder,
    folder_that_another_program_made,
    closed_output,
    full_output,
    input_that_fails,
    file_for_a_folder,
    refused_words,
    damaged_ledgers,
)


def main():
    for case in CASES:
        with tempfile.TemporaryDirectory() as top:
            case(f"{top}/data")
        print(f"pipes: {case.__name__}: as it should be", flush=True)


main()
