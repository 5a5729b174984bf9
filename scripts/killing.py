"""Programs that are killed by signal 9 while they are asked lines. This is no test of a power cut: the system keeps what was
written."""
import json
import signal
import subprocess
import threading
import time

from program import PROGRAM


def start(folder):
    return subprocess.Popen([PROGRAM, folder, "lines", "orders"], stdin=subprocess.PIPE, stdout=subprocess.PIPE, bufsize=0)


def line(**form):
    return (json.dumps(form) + "\n").encode()


def read_line(place):
    return line(do="read", topic="orders", **{"from": place}, max=100)


def ask(program, text):
    """The reply to a line. None where the program ended before it was whole."""
    try:
        program.stdin.write(text)
    except BrokenPipeError:
        return None
    reply = program.stdout.readline()
    return json.loads(reply) if reply.endswith(b"\n") else None


def told_late(program):
    """The replies that a killed program had written and nobody had read."""
    return [json.loads(reply) for reply in program.stdout.read().split(b"\n")[:-1]]


def kill_later(program, seconds):
    """Kills the program after so many seconds, while it is asked."""
    threading.Timer(seconds, lambda: program.send_signal(signal.SIGKILL)).start()


def kill_inside(program, text, seconds):
    """Writes a line, and kills the program so many seconds later. Gives the reply where it was written before."""
    program.stdin.write(text)
    time.sleep(seconds)
    program.send_signal(signal.SIGKILL)
    program.wait()
    replies = told_late(program)
    return replies[0] if replies else None


def ended(program):
    """Ends the input, and waits for a program that met no fault."""
    program.stdin.close()
    assert program.wait() == 0


def visible(program, first):
    """Every message that can be read from a place on: its place and its text."""
    found = []
    while True:
        place = found[-1][0] + 1 if found else first
        messages = ask(program, read_line(place))["messages"]
        if not messages:
            return found
        found += messages
