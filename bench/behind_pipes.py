"""What the scripts of this folder share: the program that is measured, programs that answer lines through pipes, and rounds of
the program and a floor by turns."""
import os
import statistics
import subprocess
import sys
import tempfile

sys.dont_write_bytecode = True

BENCH = os.path.dirname(os.path.abspath(__file__))
sys.path.append(f"{BENCH}/../scripts")

from program import LEDGER, LOG, PROGRAM


def folder(otherwise=None):
    """A new folder on the disk that is measured, which is gone at the end. It lies in the folder that the second word names."""
    return tempfile.TemporaryDirectory(dir=sys.argv[2] if len(sys.argv) > 2 else otherwise)


def compiled(name, top):
    """The path of a C program of this folder, built in the folder `top`."""
    path = f"{top}/{name}"
    subprocess.run(["gcc", "-O2", "-o", path, f"{BENCH}/{name}.c"], check=True)
    return path


def ask(program, line):
    """Writes a line, and gives its reply, which it takes in one call where it has come."""
    os.write(program.stdin.fileno(), line)
    reply = b""
    while not reply.endswith(b"\n"):
        piece = os.read(program.stdout.fileno(), 65536)
        assert piece, f"no more replies behind {reply!r}"
        reply += piece
    return reply


def ended(program):
    """Ends the input, and waits for a program that met no fault."""
    program.stdin.close()
    assert program.wait() == 0


def start(command, line):
    """A program that has answered one line, and that reply."""
    program = subprocess.Popen(command, stdin=subprocess.PIPE, stdout=subprocess.PIPE, bufsize=0)
    return program, ask(program, line)


def by_turns(what, things, rounds, count, program, floor):
    """Rounds of the program and of the floor by turns. Each of the two is a function that takes the number of a round and gives
    the seconds that `count` things took. Tells each round, the median of both rates, and the rounds' ratios."""
    ratios, ours, theirs = [], [], []
    for k in range(rounds):
        pair = [("floor", floor), ("program", program)]
        took = {name: way(k) for name, way in (pair if k % 2 else pair[::-1])}
        ours.append(count / took["program"])
        theirs.append(count / took["floor"])
        ratios.append(took["floor"] / took["program"])
        print(f"{what}, round {k + 1}: program {ours[-1]:.0f} {things} a second, floor {theirs[-1]:.0f}, ratio {ratios[-1]:.2f}", flush=True)
    quarter, _, three_quarters = statistics.quantiles(ratios, n=4)
    print(f"{what}, median: program {statistics.median(ours):.0f} {things} a second, floor {statistics.median(theirs):.0f}")
    print(f"{what}, ratios: median {statistics.median(ratios):.2f}, half of them from {quarter:.2f} to {three_quarters:.2f}, all from {min(ratios):.2f} to {max(ratios):.2f}", flush=True)
