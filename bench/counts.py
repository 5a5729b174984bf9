#!/usr/bin/env python3
"""What one line takes by count, which other programs beside it don't move: system calls by `strace -f -c`, and instructions by
`valgrind --tool=callgrind`, with those that reading the line takes, and those that set memory. Each is counted over 500 lines
and over 1,000, which come from a file, and the difference is divided by 500: so neither the start nor the end is in it.
Usage: counts.py [PROGRAM [FOLDER]]   (PROGRAM as `rt run` left it, unless another is named; FOLDER lies in memory)"""
import collections
import re
import subprocess

from behind_pipes import PROGRAM, folder
from story import data_of

COUNT = 500
LINES = {
    "a publish of one message": f'{{"do":"publish","topic":"orders","data":{data_of(1)}}}\n',
    "a publish of 64 messages": f'{{"do":"publish","topic":"orders","data":{data_of(64)}}}\n',
    "a status line": '{"do":"status","txn":[0,0]}\n',
}
FUNCTIONS = {"read_request": "reading the line", "memset": "setting memory"}


def run(command, top, line, count):
    """Runs the program in a new folder behind this command, over so many lines."""
    with open(f"{top}/lines", "w") as lines:
        lines.write(line * count)
    with open(f"{top}/lines", "rb") as lines, folder("/dev/shm") as files:
        subprocess.run([*command, PROGRAM, f"{files}/data", "lines", "orders"], stdin=lines, stdout=subprocess.DEVNULL, stderr=subprocess.PIPE, check=True)


def calls(top, line, count):
    """How often each system call was made."""
    run(["strace", "-f", "-c", "-o", f"{top}/calls"], top, line, count)
    with open(f"{top}/calls") as table:
        rows = [row.split() for row in table]
    return collections.Counter({row[-1]: int(row[3]) for row in rows if len(row) > 4 and row[3].isdigit() and row[-1] != "total"})


def counted_as(what):
    """The name by which a row of callgrind's table is counted: all, one of the functions, or none."""
    if what.startswith("PROGRAM TOTALS"):
        return "all"
    return next((name for name in FUNCTIONS if name in what.split(" [")[0]), None)


def instructions(top, line, count):
    """How many instructions there were in all, and in each of the functions with what they call."""
    run(["valgrind", "--tool=callgrind", f"--callgrind-out-file={top}/counts"], top, line, count)
    annotate = ["callgrind_annotate", "--inclusive=yes", "--threshold=100", f"{top}/counts"]
    told = subprocess.run(annotate, capture_output=True, text=True, check=True).stdout
    found = collections.Counter()
    for number, what in re.findall(r"^ *([\d,]+) \([^)]*\) +(.*)$", told, re.M):
        found[counted_as(what)] += int(number.replace(",", ""))
    return found


def a_line(way, top, line):
    """What a line takes of each."""
    few, many = (way(top, line, count) for count in (COUNT, 2 * COUNT))
    return {name: (many[name] - few[name]) / COUNT for name in many}


def main():
    with folder("/dev/shm") as top:
        for what, line in LINES.items():
            made = sorted((name, count) for name, count in a_line(calls, top, line).items() if count > 0.001)
            print(f"{what}: system calls: {', '.join(f'{name} {count:.3g}' for name, count in made)}", flush=True)
            took = a_line(instructions, top, line)
            parts = ", ".join(f"{word} {took[name]:,.0f} ({took[name] / took['all']:.0%})" for name, word in FUNCTIONS.items())
            print(f"{what}: instructions: {took['all']:,.0f}, of which {parts}", flush=True)


main()
