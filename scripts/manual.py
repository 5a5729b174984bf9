#!/usr/bin/env python3
"""Compares the man page with the program and with the other pages: the requests with grammar.py, the refusals and their order with
docs/LINES.md, the refusals and the statuses with docs/OPERATING.md, the statuses with the source, the session and what can be
brought about with the program itself. Where groff is there, the page has to be set without a warning. Then it runs the two commands
of README.md as they stand, and each session of a page, and compares the replies with those that the page has.
Usage: manual.py [PROGRAM]   (PROGRAM as `rt run` left it, unless another is named)"""
import json
import os
import re
import shutil
import subprocess
import sys
import tempfile

sys.dont_write_bytecode = True

import grammar
from program import LEDGER, PROGRAM, SCRIPTS

TOP = f"{SCRIPTS}/.."
PAGE = f"{TOP}/docs/pulsar_txn.1"
README = f"{TOP}/README.md"
WITH_SESSIONS = ["docs/LINES.md", "crates/pulsar_txn/README.md"]
# In the place of `rt run -- WORDS` and of `rt try -- WORDS`: the program with these words.
RT = """#!/bin/sh
case "$1 $2" in "run --" | "try --") shift 2; exec "$PROGRAM" "$@" ;; esac
exit 99
"""
PLAIN = '{"do":"publish","topic":"orders","data":"a"}'
READ = '{"do":"read","topic":"orders","from":0,"max":10}'
NEW = '{"do":"new","timeout":60000}'
# What brings each refusal about, as the last reply.
BRINGS = {
    "too_long": [" " * 70_000],
    "bad_line": ["{"],
    "unknown_part": ['{"do":"publish","topic":"bills","data":"a"}'],
    "unknown_coordinator": ['{"do":"status","txn":[1,0]}'],
    "bad_timeout": ['{"do":"new","timeout":0}'],
    "too_big": ['{"do":"publish","topic":"orders","data":[' + ",".join(['"a"'] * 65) + "]}"],
    "not_found": ['{"do":"status","txn":[0,0]}'],
    "not_open": [NEW, '{"do":"commit","txn":[0,0]}', '{"do":"abort","txn":[0,0]}'],
    "not_registered": [NEW, '{"do":"publish","topic":"orders","txn":[0,0],"data":"a"}'],
}


def same(what, found, wanted):
    assert found == wanted, f"{what}: found {found!r}, wanted {wanted!r}"


def read(path):
    with open(path, encoding="utf-8") as file:
        return file.read()


def sections(page):
    """The text of each section, by its name."""
    parts = re.split(r"^\.S[HS] (.*)$", page, flags=re.MULTILINE)
    return dict(zip(parts[1::2], parts[2::2]))


def objects(text):
    """The JSON objects that stand by themselves in a section's headings."""
    return re.findall(r"^\.B (\{.*\})$", text, re.MULTILINE)


def statuses(text):
    """The line of each status."""
    found = re.findall(r'^\.BR? (\d+)(?: "  " (?:"([^"]*)"|(\w+)))?$', text, re.MULTILINE)
    return {int(number): quoted or word for number, quoted, word in found}


def under(path, heading):
    """The text behind a heading."""
    return read(path).split(f"\n## {heading}\n", 1)[1].split("\n## ", 1)[0]


def blocks(text, kind=""):
    """The blocks of code of this kind, each as its text."""
    found = re.findall(r"^```(\w*)\n(.*?)^```$", text, re.MULTILINE | re.DOTALL)
    return [code for word, code in found if word == kind]


def rows(path, heading):
    """The cells of the tables behind a heading."""
    text = under(path, heading)
    return [[cell.strip() for cell in line.strip("|").split(" | ")] for line in text.split("\n") if line.startswith("| ")]


def run(folder, lines, *more):
    text = "".join(line + "\n" for line in lines)
    done = subprocess.run([PROGRAM, folder, "lines", "orders", *more], input=text, capture_output=True, text=True, timeout=60)
    return done.returncode, done.stdout.split("\n")[:-1], done.stderr


def compare_requests(parts):
    requests = [grammar.request_of(text.encode()) for text in objects(parts["LINES"])]
    same("the requests", sorted(request["do"] for request in requests), sorted(grammar.ANSWERED))


def compare_refusals(parts):
    """The refusals are those that LINES.md has so far, in its order, with the same keys."""
    told = {}
    for row in rows(f"{TOP}/docs/LINES.md", "Replies"):
        text = re.search(r'`(\{[^`]*"no":[^`]*\})`', row[1])
        if text and row[2] != "no":
            told[json.loads(text[1])["no"]] = set(json.loads(text[1]))
    refusals = [json.loads(text) for text in objects(parts["Refusals"])]
    same("the refusals", {refusal["no"]: set(refusal) for refusal in refusals}, told)
    order = read(f"{TOP}/docs/LINES.md").split("\n## Order of refusals\n", 1)[1].split("\n## ", 1)[0]
    numbered = [word for line in order.split("\n") if re.match(r"\d", line) for word in re.findall(r"`(\w+)`", line) if word in told]
    same("their order", [refusal["no"] for refusal in refusals if refusal["no"] != "no_memory"], numbered)
    there = {word for row in rows(f"{TOP}/docs/OPERATING.md", "Refusals") for word in re.findall(r"`(\w+)`", row[0])}
    same("those of OPERATING.md", there - {"no", "transactions", "log"}, set(told))
    for text in objects(parts["Refusals"]) + objects(parts["REPLIES"]):
        same("its text", json.dumps(json.loads(text), sort_keys=True, separators=(",", ":")), text)
    return told


def compare_statuses(parts):
    """The statuses are those of OPERATING.md and of the source."""
    here = statuses(parts["EXIT STATUS"])
    there = {int(row[0]): row[1].strip("`") for row in rows(f"{TOP}/docs/OPERATING.md", "Statuses") if row[0].isdigit()}
    same("the statuses", {**here, 0: "none"}, there)
    source = read(f"{TOP}/crates/txn_run/src/ending.rt")
    numbers = [int(number) for number in re.findall(r"=> (\d+),", source)]
    same("their numbers in the source", sorted(here), sorted(numbers))
    for line in list(here.values())[1:]:
        word = line.split(" p0")[0]
        assert f'"{word}\\n"' in source or f'"{word} {{}} {{entry}}\\n"' in source, f"{line} isn't in the source"
    return here


def try_sessions(parts, top):
    """The sessions of the man page and of other pages: a command, and lines and replies by turns."""
    found = [parts["EXAMPLES"].split("\n.nf\n")[1].split(".fi\n")[0]]
    for path in WITH_SESSIONS:
        there = [text for text in blocks(read(f"{TOP}/{path}")) if text.startswith("$ pulsar_txn ")]
        assert there, f"{path} has no session"
        found += there
    for number, text in enumerate(found):
        command, *lines = text.rstrip("\n").split("\n")
        same("its command", command.split()[1::2], ["pulsar_txn", "lines"])
        same("its topic", command.split()[4:], ["orders"])
        status, replies, _ = run(f"{top}/session{number}", lines[0::2])
        same(f"the session {command}", (status, replies), (0, lines[1::2]))
    return len(found)


def printed(command, top):
    """What a command of the README prints, run at the top of the checkout, with /tmp elsewhere and the program in rt's place."""
    there = {**os.environ, "PATH": f"{top}/bin:{os.environ['PATH']}", "PROGRAM": PROGRAM}
    done = subprocess.run(["bash", "-c", command.replace("/tmp/", f"{top}/")], cwd=TOP, env=there, capture_output=True, text=True, timeout=60)
    same("how a command of the README ends", (done.returncode, done.stderr), (0, ""))
    return done.stdout


def try_readme(top):
    """The first command of the README prints the replies of its story, and its quick look those that stand below it."""
    os.mkdir(f"{top}/bin")
    with open(f"{top}/bin/rt", "w", encoding="utf-8") as stub:
        stub.write(RT)
    os.chmod(f"{top}/bin/rt", 0o755)
    first, quick = blocks(under(README, "Set up"), "sh")[0], blocks(under(README, "A quick look"), "sh")[0]
    asked = [json.loads(line)["do"] for line in re.findall(r"^  '(\{.*\})'", first, re.MULTILINE)]
    story = [row for row in rows(README, "A transaction's story") if row[1] != "reply" and "`" in row[1]]
    same("the lines of the story", [re.search(r"`(\w+)`", row[0])[1] for row in story], asked)
    same("the replies of the story", printed(first, top).split("\n")[:-1], [row[1].strip("`") for row in story])
    wanted = blocks(under(README, "A quick look"))[0]
    same("the quick look", printed(quick, top), wanted)
    return len(asked) + wanted.count("\n")


def try_refusals(told, top):
    """Each refusal that some lines bring about has the keys of the page."""
    for word, lines in BRINGS.items():
        _, replies, _ = run(f"{top}/{word}", lines)
        last = json.loads(replies[-1])
        same(f"the refusal {word}", (last.get("no"), set(last)), (word, told[word]))
    program = subprocess.Popen([PROGRAM, f"{top}/changed", "lines", "orders"], stdin=subprocess.PIPE, stdout=subprocess.PIPE, text=True, bufsize=1)
    print(PLAIN, file=program.stdin, flush=True)
    program.stdout.readline()
    with open(f"{top}/changed/{LEDGER}", "r+b") as ledger:
        ledger.seek(7)
        ledger.write(b"\x09")
    print(READ, file=program.stdin, flush=True)
    same("a record that was changed", set(json.loads(program.stdout.readline())), told["damaged"])
    program.communicate()


def try_statuses(lines, top):
    """Each status that can be brought about has its line, and the session of a fault its reply."""
    def ends(number, folder, what, line=None, **more):
        more = {"stdin": subprocess.DEVNULL, "stdout": subprocess.DEVNULL, **more}
        done = subprocess.run([PROGRAM, folder, "lines", "orders"], stderr=subprocess.PIPE, text=True, timeout=60, **more)
        same(what, (done.returncode, done.stderr), (number, (line or lines[number]) + "\n"))

    ends(1, "-x", "an option")
    folder = f"{top}/damaged"
    run(folder, [PLAIN])
    with open(f"{folder}/{LEDGER}", "ab") as ledger:
        ledger.write(b"\1")
    ends(2, folder, "a damaged file")
    ends(3, f"{top}/read", "an input that fails", stdin=os.open(top, os.O_RDONLY))
    run(f"{top}/written", [PLAIN])
    with open("/dev/full", "wb") as full, tempfile.TemporaryFile() as given:
        given.write(READ.encode())
        given.seek(0)
        ends(4, f"{top}/written", "an output that fails", stdin=given, stdout=full)
    with open(f"{top}/file", "wb"):
        ends(5, f"{top}/file", "a file for a folder")


def main():
    parts = sections(read(PAGE))
    if shutil.which("groff"):
        done = subprocess.run(["groff", "-man", "-ww", "-z", PAGE], capture_output=True, text=True, timeout=60)
        same("what groff says", (done.returncode, done.stderr), (0, ""))
    compare_requests(parts)
    refusals = compare_refusals(parts)
    lines = compare_statuses(parts)
    with tempfile.TemporaryDirectory() as top:
        sessions, lines_told = try_sessions(parts, top), try_readme(top)
        try_refusals(refusals, top)
        try_statuses(lines, top)
    print(f"manual: {len(grammar.ANSWERED)} requests, {len(refusals)} refusals and {len(lines)} statuses are as the page says; so are "
          f"{sessions} sessions, and {lines_told} lines of the README", flush=True)


main()
