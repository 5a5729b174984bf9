#!/usr/bin/env python3
"""Makes calls on real files fail, each one of a short run in turn, and looks at the replies, the status and the next run: a
fault names the part and ends the run with 5, nothing more is done with the file, each acknowledged message is there afterwards,
and a batch that was told `fault` is there as a whole or not at all. Before that it looks at the calls of each reply of a run
without faults: an append is a change of size, a write, a sync, the write of the gate, and a sync, and then comes its reply.
It needs strace; without it, or where that may not trace, it says so and ends with 0.
Usage: faults.py [PROGRAM [TESTS]]   (as `rt run` left them, unless others are named; TESTS is the program `txn_files_tests`)"""
import json
import os
import subprocess
import sys
import tempfile

sys.dont_write_bytecode = True

from program import LEDGER, LOG, PROGRAM, SCRIPTS
from tracing import CALLS, traced, why_not

HOME = os.path.abspath(f"{SCRIPTS}/../crates/txn_files_tests")
TESTS = os.path.abspath(sys.argv[2]) if len(sys.argv) > 2 else f"{HOME}/out/txn_files_tests"
PARTS = {LOG: "@coordinator", LEDGER: "orders"}
APPEND = ("ftruncate", "pwrite64", "fsync", "pwrite64", "fsync")


def line(**form):
    return (json.dumps(form) + "\n").encode()


def publish(data, **more):
    return line(do="publish", topic="orders", data=data, **more)


READ = line(do="read", topic="orders", **{"from": 0}, max=100)
COMMIT = line(do="commit", txn=[0, 0])
# The lines of the run, and the files to which each appends. A read of them all shows a, b, c, d, e.
LINES = (
    (publish("a"), (LEDGER,)),
    (READ, ()),
    (line(do="new", timeout=60000), (LOG,)),
    (line(do="add", txn=[0, 0], part="orders"), (LOG,)),
    (publish(["b", "c"], txn=[0, 0]), (LEDGER,)),
    (line(do="status", txn=[0, 0]), ()),
    (COMMIT, (LOG, LEDGER, LOG)),
    (publish(["d", "e"]), (LEDGER,)),
)
TEXT = b"".join(text for text, _ in LINES)
# How a call fails: what strace is told, and whether the program is to make the call again and see nothing of it.
FAILURES = {
    "fsync": (("error=EIO", False), ("error=ENOSPC", False), ("error=EINTR", True)),
    "pwrite64": (("error=EIO", False), ("error=ENOSPC", False), ("retval=0", False), ("error=EINTR", True)),
    "ftruncate": (("error=EIO", False), ("error=ENOSPC", False), ("error=EINTR", True)),
}


def same(what, found, wanted):
    assert found == wanted, f"{what}: found {found!r}, wanted {wanted!r}"


def command(folder, program=PROGRAM):
    return [program, folder, "lines", "orders"]


def messages(texts):
    return [text for batch in texts for text in batch]


def data_of(text):
    data = json.loads(text).get("data", [])
    return data if isinstance(data, list) else [data]


class Found:
    """A run that was traced: its replies, and for each the calls on files before it."""

    def __init__(self, folder, injected=(), text=TEXT, path=None):
        self.status, output, self.says, calls = traced(command(folder), text, injected, path)
        self.replies = [json.loads(reply) for reply in output.splitlines()]
        self.calls, self.before = [call for call in calls if call.name in CALLS], [[]]
        for call in calls:
            if call.name == "write":
                self.before.append([])
            else:
                self.before[-1].append(call)

    def in_words(self, line, first=0):
        """The calls of one line, from one of them on: the name of each, and that of its file."""
        return [(call.name, os.path.basename(call.path)) for call in self.before[line][first:]]


def look_at_appends(folder):
    """The calls of each line of a run in an empty folder that is there."""
    found, names = Found(folder), [os.path.basename(path) for path in (folder, os.path.dirname(folder))]
    same("status", (found.status, found.says), (0, b""))
    same("replies", len(found.replies), len(LINES))
    same("the calls of opening", found.in_words(0)[:2], [("fsync", name) for name in names])
    seen = set()
    for number, (text, files) in enumerate(LINES):
        wanted = []
        for file in files:
            # The name of a file that is new is brought to the disk first.
            wanted += [] if file in seen else [("fsync", names[0])]
            wanted += [(name, file) for name in APPEND]
            seen.add(file)
        same(f"the calls of {text!r}", found.in_words(number, 0 if number else 2), wanted)
    return found


def opened_again(folder):
    """A further run syncs what it finds, before it reads a line."""
    found, names = Found(folder, text=READ), (folder, os.path.dirname(folder), LOG, LEDGER)
    same("the syncs of opening", found.in_words(0), [("fsync", os.path.basename(name)) for name in names])
    return found.replies[0]


def told_fault(reply, part):
    """Whether a reply tells a fault at this part."""
    stuck = {"ok": "commit", "part": part, "status": "committing", "why": "fault"}
    return reply in ({"no": "fault", "part": part}, stuck)


def look_at_next_run(what, folder, replies):
    """What the next run finds: the messages of each publish that was acknowledged, and those of one that was told a fault as a
    whole or not at all, when the commit was asked again."""
    done = subprocess.run(command(folder), input=COMMIT + READ, capture_output=True, timeout=60)
    same(f"{what}: the next run", (done.returncode, done.stderr), (0, b""))
    found = [text for _, text in json.loads(done.stdout.splitlines()[1])["messages"]]
    told = [data_of(text) for (text, _), reply in zip(LINES, replies) if reply.get("ok") == "publish"]
    failed = [data_of(text) for (text, _), reply in zip(LINES, replies) if told_fault(reply, "orders") and "no" in reply]
    assert found in (messages(told), messages(told + failed)), f"{what}: the next run found {found}, told were {told}, failed {failed}"


def fail(call, how, is_made_again, number, plain):
    """A run in which one call fails."""
    what = f"{call} number {number} with {how}"
    with tempfile.TemporaryDirectory() as top:
        folder = f"{top}/data"
        os.mkdir(folder)
        found = Found(folder, [f"{call}:{how}:when={number}"])
        (failed,) = [c for c in found.calls if c.is_injected]
        if is_made_again:
            same(what, (found.status, found.replies), (0, plain.replies))
            return
        same(what, (found.status, found.says), (5, b"disk fault\n"))
        at = found.calls.index(failed)
        if not found.replies:
            # Opening failed, so no line was looked at.
            assert failed.path in (folder, top), f"{what}: no reply"
        else:
            last = len(found.replies) - 1
            same(what, found.replies[:last], plain.replies[:last])
            part = PARTS.get(os.path.basename(failed.path)) or PARTS[LINES[last][1][0]]
            assert told_fault(found.replies[last], part), f"{what}: at {failed} the reply was {found.replies[last]}"
            assert failed in found.before[last], f"{what}: the fault was told of another line"
        same(f"{what}: calls after it", found.calls[at + 1:], [])
        look_at_next_run(what, folder, found.replies)


def each_call(plain):
    tried = 0
    for call in CALLS:
        for how, is_made_again in FAILURES[call]:
            for number in range(1, sum(c.name == call for c in plain.calls) + 1):
                fail(call, how, is_made_again, number, plain)
                tried += 1
    return tried


def parents(top):
    """Of a folder that is there a parent may refuse to be synced, but not of one that the run makes, which is then taken away."""
    os.mkdir(f"{top}/there")
    for error, is_passed_over in (("EINVAL", True), ("EROFS", True), ("EACCES", True), ("EPERM", True), ("EIO", False)):
        found = Found(f"{top}/there", [f"fsync:error={error}"], publish("a"), top)
        same(f"{error} of the parent", found.status, 0 if is_passed_over else 5)
        found = Found(f"{top}/made", [f"fsync:error={error}"], publish("a"), top)
        same(f"{error} of the parent of a new folder", (found.status, found.replies), (5, [{"no": "fault", "part": "orders"}]))
        assert not os.path.exists(f"{top}/made"), f"{error}: the folder is there"
        found = Found(f"{top}/there", [f"fsync:error={error}:when=1"], READ, f"{top}/there")
        same(f"{error} of the folder itself", (found.status, found.replies), (5, []))


def closed_files(top):
    """A file whose sync fails as it is closed for another one stays broken, though it is opened again."""
    with open(f"{HOME}/stdin", "rb") as lines, open(f"{HOME}/stdout", "rb") as replies:
        text, wanted = lines.read(), replies.read()
    for injected, ending in (((), b"as it should be"), (("fsync:error=EIO",), b"a call failed")):
        with tempfile.TemporaryDirectory(dir=top) as here:
            path = f"{os.path.realpath(here)}/unsynced/{LEDGER}"
            status, output, _, _ = traced([TESTS], text, injected, path if injected else None, here)
        closed = b"a file closed before its sync: "
        same("the tests", (status, output), (0, wanted.replace(closed + b"as it should be", closed + ending)))


def full_disk(top):
    """A file system of 64 KB in memory, which fills up in the middle of a write. False where none may be mounted."""
    mounted = f"{top}/mounted"
    os.mkdir(mounted)
    mount = ["mount", "-t", "tmpfs", "-o", "size=64k", "none", mounted]
    if os.geteuid() != 0 or subprocess.run(mount, capture_output=True).returncode != 0:
        return False
    try:
        folder, text = f"{mounted}/data", "x" * 5_000
        done = subprocess.run(command(folder), input=publish([text, text]) * 20, capture_output=True, timeout=60)
        *told, last = [json.loads(reply) for reply in done.stdout.splitlines()]
        same("a full disk", (done.returncode, done.stderr, last), (5, b"disk fault\n", {"no": "fault", "part": "orders"}))
        assert len(told) > 2 and all(reply["ok"] == "publish" for reply in told), told
        subprocess.run(["mount", "-o", "remount,size=1m", mounted], check=True)
        done = subprocess.run(command(folder), input=READ + publish("a"), capture_output=True, timeout=60)
        read, after = [json.loads(reply) for reply in done.stdout.splitlines()]
        same("with more room", (done.returncode, after["ok"]), (0, "publish"))
        assert after["at"] in (2 * len(told), 2 * len(told) + 2), f"told were {len(told)} pairs, and the next place is {after}"
        same("what is read", read["messages"], [[k, text] for k in range(after["at"])])
    finally:
        subprocess.run(["umount", mounted], check=True)
    return True


def main():
    reason = why_not()
    if reason:
        print(f"faults: skipped: {reason}")
        return
    with tempfile.TemporaryDirectory() as top:
        os.mkdir(f"{top}/data")
        plain = look_at_appends(f"{top}/data")
        read = opened_again(f"{top}/data")
        same("the next run", [text for _, text in read["messages"]], ["a", "b", "c", "d", "e"])
    print(f"faults: {sum(map(len, (files for _, files in LINES)))} appends, each with its five calls before its reply", flush=True)
    print(f"faults: {each_call(plain)} calls made to fail, each told, and nothing lost", flush=True)
    for case in (parents, closed_files, full_disk):
        with tempfile.TemporaryDirectory() as top:
            print(f"faults: {case.__name__}: {'skipped: nothing may be mounted' if case(top) is False else 'as it should be'}", flush=True)


main()
