#!/usr/bin/env python3
"""Tries the outside of the program where the system is unkind: a folder below a parent that may not be opened, as an ordinary
user; pipes that would block; a file at its size bound. Usage: outside.py [PROGRAM]   (as `rt run` left it, unless another is
named)"""
import fcntl
import os
import resource
import select
import shutil
import signal
import subprocess
import sys
import tempfile
import time

sys.dont_write_bytecode = True

from program import LEDGER, PROGRAM

PUBLISH = b'{"do":"publish","topic":"orders","data":"a"}\n'
READ = b'{"do":"read","topic":"orders","from":0,"max":100}\n'
FAULT = b'{"no":"fault","part":"orders"}\n'
EMPTY = b'{"limit":0,"messages":[],"ok":"read"}\n'
NOBODY = 65534
WAIT = 0.3


def same(what, found, wanted):
    assert found == wanted, f"{what}: found {found!r}, wanted {wanted!r}"


def published(count, first=0):
    return b"".join(b'{"at":%d,"count":1,"ok":"publish"}\n' % (first + k) for k in range(count))


def shown(count):
    messages = b",".join(b'[%d,"a"]' % k for k in range(count))
    return b'{"limit":%d,"messages":[%s],"ok":"read"}\n' % (count, messages)


def words(folder, program=PROGRAM):
    return [program, folder, "lines", "orders"]


def start(folder, **more):
    more = {"stdin": subprocess.PIPE, "stdout": subprocess.PIPE, "stderr": subprocess.PIPE, **more}
    return subprocess.Popen(words(folder), bufsize=0, **more)


class Ordinary:
    """An ordinary user: the one that runs this, or nobody where root does. A parent of its folder is another user's where
    that can be; else one that this user has closed to itself, which comes to the same."""

    def __init__(self, top):
        self.is_root = os.geteuid() == 0
        self.program = PROGRAM
        if self.is_root:
            os.chmod(top, 0o711)
            self.program = shutil.copy(PROGRAM, f"{top}/program")
            os.chmod(self.program, 0o755)

    def run(self, folder, text):
        user = {"user": NOBODY, "group": NOBODY, "extra_groups": []} if self.is_root else {}
        done = subprocess.run(words(folder, self.program), input=text, capture_output=True, timeout=60, **user)
        return done.returncode, done.stdout, done.stderr

    def parent(self, path, mode):
        """A folder of this mode for others."""
        os.mkdir(path)
        os.chmod(path, mode if self.is_root else mode << 6 & 0o700)

    def child(self, path):
        """A folder of the ordinary user's."""
        parent, mode = os.path.dirname(path), os.stat(os.path.dirname(path)).st_mode
        os.chmod(parent, 0o700)
        os.mkdir(path)
        os.chmod(parent, mode & 0o777)
        if self.is_root:
            os.chown(path, NOBODY, NOBODY)


def folder_below_a_parent_that_may_not_be_opened(top):
    user = Ordinary(top)
    user.parent(f"{top}/parent", 0o711)
    user.child(f"{top}/parent/data")
    folder = f"{top}/parent/data"
    same("the first run", user.run(folder, READ + PUBLISH), (0, EMPTY + published(1), b""))
    same("the second run", user.run(folder, PUBLISH + READ), (0, published(1, 1) + shown(2), b""))


def folder_that_would_be_made_there(top):
    """Where the name of a folder that the run makes can't be brought to the disk, it isn't made."""
    user = Ordinary(top)
    user.parent(f"{top}/parent", 0o733)
    folder = f"{top}/parent/data"
    same("a run", user.run(folder, READ + PUBLISH), (5, EMPTY + FAULT, b"disk fault\n"))
    same("a run behind it", user.run(folder, READ + PUBLISH), (5, EMPTY + FAULT, b"disk fault\n"))
    assert not os.path.exists(folder), "the folder was made"
    user.child(folder)
    same("in a folder that is there", user.run(folder, PUBLISH + READ), (0, published(1) + shown(1), b""))


def input_that_comes_late(top):
    reader, writer = os.pipe()
    os.set_blocking(reader, False)
    program = start(f"{top}/data", stdin=reader)
    for piece in (PUBLISH[:10], PUBLISH[10:] + READ[:5], READ[5:]):
        time.sleep(WAIT)
        same("the program goes on", program.poll(), None)
        os.write(writer, piece)
    os.close(writer)
    same("replies", program.stdout.read(), published(1) + shown(1))
    same("status", program.wait(20), 0)
    same("what it says", program.stderr.read(), b"")
    assert not os.get_blocking(reader), "the pipe was made to block"
    os.close(reader)


def full_pipe(top):
    """A program whose output would block since nobody reads, and the end that may be read."""
    count = 200
    reader, writer = os.pipe()
    fcntl.fcntl(writer, fcntl.F_SETPIPE_SZ, 4096)
    os.set_blocking(writer, False)
    program = start(f"{top}/data", stdout=writer)
    os.close(writer)
    program.stdin.write(PUBLISH * 100 + READ * count)
    program.stdin.close()
    deadline = time.monotonic() + 20
    while len(select.select([reader], [], [], 0)[0]) == 0 or filled(reader) < 2048:
        assert time.monotonic() < deadline, "nothing was written"
        time.sleep(0.05)
    time.sleep(WAIT)
    same("the program goes on", program.poll(), None)
    return program, reader, published(100) + shown(100) * count


def filled(reader):
    size = bytearray(4)
    fcntl.ioctl(reader, 0x541B, size)
    return int.from_bytes(size, sys.byteorder)


def output_that_is_read_late(top):
    program, reader, wanted = full_pipe(top)
    found = b""
    while len(piece := os.read(reader, 1000)) > 0:
        found += piece
    same("replies", found, wanted)
    same("status", program.wait(20), 0)
    same("what it says", program.stderr.read(), b"")
    os.close(reader)


def output_that_is_closed_while_it_is_full(top):
    program, reader, _ = full_pipe(top)
    os.close(reader)
    same("status", program.wait(20), 4)
    same("what it says", program.stderr.read(), b"write fault\n")


def bounded():
    resource.setrlimit(resource.RLIMIT_FSIZE, (100, resource.RLIM_INFINITY))


def file_at_its_size_bound(top):
    """A file may have 100 bytes, which are ten frames. Without more the system kills the program by a signal; where that is
    ignored, as a shell's `trap '' XFSZ` does, the write is a fault. Either way what was acknowledged is there."""
    trapped = ["sh", "-c", """trap '' XFSZ; exec "$0" "$@" """, *words(f"{top}/trapped")]
    for name, command, status, last, says in (
        ("killed", words(f"{top}/killed"), -signal.SIGXFSZ, b"", b""),
        ("trapped", trapped, 5, FAULT, b"disk fault\n"),
    ):
        done = subprocess.run(command, input=PUBLISH * 12, capture_output=True, preexec_fn=bounded, timeout=60)
        same(name, (done.returncode, done.stdout, done.stderr), (status, published(10) + last, says))
        done = subprocess.run(words(f"{top}/{name}"), input=READ + PUBLISH, capture_output=True, timeout=60)
        same(f"{name}, the next run", (done.returncode, done.stdout), (0, shown(10) + published(1, 10)))
        same(f"{name}, its ledger", os.path.getsize(f"{top}/{name}/{LEDGER}"), 110)


CASES = (
    folder_below_a_parent_that_may_not_be_opened,
    folder_that_would_be_made_there,
    input_that_comes_late,
    output_that_is_read_late,
    output_that_is_closed_while_it_is_full,
    file_at_its_size_bound,
)


def main():
    for case in CASES:
        with tempfile.TemporaryDirectory() as top:
            case(top)
        print(f"outside: {case.__name__}: as it should be", flush=True)


main()
