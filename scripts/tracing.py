"""Runs of a program under the system-call tracer, which makes calls fail: strace, Debian's package of that name."""
import os
import re
import shutil
import subprocess
import tempfile

CALLS = ("ftruncate", "pwrite64", "fsync")
TRACED = re.compile(r"^(?:\d+ +)?(\w+)\((\d+)<([^>]*)>.*\) += (-?\d+)(.*)$")


def why_not():
    """Why nothing can be traced here. None where it can."""
    if shutil.which("strace") is None:
        return "no strace"
    tried = subprocess.run(["strace", "-o", "/dev/null", "-e", "inject=fsync:error=EIO", "true"], capture_output=True)
    return None if tried.returncode == 0 else "strace may not trace here"


class Call:
    """One call that the program made: its name, the file's name, and whether it was made to fail, or answered an error."""

    def __init__(self, name, path, answer, more):
        self.name, self.path = name, path
        self.is_injected, self.is_failed = "(INJECTED)" in more, answer < 0

    def __repr__(self):
        return f"{self.name} {os.path.basename(self.path)}"


def traced(command, text, injected=(), path=None, folder=None):
    """Status, output, standard error, and the calls that change files or write to the output, in order. Calls are made to
    fail as strace's option inject says, those on this path alone where one is given. It runs in the folder, if one is given."""
    with tempfile.NamedTemporaryFile("r") as log:
        options = [word for how in injected for word in ("-e", f"inject={how}")]
        options += ["-P", path] if path else []
        names = ",".join((*CALLS, "write"))
        tracer = ["strace", "-f", "-y", "-o", log.name, "-e", f"trace={names}", "-e", "signal=none", *options]
        done = subprocess.run([*tracer, *command], input=text, capture_output=True, timeout=120, cwd=folder)
        found = [TRACED.match(line) for line in log]
    calls = [Call(m[1], m[3], int(m[4]), m[5]) for m in found if m and (m[1] in CALLS or m[2] == "1")]
    return done.returncode, done.stdout, done.stderr, calls
