"""The outside of a run in memory: a disk whose calls are counted and may fail, by the disk model of docs/ARCHITECTURE.md and
the calls that it says an opening, an append and a read make; a source, a sink; and a whole run over them, by grammar.py."""
import collections

import grammar
from story_text import FILES

WINDOW = 65_536
PIECE = 4_096
CRASHES = ("old", "new", "torn 00", "torn 01", "torn ff")
STATUSES = {3: "3 read fault", 4: "4 write fault", 5: "5 disk fault", 7: "7 too much"}


class File:
    """What a read gives, what was there at the last sync, and each change since: a new size, or a place and how many bytes."""

    def __init__(self, data=b""):
        self.data, self.sure, self.changes = data, data, []

    def copy(self):
        same = File(self.data)
        same.sure, same.changes = self.sure, list(self.changes)
        return same

    def resize(self, size):
        self.data = self.data[:size].ljust(size, b"\0")
        self.changes.append((None, size))

    def write(self, at, data):
        self.data = self.data[:at] + data + self.data[at + len(data):]
        self.changes.append((at, len(data)))

    def sync(self):
        self.sure, self.changes = self.data, []

    def left(self, choice):
        """What a crash leaves: changes lost, kept, or each size kept and each range that was written full of a byte."""
        if choice in ("old", "new"):
            return self.sure if choice == "old" else self.data
        torn, byte = File(self.sure), bytes.fromhex(choice.removeprefix("torn "))
        for at, count in list(self.changes):
            torn.resize(count) if at is None else torn.write(at, byte * count)
        return torn.data


class Disk:
    """Files by name. A fault is a file, a call and its number, from the first call on this disk."""

    def __init__(self):
        self.files = collections.defaultdict(File)
        self.counts, self.faults, self.calls = collections.Counter(), set(), []
        # The files of which no page tells how often they were read, and whether this run meets a fault of such reads.
        self.unsure, self.is_unsure = set(), False

    def copy(self):
        same = Disk()
        same.files.update((name, file.copy()) for name, file in self.files.items())
        same.counts, same.faults, same.unsure = self.counts.copy(), set(self.faults), set(self.unsure)
        return same

    def crash(self, choice):
        """The disk that a stop of the machine leaves."""
        after = Disk()
        after.files.update((name, File(file.left(choice))) for name, file in self.files.items())
        return after

    def fails(self, name, call):
        """Counts a call, and tells whether it fails."""
        self.counts[name, call] += 1
        self.calls.append((name, call, self.counts[name, call]))
        return self.calls[-1] in self.faults

    def reads_to_come(self, name):
        """The faults at reads of a file that were not met yet."""
        return {fault for fault in self.faults if fault[:2] == (name, "read") and fault[2] > self.counts[name, "read"]}


class Ledger:
    """A file of a disk, as a run takes it."""

    def __init__(self, disk, name, part):
        self.disk, self.name, self.part = disk, name, part

    @property
    def data(self):
        return self.disk.files[self.name].data

    def call(self, call, *more):
        """A call of the disk. One that fails does nothing, but that a write may leave anything in its range."""
        file = self.disk.files[self.name]
        if self.disk.fails(self.name, call):
            if call == "write":
                file.changes.append((more[0], len(more[1])))
            raise grammar.Failed(self.part)
        if call in ("resize", "write", "sync"):
            getattr(file, call)(*more)

    def start(self):
        """A file that is longer than the window is read at least once."""
        self.call("sync")
        self.call("size")
        self.look(min(len(self.data), 1), len(self.data) > WINDOW)

    def cut(self, end):
        if end < len(self.data):
            self.call("resize", end)
            self.call("sync")

    def look(self, count, is_least):
        if self.name in self.disk.unsure and self.disk.reads_to_come(self.name):
            self.disk.is_unsure = True
        for _ in range(count):
            self.call("read")
        if is_least:
            self.disk.unsure.add(self.name)
            self.disk.is_unsure = self.disk.is_unsure or bool(self.disk.reads_to_come(self.name))

    def append(self, frame):
        end = len(self.data)
        self.call("resize", end + len(frame))
        self.call("write", end + 1, frame[1:])
        self.call("sync")
        self.call("write", end, frame[:1])
        self.call("sync")


class Source:
    """An input that comes in pieces. A call of it may fail."""

    def __init__(self, given, pieces=PIECE, fails=0):
        self.given, self.pieces, self.fails, self.at, self.count = given, pieces, fails, 0, 0

    def take(self, most):
        self.count += 1
        if self.count == self.fails:
            raise grammar.Failed("source")
        piece = self.given[self.at:self.at + min(most, self.pieces)]
        self.at += len(piece)
        return piece


class Sink:
    """An output that takes so many bytes a call. A call that takes none fails."""

    def __init__(self, takes=None, fails=0):
        self.takes, self.fails, self.got, self.count = takes, fails, b"", 0

    def put_all(self, text):
        while text:
            self.count += 1
            if self.count == self.fails or self.takes == 0:
                raise grammar.Failed("sink")
            self.got += text[:self.takes]
            text = text[self.takes:] if self.takes else b""


class Run:
    """A run as it is asked for: the words, the limits, the moments, and the settings of the source and of the sink."""

    def __init__(self, words, limits, clock=(), source=(), sink=()):
        self.words, self.limits, self.clock, self.source, self.sink = words, limits, clock, dict(source), dict(sink)

    def over(self, disk, given):
        """How it ends over a disk and this input, as `status` and `why` tell it, what it puts, and how many lines it answered
        before the one that stopped it, or None where it took none."""
        disk.is_unsure = False
        why = grammar.fault_of_words(self.words)
        if why:
            return "1 usage", why, b"", None
        log, ledger = Ledger(disk, FILES["log"], grammar.COORDINATOR), Ledger(disk, FILES["topic"], self.words[1])
        try:
            world = grammar.World(log, ledger, self.words[1], self.limits, self.clock)
        except grammar.Stopped as stopped:
            return f"2 {stopped}", None, b"", None
        except grammar.Failed:
            return STATUSES[5], None, b"", None
        sink = Sink(**self.sink)
        status, told = self.answer_all(world, Source(given, **self.source), sink)
        return STATUSES.get(status, "0"), None, sink.got, told

    def answer_all(self, world, source, sink):
        """Takes the input and answers its lines, up to the limit of its bytes. Gives the status and the lines answered."""
        taken, rest, told = 0, b"", 0
        while True:
            try:
                piece = source.take(min(PIECE, self.limits["input"] - taken))
            except grammar.Failed:
                return 3, told
            taken += len(piece)
            *lines, rest = (rest + piece).split(b"\n") if b"\n" in piece else (rest + piece,)
            if not piece and rest:
                lines, rest = [rest], b""
            for line in lines:
                status = self.answer(world, line, sink)
                if status:
                    return status, told
                told += 1
            if not piece:
                return 0, told
            if taken == self.limits["input"]:
                return 7, told

    def answer(self, world, line, sink):
        """Answers a line. Gives the status by which this ends the run, or 0."""
        reply = world.answer(line)
        try:
            sink.put_all(reply.encode() + b"\n" if reply else b"")
        except grammar.Failed:
            return 4
        return 5 if world.is_over else 0
