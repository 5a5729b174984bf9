#!/usr/bin/env python3
"""Has every story answered by the reading of the rules in grammar.py, over a disk in memory of its own, and compares it with what
the story says: replies, status with its line, why, files, and what stands behind each crash and each call that fails. So what a
story expects was never taken from the program alone. It names each disagreement with its file and line, and ends with status 1
where there is one, or where a wrong story isn't found wrong.

The last line counts. A run is counted once for each crash behind which it was answered. `by rule alone` are runs in which a read
fails of which no page tells the number: of these it is compared that they tell what comes where some read of that file fails, or
none. `not answered here` are stories of which some step has no reading, with the reason.
Usage: stories.py [FILE ..]   (all of crates/txn_stories/data, unless others are named)"""
import collections
import glob
import os
import re
import sys

sys.dont_write_bytecode = True

import grammar
import memory
import story_text

# By what a crash is told: one of these, or all that memory.py looks at.
CHOICE = re.compile(r"any|old|new|torn [0-9a-f]{2}")
DATA = f"{os.path.dirname(os.path.abspath(__file__))}/../crates/txn_stories/data"
MOST = 120


class NotAnswered(Exception):
    """A step of a story that has no reading here."""


def shown(data):
    text = repr(data.decode(errors="backslashreplace"))
    return text if len(text) <= MOST else f"{text[:MOST // 2]}..{text[-MOST // 2:]} ({len(data)} bytes)"


def first_difference(number, replies, put):
    """The line at which replies, each with its line, aren't what was put, and what comes there; or None."""
    at = 0
    for number, reply in replies:
        if put[at:at + len(reply)] != reply:
            came = put[at:put.find(b"\n", at) + 1 or None]
            return number, f"it says {shown(reply)}, and by the rules comes {shown(came)}"
        at += len(reply)
    return (number, f"by the rules comes more: {shown(put[at:])}") if put[at:] else None


class Telling:
    """One story while it is told. There is one disk for each crash that is looked at; `stopped` are those at the last crash."""

    def __init__(self, counts):
        self.counts, self.found = counts, []
        self.disks, self.stopped, self.limits, self.next = [memory.Disk()], None, dict(grammar.LIMITS), {}
        self.last, self.awaited = None, []

    def tell(self, story):
        """Tells a story to its end. Gives what it finds wrong, each with its line."""
        for step in story_text.steps_of(story):
            try:
                getattr(self, f"tell_{step.kind}")(step)
            except (ValueError, KeyError) as fault:
                raise story_text.Unreadable(step.number, str(fault)) from None
        self.look_back()
        return self.found

    def wrong(self, number, what):
        if (number, what) not in self.found:
            self.found.append((number, what))

    # -- What a story begins with.

    def tell_limits(self, step):
        given = story_text.settings(step.rest, grammar.LIMITS.keys())
        if not all(1 <= value <= grammar.LIMITS[name] for name, value in given.items()):
            raise ValueError(f"a limit outside its range: {step.rest}")
        self.limits = {**self.limits, **given}

    def tell_put(self, step):
        file, data = story_text.content(step.rest)
        for disk in self.disks:
            disk.files[file] = memory.File(data)

    def tell_fault(self, step):
        self.list_fault(step, True)

    def tell_trap(self, step):
        self.list_fault(step, False)

    def look_back(self):
        """Each call that is to fail came on each of the disks, and none that is a trap; how many reads there are no page tells."""
        for number, file, call, nth, comes in self.awaited:
            if call != "read" and any((disk.counts[file, call] >= nth) != comes for disk in self.disks):
                self.wrong(number, f"by the rules {'no such' if comes else 'such a'} call comes")
        self.awaited = []

    def list_fault(self, step, comes):
        word, call, number = step.rest.split()
        if call not in ("size", "read", "write", "resize", "sync"):
            raise ValueError(f"no call: {call}")
        for disk in self.disks:
            if disk.calls:
                raise NotAnswered("a fault that is told behind a run")
            disk.faults.add((story_text.file_of(word), call, story_text.number_of(number)))
        self.awaited.append((step.number, story_text.file_of(word), call, story_text.number_of(number), comes))

    def tell_clock(self, step):
        self.next["clock"] = [story_text.number_of(word) for word in step.rest.split()]

    def tell_source(self, step):
        self.next["source"] = story_text.settings(step.rest, {"pieces", "fails"})
        if self.next["source"].get("pieces") == 0:
            raise ValueError("a source that gives no pieces")

    def tell_sink(self, step):
        self.next["sink"] = story_text.settings(step.rest, {"takes", "fails"})

    # -- Runs and files.

    def tell_run(self, step):
        words = [word.decode() for word in story_text.words_of(step.rest)]
        run = memory.Run(words, self.limits, **self.next)
        self.next, self.last = {}, (run, step.sent, [disk.copy() for disk in self.disks])
        self.disks = [self.after(step, run, disk) for disk in self.disks]

    def after(self, step, run, disk):
        """The disk behind a run, which is compared with what the story says."""
        before, given = disk.copy(), b"".join(step.sent)
        found = self.differences(step, run.over(disk, given))
        self.counts["by rule alone" if disk.is_unsure else "runs"] += 1
        for other in other_reads(before, disk) if disk.is_unsure else ():
            if not self.differences(step, run.over(other, given)):
                return other
        for number, what in found:
            self.wrong(number, what)
        return disk

    def differences(self, step, ended):
        """Where a run tells something else than the story."""
        status, why, put, _ = ended
        found = [first_difference(step.number, step.replies, put)]
        number, wanted = step.status or (step.number, "0")
        if wanted != status:
            found.append((number, f"it says status {wanted}, and by the rules comes {status}"))
        number, wanted = step.why or (number, None)
        if wanted != (why and why.encode()):
            found.append((number, f"it says why {wanted and shown(wanted)}, and by the rules it is {why}"))
        return [difference for difference in found if difference]

    def tell_see(self, step):
        file, wanted = story_text.content(step.rest)
        for disk in self.disks:
            data = disk.files[file].data
            if data != wanted:
                at = next((k for k, (a, b) in enumerate(zip(wanted, data)) if a != b), min(len(wanted), len(data)))
                behind = f"from byte {at} on it says '{wanted[at:at + 20].hex(' ')}'"
                self.wrong(step.number, f"{behind}, and by the rules the file has '{data[at:at + 20].hex(' ')}'")

    # -- Crashes.

    def tell_crash(self, step):
        self.look_back()
        self.stopped = self.disks
        self.tell_or(step)

    def tell_or(self, step):
        self.look_back()
        if self.stopped is None or not CHOICE.fullmatch(step.rest):
            raise ValueError(f"no crash, or none before: {step.rest}")
        choices = memory.CRASHES if step.rest == "any" else (step.rest,)
        self.disks = [disk.crash(choice) for disk in self.stopped for choice in choices]

    # -- Sweeps.

    def tell_each(self, step):
        """Each call of the last run fails once, with each crash behind it."""
        if step.rest != "fault" or self.last is None:
            raise ValueError("no `each fault` behind a run")
        run, sent, disks = self.last
        for disk in disks:
            Sweep(self, step, run, sent, disk).tell()


class Sweep:
    """Each call of a run that fails in turn, each crash behind it, and the look that is taken then."""

    def __init__(self, telling, step, run, sent, disk):
        self.telling, self.step, self.run, self.sent, self.disk = telling, step, run, sent, disk
        self.disk.counts.clear()
        self.disk.faults.clear()
        self.look = memory.Run(run.words, telling.limits)
        # What is told behind the first lines, where no call fails; the lines `also` that are needed; and what was found wrong.
        self.behind, self.needed, self.found = {}, set(), set()

    def look_at(self, disk):
        return self.look.over(disk, b"".join(self.step.sent))[:3]

    def behind_lines(self, count):
        if count not in self.behind:
            disk = self.disk.copy()
            self.run.over(disk, b"".join(self.sent[:count]))
            self.behind[count] = self.look_at(disk)
        return self.behind[count]

    def tell(self):
        for number, what in self.telling.differences(self.step, (*self.behind_lines(len(self.sent)), 0)):
            self.telling.wrong(number, f"where no call fails, {what}")
        whole = self.disk.copy()
        status = self.run.over(whole, b"".join(self.sent))[0]
        if status != "0":
            self.telling.wrong(self.step.number, f"the run before ends with {status}, and a sweep is of one that ends with 0")
        for call in whole.calls:
            self.fail(call)
        for number, line, _ in self.step.also:
            if number not in self.needed:
                self.telling.wrong(number, f"no call that fails at line {line} makes this come")

    def fail(self, call):
        """One call fails, and then the machine stops."""
        disk = self.disk.copy()
        disk.faults.add(call)
        told = self.run.over(disk, b"".join(self.sent))[3]
        # Nothing was answered, and no line stopped it, where the opening failed.
        line = 0 if told is None else told + 1
        self.telling.counts["failed calls"] += 1
        for choice in memory.CRASHES:
            came = self.look_at(disk.crash(choice))
            self.telling.counts["crashes"] += 1
            is_whole = came in (self.behind_lines(max(line - 1, 0)), self.behind_lines(line))
            if not is_whole and not self.is_also(line, came) and (line, came) not in self.found:
                self.found.add((line, came))
                name, kind, nth = call
                where = f"where {kind} {nth} of {name} fails at line {line}, with crash {choice}"
                self.telling.wrong(self.step.number, f"{where}, by the rules comes what it doesn't allow: {shown(came[2])}")

    def is_also(self, line, came):
        """Whether this is listed by `also` at a line. It is needed then."""
        needed = {number for number, at, replies in self.step.also
                  if at == line and came == ("0", None, b"".join(reply for _, reply in replies))}
        self.needed |= needed
        return bool(needed)


def other_reads(disk, after):
    """Disks on which another read fails in place of the first that is to come: any read of the run, or none."""
    name, _, number = min(fault for name in sorted(after.unsure) for fault in disk.reads_to_come(name))
    for other in range(disk.counts[name, "read"] + 1, after.counts[name, "read"] + 3):
        changed = disk.copy()
        changed.faults = (disk.faults - {(name, "read", number)}) | {(name, "read", other)}
        yield changed


def tell_all(path, counts, reasons):
    """Tells the stories of a file. Gives the disagreements, as lines."""
    file, lines = os.path.basename(path), []
    try:
        stories = story_text.stories_of(path)
    except story_text.Unreadable as fault:
        return [f"{file}:{fault.number}: {fault}"]
    if not stories:
        lines.append(f"{file}: there is no story in it")
    for story in stories:
        counts["stories"] += 1
        telling, is_told = Telling(counts), True
        try:
            telling.tell(story)
        except NotAnswered as fault:
            reasons[str(fault)].append(f"{file}:{story.number}")
            is_told = False
        except story_text.Unreadable as fault:
            lines.append(f"{file}:{fault.number}: {story.name}: {fault}")
            continue
        if not story.is_wrong:
            lines += [f"{file}:{number}: {story.name}: {what}" for number, what in telling.found]
        elif telling.found:
            counts["wrong stories"] += 1
        elif is_told:
            lines.append(f"{file}:{story.number}: {story.name}: it isn't found wrong")
    return lines


def unnamed(paths):
    """Files of stories that the program is not given: its arguments stand beside them, one a line."""
    lines = []
    for folder in sorted({os.path.dirname(path) for path in paths}):
        args = os.path.join(folder, "..", "args")
        if os.path.exists(args):
            with open(args, encoding="utf-8") as file:
                named = set(file.read().split())
            lines += [f"{name}: the program is not given it" for name in sorted(set(os.listdir(folder)) - named)]
    return lines


def main():
    paths = sys.argv[1:] or sorted(glob.glob(f"{DATA}/*.txt"))
    counts, reasons = collections.Counter(), collections.defaultdict(list)
    wrong = [line for path in paths for line in tell_all(path, counts, reasons)] + unnamed(paths)
    for line in wrong:
        print(line)
    left = ", ".join(f"{reason} ({' '.join(places)})" for reason, places in sorted(reasons.items()))
    unanswered = sum(map(len, reasons.values()))
    said = f"{counts['runs']} runs answered{f', {len(wrong)} disagreements' if wrong else ' the same'}"
    print(f"stories: {counts['stories']} stories in {len(paths)} files, {said}, with {counts['crashes']} crashes behind "
          f"{counts['failed calls']} calls that fail in turn, and {counts['wrong stories']} wrong stories found wrong; "
          f"{counts['by rule alone']} runs by rule alone; {unanswered} not answered here{': ' + left if left else ''}")
    sys.exit(1 if wrong or unanswered or not counts["stories"] else 0)


if __name__ == "__main__":
    main()
