"""The text of stories, read as docs/STORIES.md has it and apart from the program that tells them: stories with their
cases, steps, words, the frames of files, and what stands for bytes that are tedious to write."""
import re

import grammar

FILES = {"log": "p00-r0000000002", "topic": "p01-r0000000002"}
FILE = re.compile(r"p\d\d-r\d{10}")
BEGIN = re.compile(r"(wrong )?story (.*)")
HOLE = re.compile(r"\$\{([^}]*)\}")
REPEAT = re.compile(r"(.*)\*(\d+)(?:\.\.(\d+))?")
BYTES = re.compile(r"[0-9a-f]{2}(?: [0-9a-f]{2})*")
# One hole or one other character: the second never begins a hole.
ONE = r"\$\{{[^}}]*\}}|\$(?!\{{)|[^{}$]"
QUOTED = f'"(?:{ONE.format(chr(34))})*"'
WORD = re.compile(f"{QUOTED}|(?:{ONE.format(' ' + chr(34))})+")
WORDS = re.compile(rf" *(?:(?:{WORD.pattern})(?: +|$))*")
FRAME = re.compile(f"(?:{QUOTED}|{ONE.format(chr(34) + '|')})+")
FRAMES = re.compile(rf"{FRAME.pattern}(?:\|{FRAME.pattern})*")
LONGEST = 1 << 20
BETWEEN_CASES = re.compile(r"(?:^|(?<= ));(?= |$)")


class Unreadable(Exception):
    """A line that is none of a story."""

    def __init__(self, number, why):
        super().__init__(why)
        self.number = number


# ---- Numbers and texts.

def number_of(word, most=(1 << 64) - 1):
    """The number that a word is. It has decimal digits alone."""
    text = word.decode() if isinstance(word, bytes) else word
    if not re.fullmatch(r"[0-9]{1,20}", text) or int(text) > most:
        raise ValueError(f"no number up to {most}: {text}")
    return int(text)


def bytes_of(text):
    """The bytes that a text stands for."""
    return b"".join(hole(piece) if k % 2 else piece.encode() for k, piece in enumerate(HOLE.split(text)))


def hole(inside):
    """The bytes that stand for what is between `${` and `}`: repeated, counted, or written as bytes."""
    found = REPEAT.fullmatch(inside)
    if found:
        text, first, end = found.groups()
        if end is None:
            return text.encode() * number_of(first, LONGEST)
        counted = range(number_of(first, LONGEST), number_of(end, LONGEST))
        return ",".join(text.replace("#", str(k)) for k in counted).encode()
    if not BYTES.fullmatch(inside):
        raise ValueError(f"no text: ${{{inside}}}")
    return bytes.fromhex(inside)


def words_of(text):
    """The words of a line, as bytes. Between quotes stands a word with blanks, or with nothing."""
    if not WORDS.fullmatch(text):
        raise ValueError(f"no words: {text}")
    return [bytes_of(word[1:-1] if word.startswith('"') else word) for word in WORD.findall(text)]


# ---- Files.

def file_of(word):
    """The name of a file."""
    if word not in FILES and not FILE.fullmatch(word):
        raise ValueError(f"no file: {word}")
    return FILES.get(word, word)


# The kinds of records by their words, and how many words each has.
MARKERS = {"commit": 3, "abort": 4}
ENTRIES = {"new": 1, "add": 2, "committing": 3, "committed": 4, "aborting": 5, "aborted": 6}
COUNTS = {"new": 2, "add": 2, "message": 2}
WIDTHS = {"new": 8, "add": 4}


def in_bytes(word, width=8):
    return number_of(word, (1 << 8 * width) - 1).to_bytes(width, "big")


def records_of(kind, words):
    """The records of a frame."""
    if kind == "plain":
        return [b"\1\1" + text for text in words]
    number = bytes(8) + in_bytes(words[0])
    if kind == "message":
        return [b"\1\2" + number + text for text in words[1:]]
    if kind in MARKERS:
        return [bytes([1, MARKERS[kind]]) + number]
    return [bytes([1, ENTRIES[kind]]) + number + b"".join(in_bytes(word, WIDTHS[kind]) for word in words[1:])]


def piece_of_file(text):
    """The bytes of one frame, or those that are written as bytes."""
    kind, _, rest = text.strip().partition(" ")
    if kind == "hex":
        return bytes.fromhex(bytes_of(rest).decode())
    words = words_of(rest)
    if kind not in ("plain", "message") and kind not in {**MARKERS, **ENTRIES}:
        raise ValueError(f"no kind of records: {kind}")
    least = COUNTS.get(kind, 1)
    if len(words) < least or (len(words) > least and kind not in ("plain", "message")):
        raise ValueError(f"{len(words)} words behind {kind}")
    records = records_of(kind, words)
    if max(map(len, records)) >= 1 << 16:
        raise ValueError("a record that is too long")
    return grammar.frame_of(records)


def content(text):
    """The file that a line `put` or `see` names, and the bytes that it tells of it."""
    file, is_told, frames = text.partition("=")
    if not is_told or (frames.strip() and not FRAMES.fullmatch(frames)):
        raise ValueError(f"no file and frames: {text}")
    pieces = FRAME.findall(frames) if frames.strip() else []
    return file_of(file.strip()), b"".join(map(piece_of_file, pieces))


def settings(text, names):
    """The numbers that a line gives by these names."""
    found = dict(word.split("=") for word in text.split())
    if not found or not found.keys() <= names:
        raise ValueError(f"no settings: {text}")
    return {name: number_of(value) for name, value in found.items()}


# ---- Stories.

class Story:
    """One telling of a story: its name, whether it has to be found wrong, and its lines, each with its number."""

    def __init__(self, path, number, name, is_wrong, lines):
        self.path, self.number, self.name, self.is_wrong, self.lines = path, number, name, is_wrong, lines

    def told(self, case):
        """The story with what `$1`, `$2` and so on stand for."""
        number, text = case
        items = [item.strip() for item in BETWEEN_CASES.split(text)]

        used = {int(sign) for line in (self.name, *(line for _, line in self.lines)) for sign in re.findall(r"\$([1-9])", line)}
        if not used >= set(range(1, len(items) + 1)):
            raise Unreadable(number, "a case with an item that no line has")

        def filled(line):
            return re.sub(r"\$([1-9])", lambda found: items[int(found.group(1)) - 1], line)

        try:
            return Story(self.path, number, filled(self.name), self.is_wrong, [(k, filled(line)) for k, line in self.lines])
        except IndexError:
            raise Unreadable(number, "a case with too few items") from None


def stories_of(path):
    """The stories of a file, one that has cases once for each."""
    with open(path, encoding="utf-8", newline="\n") as file:
        lines = [line.removesuffix("\n") for line in file]
    stories = []
    for number, line in enumerate(lines, 1):
        begun = BEGIN.fullmatch(line)
        if begun:
            stories.append(Story(path, number, begun.group(2), bool(begun.group(1)), []))
        elif stories:
            stories[-1].lines.append((number, line))
        elif says(line):
            raise Unreadable(number, "a line before every story")
    return [telling for story in stories for telling in tellings(story)]


def says(line):
    """Whether a line is more than a comment. One may become a comment by what `$1` stands for."""
    return line and not line.startswith("#")


def tellings(story):
    cases = [(number, line[5:]) for number, line in story.lines if is_case(line)]
    story.lines = [(number, line) for number, line in story.lines if not is_case(line)]
    return [story.told(case) for case in cases] if cases else [story]


def is_case(line):
    return line.split(" ", 1)[0] == "case"


# ---- Steps.

class Step:
    """A line of a story, and those that belong to it: what is sent, what has to come, and, of a run, how it ends. Of a sweep
    what may come instead is told by the line that was sent, with where it is told."""

    def __init__(self, number, kind, rest):
        self.number, self.kind, self.rest = number, kind, rest
        self.sent, self.replies, self.also = [], [], []
        self.status, self.why = None, None

    def take(self, number, kind, rest):
        """Takes a line that may stand behind this one. Tells whether it may."""
        if kind in (">", ">-"):
            self.sent.append(bytes_of(rest) + (b"" if kind == ">-" else b"\n"))
        elif kind in ("<", "<-"):
            replies = self.also[-1][2] if self.also else self.replies
            replies.append((number, bytes_of(rest) + (b"" if kind == "<-" else b"\n")))
        elif kind == "also" and self.kind == "each":
            self.also.append((number, number_of(rest), []))
        elif kind == "status" and self.kind == "run" and not self.status:
            self.status = (number, rest)
        elif kind == "why" and self.kind == "run" and not self.why:
            self.why = (number, rest.encode())
        else:
            return False
        return True


KINDS = ("limits", "put", "fault", "trap", "clock", "source", "sink", "run", "see", "crash", "or", "each")


def steps_of(story):
    """The steps of a story."""
    steps = []
    for number, line in story.lines:
        if not says(line):
            continue
        kind, _, rest = line.partition(" ")
        try:
            if kind in KINDS:
                steps.append(Step(number, kind, rest))
            elif not steps or steps[-1].kind not in ("run", "each") or not steps[-1].take(number, kind, rest):
                raise ValueError(f"no line that may stand here: {line}")
        except ValueError as fault:
            raise Unreadable(number, str(fault)) from None
    if not any(step.kind == "run" for step in steps):
        raise Unreadable(story.number, "a story without a run")
    return steps
