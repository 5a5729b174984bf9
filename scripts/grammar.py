"""What a run of `lines NAME` must do, read off docs/LINES.md and docs/FORMAT.md and written apart from the program: JSON, the
forms of requests, frames, records, lawful lists, transactions, limits, and the replies, those to calls of the disk that fail
too. It takes nothing from the program or its libraries."""
import math
import re

TOPIC = "orders"
LINE, MESSAGE, BATCH = 65_536, 32_768, 64
# Each limit may be lowered, down to 1. The last line has those of what isn't answered yet.
LIMITS = {
    "line": LINE, "message": MESSAGE, "batch": BATCH, "log": 1 << 32, "window": 65_536, "input": 1 << 32, "step": 64,
    "read_messages": 100, "read_bytes": 262_144,
    "places": 256, "held": 65_536, "ring": 64, "snapshot": 256, "segment": 65_536, "told": 1_048_576, "sessions": 1_024,
}
DEEPEST = 127
WORD = 1 << 64
LATEST = 1 << 62


class Bad(Exception):
    """The text is no JSON value, or the bytes are no record."""


# ---- JSON. A text is a str, a list a list, an object a dict. A number is an int where it is written without a sign, a
# fraction or an exponent and lies below 2^64, and a float otherwise.

SPACE = re.compile(r"[ \t\r\n]*")
NUMBER = re.compile(r"-?(0|[1-9][0-9]*)(\.[0-9]+)?([eE][+-]?[0-9]+)?")
PIECE = re.compile(r'[^"\\\x00-\x1f]*')
FOUR = re.compile(r"[0-9a-fA-F]{4}")
ESCAPES = {'"': '"', "\\": "\\", "/": "/", "b": "\b", "f": "\f", "n": "\n", "r": "\r", "t": "\t"}
WORDS = {"true": True, "false": False, "null": None}


def read_json(text):
    """The value that a text is."""
    value, at = read_value(text, SPACE.match(text).end(), DEEPEST)
    if SPACE.match(text, at).end() != len(text):
        raise Bad("more behind the value")
    return value


def read_value(text, at, depth):
    """The value at a place, which may nest so deep, and the place behind it."""
    first = text[at:at + 1]
    if first == '"':
        return read_text(text, at + 1)
    if first and first in "[{":
        if depth == 0:
            raise Bad("nested too deep")
        return (read_list if first == "[" else read_object)(text, at + 1, depth - 1)
    for word, value in WORDS.items():
        if text.startswith(word, at):
            return value, at + len(word)
    return read_number(text, at)


def read_number(text, at):
    found = NUMBER.match(text, at)
    if not found:
        raise Bad("no value")
    digits, (_, fraction, exponent) = found.group(), found.groups()
    is_whole = not (digits.startswith("-") or fraction or exponent) and len(digits) <= 20
    if is_whole and int(digits) < WORD:
        return int(digits), found.end()
    if math.isinf(float(digits)):
        raise Bad("a number past every float")
    return float(digits), found.end()


def read_unit(text, at):
    """The four digits of an escape."""
    found = FOUR.match(text, at)
    if not found:
        raise Bad("an escape cut short")
    return int(found.group(), 16), at + 4


def read_escape(text, at):
    """The character of an escape, of which the backslash was read."""
    kind = text[at:at + 1]
    if kind != "u":
        if kind not in ESCAPES:
            raise Bad("no such escape")
        return ESCAPES[kind], at + 1
    unit, at = read_unit(text, at + 1)
    if not 0xD800 <= unit < 0xE000:
        return chr(unit), at
    if unit >= 0xDC00 or text[at:at + 2] != "\\u":
        raise Bad("a lone surrogate")
    low, at = read_unit(text, at + 2)
    if not 0xDC00 <= low < 0xE000:
        raise Bad("a lone surrogate")
    return chr(0x10000 + ((unit - 0xD800) << 10) + (low - 0xDC00)), at


def read_text(text, at):
    pieces = []
    while True:
        found = PIECE.match(text, at)
        pieces.append(found.group())
        at = found.end()
        end = text[at:at + 1]
        if end == '"':
            return "".join(pieces), at + 1
        if end != "\\":
            raise Bad("a text that doesn't end, or a control character")
        piece, at = read_escape(text, at + 1)
        pieces.append(piece)


def read_items(text, at, close, item):
    """Items with commas between them, up to the bracket that closes them."""
    at = SPACE.match(text, at).end()
    if text[at:at + 1] == close:
        return at + 1
    while True:
        at = SPACE.match(text, item(at)).end()
        end = text[at:at + 1]
        if end == close:
            return at + 1
        if end != ",":
            raise Bad("no comma")
        at = SPACE.match(text, at + 1).end()


def read_list(text, at, depth):
    items = []

    def item(at):
        value, at = read_value(text, at, depth)
        items.append(value)
        return at

    at = read_items(text, at, "]", item)
    return items, at


def read_object(text, at, depth):
    members = {}

    def item(at):
        if text[at:at + 1] != '"':
            raise Bad("a key that is no text")
        key, at = read_text(text, at + 1)
        at = SPACE.match(text, at).end()
        if text[at:at + 1] != ":":
            raise Bad("no colon")
        members[key], at = read_value(text, SPACE.match(text, at + 1).end(), depth)
        return at

    at = read_items(text, at, "}", item)
    return members, at


# ---- Requests.

def is_text(value):
    return isinstance(value, str)


def is_number(value):
    return type(value) is int


def is_positive(value):
    return is_number(value) and value > 0


def is_id(value):
    return isinstance(value, list) and len(value) == 2 and all(map(is_number, value))


def is_data(value):
    return is_text(value) or (isinstance(value, list) and value != [] and all(map(is_text, value)))


def are_places(value):
    return isinstance(value, list) and all(map(is_number, value))


# For each form the keys that it has beside `do`, and those that it may have.
FORMS = {
    "new": ({"timeout": is_number}, {}),
    "add": ({"txn": is_id, "part": is_text}, {}),
    "publish": ({"topic": is_text, "data": is_data}, {"txn": is_id}),
    "ack": ({"sub": is_text, "places": are_places}, {"txn": is_id}),
    "ack_upto": ({"sub": is_text, "place": is_number}, {"txn": is_id}),
    "commit": ({"txn": is_id}, {}),
    "abort": ({"txn": is_id}, {}),
    "status": ({"txn": is_id}, {}),
    "read": ({"topic": is_text, "from": is_number, "max": is_positive}, {}),
    "receive": ({"sub": is_text, "max": is_positive}, {}),
    "redeliver": ({"sub": is_text}, {}),
    "tick": ({}, {}),
    "stop": ({}, {}),
}


def request_of(line):
    """The request that a line is, as an object, or None."""
    try:
        found = read_json(line.decode())
    except (UnicodeDecodeError, Bad):
        return None
    if not isinstance(found, dict) or not is_text(found.get("do")) or found["do"] not in FORMS:
        return None
    needed, allowed = FORMS[found["do"]]
    tests = {"do": is_text, **needed, **allowed}
    fits = all(key in tests and tests[key](value) for key, value in found.items())
    return found if fits and all(key in found for key in needed) else None


# ---- Names. The words of a command line are refused for the first of these causes.

NAME = re.compile(r"[A-Za-z0-9_.][A-Za-z0-9_.-]{0,99}")


def fault_of_words(words):
    """Why the words behind the folder are no command line, or None."""
    if len(words) != 2 or words[0] != "lines" or any(not word or word.startswith("-") for word in words):
        return "words"
    return None if NAME.fullmatch(words[1]) else f"bad name {words[1]}"


# ---- Frames and records of a topic. An entry is its kind, its transaction (16 bytes, or none) and its body.

PLAIN, OPENED, COMMIT, ABORT = 1, 2, 3, 4


class Damaged(Exception):
    """A frame or a record that is in no grammar, or a record that may not stand there."""

    def __init__(self, entry):
        super().__init__(entry)
        self.entry = entry


def records_of_frame(data, at):
    """The records of the frame whose gate stands at a place, and the place behind it; None where there is no frame."""
    size = int.from_bytes(data[at + 1:at + 5], "big")
    body = data[at + 5:at + 5 + size]
    if len(data) < at + 5 or len(body) < size:
        return None
    records, k = [], 0
    while k < size:
        length = int.from_bytes(body[k:k + 2], "big")
        if k + 2 > size or length < 2 or k + 2 + length > size:
            return None
        records.append(body[k + 2:k + 2 + length])
        k += 2 + length
    return (records, at + 5 + size) if 1 <= len(records) <= 64 else None


def records_of_file(data):
    """The records of a file, and how long its frames are."""
    records, at = [], 0
    while data[at:at + 1] == b"\1":
        frame = records_of_frame(data, at)
        if frame is None:
            raise Damaged(len(records))
        records += frame[0]
        at = frame[1]
    return records, at


def is_body(data):
    if len(data) > MESSAGE:
        return False
    try:
        data.decode()
        return True
    except UnicodeDecodeError:
        return False


def entry_of(record):
    """The entry of a topic's record, or None."""
    if record[0] != 1:
        return None
    kind, rest = record[1], record[2:]
    if kind == PLAIN:
        return (kind, None, rest) if is_body(rest) else None
    if kind == OPENED:
        return (kind, rest[:16], rest[16:]) if len(rest) >= 16 and is_body(rest[16:]) else None
    return (kind, rest, b"") if kind in (COMMIT, ABORT) and len(rest) == 16 else None


def entries_of(records):
    """The entries of a topic's records, where they are lawful."""
    entries, marked = [], set()
    for record in records:
        entry = entry_of(record)
        if entry is None or entry[1] in marked:
            raise Damaged(len(entries))
        entries.append(entry)
        if entry[0] in (COMMIT, ABORT):
            marked.add(entry[1])
    return entries


# ---- Records of a coordinator's log.

NEW, ADD_PART, COMMITTING, COMMITTED, ABORTING, ABORTED = 1, 2, 3, 4, 5, 6
STATUSES = {NEW: "open", COMMITTING: "committing", COMMITTED: "committed", ABORTING: "aborting", ABORTED: "aborted"}
MORE = {NEW: 8, ADD_PART: 4, COMMITTING: 0, COMMITTED: 0, ABORTING: 0, ABORTED: 0}
COORDINATOR = "@coordinator"
BEFORE = {ADD_PART: NEW, COMMITTING: NEW, ABORTING: NEW, COMMITTED: COMMITTING, ABORTED: ABORTING}
ENDS = {"commit": (COMMITTING, COMMITTED, COMMIT), "abort": (ABORTING, ABORTED, ABORT)}
ANSWERED = ("new", "add", "publish", "commit", "abort", "status", "read")
DAY = 86_400_000


def step(transactions, kind, number, more):
    """Takes an entry of the log into the list of transactions. Tells whether it may stand there."""
    if kind == NEW:
        transactions.append((NEW, False))
        return number == len(transactions) - 1
    if number >= len(transactions) or transactions[number][0] != BEFORE[kind]:
        return False
    before, has_topic = transactions[number]
    if kind == ADD_PART:
        transactions[number] = (before, True)
        return not has_topic and more == (1).to_bytes(4, "big")
    transactions[number] = (kind, has_topic)
    return True


def transactions_of(records):
    """The transactions of a log's records, where these are lawful for one named part."""
    transactions = []
    for place, record in enumerate(records):
        kind, number = record[1], int.from_bytes(record[10:18], "big")
        fits = record[0] == 1 and kind in MORE and len(record) == 18 + MORE[kind] and not any(record[2:10])
        if not fits or not step(transactions, kind, number, record[18:]):
            raise Damaged(place)
    return transactions


def frame_of(records):
    body = b"".join(len(record).to_bytes(2, "big") + record for record in records)
    return b"\1" + len(body).to_bytes(4, "big") + body


# ---- Replies.

SHORT = {8: "\\b", 9: "\\t", 10: "\\n", 12: "\\f", 13: "\\r", 34: '\\"', 92: "\\\\"}
TABLE = {code: SHORT.get(code, f"\\u{code:04x}") for code in [*range(32), 34, 92]}
BAD_LINE, TOO_LONG, TOO_BIG = (f'{{"no":"{word}"}}' for word in ("bad_line", "too_long", "too_big"))


def quoted(text):
    return '"' + text.translate(TABLE) + '"'


def refused(word, **more):
    """A refusal, its members in the order of their keys."""
    members = sorted([*more.items(), ("no", word)])
    return "{" + ",".join(f'"{key}":{value if isinstance(value, int) else quoted(value)}' for key, value in members) + "}"


# ---- Files. What follows takes a file by the four calls of this class.

class Failed(Exception):
    """A call of the disk failed, at a file of this part."""

    def __init__(self, part):
        super().__init__(part)
        self.part = part


class Kept:
    """The bytes of a file, none of whose calls fails. A part is what a fault names."""

    def __init__(self, data, part):
        self.data, self.part = data, part

    def start(self):
        """An opening begins, and reads the frames."""

    def cut(self, end):
        """What stands behind the last frame goes."""
        self.data = self.data[:end]

    def look(self, count, is_least):
        """So many records are read, or more where that is the least."""

    def append(self, frame):
        self.data += frame


class Stopped(Exception):
    """A file is damaged: what is said of it."""


def opened(name, file, lists_of, step):
    """What a file stands for, and the number of its records. A replay reads each record of a step before it tests any."""
    try:
        file.start()
        records, end = records_of_file(file.data)
        file.cut(end)
        try:
            found = lists_of(records)
        except Damaged as damage:
            behind = min(len(records), damage.entry // step * step + step)
            file.look(damage.entry + 1, behind > damage.entry + 1)
            raise
    except Damaged as damage:
        raise Stopped(f"damaged {name} {damage.entry}") from None
    file.look(len(records), False)
    return found, len(records)


class Topic:
    """The one topic of a run: its entries, and its ledger."""

    def __init__(self, entries, ledger, limits):
        self.entries, self.ledger, self.limits = entries, ledger, limits
        self.ends = {txn: kind for kind, txn, _ in entries if kind in (COMMIT, ABORT)}

    def limit(self):
        undecided = (k for k, (kind, txn, _) in enumerate(self.entries) if kind == OPENED and txn not in self.ends)
        return next(undecided, len(self.entries))

    def publish(self, texts, txn):
        bodies = [text.encode() for text in texts]
        place = len(self.entries)
        if place + len(bodies) > self.limits["log"]:
            return refused("full", what="log", count=place)
        start = b"\1\2" + txn if txn else b"\1\1"
        self.ledger.append(frame_of([start + body for body in bodies]))
        self.entries += [(OPENED if txn else PLAIN, txn, body) for body in bodies]
        return f'{{"at":{place},"count":{len(bodies)},"ok":"publish"}}'

    def mark(self, txn, kind):
        """The marker of a transaction, where none stands."""
        if txn not in self.ends:
            self.ledger.append(frame_of([bytes([1, kind]) + txn]))
            self.ends[txn] = kind
            self.entries.append((kind, txn, b""))

    def read(self, first, most):
        """It reads each record up to the last that it tells, or to the limit. It may read on to the next visible one where it
        tells no more of them."""
        shown, size, limit = [], 0, self.limit()
        most, is_cut, seen = min(most, self.limits["read_messages"]), False, min(first, limit)
        for place in range(min(first, limit), limit):
            kind, txn, body = self.entries[place]
            is_cut = len(shown) == most
            if not is_cut and (kind == PLAIN or (kind == OPENED and self.ends[txn] == COMMIT)):
                size += len(body)
                is_cut = bool(shown) and size > self.limits["read_bytes"]
                shown += [] if is_cut else [f"[{place},{quoted(body.decode())}]"]
            if is_cut:
                break
            seen = place + 1
        self.ledger.look(seen - min(first, limit), is_cut)
        return f'{{"limit":{limit},"messages":[{",".join(shown)}],"ok":"read"}}'


class Coordinator:
    """The transactions of a run: of each how far it is and whether the topic is its part; and their log, with its length."""

    def __init__(self, transactions, length, log, limits):
        self.transactions, self.length, self.log, self.limits = transactions, length, log, limits
        opened = (number for number, (kind, _) in enumerate(transactions) if kind not in (COMMITTED, ABORTED))
        self.low = next(opened, len(transactions))

    def add_entry(self, kind, number, more=b""):
        self.log.append(frame_of([bytes([1, kind]) + bytes(8) + number.to_bytes(8, "big") + more]))
        self.length += 1
        step(self.transactions, kind, number, more)

    def begin(self, deadline):
        number = len(self.transactions)
        if number - self.low >= self.limits["window"]:
            return refused("full", what="transactions", count=number - self.low)
        if self.length >= self.limits["log"]:
            return refused("full", what="log", count=self.length)
        self.add_entry(NEW, number, deadline.to_bytes(8, "big"))
        return f'{{"ok":"new","txn":[0,{number}]}}'

    def add(self, number):
        if not self.transactions[number][1]:
            if self.length >= self.limits["log"]:
                return refused("full", what="log", count=self.length)
            self.add_entry(ADD_PART, number, (1).to_bytes(4, "big"))
        return '{"ok":"add"}'

    def status(self, number):
        return STATUSES[self.transactions[number][0]]


def moments_of(told):
    """The moments of a clock, the last one again and again."""
    yield from told
    while True:
        yield told[-1] if told else 0


class World:
    """A coordinator and a topic of this name, over the files of both as opening leaves them. It is over where a write failed."""

    def __init__(self, log, ledger, name=TOPIC, limits=LIMITS, clock=()):
        self.name, self.limits, self.clock, self.now, self.is_over = name, limits, moments_of(clock), 0, False
        step = limits["step"]
        self.coordinator = Coordinator(*opened("p00-r0000000002", log, transactions_of, step), log, limits)
        self.topic = Topic(opened("p01-r0000000002", ledger, entries_of, step)[0], ledger, limits)

    def answer(self, line):
        """The reply to a line, or None to a blank one."""
        if len(line) > self.limits["line"]:
            return TOO_LONG
        if not line.strip(b" \t\r"):
            return None
        request = request_of(line)
        if request is None or request["do"] not in ANSWERED:
            return BAD_LINE
        if request["do"] == "new":
            self.now = max(self.now, min(next(self.clock), LATEST))
        name = request.get("topic", request.get("part", self.name))
        if name != self.name:
            return f'{{"name":{quoted(name)},"no":"unknown_part"}}'
        if "txn" in request and request["txn"][0] != 0:
            return refused("unknown_coordinator", number=request["txn"][0])
        data = request.get("data")
        texts = [data] if is_text(data) else data
        if texts and self.is_too_big(texts):
            return TOO_BIG
        try:
            return self.lawful(request, texts)
        except Failed as failed:
            self.is_over = request["do"] != "read"
            return refused("fault", part=failed.part)

    def is_too_big(self, texts):
        return len(texts) > self.limits["batch"] or max(len(text.encode()) for text in texts) > self.limits["message"]

    def lawful(self, request, texts):
        """The reply to a request that needs no look at the lists before."""
        do = request["do"]
        if do == "new":
            timeout = request["timeout"]
            return self.coordinator.begin(self.now + timeout) if 1 <= timeout <= DAY else refused("bad_timeout")
        if do == "read":
            return self.topic.read(request["from"], request["max"])
        if "txn" not in request:
            return self.topic.publish(texts, None)
        number = request["txn"][1]
        if number >= len(self.coordinator.transactions):
            return refused("not_found")
        return self.inside(do, number, texts)

    def inside(self, do, number, texts):
        """The reply to a request in a transaction that is there."""
        status = self.coordinator.status(number)
        txn = bytes(8) + number.to_bytes(8, "big")
        if do == "status":
            return f'{{"ok":"status","status":"{status}"}}'
        if do in ENDS:
            return self.end(do, number, txn)
        if status != "open" or (do == "publish" and txn in self.topic.ends):
            return refused("not_open", status=status)
        if do == "add":
            return self.coordinator.add(number)
        has_topic = self.coordinator.transactions[number][1]
        return self.topic.publish(texts, txn) if has_topic else refused("not_registered", part=self.name)

    def end(self, do, number, txn):
        """The decision, the marker and the close, each where it isn't there. A fault behind the decision is told with it."""
        decided, closed, marker = ENDS[do]
        kind, has_topic = self.coordinator.transactions[number]
        if kind not in (NEW, decided, closed):
            return refused("not_open", status=STATUSES[kind])
        if kind == NEW:
            self.coordinator.add_entry(decided, number)
        try:
            if kind != closed:
                if has_topic:
                    self.topic.mark(txn, marker)
                self.coordinator.add_entry(closed, number)
        except Failed as failed:
            self.is_over = True
            return f'{{"ok":"{do}","part":{quoted(failed.part)},"status":"{STATUSES[decided]}","why":"fault"}}'
        return f'{{"ok":"{do}","status":"{STATUSES[closed]}"}}'


def lines_of(given):
    """The lines of an input. A last piece without a newline is one."""
    pieces = given.split(b"\n")
    return pieces if pieces[-1] else pieces[:-1]


def run(log, ledger, given):
    """What a run over these two files and this input does, none of whose calls fails: its status, the lines that it was given
    with what is told of each, what it says on standard error, and the files that it leaves. It tells nothing over a damaged
    file. The clock tells 0, so that in the log that it leaves a timeout stands in place of each deadline."""
    log, ledger = Kept(log, COORDINATOR), Kept(ledger, TOPIC)
    try:
        world = World(log, ledger)
    except Stopped as stopped:
        return 2, [], f"{stopped}\n", log.data, ledger.data
    return 0, [(line, world.answer(line)) for line in lines_of(given)], "", log.data, ledger.data
