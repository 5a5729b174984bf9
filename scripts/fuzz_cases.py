"""Random and mutated lines and ledgers for fuzz.py, each from a source of random numbers that is given."""
import grammar

# Text that lies at an edge: escapes, control characters, ends of planes, and what is only nearly a name.
EDGES = [
    "\0", "\x1f", " ", '"', "\\", "/", "\b\f\n\r\t", "\x7f", "\x80", "é", "\u07ff", "\u0800", "\u2028", "\ud7ff",
    "\ue000", "\ufeff", "\uffff", "\U00010000", "😀", "\U0010ffff",
]
WORDS = ["", "a", "orders", "orders/billing", "Orders", "message", "do", "null"]
NUMBERS = ["0", "1", "2", "7", "63", "64", "100", "101", "65536", "4294967296", "9223372036854775808", "18446744073709551615"]
ODD_NUMBERS = [
    "-0", "-1", "00", "01", "+1", ".5", "5.", "1.", "1.0", "0.0", "1e3", "1E5", "0e0", "1e", "1e+", "-", "--1", "1.e1",
    "0x1", "1_000", "NaN", "Infinity", "1e308", "1e309", "-1e400", "1e-400", "18446744073709551616", "9" * 309,
    "9" * 5000, "-9223372036854775808", "-9223372036854775809",
]
ODD_VALUES = [
    "null", "true", "false", "nul", "True", "{}", "[]", "[[]]", '{"":0}', '"', "'a'", '"\\x"', '"\\u12"', '"\\ud800"',
    '"\\udc00"', '"\\ud800\\ud800"', '"\\ud83d\\ude00"', '"\\uD83D\\u0041"', '"\t"', '""', "[0,0]", "[0]", '["a",1]',
    '["a",]', "[,]",
]
SPACES = ["", "", "", "", "", " ", "\t", "\r", "  \t"]
BAD_UTF8 = [b"\x80", b"\xff", b"\xc0\xaf", b"\xe2\x82", b"\xed\xa0\x80", b"\xf4\x90\x80\x80", b"\xf8\x88\x80\x80\x80"]


def some_text(rng):
    if rng.random() < 0.5:
        return rng.choice(WORDS)
    return "".join(rng.choice(EDGES if rng.random() < 0.4 else "abcxyz") for _ in range(rng.randrange(12)))


def spelled(rng, text):
    """A text as JSON, some of its characters as escapes."""
    out = []
    for letter in text:
        must = letter < " " or letter in '"\\'
        if must and rng.random() < 0.5 and letter in "\b\f\n\r\t\"\\":
            out.append({"\b": "\\b", "\f": "\\f", "\n": "\\n", "\r": "\\r", "\t": "\\t"}.get(letter, "\\" + letter))
        elif must or rng.random() < 0.05:
            units = letter.encode("utf-16-be")
            digits = (f"\\u{units[i]:02x}{units[i + 1]:02X}" for i in range(0, len(units), 2))
            out.append("".join(digits))
        else:
            out.append("\\/" if letter == "/" and rng.random() < 0.2 else letter)
    return '"' + "".join(out) + '"'


def some_topic(rng):
    return spelled(rng, grammar.TOPIC if rng.random() < 0.9 else some_text(rng))


def some_data(rng):
    if rng.random() < 0.6:
        return spelled(rng, some_text(rng))
    count = rng.choice([1, 2, 3, 5] if rng.random() < 0.98 else [63, 64, 65, 66])
    return "[" + ",".join(spelled(rng, some_text(rng)) for _ in range(count)) + "]"


def some_number(rng):
    return str(rng.randrange(300)) if rng.random() < 0.7 else rng.choice(NUMBERS)


def some_id(rng):
    if rng.random() < 0.9:
        return f"[0,{rng.randrange(12)}]"
    return f"[{some_number(rng)},{some_number(rng)}]"


def some_timeout(rng):
    return rng.choice(["0", "1", "60000", "86400000", "86400001"]) if rng.random() < 0.5 else some_number(rng)


VALUES = {
    "timeout": some_timeout, "place": some_number, "from": some_number, "max": some_number,
    "txn": some_id, "topic": some_topic, "data": some_data,
    "part": some_topic, "sub": lambda rng: spelled(rng, some_text(rng)),
    "places": lambda rng: "[" + ",".join(some_number(rng) for _ in range(rng.randrange(4))) + "]",
}


OFTEN = ["new", "add", "add", *["publish"] * 4, *["read"] * 4, "commit", "abort", "status"]


def some_form(rng):
    """The keys and values of a form, those that are answered more often than others."""
    name = rng.choice(OFTEN) if rng.random() < 0.9 else rng.choice(list(grammar.FORMS))
    needed, allowed = grammar.FORMS[name]
    keys = list(needed) + [key for key in allowed if rng.random() < 0.5]
    return [("do", f'"{name}"')] + [(key, VALUES[key](rng)) for key in keys]


def make_odd(rng, members):
    """Changes members in one of the ways that JSON or a form leaves."""
    k = rng.randrange(len(members))
    key, value = members[k]
    odd = rng.choice(ODD_NUMBERS if rng.random() < 0.5 else ODD_VALUES)
    way = rng.randrange(6)
    if way == 0:
        members[k] = (key, odd)
    elif way == 1:
        members.insert(rng.randrange(k + 1), (key, odd))
    elif way == 2:
        members.append((key, odd))
    elif way == 3:
        members.append((some_text(rng), odd))
    elif way == 4:
        del members[k]
    else:
        members[k] = (key.upper(), value)


def nested(rng):
    """Lists and objects within one another, about as deep as they may be."""
    depth = rng.randrange(120, 132) if rng.random() < 0.8 else rng.randrange(2000)
    opens = [rng.choice(("[", '{"a":')) for _ in range(depth)]
    return "".join(opens) + "0" + "".join("]" if text == "[" else "}" for text in reversed(opens))


def joined(rng, members):
    """The object of these members, with space between its parts and some of its keys as escapes."""
    def space():
        return rng.choice(SPACES)

    parts = []
    for key, value in members:
        written = spelled(rng, key) if rng.random() < 0.1 else spelled(rng, key).replace("\\/", "/")
        parts.append(f"{space()}{written}{space()}:{space()}{value}{space()}")
    return space() + "{" + ",".join(parts) + "}" + space()


def formed_line(rng):
    members = some_form(rng)
    if rng.random() < 0.01:
        members.insert(0, (members[-1][0], nested(rng)))
    elif rng.random() < 0.3:
        make_odd(rng, members)
    elif rng.random() < 0.5:
        rng.shuffle(members)
    return joined(rng, members).encode("utf-8", "surrogatepass")


def long_line(rng):
    """A line about as long as a line, a message or a read may be."""
    way = rng.randrange(3)
    if way == 0:
        line = rng.choice([b"", b" ", b"{", formed_line(rng)])
        return line + b" " * (grammar.LINE - len(line) + rng.randrange(-1, 3))
    letter = rng.choice(["m", "é", "\\n"])
    size = {"m": 1, "é": 2, "\\n": 1}[letter]
    count = (grammar.MESSAGE + rng.randrange(-2, 4)) // size
    data = f'"{letter * count}{"m" * rng.randrange(2)}"'
    return joined(rng, [("do", '"publish"'), ("topic", '"orders"'), ("data", data)]).encode()


def mutated(rng, data, most=4):
    """The same bytes, of which some are changed, taken out, put in, copied or cut off."""
    data = bytearray(data)
    for _ in range(rng.randrange(1, most)):
        at = rng.randrange(len(data) + 1)
        piece = data[at:at + rng.randrange(1, 9)]
        way = rng.randrange(7)
        if way == 0 and piece:
            data[at] ^= 1 << rng.randrange(8)
        elif way == 1 and piece:
            data[at] = rng.choice([0, 1, 2, 3, 4, 64, 65, 255, rng.randrange(256), *b"{}[]:;,'0-+."])
        elif way == 2:
            data[at:at + len(piece)] = b""
        elif way == 3:
            data[at:at] = bytes(rng.randrange(256) for _ in range(rng.randrange(1, 5)))
        elif way == 4:
            data[at:at] = piece
        elif way == 5:
            other = rng.randrange(len(data) + 1)
            data[other:other + len(piece)] = piece
        elif rng.random() < 0.3:
            del data[at:]
    return bytes(data)


TOKENS = [
    b"{", b"}", b"[", b"]", b",", b":", b'"', b'"do"', b'"read"', b'"publish"', b'"orders"', b'"topic"', b'"data"',
    b"0", b"1", b"-", b".", b"e", b"null", b" ", b"\\", b"\\u", b"\xc3\xa9",
]


def one_line(rng):
    way = rng.random()
    if way < 0.70:
        return formed_line(rng)
    if way < 0.90:
        return mutated(rng, formed_line(rng))
    if way < 0.93:
        return b"".join(rng.choice(TOKENS) for _ in range(rng.randrange(12)))
    if way < 0.95:
        return bytes(rng.randrange(256) for _ in range(rng.randrange(40)))
    if way < 0.97:
        line = formed_line(rng)
        at = rng.randrange(len(line) + 1)
        return line[:at] + rng.choice(BAD_UTF8) + line[at:]
    if way < 0.996:
        blanks = [b" ", b"\t", b"\r"] if rng.random() < 0.5 else [b" ", b"\t", b"\r", b"\x0c", b"\xc2\xa0"]
        return b"".join(rng.choice(blanks) for _ in range(rng.randrange(6)))
    return long_line(rng)


def some_lines(rng, count):
    """An input of so many lines, and more where one of them has a newline in it. The last one may have none at its end."""
    given = b"\n".join(one_line(rng) for _ in range(count))
    return given + rng.choice([b"", b"\n"])


# ---- Logs and ledgers.

def some_body(rng):
    way = rng.random()
    if way < 0.97:
        return some_text(rng).encode()
    if way < 0.99:
        return rng.choice(BAD_UTF8)
    return b"m" * (grammar.MESSAGE + rng.randrange(-1, 2))


def some_txn(rng):
    return rng.choice([0, 0, 0, 1]).to_bytes(8, "big") + rng.randrange(4).to_bytes(8, "big")


def some_entry(rng, transactions):
    """A record of a log, mostly in the grammar, and mostly one that may stand behind those before it."""
    number = rng.randrange(len(transactions) + 1)
    if number == len(transactions) or rng.random() < 0.01:
        kind = grammar.NEW
    else:
        before, has_topic = transactions[number]
        kinds = [kind for kind, needed in grammar.BEFORE.items() if needed == before and (kind != grammar.ADD_PART or not has_topic)]
        kind = rng.choice(kinds) if kinds and rng.random() < 0.99 else rng.randrange(1, 7)
    more = rng.randrange(1 << 40).to_bytes(8, "big") if kind == grammar.NEW else b"\0\0\0\1" if kind == grammar.ADD_PART else b""
    if kind == grammar.NEW:
        number = len(transactions) if rng.random() < 0.99 else rng.randrange(5)
    if number < len(transactions) or kind == grammar.NEW:
        grammar.step(transactions, kind, number, more)
    record = bytes([1, kind]) + bytes(8) + number.to_bytes(8, "big") + more
    return mutated(rng, record, 2) if rng.random() < 0.005 else record


def some_log(rng):
    """The bytes of a coordinator's log, as they may be or with a few of them changed."""
    transactions = []
    frames = [grammar.frame_of([some_entry(rng, transactions)]) for _ in range(rng.randrange(12))]
    log = b"".join(frames) + some_tail(rng)
    return mutated(rng, log, 3) if rng.random() < 0.2 else log


def some_record(rng, marked):
    """A record, mostly in the grammar, and mostly of no transaction that has its marker."""
    kind = rng.choice([1, 1, 1, 2, 2, 3, 4])
    txn = b"" if kind == 1 else some_txn(rng)
    if txn in marked and rng.random() < 0.98:
        kind, txn = 1, b""
    if kind > 2:
        marked.add(txn)
    record = bytes([1, kind]) + txn + (some_body(rng) if kind <= 2 else b"")
    way = rng.random()
    if way < 0.004:
        return mutated(rng, record, 2)
    if way < 0.006:
        return bytes([rng.choice([0, 2, 255]), kind]) + record[2:]
    if way < 0.008:
        return bytes([1, rng.choice([0, 5, 6, 255])]) + record[2:]
    return record + b"\0" if way < 0.010 else record


def some_frame(rng, marked):
    """A frame, mostly in the grammar. Its lengths are those of its records."""
    count = rng.choice([1, 1, 1, 2, 3, 7] if rng.random() < 0.99 else [0, 63, 64, 65])
    if count > 60:
        return grammar.frame_of([b"\1\1m"] * count)
    return grammar.frame_of([some_record(rng, marked) for _ in range(count)])


def some_tail(rng):
    """What may stand behind the frames: nothing, a closed gate, or an open one."""
    way = rng.random()
    if way < 0.6:
        return b""
    frame = some_frame(rng, set())
    if way < 0.9:
        return bytes([rng.choice([0, 2, 7, 255])]) + frame[1:rng.randrange(len(frame)) + 1]
    return frame[:rng.randrange(len(frame) + 1)]


def great_ledger(rng):
    """Messages that are together about as long as a read may be."""
    sizes = [grammar.MESSAGE] * 7 + [grammar.MESSAGE - 1 + rng.randrange(3), rng.randrange(3)]
    return b"".join(grammar.frame_of([b"\1\1" + b"m" * size]) for size in sizes)


def some_ledger(rng):
    """The bytes of a topic's ledger, as they may be or with a few of them changed."""
    if rng.random() < 0.005:
        return great_ledger(rng)
    marked = set()
    frames = [some_frame(rng, marked) for _ in range(rng.randrange(8))]
    ledger = b"".join(frames) + some_tail(rng)
    return mutated(rng, ledger, 3) if rng.random() < 0.6 else ledger


def look_at(rng):
    """An input that looks at a log and a ledger: reads, and sometimes publishes and ends between them."""
    first, number = rng.randrange(4), rng.randrange(4)
    lines = [
        '{"do":"read","topic":"orders","from":0,"max":100}',
        f'{{"do":"read","topic":"orders","from":{first},"max":{rng.randrange(1, 4)}}}',
        f'{{"do":"status","txn":[0,{number}]}}',
        '{"do":"publish","topic":"orders","data":["y","z"]}',
        f'{{"do":"publish","topic":"orders","txn":[0,{number}],"data":["y","z"]}}',
        f'{{"do":"{rng.choice(["commit", "abort"])}","txn":[0,{number}]}}',
        f'{{"do":"read","topic":"orders","from":{first},"max":100}}',
    ]
    return "\n".join(lines[:rng.choice([1, 3, 5, 7, 7])]).encode()
