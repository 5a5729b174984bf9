"""The lines of one transaction, the reply to each, and the appends that they make. Files are 0, the coordinator's log, and 1,
the topic's ledger. Each frame has a head of 5 bytes; each record has a length of 2 bytes, a version, a kind and 16 bytes of
its transaction, and what its kind has beside. The messages of one publish are one frame."""
MESSAGE = 100
TEXT = '"' + "x" * MESSAGE + '"'
HEAD, RECORD = 5, 2 + 2 + 16
BARE = HEAD + RECORD


def data_of(messages):
    """One text, or a list of them."""
    return TEXT if messages == 1 else "[" + ",".join([TEXT] * messages) + "]"


def lines_of(number, publishes, messages=1):
    """The lines of the transaction of this number, with so many publishes of so many messages each."""
    txn = f'"txn":[0,{number}]'
    publish = f'{{"do":"publish","topic":"orders",{txn},"data":{data_of(messages)}}}\n'.encode()
    return [b'{"do":"new","timeout":60000}\n', f'{{"do":"add",{txn},"part":"orders"}}\n'.encode(), *[publish] * publishes, f'{{"do":"commit",{txn}}}\n'.encode()]


def replies_of(number, publishes, place, messages=1):
    """What is told of each, where the topic's next place is this one."""
    published = [f'{{"at":{place + k * messages},"count":{messages},"ok":"publish"}}\n'.encode() for k in range(publishes)]
    return [f'{{"ok":"new","txn":[0,{number}]}}\n'.encode(), b'{"ok":"add"}\n', *published, b'{"ok":"commit","status":"committed"}\n']


def appends_of(publishes, messages=1):
    """The appends of each line, as words of floor.c: a new transaction with its deadline, its part, its messages; and the
    decision, the marker and the close."""
    batch = HEAD + messages * (RECORD + MESSAGE)
    return [f"0:{BARE + 8}", f"0:{BARE + 4}", *[f"1:{batch}"] * publishes, f"0:{BARE},1:{BARE},0:{BARE}"]
