#!/usr/bin/env python3
"""A plain reading of the rules of the core, apart from its code: works out what the program txn_core_tests has to print, prints
it, and compares it with crates/txn_core_tests/stdout. Status 1 where they differ. It takes a few seconds. Of the line on what
is kept of each entry it says only what has to stand there. Usage: core_walks.py

A part has a list of settled entries, a list in flight, and whether that flight is sure. Part 0 is the coordinator. An entry is
a tuple: ("plain",), ("inside", x), ("marker", x, decision), ("new", x), ("add", x, part), ("decide", x, decision) and
("close", x, decision), where a decision is "commit" or "abort". A step is ("start", part, entries), ("settle", part),
("stop", part, kept) or ("tell", part, first, count)."""
import os
import sys

PARTS, MOST = 63, 64
DECISIONS = ("commit", "abort")
WANTED = os.path.join(os.path.dirname(os.path.abspath(__file__)), "..", "crates", "txn_core_tests", "stdout")


# The rules of one list.

def log_lawful(entries):
    """The coordinator's list, by itself: transactions are numbered from 0 on; a part is added once, and only to a transaction
    that is begun and not decided; only such a one is decided; only a decided one is closed, once, as it was decided."""
    begun, decided, closed, added = 0, {}, set(), set()
    for entry in entries:
        kind, rest = entry[0], entry[1:]
        is_open = bool(rest) and 0 <= rest[0] < begun and rest[0] not in decided
        if kind == "new":
            if rest[0] != begun:
                return False
            begun += 1
        elif kind == "add":
            if not is_open or not 1 <= rest[1] < PARTS or rest in added:
                return False
            added.add(rest)
        elif kind == "decide":
            if not is_open:
                return False
            decided[rest[0]] = rest[1]
        elif kind == "close":
            if decided.get(rest[0]) != rest[1] or rest[0] in closed:
                return False
            closed.add(rest[0])
        else:
            return False
    return True


def part_lawful(entries):
    """The list of another part, by itself: after a marker of a transaction nothing of it comes."""
    ended = set()
    for entry in entries:
        if entry[0] not in ("plain", "inside", "marker"):
            return False
        if entry[0] != "plain" and entry[1] in ended:
            return False
        if entry[0] == "marker":
            ended.add(entry[1])
    return True


def is_lawful(part, entries):
    return log_lawful(entries) if part == 0 else part_lawful(entries)


def visible(entries):
    """The places that a reader sees: up to the first message of a transaction without a marker, the plain messages and those
    of transactions with a commit marker."""
    ends = {}
    for entry in entries:
        if entry[0] == "marker":
            ends.setdefault(entry[1], entry[2])
    places = []
    for place, entry in enumerate(entries):
        if entry[0] == "inside" and entry[1] not in ends:
            break
        if entry[0] == "plain" or entry[0] == "inside" and ends[entry[1]] == "commit":
            places.append(place)
    return places


# The rules across lists.

def is_backed(settled, part, entry):
    """The settled lists give what an entry of the part needs."""
    log = settled[0]
    if entry[0] == "inside":
        return ("add", entry[1], part) in log
    if entry[0] == "marker":
        return ("decide", entry[1], entry[2]) in log
    if entry[0] == "close":
        return all(("marker", entry[1], entry[2]) in settled[other[2]] for other in log if other[:2] == ("add", entry[1]))
    return True


class State:
    """What each part has, as tuples, so that equal states are equal."""

    def __init__(self, settled=((),) * PARTS, flights=((),) * PARTS, sure=(False,) * PARTS):
        self.settled, self.flights, self.sure = settled, flights, sure

    def key(self):
        return self.settled, self.flights, self.sure

    def flies(self, part):
        return part < PARTS and len(self.flights[part]) > 0

    def allows(self, step):
        if step[0] == "start":
            _, part, entries = step
            return (part < PARTS and not self.flies(part) and 1 <= len(entries) <= (1 if part == 0 else MOST)
                    and is_lawful(part, self.settled[part] + entries)
                    and all(is_backed(self.settled, part, entry) for entry in entries))
        if step[0] == "settle":
            return self.flies(step[1])
        if step[0] == "stop":
            return self.flies(step[1]) and (step[2] or not self.sure[step[1]])
        _, part, first, count = step
        return count <= sum(1 for place in visible(self.settled[part]) if place >= first)

    def after(self, step):
        """The state after a step that is allowed. A telling changes no list."""
        if step[0] == "tell":
            return self
        part = step[1]
        settled, flight, sure = self.settled[part], self.flights[part], False
        if step[0] == "start":
            flight = step[2]
        elif step[0] == "settle":
            settled, flight = settled + flight[:1], flight[1:]
            sure = len(flight) > 0
        else:
            settled, flight = settled + (flight if step[2] else ()), ()
        return State(put(self.settled, part, settled), put(self.flights, part, flight), put(self.sure, part, sure))


def put(items, at, item):
    return items[:at] + (item,) + items[at + 1:]


def run(steps):
    """The state after the steps, without those that aren't allowed."""
    state = State()
    for step in steps:
        if state.allows(step):
            state = state.after(step)
    return state


# The worked cases: a marker that comes before its decision has settled.

def worked():
    begin = [("start", 0, (("new", 0),)), ("settle", 0), ("start", 0, (("add", 0, 1),)), ("settle", 0)]
    decide, mark = ("start", 0, (("decide", 0, "commit"),)), ("start", 1, (("marker", 0, "commit"),))
    for name, steps in (
        ("core_skips_marker_without_decision", [*begin, mark, decide, ("stop", 0, False), mark]),
        ("core_skips_marker_of_a_decision_in_flight", [*begin, decide, mark]),
    ):
        state = run(steps)
        yield (f"{name}: the log has {len(state.settled[0])} entries, "
               f"part 1 has {len(state.settled[1])} and {len(state.flights[1])} in flight")


# Every short list of steps.

def choices(with_more):
    """The steps of which a list is made."""
    log = [(kind, x, *rest) for kind, *rest in (
        ("new",), ("add", 1), ("decide", "commit"), ("decide", "abort"), ("close", "commit"), ("close", "abort")) for x in (0, 1)]
    part = [("inside", 0), ("inside", 1), *(("marker", x, decision) for decision in DECISIONS for x in (0, 1)), ("plain",)]
    steps = [("start", 0, (entry,)) for entry in log] + [("start", 1, (entry,)) for entry in part]
    steps += [("settle", 0), ("settle", 1)]
    steps += [("stop", place, kept) for place in (0, 1) for kept in (True, False)]
    steps += [("tell", 1, first, 1) for first in (0, 1)]
    if with_more:
        steps += [("start", 1, ()), ("start", 1, (("plain",), ("inside", 1))), ("start", 2, (("marker", 0, "commit"),)),
                  ("settle", 2), ("start", 0, (("new", 2), ("new", 3)))]
    return steps


def settled_one_by_one(part, entries):
    return [step for entry in entries for step in (("start", part, (entry,)), ("settle", part))]


def fronts():
    """What is done before the lists, with its name, the most steps of a list, and whether the further steps are chosen from."""
    registered = (settled_one_by_one(0, [("new", 0), ("new", 1), ("add", 0, 1)]) + settled_one_by_one(1, [("inside", 0)]))
    decide = ("decide", 0, "commit")
    yield "4 steps after nothing", [], 4, False
    yield "4 steps after a message", registered, 4, False
    yield ("4 steps after a decision",
           registered + settled_one_by_one(0, [decide]) + [("start", 1, (("marker", 0, "commit"),))], 4, False)
    yield ("3 steps after a marker at one of two parts",
           registered + settled_one_by_one(0, [("add", 0, 2), ("add", 1, 1), decide])
           + settled_one_by_one(1, [("marker", 0, "commit")])
           + [("start", 1, (("plain",), ("inside", 1), ("plain",))), ("settle", 1)], 3, True)


def made_in_lists(state, steps, length, known):
    """Over all lists of so many of the steps, how many steps are made from the state on."""
    if length == 0:
        return 0
    key = (state.key(), length)
    if key not in known:
        made = 0
        for step in steps:
            allowed = state.allows(step)
            then = state.after(step) if allowed else state
            made += allowed * len(steps) ** (length - 1) + made_in_lists(then, steps, length - 1, known)
        known[key] = made
    return known[key]


def lists():
    for name, front, most, with_more in fronts():
        steps, known, state, before = choices(with_more), {}, State(), 0
        for step in front:
            if state.allows(step):
                state, before = state.after(step), before + 1
        tried = made = 0
        for length in range(most + 1):
            tried += len(steps) ** length
            made += before * len(steps) ** length + made_in_lists(state, steps, length, known)
        yield f"lists of up to {name}: {tried} tried, {made} steps made, 0 differ"


# Random walks, with the same row of numbers as the program's.

class Random:
    def __init__(self, seed):
        self.state = seed

    def below(self, bound):
        self.state = (self.state * 6364136223846793005 + 1442695040888963407) % 2 ** 64
        return (self.state >> 33) % bound


def log_entry(random, choice, x, begun):
    if choice == 0:
        return "new", begun
    if choice <= 3:
        return "add", x, random.below(4)
    return ("decide" if choice <= 5 else "close"), x, DECISIONS[choice % 2]


def next_entry(random, part, x, begun):
    of_log = (part == 0) != (random.below(32) == 0)
    choice = random.below(8)
    if of_log:
        return log_entry(random, choice, x, begun)
    if choice == 0:
        return ("plain",)
    if choice <= 3:
        return "inside", x
    return "marker", x, DECISIONS[choice // 2 - 2]


def next_batch(random, part, begun):
    count = {0: 64, 1: 65, 2: 0, 3: 3, 4: 3, 5: 2}.get(random.below(16), 1)
    if part == 0 and count != 0 and random.below(8) != 0:
        count = 1
    x = max(begun - random.below(5), 0)
    if part != 0 and count > 3:
        return (("plain",),) * count
    return tuple(next_entry(random, part, x, begun) for _ in range(count))


def next_step(random, state):
    part = max(random.below(6) - 2, 0)
    begun = sum(1 for entry in state.settled[0] if entry[0] == "new")
    choice = random.below(16)
    if choice <= 1:
        return "stop", part, random.below(2) == 0
    if choice == 2:
        return "tell", part, random.below(6), random.below(3)
    if choice <= 14 and state.flies(part):
        return "settle", part
    return "start", part, next_batch(random, part, begun)


def walks():
    for seed in range(1, 9):
        random, state, made, told = Random(seed), State(), 0, 0
        for _ in range(1000):
            step = next_step(random, state)
            if state.allows(step):
                state, made, told = state.after(step), made + 1, told + (step[0] == "tell")
        entries = sum(len(settled) for settled in state.settled)
        yield f"walk of 1000 steps with the seed {seed}: {made} steps made, {entries} entries, {told} tellings, 0 differ"


def main():
    lines = [*worked(), "skeletons_of_each_entry: as they should be", *lists(), *walks()]
    print("\n".join(lines))
    with open(WANTED, encoding="utf-8") as file:
        stands = file.read().split("\n")
    if stands != lines + [""]:
        for at in range(max(len(stands), len(lines) + 1)):
            if (stands[at:] or [None])[0] != ((lines + [""])[at:] or [None])[0]:
                print(f"line {at + 1} of crates/txn_core_tests/stdout differs", file=sys.stderr)
        sys.exit(1)


if __name__ == "__main__":
    main()
