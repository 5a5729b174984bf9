#!/usr/bin/env python3
"""Looks whether the pages say what is there: each clause, law, definition, wrong body, file and script that they name is found in
the sources, each link leads to a page and a section, no table stands twice, the README of a crate has fewer than 40 lines and says
the crate's one idea and where its promises stand, and no line of text in README.md, docs and examples is wider than 128 columns.
Usage: pages.py   (it starts no program)"""
import collections
import glob
import os
import re
import sys

TOP = os.path.join(os.path.dirname(os.path.abspath(__file__)), "..")
WIDTH, CRATE_LINES = 128, 40
FUNCTION = re.compile(r"^\s*(?:pub )?(?:const )?fn (\w+)")
CLAUSE = re.compile(r"\s*ensures (?:(\w+) )?\{")
GHOST = re.compile(r"\s*ghost (\w+)(?::| =)")
# `crate::function` `label`, `label` or `crate::function` the one
NAMED = re.compile(r"`((?:txn_\w+|pulsar_txn)(?:::\w+)+)`((?: `\w+`(?:, `\w+`)*)| the one)?")
EDIT = re.compile(r"`(txn_\w+|pulsar_txn)/(\w+)`")
DEFINED = re.compile(r"((?:`\w+`(?:, | and )?)+) in \[\w+\]\(([^)]*\.antt)\)")
FIELD = re.compile(r"`(\w+)` of `(Promises|NeverLapses)`")
LINK = re.compile(r"\[[^\]]*\]\(([^)\s]+)\)")
PATH = re.compile(r"`((?:crates|docs|scripts|bench|examples)/[\w./-]+\.\w+)`")
# A file that the README of a crate names: in the crate or one of its folders, in the crate at the bottom, or at the top
OWN = re.compile(r"`([\w/*]+\.(?:rt|antt|txt))`")
PROMISES = "docs/PROMISES.md"


def read(path):
    with open(os.path.join(TOP, path), encoding="utf-8") as file:
        return file.read()


def found(pattern):
    return sorted(os.path.relpath(path, TOP) for path in glob.glob(os.path.join(TOP, pattern), recursive=True))


def pages():
    """Every page of the repository."""
    return ["README.md", *found("docs/*.md"), *found("examples/*.md"), *found("crates/*/README.md")]


def text_and_code(path):
    """The lines of a page, each with whether it stands in a block of code."""
    inside = False
    for number, line in enumerate(read(path).split("\n"), 1):
        if line.startswith("```"):
            inside = not inside
            yield number, line, True
        else:
            yield number, line, inside


def clauses_of(crate):
    """The sets of labels that each function of a crate's sources has, by its name; a clause without a label is "". And its laws."""
    functions, laws = collections.defaultdict(list), set()
    for path in found(f"crates/{crate}/src/**/*.rt"):
        labels = None
        for line in read(path).split("\n"):
            if function := FUNCTION.match(line):
                labels = set()
                functions[function[1]].append(labels)
            elif (clause := CLAUSE.match(line)) and labels is not None:
                labels.add(clause[1] or "")
            elif ghost := GHOST.match(line):
                laws.add(ghost[1])
    return functions, laws


def named_clauses(wrong):
    """Each clause that the pages name, in the sources."""
    known, count = {}, 0
    for path in pages():
        for number, line, _ in text_and_code(path):
            for name, labels in NAMED.findall(line):
                crate, function = name.split("::")[0], name.split("::")[-1]
                if not os.path.isdir(os.path.join(TOP, "crates", crate)):
                    wrong.append(f"{path}:{number}: there is no crate {crate}")
                    continue
                functions, laws = known.setdefault(crate, clauses_of(crate))
                wanted = {""} if labels == " the one" else set(re.findall(r"\w+", labels))
                if not any(wanted <= have for have in functions.get(function, [])) and (wanted or function not in laws):
                    wrong.append(f"{path}:{number}: no `{name}` with the clauses {sorted(wanted)}")
                count += max(1, len(wanted))
    return count


def named_files(wrong):
    """Each wrong body, definition and file that the pages name."""
    edits = set()
    for path in pages():
        for number, line, _ in text_and_code(path):
            for crate, edit in EDIT.findall(line):
                edits.add((crate, edit))
                if not os.path.exists(os.path.join(TOP, f"crates/{crate}/must-fail/{edit}.edit")):
                    wrong.append(f"{path}:{number}: no wrong body {crate}/{edit}")
            for words, target in DEFINED.findall(line):
                spec = os.path.normpath(os.path.join(os.path.dirname(path), target))
                have = read(spec) if os.path.exists(os.path.join(TOP, spec)) else ""
                for word in re.findall(r"\w+(?=`)", words):
                    if not re.search(rf"\bpub (?:record |data )?{word}\b", have):
                        wrong.append(f"{path}:{number}: no definition of {word} in {spec}")
            for field, record in FIELD.findall(line):
                part = read("crates/txn_run/specs/Promises.antt").split(f"record {record} ", 1)[1].split("\nabbrev", 1)[0].split("\npub record")[0]
                if f"pub {field} :" not in part:
                    wrong.append(f"{path}:{number}: no field {field} of {record}")
            for file in PATH.findall(line):
                if not re.search(r"/[A-Z]+/", file) and not os.path.exists(os.path.join(TOP, file)):
                    wrong.append(f"{path}:{number}: no file {file}")
            for file in OWN.findall(line) if path.startswith("crates/") else []:
                crate = os.path.dirname(path)
                if not any(found(f"{folder}/{file}") for folder in (crate, f"{crate}/*", "crates/txn_base", ".")):
                    wrong.append(f"{path}:{number}: no file {file}")
    return len(edits)


def each_has_its_clause(wrong):
    """Each promise of the README, and each row of the tables of PROMISES, names what carries it."""
    section = read("README.md").split("\n## The promise\n", 1)[1].split("\n## ", 1)[0]
    for item in re.split(r"\n(?=\d\. )", section.rstrip())[1:]:
        if not NAMED.search(item.split("\n\n")[0]):
            wrong.append(f"README.md: a promise without a clause: {item.splitlines()[0]}")
    for number, line, _ in text_and_code(PROMISES):
        is_row = line.startswith("| ") and line.split("|")[1].strip() not in ("promise", "law", "function", "in the words of transactions")
        if is_row and not NAMED.search(line) and not FIELD.search(line) and "the output of `" not in line:
            wrong.append(f"{PROMISES}:{number}: a row without a clause")


def anchors_of(path):
    """The anchors of a page's headings."""
    heads = (line.lstrip("#").strip() for _, line, code in text_and_code(path) if line.startswith("#") and not code)
    return {re.sub(r"[^\w\- ]", "", head.lower()).replace(" ", "-") for head in heads}


def links(wrong):
    count = 0
    for path in pages():
        for number, line, code in text_and_code(path):
            for target in [] if code else LINK.findall(line):
                if "://" in target:
                    continue
                page, _, anchor = target.partition("#")
                page = os.path.normpath(os.path.join(os.path.dirname(path), page)) if page else path
                count += 1
                if not os.path.exists(os.path.join(TOP, page)):
                    wrong.append(f"{path}:{number}: a link to {target}, which isn't there")
                elif anchor and anchor not in anchors_of(page):
                    wrong.append(f"{path}:{number}: a link to {target}, and {page} has no such section")
    return count


def sizes(wrong):
    for path in pages():
        lines = read(path).rstrip("\n").split("\n")
        crate = path.split("/")[1] if path.startswith("crates/") else None
        if crate and len(lines) >= CRATE_LINES:
            wrong.append(f"{path}: {len(lines)} lines, where fewer than {CRATE_LINES} are allowed")
        for head in ("## Its one idea", "## Promises") if crate else ():
            if head not in lines:
                wrong.append(f"{path}: no section \"{head[3:]}\"")
        for number, line, code in text_and_code(path):
            if len(line) > WIDTH and not crate and not line.startswith("|") and not code:
                wrong.append(f"{path}:{number}: {len(line)} columns")


def is_key(cell):
    """A first cell that names something: it isn't empty, a rule or a number."""
    return re.search(r"[A-Za-z]", cell) is not None


def tables(wrong):
    """No list stands twice: tables of clauses on one page alone, and no two tables that share half of their first cells."""
    known = []
    for path in pages():
        rows, start = [], 0
        for number, line, code in [*text_and_code(path), (0, "", False)]:
            if line.startswith("|") and not code:
                start = start or number
                rows.append(line.strip("|").split(" | ")[0].strip())
            elif rows:
                known.append((path, start, {row for row in rows[2:] if is_key(row)}))
                rows, start = [], 0
    for at, (path, start, keys) in enumerate(known):
        for other, second, more in known[:at]:
            shared = keys & more
            if other != path and len(shared) >= 4 and 2 * len(shared) > min(len(keys), len(more)):
                wrong.append(f"{path}:{start}: a table that stands in {other}:{second} too: {sorted(shared)[:3]} ..")
    for path in pages():
        clauses = sum(1 for _, line, _ in text_and_code(path) if line.startswith("|") and any(labels for _, labels in NAMED.findall(line)))
        if path != PROMISES and clauses > 2:
            wrong.append(f"{path}: a table of clauses, which belongs into {PROMISES}")


def main():
    wrong = []
    clauses, edits, linked = named_clauses(wrong), named_files(wrong), links(wrong)
    each_has_its_clause(wrong)
    sizes(wrong)
    tables(wrong)
    for line in wrong:
        print(f"pages: {line}", flush=True)
    if wrong:
        sys.exit(1)
    there = len(found("crates/*/must-fail/*.edit"))
    print(f"pages: {len(pages())} pages; {clauses} clauses, {edits} of {there} wrong bodies and {linked} links are there", flush=True)


main()
