#!/usr/bin/env python3
"""Compares the rulebooks that `i7story rules` prints with what is told by hand. A row of tests/rule_listings/NAME.rows
has sentences that are put behind the source NAME.i7, the name of a rulebook, and its rules, each with what puts it at its place
(tests/row_files.py says how rows are written). Of a source that is refused the refusal stands in place of the name. A row of
tests/rule_listings/sought/NAME.rows has two fields more behind the sentences, the words of `--for` and of `--in`, none where one is
blank; of words that name nothing what the program says stands in place of the name.

Use: tests/rule_listings.py PROGRAM"""
import pathlib
import subprocess
import sys

from row_files import report, rows_of

program = sys.argv[1]
folder = pathlib.Path(__file__).resolve().parent / "rule_listings"


def printed(source, words=()):
    """What is printed of a source: the rules of each rulebook by its name, or the only line."""
    done = subprocess.run([program, "rules", "-", *words], input=source, capture_output=True, timeout=60)
    if done.returncode:
        return {done.stderr.removeprefix(b"-:").strip(): []}
    books = {}
    for line in done.stdout.splitlines():
        if line.startswith(b"    "):
            book.append(line.strip())
        else:
            book = books[line] = []
    return books


def told(books, name):
    """The rules of the rulebook of this name."""
    return b"\n".join(books[name]) if name in books else b"not printed"


def answers():
    for path in sorted(folder.glob("*.rows")):
        source = path.with_suffix(".i7").read_bytes()
        for place, (added, name, rules) in rows_of(path):
            yield place, told(printed(source + added), name), rules
    for path in sorted((folder / "sought").glob("*.rows")):
        source = (folder / path.name).with_suffix(".i7").read_bytes()
        for place, (added, action, room, name, rules) in rows_of(path):
            words = [b"--for", action] * bool(action) + [b"--in", room] * bool(room)
            yield f"sought/{place}", told(printed(source + added, words), name), rules


report("rule listings", answers())
