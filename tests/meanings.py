#!/usr/bin/env python3
"""Compares what words mean with what is told by hand, by the rows of tests/meanings/*.rows.

Use: tests/meanings.py PROGRAM [SORT]    (the program of `i7story`; that of `calls` is built where it isn't yet)

A row is a line: the words, a tab, what they mean as it is printed, and perhaps a tab and what they are read with beside what
tests/meanings/scene names, or in its place behind `alone`: `repeat gem;variable 7 depth`. A file is a sort, and what is
printed of it stands in its first line. `{9*lit }` is nine times `lit `, `{0*x}` nothing, `{..}` in what is wanted whatever
stands there, and a line that begins with `#` says what the rows below it are about."""
import pathlib
import re
import subprocess
import sys
import tempfile

from programs import calls_of

calls = calls_of("meanings")
wanted_sort = sys.argv[2] if len(sys.argv) > 2 else ""
folder = pathlib.Path(__file__).resolve().parent / "meanings"
REPEATED = re.compile(r"\{(\d+)\*((?:[^{}]|\{[^{}]*\})*)\}")


def lines_of(path):
    """The lines of a file that aren't about others, with their numbers."""
    lines = path.read_text().splitlines()
    return [(number, line) for number, line in enumerate(lines, 1) if not line.startswith("#")]


def written_out(text):
    return REPEATED.sub(lambda mark: mark[2] * int(mark[1]), text)


SCENE = [line for _, line in lines_of(folder / "scene")]


def settings(said=""):
    """What words are read with."""
    first, *others = said.split(";")
    return ";".join(others if first == "alone" else SCENE + [said])


def fits(told, wanted):
    """Whether this is told, whatever stands for `{..}`."""
    first, *others = wanted.split("{..}")
    if not others:
        return told == wanted
    if not told.startswith(first):
        return False
    told = told[len(first) :]
    for part in others[:-1]:
        _, found, told = told.partition(part)
        if not found:
            return False
    return told.endswith(others[-1])


def all_told(rows):
    """What the program prints of rows, a line for each."""
    with tempfile.NamedTemporaryFile("w") as file:
        file.write("".join(row + "\n" for row in rows))
        file.flush()
        done = subprocess.run([*calls, file.name], capture_output=True, check=True, timeout=300)
    return done.stdout.decode().split("\n")[:-1]


rows, places, answers = [], [], []
passed = failed = 0
for path in sorted(folder.glob("*.rows")):
    if wanted_sort not in ("", path.stem):
        continue
    for number, line in lines_of(path):
        words, *fields = line.split("\t")
        if len(fields) not in (1, 2):
            failed += 1
            print(f"meanings: {path.name}:{number}: no row")
            continue
        wanted, *said = fields
        rows.append(f"{path.stem}\t{settings(*said)}\t{written_out(words)}")
        places.append(f"{path.name}:{number}")
        answers.append(written_out(wanted))

told = all_told(rows)
assert len(told) == len(rows), f"meanings: {len(told)} answers for {len(rows)} rows"
for place, line, wanted in zip(places, told, answers):
    if fits(line, wanted):
        passed += 1
    else:
        failed += 1
        print(f"meanings: {place}: wanted {wanted[:500]}, got {line[:500]}")
print(f"meanings: {passed} passed, {failed} failed")
sys.exit(1 if failed or not passed else 0)
