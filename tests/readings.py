#!/usr/bin/env python3
"""Compares what sources and texts are read as with what is told by hand, by the rows of tests/readings/*.rows: what is read, and what
it is read as (tests/row_files.py says how rows are written).

Use: tests/readings.py PROGRAM [FILE]    FILE: `tokens`, `rules` .. (the program of `i7story`;
that of `calls` is built where it isn't yet)"""
import pathlib
import subprocess
import sys
import tempfile

from programs import calls_of
from row_files import report, rows_of

calls = calls_of("readings")
wanted_file = sys.argv[2] if len(sys.argv) > 2 else ""
folder = pathlib.Path(__file__).resolve().parent / "readings"
# Of each file the form of the program that is asked, where the words of a row stand in the source, and what stands around what
# is wanted.
ALONE = (b"", b"")
SECOND = (b"A rule rule:\n\t", b".")
THIRD = (b'Every turn:\n\tsay "a";\n\t', b"")
FILES = {
    "tokens": ("tokens", ALONE, b""),
    "sentences": ("sentences", ALONE, b""),
    "values": ("sentences", ALONE, b""),
    "texts": ("pieces", ALONE, b""),
    "bodies": ("phrases", ALONE, b""),
    "rules": ("rules", ALONE, b""),
    "phrases": ("rules", SECOND, b"<rule> 2/0 "),
    "unread_phrases": ("rules", THIRD, b""),
    "refused_bodies": ("rules", THIRD, b""),
}


def all_told(form, sources):
    """What the program prints of sources."""
    with tempfile.NamedTemporaryFile("w") as file:
        file.write("".join(source.hex() + "\n" for source in sources))
        file.flush()
        done = subprocess.run([*calls, form, file.name], capture_output=True, check=True, timeout=300)
    return [bytes.fromhex(line) for line in done.stdout.decode().split("\n")[:-1]]


def answers_of(file):
    """The answers to the rows of a file."""
    form, (front, end), before = FILES[file]
    rows = list(rows_of(folder / f"{file}.rows"))
    sources = [front + said + end for _, (said, _) in rows]
    for (place, (_, wanted)), told in zip(rows, all_told(form, sources), strict=True):
        yield place, told, before + wanted
    if file == "refused_bodies":
        yield from verdicts(rows, sources)


def verdicts(rows, sources):
    """The answers of the form that tells of bodies, which ends with the code and the line."""
    for (place, (_, wanted)), told in zip(rows, all_told("phrases", sources), strict=True):
        line, code, _ = wanted.split()
        yield f"{place}, the body", b" ".join(told.split()[-2:]), code + b" " + line.rstrip(b":")


def deep_lines(count):
    """A source each of whose lines is a mark and a word, one tab deeper than the line before, and its tokens."""
    source = "\n".join("\t" * indent + "+x: " for indent in range(count))
    tokens = "".join(f"L{indent} {indent + 1}:+|{indent + 1}:x|{indent + 1}::|" for indent in range(1, count))
    return source.encode(), b"P1:+|1:x|1::|" + tokens.encode()


def answers():
    for file in sorted(path.stem for path in folder.glob("*.rows")):
        if wanted_file in ("", file):
            yield from answers_of(file)
    if wanted_file in ("", "tokens"):
        source, wanted = deep_lines(260)
        (told,) = all_told("tokens", [source])
        yield "260 lines, each deeper", told, wanted


report("readings", answers())
