#!/usr/bin/env python3
"""Plays sessions of many turns: their memory is flat, since the changes in front of the eight turns that can be taken back are let go of, and
these eight are taken back as ever.

Use: tests/long_sessions.py PROGRAM"""
import pathlib
import re
import subprocess
import sys
import tempfile

from row_files import report

program, SOURCE = sys.argv[1], pathlib.Path(__file__).resolve().parents[1] / "stories" / "pantry.i7"
# Kilobytes that a session of many turns may hold beyond one of a few.
MOST = 4096
FEW, MANY = 40_000, 400_000
# Eight turns are taken back, and no ninth.
UNDONE = b"Previous turn undone.\n\n>" * 8 + b"You can't undo any further.\n\n>"


def session(turns):
    """The end of what is written where a thing is taken and dropped again and again and nine turns are taken back, and the most kilobytes
    that were held before these."""
    with tempfile.TemporaryFile() as said:
        with subprocess.Popen([program, "run", SOURCE], stdin=subprocess.PIPE, stdout=said) as played:
            played.stdin.write(b"take lantern\ndrop lantern\n" * (turns // 2))
            held = int(re.search(r"VmHWM:\s+(\d+) kB", pathlib.Path(f"/proc/{played.pid}/status").read_text())[1])
            played.stdin.write(b"undo\n" * 9)
        said.seek(-len(UNDONE), 2)
        return said.read(), held


def answers():
    (few, held), (many, most) = session(FEW), session(MANY)
    yield "a session", few, UNDONE
    yield "a long session", many, UNDONE
    yield "its memory", b"flat" if most - held <= MOST else f"{held} and {most} KB".encode(), b"flat"


report("long sessions", answers())
