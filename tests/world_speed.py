#!/usr/bin/env python3
"""Counts the machine's instructions that calls of a story's world take, by callgrind: `visible` of one thing, in rooms and in
stories of several sizes, of a door, and of a thing deep in others; the list of all that is visible; a copy. What a call that does
nothing takes is left out.

Use: tests/world_speed.py PROGRAM    (the program of `i7story`; that of `calls` is built where it isn't yet; needs
valgrind; no part of the gate)"""
import os
import pathlib
import re
import subprocess
import sys
import tempfile

from programs import calls_of

i7story = pathlib.Path(sys.argv[1]).resolve()
calls = calls_of("worlds")
TIMES = 100


def story_of(things_elsewhere, things_here, last, hall="room"):
    """A source of so many things that are nowhere, a room with so many, and behind them what is seen last."""
    lines = [f"Stone {n} is a thing." for n in range(1, things_elsewhere + 1)]
    lines += [f"The Hall is a {hall}."] + [f"Thing {n} is in the Hall." for n in range(1, things_here + 1)]
    return "\n".join(lines + last) + "\n"


def deep(steps):
    """Boxes in each other, the outermost in the Hall, each open, and a ball in the innermost."""
    lines = ["Box 1 is an open container in the Hall."]
    lines += [f"Box {n} is an open container in box {n - 1}." for n in range(2, steps)]
    return lines + [f"The ball is in box {steps - 1}."]


def instructions(story, word):
    done = subprocess.run(
        ["valgrind", "--tool=callgrind", "--callgrind-out-file=/dev/null", *calls, story, *[word] * TIMES],
        capture_output=True,
    )
    assert done.returncode == 0, done.stderr.decode()
    return int(re.search(rb"Collected : (\d+)", done.stderr).group(1)), done.stdout.decode().splitlines()[0]


def call_takes(source, word):
    """The instructions of a call, and what it answers."""
    pathlib.Path("s.i7").write_text(source)
    subprocess.run([i7story, "compile", "s.i7", "story"], check=True)
    idle, _ = instructions("story", "idle")
    many, answer = instructions("story", word)
    return (many - idle) // TIMES, answer


BALL = ["The ball is in the Hall."]
GATE = ["The Yard is a room.", "The gate is a door.", "The gate is north of the Hall and south of the Yard."]
ROWS = [
    ("visible, 10 things here", story_of(0, 10, BALL), "see"),
    ("visible, 10 here, 900 elsewhere", story_of(900, 10, BALL), "see"),
    ("visible, 200 here", story_of(0, 200, BALL), "see"),
    ("visible, 10 here in the dark", story_of(0, 10, BALL, "dark room"), "see"),
    ("visible, 200 here in the dark", story_of(0, 200, BALL, "dark room"), "see"),
    ("... and 700 elsewhere", story_of(700, 200, BALL, "dark room"), "see"),
    ("visible, 10 deep", story_of(0, 10, deep(10)), "see"),
    ("visible, 100 deep", story_of(0, 10, deep(100)), "see"),
    ("visible, a door", story_of(0, 10, GATE), "see"),
    ("visible, a door, 900 elsewhere", story_of(900, 10, GATE), "see"),
    ("list, 100 here", story_of(0, 100, BALL), "list"),
    ("list, 200 here", story_of(0, 200, BALL), "list"),
    ("list, 400 here", story_of(0, 400, BALL), "list"),
    ("list, 200 here in the dark", story_of(0, 200, BALL, "dark room"), "list"),
    ("list, 400 here in the dark", story_of(0, 400, BALL, "dark room"), "list"),
    ("copy, 1,000 objects", story_of(785, 200, BALL), "copy"),
]
with tempfile.TemporaryDirectory() as scratch:
    os.chdir(scratch)
    for name, source, word in ROWS:
        taken, answer = call_takes(source, word)
        print(f"{name:34} {taken:8}   ({answer})")
