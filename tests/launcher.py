#!/usr/bin/env python3
"""`./i7story` plays with the program of the sources as they stand, says in one line which that is, and hands on words, commands and status;
the help of each form says what it does, with an example.

Use: tests/launcher.py PROGRAM    (which of the two it is, is told by what is built of the sources)"""
import pathlib
import subprocess
import sys

top = pathlib.Path(__file__).resolve().parents[1]
sys.path.insert(0, str(top / "tools"))
import kit
from row_files import report

PROVED, BUILT = b"i7story: proved\n", b"i7story: built, not yet proved here: ./i7story prove\n"
PLAYED = b"Hall\nA bare hall.\n\n>n\nGarden\n\n>"
WANTED = PROVED if kit.is_of(kit.proved("i7story"), kit.sources("i7story")) else BUILT


def ran(*words, given=b""):
    done = subprocess.run([top / "i7story", *words], input=given, capture_output=True, timeout=600, cwd="/")
    return done.returncode, done.stdout, done.stderr


def helped(*words):
    """Whether a form's help says what it does and shows an example."""
    status, out, err = ran(*words, "--help")
    return status == 5 and out == b"" and err.startswith(WANTED) and b"Usage: i7story" in err and b"Example: i7story" in err


def answers():
    yield "a play", repr(ran("run", top / "stories/two-rooms.i7", "--transcript", given=b"n\n")).encode(), repr((0, PLAYED, WANTED)).encode()
    status, _, err = ran("run", "none.i7")
    yield "a source that isn't there", repr((status, err)).encode(), repr((3, WANTED + b"none.i7: cannot be read\n")).encode()
    for form in ((), ("compile",), ("play",), ("rules",), ("run",), ("test",)):
        yield f"the help of {form}", str(helped(*form)).encode(), b"True"
    said = subprocess.run([top / "tools/fmt", "--check"], capture_output=True).stdout
    yield "crates of tests that aren't laid out", said, b""
    said = subprocess.run([top / "tools/crate", "world_meaning"], capture_output=True, text=True).stdout
    yield "what is told of a crate", str("stands on: none" in said and "i7story" in said).encode(), b"True"


report("launcher", answers())
