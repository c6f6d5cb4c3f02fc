#!/usr/bin/env python3
"""Compiles the source of each row of tests/refused_sources/*.rows (tests/row_files.py says how a row is written): it is refused as
its second field says, a line, a code and its name, or `taken`. The sources of tests/bodies are refused as is told there, or taken,
and those of stories/ are taken.

Use: tests/refused_sources.py PROGRAM"""
import json
import os
import pathlib
import subprocess
import sys
import tempfile

from row_files import report, rows_of

program = pathlib.Path(sys.argv[1]).resolve()
folder = pathlib.Path(__file__).resolve().parent / "refused_sources"
bodies = folder.parent / "bodies"


def answer(source):
    """What the program says of a source: the refusal, or that it is taken; a story is there exactly where it is."""
    pathlib.Path("s.i7").write_bytes(source)
    story = pathlib.Path("story")
    story.unlink(missing_ok=True)
    done = subprocess.run([program, "compile", "s.i7", "story"], capture_output=True, timeout=10)
    told = done.stdout + done.stderr
    if (done.returncode, told, story.exists()) == (0, b"", True):
        return b"taken"
    if done.returncode == 1 and told.startswith(b"s.i7:") and told.endswith(b"\n") and not story.exists():
        # the program tells `PATH:LINE: CODE NAME`
        return told.removeprefix(b"s.i7:").removesuffix(b"\n")
    return b"status %d: %s" % (done.returncode, told)


def told_of_bodies():
    """The sources of tests/bodies, each with its place and the refusal that is told there, if one is."""
    for case in json.loads((bodies / "phrases.json").read_text()):
        refusal = case.get("refusal")
        yield case["name"], case["source"].encode(), refusal and b"%d: %s %s" % (refusal["line"], refusal["code"].encode(), refusal["name"].encode())
    for place, (source, told) in rows_of(bodies / "rules.rows"):
        yield place, source, told.removeprefix(b"refused\t") if told.startswith(b"refused\t") else None


def answers():
    for path in sorted(folder.glob("*.rows")):
        for place, (source, wanted) in rows_of(path):
            yield place, answer(source), wanted
    for place, source, refusal in told_of_bodies():
        yield place, answer(source), refusal or b"taken"
    for path in sorted((folder.parents[1] / "stories").glob("*.i7")):
        yield path.name, answer(path.read_bytes()), b"taken"


with tempfile.TemporaryDirectory() as scratch:
    os.chdir(scratch)
    report("refused sources", answers())
