#!/usr/bin/env python3
"""Compares what the calls of a story's world answer with what is told by hand, by the rows of tests/worlds/*.rows.

Use: tests/worlds.py PROGRAM [FILE]    (the program of `i7story`; that of `calls` is built where it isn't yet)

A row is a line: calls, `; ` in between, made one after the other on a world as the story begins, each with what it answers behind
` = `; one behind which nothing stands is to be made. The calls have the names of the methods of `World`, `Ground` and
`GroundMut`, and the words of `tests/crates/calls/src/worlds/names.rs`; `row.rs` beside it says what `make`, `copy`, `other`,
`agree`, `mark` and `revert` are. The story of FILE is that of the source of its name beside it, or that of its name in
tests/story_files, or the furnished one, and a line that begins with `#` says what the rows below it are about."""
import pathlib
import subprocess
import sys
import tempfile

from programs import calls_of
from row_files import digits_of

compiler = pathlib.Path(sys.argv[1]).resolve()
wanted_file = sys.argv[2] if len(sys.argv) > 2 else ""
calls = calls_of("worlds")
folder = pathlib.Path(__file__).resolve().parent / "worlds"


def lines_of(path):
    """The rows of a file with their lines' numbers."""
    lines = path.read_text().splitlines()
    return [(number, line) for number, line in enumerate(lines, 1) if not line.startswith("#")]


def call_in(part):
    """A call and what it is to answer."""
    call, _, wanted = part.partition(" = ")
    return call, wanted or "made"


def story_of(path, scratch):
    """The story of a file, as `calls` is told it: that of a source, the bytes that are written there by hand, or the furnished
    one."""
    written, story = folder.parent / f"story_files/{path.stem}.hex", scratch / "story"
    if path.with_suffix(".i7").exists():
        subprocess.run([compiler, "compile", path.with_suffix(".i7"), story], check=True)
        return story
    if not written.exists():
        return "-"
    story.write_bytes(digits_of(written))
    return story


def all_told(path, rows):
    """What the program prints of the rows of a file, a line for each."""
    with tempfile.TemporaryDirectory() as name:
        scratch = pathlib.Path(name)
        (scratch / "rows").write_text("".join(row + "\n" for row in rows))
        words = [*calls, story_of(path, scratch), "--rows", scratch / "rows"]
        done = subprocess.run(words, capture_output=True, check=True, timeout=300)
    return done.stdout.decode().split("\n")[:-1]


passed = failed = 0
for path in sorted(folder.glob("*.rows")):
    if wanted_file not in ("", path.stem):
        continue
    lines = lines_of(path)
    rows = [[call_in(part) for part in line.split("; ")] for _, line in lines]
    found = all_told(path, [";".join(call for call, _ in row) for row in rows])
    for (number, _), row, line in zip(lines, rows, found, strict=True):
        wanted = "; ".join(answer for _, answer in row)
        passed += line == wanted
        if line != wanted:
            failed += 1
            print(f"worlds: {path.name}:{number}: wanted {wanted[:500]}, got {line[:500]}")
print(f"worlds: {passed} passed, {failed} failed")
sys.exit(1 if failed or not passed else 0)
