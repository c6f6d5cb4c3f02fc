#!/usr/bin/env python3
"""Does the body of each case of tests/bodies/phrases.json once, in the world of its story, and compares what it says and comes to; or
why it is refused, as of the sources of tests/bodies/rules.rows (tests/row_files.py says how rows are written). The story of each
source that is taken says what a plain reader of stories says: its tables 8 to 12 are those of the source (tests/rule_sources.py),
its codes are sound, and the program plays it: it begins, and answers `look`, as the reader says. So does that of a sample with
rules of all heads, of one whose rules are listed, and of two with actions and commands of their own.

Use: tests/bodies.py PROGRAM [NAME..]    (the program of `i7story`; that of `calls` is built where it isn't yet)
NAME: only cases whose name begins so

A case is a source with its name and what it is about. Of a body `text` is what it says, `result` how it leaves off, `ends` the
text with which the story ended, or null, and `stops` null or the code with which play breaks off; of a refused source `refusal`
is its code, the code's name and its line."""
import json
import pathlib
import re
import subprocess
import sys
import tempfile

from plain_stories import NONE16, opening_and_look, rules_told, tables
from programs import calls_of
from row_files import report, rows_of
from rule_sources import tables_of

program = pathlib.Path(sys.argv[1]).resolve()
calls = calls_of("rules")
wanted = tuple(sys.argv[2:]) or ("",)
folder = pathlib.Path(__file__).resolve().parent / "bodies"
samples = [folder.parents[1] / "stories" / name for name in ["night-watch.i7", "museum.i7", "weigh-house.i7", "apiary.i7"]]

RESULTS = {"done": "Done", "no decision": "NoDecision", "success": "Success", "failure": "Failure"}


def answer_of(case):
    """What `calls` is to print of a case."""
    refusal = case.get("refusal")
    if refusal:
        return f"refused\t{refusal['line']}: {refusal['code']} {refusal['name']}"
    if case["stops"]:
        return "stopped\t" + {"N3": "N3 TooMuchWork", "N4": "N4 NumberOutOfRange"}[case["stops"]]
    ends = "None" if case["ends"] is None else f"Some({list(case['ends'].encode())})"
    return f"did\t{RESULTS[case['result']]}\t{ends}\t{list(case['text'].encode())}"


def readable(line):
    """A line of `calls` with its bytes as text."""
    return re.sub(r"\[[\d, ]*\]", lambda found: repr(bytes(json.loads(found[0])).decode("latin-1")), line)


def told(sources):
    """What `calls` prints of sources, a line for each."""
    assert not any("\x1e" in source for source in sources)
    with tempfile.NamedTemporaryFile("w", newline="") as scratch:
        scratch.write("".join(source + "\x1e" for source in sources))
        scratch.flush()
        done = subprocess.run([*calls, "bodies", scratch.name], capture_output=True, check=True, timeout=300)
    return done.stdout.decode().split("\n")[:-1]


def wanted_cases():
    """The sources, each with its name and what `calls` is to print of it."""
    for case in json.loads((folder / "phrases.json").read_text()):
        yield case["name"], case["source"], answer_of(case)
    for place, (source, answer) in rows_of(folder / "rules.rows"):
        yield place, source.decode(), answer.decode()


def played(scratch, source):
    """Whether the story of a source has the tables that it must have, and what it says at first and to `look`, with what a plain
    reader says, as far as that tells what rules do."""
    path, story = scratch / "s.i7", scratch / "story"
    path.write_bytes(source.encode())
    subprocess.run([program, "compile", path, story], check=True, timeout=10)
    data = story.read_bytes()
    t = tables(data)
    objects = [t["strings"][o["name"]].decode().lower() for o in t["objects"]]
    asked = tables_of(source, sum(o["code"] != NONE16 for o in t["objects"]), objects)
    done = subprocess.run([program, "play", story], input=b"look\n", capture_output=True, timeout=10)
    front = b"".join(part + b"\n>" for part in opening_and_look(data) if part is not None)
    found = done.stdout if len(done.stdout) < len(front) else done.stdout[: len(front)]
    return (rules_told(t), done.returncode, found, done.stderr), (asked, 0, front, b"")


def answers():
    cases = [case for case in wanted_cases() if case[0].startswith(wanted)]
    for line, (name, _, answer) in zip(told([source for _, source, _ in cases]), cases, strict=True):
        yield name, readable(line), readable(answer)
    taken = [(name, source) for name, source, answer in cases if not answer.startswith("refused")]
    with tempfile.TemporaryDirectory() as scratch:
        for name, source in [*taken, *((sample.name, sample.read_text()) for sample in samples)]:
            found, asked = played(pathlib.Path(scratch), source)
            yield f"{name}, its story", str(found), str(asked)


report("bodies", answers())
