#!/usr/bin/env python3
"""Compiles the sources of tests/cases/*.json: each is refused with its code at its line, or accepted with its story's bytes, or it is
played, and gives its transcript.

Use: tests/cases.py PROGRAM [NAME]    NAME: only cases whose name begins so

A case is an object of a JSON list: its name, what it is about, its source (source_hex where it is no UTF-8), and its refusal or null
and its story in hex or null, or else the typed lines and the transcript with these echoed. In a story the counts of tables 8 to 12
are 0: what must stand there instead, the actions, lines, books and scenes, is told by a plain reading of the source's sentences
(tests/rule_sources.py), and the words of the lines stand among its strings."""
import json
import os
import pathlib
import subprocess
import sys
import tempfile

from rule_sources import tables_of
from written_stories import unnumbered, written

program = str(pathlib.Path(sys.argv[1]).resolve())
wanted = sys.argv[2] if len(sys.argv) > 2 else ""
folder = pathlib.Path(__file__).resolve().parent / "cases"


def story_of(case, source):
    """The story of a case, its rule tables filled."""
    story = unnumbered(bytes.fromhex(case["story"]))
    filled = tables_of(source.decode(errors="replace"), 0)
    assert not any(story[name] for name in filled), case["name"]
    return written({**story, **filled})


def fault_of_play(case):
    """What is wrong with how the source of a case is played, or None."""
    done = subprocess.run([program, "run", "s.i7", "--transcript"], input=case["commands"].encode(), capture_output=True, timeout=10)
    if done.returncode != 0 or done.stderr:
        return f"status {done.returncode} {done.stderr.decode(errors='replace').strip()}"
    told = done.stdout.decode(errors="replace")
    return None if told == case["transcript"] else f"wanted {case['transcript']!r}, got {told!r}"


def fault_of(case):
    """What is wrong with the program's answer to a case, or None."""
    source = bytes.fromhex(case["source_hex"]) if case["source"] is None else case["source"].encode()
    pathlib.Path("s.i7").write_bytes(source)
    if "transcript" in case:
        return fault_of_play(case)
    story = pathlib.Path("story")
    story.unlink(missing_ok=True)
    done = subprocess.run([program, "compile", "s.i7", "story"], capture_output=True, timeout=10)
    told = done.stderr.decode(errors="replace").strip()
    refusal = case["refusal"]
    if refusal is None:
        if done.returncode != 0:
            return f"refused: {told}"
        return None if story.read_bytes() == story_of(case, source) else "another story"
    want = f"s.i7:{refusal['line']}: {refusal['code']} {refusal['name']}"
    if done.returncode == 1 and told == want and not story.exists():
        return None
    return f"wanted {want}, got {done.returncode} {told}"


passed = failed = 0
with tempfile.TemporaryDirectory() as scratch:
    os.chdir(scratch)
    for file in sorted(folder.glob("*.json")):
        for case in json.loads(file.read_text()):
            if not case["name"].startswith(wanted):
                continue
            fault = fault_of(case)
            if fault is None:
                passed += 1
            else:
                failed += 1
                print(f"cases: {file.name}: {case['name']}: {fault}")
print(f"cases: {passed} passed, {failed} failed")
sys.exit(1 if failed or not passed else 0)
