#!/usr/bin/env python3
"""Plays the sources of tests/plays/*.json, once as a source and once as a compiled story: each gives its transcript.

Use: tests/plays.py PROGRAM [NAME]    NAME: only cases whose name begins so

A case is an object of a JSON list: its name, what it is about, its source, the typed lines, the transcript with the
commands echoed, and how the session ends."""
import json
import os
import pathlib
import subprocess
import sys
import tempfile

program = str(pathlib.Path(sys.argv[1]).resolve())
wanted = sys.argv[2] if len(sys.argv) > 2 else ""
folder = pathlib.Path(__file__).resolve().parent / "plays"


def fault_of(case, how, path):
    """What is wrong with how the program plays a file, or None."""
    done = subprocess.run(
        [program, how, path, "--transcript"], input=case["commands"].encode(), capture_output=True, timeout=10
    )
    if done.returncode != 0 or done.stderr:
        return f"{how}: status {done.returncode} {done.stderr.decode(errors='replace').strip()}"
    told = done.stdout.decode(errors="replace")
    return None if told == case["transcript"] else f"{how}: wanted {case['transcript']!r}, got {told!r}"


def fault_of_both(case):
    """What is wrong with the play of a source, or of the story that it is compiled to."""
    pathlib.Path("s.i7").write_text(case["source"])
    fault = fault_of(case, "run", "s.i7")
    if fault is None:
        subprocess.run([program, "compile", "s.i7", "story"], check=True, timeout=10)
        fault = fault_of(case, "play", "story")
    return fault


passed = failed = 0
with tempfile.TemporaryDirectory() as scratch:
    os.chdir(scratch)
    for file in sorted(folder.glob("*.json")):
        for case in json.loads(file.read_text()):
            if not case["name"].startswith(wanted):
                continue
            fault = fault_of_both(case)
            if fault is None:
                passed += 1
            else:
                failed += 1
                print(f"plays: {file.name}: {case['name']}: {fault}")
print(f"plays: {passed} passed, {failed} failed")
sys.exit(1 if failed or not passed else 0)
