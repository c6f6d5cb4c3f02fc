#!/usr/bin/env python3
"""Runs the tests of tests/crates/unit_tests, each in a process of its own: they call the libraries as they are built without proofs.

Use: tests/unit_tests.py [PROGRAM]    (the program of `i7story` isn't run)"""
import pathlib
import re
import sys

from programs import built

sys.path.insert(0, str(pathlib.Path(__file__).resolve().parents[1] / "tools"))
import kit

status, said, _, _ = kit.ran([kit.home() / "bin" / "rattle-test", built("unit_tests")])
counts = re.search(r"(?m)^test result: \w+\. (\d+) passed; (\d+) failed", said)
well = status == 0 and counts and int(counts[1]) and not int(counts[2])
print(f"unit tests: {counts[1]} passed, 0 failed" if well else said)
sys.exit(0 if well else 1)
