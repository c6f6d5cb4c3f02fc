#!/usr/bin/env python3
"""Counts how many rules are asked for an action, in stories of 10, 100 and 1,939 rules about taking a lamp that never apply. For taking a
ball none of these is asked, but the standard rules of taking alone: six that check, one that carries out and one that reports; for
taking the lamp each of them is besides.

Use: tests/asked_rules.py PROGRAM    (the program of `i7story`; that of `calls` is built where it isn't yet)"""
import pathlib
import subprocess
import sys
import tempfile

from programs import calls_of

compiler = pathlib.Path(sys.argv[1]).resolve()
STANDARD = 6 + 1 + 1
# the Hall is 13
SOURCE = "The Hall is a room. The ball is in the Hall. The lamp is in the Hall.\n"
RULE = '\nInstead of taking the lamp when the turn count is 0: say "Never."\n'

failed = 0
with tempfile.TemporaryDirectory() as name:
    scratch = pathlib.Path(name)
    (scratch / "rows").write_text("tests 2 14;tests 2 15\n")
    for count in (10, 100, 1939):
        (scratch / "source.i7").write_text(SOURCE + count * RULE)
        subprocess.run([compiler, "compile", scratch / "source.i7", scratch / "story"], check=True)
        done = subprocess.run([*calls_of("worlds"), scratch / "story", "--rows", scratch / "rows"], capture_output=True, check=True, timeout=300)
        if (told := done.stdout.decode().strip()) != (wanted := f"{STANDARD}; {STANDARD + count}"):
            failed += 1
            print(f"asked rules: {count} rules: {told}, wanted {wanted}")
print(f"asked rules: {3 - failed} passed, {failed} failed")
sys.exit(failed != 0)
