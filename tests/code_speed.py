#!/usr/bin/env python3
"""Counts the machine's instructions that a body of a hundred phrases takes in a story of five hundred rooms, by callgrind, for each
byte of its code that is done: the body is done once and a hundred and one times, and what else the program does is left out.

Use: tests/code_speed.py PROGRAM    (the program of `i7story`; that of `calls` is built where it isn't yet; needs
valgrind; no part of the gate)"""
import re
import subprocess
import tempfile

from programs import calls_of

calls = calls_of("rules")
TIMES = 100
ROOMS = [f"Room {n} is a room." for n in range(1, 501)]
THINGS = ["The ball is a thing in Room 1.", "The box is an open container in Room 1.", "The score is a number that varies.", "A thing has a number called mass."]
# A hundred phrases of these sorts, none of which says anything.
BODIES = {
    "changes of properties": ["now the box is open", "now the ball is lit"],
    "changes of variables": ["now the score is the score plus 1 minus 1", "increase the score by 2", "decrease the score by 2"],
    "changes of numbers": ["now the mass of the ball is 7", "increase the mass of the ball by the mass of the box"],
    "choices": ["if the score is 0 and the box is open, now the box is open; otherwise now the ball is lit"],
    "moves": ["now the ball is in the box", "move the ball to Room 1"],
}


def written(phrases):
    """A rule of a hundred phrases, these again and again."""
    lines = [phrases[n % len(phrases)] for n in range(100)]
    return "Every turn:\n" + ";\n".join(f"\t{line}".replace("; ", ";\n\t") for line in lines) + ".\n"


def asked(*words, told):
    with tempfile.NamedTemporaryFile("w", newline="") as file:
        file.write(told)
        file.flush()
        return subprocess.run([*words, file.name], capture_output=True, text=True, check=True)


def codes_of(source, rule):
    """The codes of a rule as they are told."""
    return asked(*calls, "codes", told=f"{source}\n\n{rule}\x1e").stdout.strip()


def taken(source, codes, times):
    """The instructions of so many runs, and what they come to."""
    valgrind = ["valgrind", "--tool=callgrind", "--callgrind-out-file=/dev/null", *calls, "runs"]
    done = asked(*valgrind, told=f"{source}\n\x1fstring\n\x1f{times} {codes}")
    return int(re.search(r"Collected : (\d+)", done.stderr).group(1)), done.stdout.strip()


source = "\n".join(ROOMS + THINGS)
for name, phrases in BODIES.items():
    codes = codes_of(source, written(phrases))
    once, _ = taken(source, codes, 1)
    often, answer = taken(source, codes, TIMES + 1)
    size = len(codes.split()[0].partition(":")[2]) // 2
    print(f"{name}: {(often - once) / TIMES / size:.1f} instructions a byte, {size} bytes, {answer}")
