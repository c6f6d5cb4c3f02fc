#!/usr/bin/env python3
"""Compiles rules of the greatest length, whose names are all known, one after the other: each comes to what is told here, within a second.

Use: tests/long_rules.py PROGRAM    (the program of `i7story`)"""
import os
import subprocess
import sys

from row_files import report

LONGEST = 262144
# A program that is built without proofs is slower.
SECONDS = int(os.environ.get("I7STORY_SECONDS", 1))
PLAIN = "The Hall is a room. The box is an open container in the Hall. The score is a number that varies."
# More than eight `from`s within one another, or more than 65,535 bytes of code.
TOO_MANY = "-:3: C12 TooMany"
# A rule's front, what stands in it again and again, its end, and what it comes to.
RULES = {
    "conditions": ("Every turn when the box is open", " and the box is open", ', say "a".', TOO_MANY),
    "alternatives": ("Every turn when the box is open", " or the box is open", ', say "a".', TOO_MANY),
    "sum": ("Every turn, now the score is 1", " plus 1", ".", TOO_MANY),
    "rooms": ("Every turn, move the box to the room", " north from the room", " north from the Hall.", TOO_MANY),
    "phrases": ("Every turn:", "\n\tnow the box is open;", "\n\trule fails.", TOO_MANY),
    "inline ifs": ("Every turn:", "\n\tif the box is open, now the box is open; otherwise rule fails;", "\n\trule fails.", TOO_MANY),
    "substitutions": ('Every turn, say "', "[the score]", '".', TOO_MANY),
    "ifs of a text": ('Every turn, say "', "[if the box is open]a[end if]", '".', TOO_MANY),
    "adjectives of a noun": ("Instead of taking", " not open", " containers, rule fails.", TOO_MANY),
    "adjectives of a place": ("Every turn in", " dark", " rooms, rule fails.", TOO_MANY),
    # `is not not not` has no reading
    "denials": ("Every turn when the box is", " not", ' open, say "a".', "-:3: C7 UnknownName"),
}
BLOCKS = "".join("\t" * deep + "if the box is open:\n" for deep in range(1, 690)) + "\t" * 690 + "rule fails."


def long_rule(front, again, end):
    """A rule with which the source has nearly the greatest length."""
    left = LONGEST - len(PLAIN + front + end) - 2
    return front + again * (left // len(again)) + end


def answer(rule):
    """What the program says of the rule."""
    try:
        words = [sys.argv[1], "compile", "-", "/dev/null"]
        done = subprocess.run(words, input=f"{PLAIN}\n\n{rule}", capture_output=True, text=True, timeout=SECONDS)
    except subprocess.TimeoutExpired:
        return "more than a second"
    return done.stderr.removesuffix("\n") if done.returncode else "compiled"


answers = [(name, answer(long_rule(*rule)), wanted) for name, (*rule, wanted) in RULES.items()]
answers.append(("blocks", answer("Every turn:\n" + BLOCKS), "compiled"))
report("long rules", answers)
