#!/usr/bin/env python3
"""Runs 10,000 bodies, made at random or from sound ones by a change, in the world of a small story, with tests and a description
made so too. What is run is what a plain checker finds sound; each run comes to an end or breaks off (N3, N4).

Use: tests/code_runs.py PROGRAM    (the program of `i7story`; that of `calls` is built where it isn't yet)"""
import collections
import random
import struct
import subprocess
import sys
import tempfile

from plain_codes import ANSWER, BEGIN, BODY, DESCRIBING, JUMP, NEXT, TEST, Maker, changed, cut, inside, is_sound, loops_of
from programs import calls_of

calls = calls_of("rules")
HOW_MANY = 10_000
DEEPEST = 9
DONE = 0x37
GREATEST = 2_147_483_647
# A test that every object passes: the player is the player.
ALWAYS = bytes([0x0E, 0x0E, 0x08, ANSWER])
SOURCE = """The Hall is a room. "A plain hall." The Cellar is a dark room. The Cellar is below the Hall.
The box is an open container in the Hall. The description of the box is "A box.". The lamp is a lit thing in the box. The desk is a supporter in the Hall.
The cup is on the desk. Bob is a man in the Cellar. The gate is a door. The gate is north of the Hall and south of the Yard.
The Yard is a room. A thing can be red. The cup is red. A thing has a number called mass. The mass of the cup is 7.
The score is a number that varies. The depth is a number that varies. The depth is 5.
"""
STRINGS = ["One. ", "Two! ", "three", " "]
# What the source has, its nine objects behind the player and the directions, and what every story has.
SIZES = {
    "objects": 13 + 9, "kinds": 100, "flags": 11 + 1, "numbers": 1, "variables": 2, "scenes": 0, "strings": len(STRINGS),
    "codes": DEEPEST + 2, "actions": 16, "books": 8, "values": [],
}


class Nested(Maker):
    """Names of the tests that which stands inside as many loops as the test wants: its number is theirs."""

    def argument(self, letter, depth):
        if letter == "C":
            return (depth + 1).to_bytes(2, "big")
        if letter == "i" and self.chance.randrange(6) == 0:
            return GREATEST.to_bytes(4, "big")
        return super().argument(letter, depth)

    def loops(self, place, depth, left):
        """So many loops in one another, around phrases that stand at a place."""
        if not left:
            return self.phrases(place, depth, 4)
        turn = self.loops(place + 8, depth + 1, left - 1)
        head = bytes([BEGIN, depth, NEXT, depth]) + self.argument("C", depth)
        return head + struct.pack(">H", place + 11 + len(turn)) + turn + struct.pack(">BH", JUMP, place + 2)


def sizes_of(number):
    return {**SIZES, "own": number}


def sound_code(chance, role, around, number):
    """A code of this number that is sound."""
    while True:
        code = Nested(chance, role, around, sizes_of(number)).code()
        if is_sound(code, role, around, sizes_of(number)):
            return code


def names_what_is_there(code):
    """Whether each test that a sound body names stands inside as many loops as it wants."""
    found = cut(code)
    loops = loops_of(found)
    return all(a["C"] == len(inside(loops, place)) + (byte != NEXT) for place, byte, a, _ in found if "C" in a)


def drawn(chance):
    """A body, sound or changed, one of twenty with loops that may turn more often than a body may."""
    maker = Nested(chance, BODY, 0, sizes_of(0))
    code = maker.code() if chance.randrange(20) else maker.loops(0, 0, 4) + bytes([DONE])
    return changed(chance, code) if chance.randrange(2) else code


def told(role, code):
    return f"{role}:{code.hex()}"


def line_of(chance, body):
    """A run of the body twice, with tests and a description; in one of three every test passes."""
    test = (lambda loops: sound_code(chance, TEST, loops, loops)) if chance.randrange(3) else lambda loops: ALWAYS
    tests = [told(f"t{loops}", test(loops)) for loops in range(1, DEEPEST + 1)]
    return " ".join([f"2/{DEEPEST + 1}", told("b", body), *tests, told("d", sound_code(chance, DESCRIBING, 0, DEEPEST + 1))])


def is_expected(answer, body):
    """Whether a run of this body may come to that."""
    if not is_sound(body, BODY, 0, sizes_of(0)):
        return answer == "unplayed\ta code isn't sound"
    if not names_what_is_there(body):
        return answer == "unplayed\tthe codes aren't sound together"
    return answer in ENDS


ENDS = ["did\tDone", "did\tNoDecision", "did\tSuccess", "did\tFailure", "stopped\tN3 TooMuchWork", "stopped\tN4 NumberOutOfRange"]

chance = random.Random(20261125)
bodies = [drawn(chance) for _ in range(HOW_MANY)]
with tempfile.NamedTemporaryFile("w", newline="") as file:
    lines = [line_of(chance, body) for body in bodies]
    file.write("\x1f".join([SOURCE, "\n".join(STRINGS), "\n".join(lines)]))
    file.flush()
    done = subprocess.run([*calls, "runs", file.name], capture_output=True, check=True, timeout=600)
answers = done.stdout.decode().splitlines()
assert len(answers) == len(bodies), f"code_runs: {len(answers)} answers for {len(bodies)} bodies"
failed = [(answer, body) for answer, body in zip(answers, bodies) if not is_expected(answer, body)]
for answer, body in failed[:5]:
    print(f"code_runs: {answer} told of {body.hex()}")
came_to = collections.Counter(answers)
assert all(came_to[end] > 10 for end in ENDS), f"code_runs: some end is hardly tried: {came_to}"
print(f"code_runs: {len(bodies) - len(failed)} passed, {len(failed)} failed ({sum(came_to[end] for end in ENDS)} run)")
sys.exit(bool(failed))
