#!/usr/bin/env python3
"""Makes each call of the object tree and of a story's world that takes memory, with each of its allocations refused in turn.
Each run must end in one of three ways: with status 4 and no answer, where there was no memory for the story; with status 0 and
the answers of the plain run but for one call, which answers that it was refused and is made where it is made again; or with
those of the plain run, where a table that grows did with less. A call that changes a world is made on a copy, and answers that it
was refused only where the world behind it is as it was; `revert` makes a change of each sort and turns the copy back.

The story is the furnished one, and for scenes, values, an index and the table of stored rules that of tests/worlds/scenes.i7.

Use: tests/refused_calls.py PROGRAM    (the program of `i7story`; that of `calls` is built where it isn't yet)"""
import os
import pathlib
import subprocess
import sys
import tempfile

from programs import calls_of

here = pathlib.Path(__file__).resolve().parent
calls = calls_of("worlds")
# The descriptor to which the shim writes the number of allocations.
COUNT = 9


class Calls:
    """Calls of one story: what the plain run answers, and how many allocations each takes at least."""

    def __init__(self, story, least, answers=()):
        # each call twice: the second time has all memory, so that what a refused call leaves is seen
        made = [word for word in least for _ in range(2)]
        self.story, self.least = story, least
        self.words = made + [word for word, _ in answers]
        self.plain = [f"{word}: made" for word in made] + [f"{word}: {answer}" for word, answer in answers]

    def run(self, shim, refused):
        """Status, lines of the answer and number of allocations, where this one is refused (0: none)."""
        os.ftruncate(COUNT, 0)
        os.lseek(COUNT, 0, os.SEEK_SET)
        done = subprocess.run(
            [*calls, self.story, *self.words],
            env={**os.environ, "LD_PRELOAD": shim, "REFUSE": str(refused)},
            capture_output=True,
            pass_fds=[COUNT],
        )
        os.lseek(COUNT, 0, os.SEEK_SET)
        return done.returncode, done.stdout.decode().splitlines(), int(os.read(COUNT, 100) or 0)

    def refused_at(self, lines):
        """The place of the one call that was refused, if all else is as in the plain run."""
        for place, line in enumerate(self.plain):
            word = line.split(":")[0]
            if lines == self.plain[:place] + [f"{word}: refused"] + self.plain[place + 1 :]:
                return place
        return None

    def tried(self, shim):
        """How many allocations were refused, what was wrong, and how many of each call."""
        status, lines, count = self.run(shim, 0)
        if (status, lines) != (0, self.plain):
            return count, [f"the plain run: {status} {lines}"], []
        wrong, refusals = [], []
        for number in range(1, count + 1):
            status, lines, _ = self.run(shim, number)
            place = self.refused_at(lines)
            if place is not None and status == 0:
                refusals.append(place)
            elif not (status == 4 and not lines and not refusals) and not (status == 0 and lines == self.plain):
                wrong.append(f"allocation {number}: status {status}: {lines}")
        if refusals != sorted(refusals):
            wrong.append("the calls were refused out of order")
        for place, word in enumerate(self.words):
            if refusals.count(place) < self.least.get(word, 0):
                wrong.append(f"{word}: only {refusals.count(place)} allocations were refused")
        return count, wrong, [refusals.count(place) for place in range(len(self.words))]


# The tables that a call makes, each with its own allocation: of a tree the places and two sorts of links; of a world these,
# properties, numbers and variables; and of a copy that is changed, its log. An ending has its text besides, and six changes make a
# log grow more than once.
FURNISHED = {
    "tree": 3, "start": 6, "copy": 6, "set_flag": 7, "set_number": 7, "set_variable": 7, "put": 7, "take_out": 7, "end_story": 8, "next_turn": 7,
    "revert": 9,
}
# Of a world with scenes and values but neither numbers nor variables: a tree, properties, values and scenes. An index and the table of stored
# rules ask for memory at all; a rule that is added to a table asks for it twice, for its function and for its place.
OTHERS = {"start": 6, "set_scene": 7, "set_value": 7, "index": 1, "hosts": 1, "add": 2}


def main():
    compiler = pathlib.Path(sys.argv[1]).resolve()
    with tempfile.TemporaryDirectory() as scratch:
        os.dup2(os.open(f"{scratch}/count", os.O_RDWR | os.O_CREAT), COUNT)
        shim, story = f"{scratch}/refuse.so", f"{scratch}/story"
        subprocess.run(["cc", "-shared", "-fPIC", "-O1", "-o", shim, str(here / "refuse.c"), "-ldl"], check=True)
        subprocess.run([compiler, "compile", here / "worlds" / "scenes.i7", story], check=True)
        passed = failed = 0
        for each in (Calls("-", FURNISHED, [("see", 1), ("list", 19)]), Calls(story, OTHERS)):
            count, wrong, refusals = each.tried(shim)
            for why in wrong:
                print(f"refused calls: {why}")
            print(f"refused calls: {refusals}")
            passed, failed = passed + count - len(wrong), failed + len(wrong)
    print(f"refused calls: {passed} passed, {failed} failed")
    return 1 if failed else 0


sys.exit(main())
