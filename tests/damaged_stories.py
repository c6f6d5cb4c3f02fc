#!/usr/bin/env python3
"""Damaged story files: each cut, each flipped bit and many random changes of a story are judged by a plain reader of the format
(tests/plain_stories.py), and the program must say the same: the fault, or what the story tells at first, as far as its rules of
looking tell it; of a story with other rules there, that it plays. Of many more, among them
each cut and each flipped bit of a story with rules, books and scenes, of one with kinds of value and of the stories of some sources
of tests/bodies, the
program of `calls` must say it, and tell the same to `look`.

Use: tests/damaged_stories.py PROGRAM    (the program of `i7story`; that of `calls` is built where it isn't yet)"""
import json
import pathlib
import random
import subprocess
import sys
import tempfile

from plain_stories import SOMETHING, Fault, opening_and_look
from programs import calls_of
from written_stories import crowded, furnished, ruled, unnumbered, valued, written

program = pathlib.Path(sys.argv[1]).resolve()
calls = calls_of("stories")
folder = pathlib.Path(__file__).resolve().parent
source = folder / "rows/two_rooms/source.i7"
# Every so many of the sources of tests/bodies, and one whose rule is about an object, a kind and a scene.
STEP = 90
ABOUT_MUCH = "head-07"
FAULTS = ["L1 BadMagic", "L2 BadVersion", "L3 Truncated", "L4 TooLong", "L5 BadTable", "L6 BadCode", "L7 BadOrder"]


def with_changes(chance, story, count, values):
    """The story with some bytes changed to others of these."""
    data = bytearray(story)
    for _ in range(count):
        data[chance.randrange(len(data))] = chance.choice(values)
    return bytes(data)


def changed(name, story, turns):
    chance = random.Random(8)
    for turn in range(turns):
        yield f"{name}, change {turn}", with_changes(chance, story, turn % 2 + 1, [*range(26), 99, 255])


def cut_or_flipped(name, story):
    """Each cut and each flipped bit of a story, and the story itself."""
    yield name, story
    for length in range(len(story)):
        yield f"{name}, cut to {length}", story[:length]
    yield f"{name}, a byte more", story + b"\0"
    for bit in range(len(story) * 8):
        data = bytearray(story)
        data[bit // 8] ^= 1 << (bit % 8)
        yield f"{name}, bit {bit}", bytes(data)


def damaged(story):
    yield from cut_or_flipped("two rooms", story)
    furniture, rules, values = furnished(story), ruled(story), valued(story)
    yield "furnished", furniture
    yield from changed("furnished", furniture, 6000)
    yield "ruled", rules
    yield from changed("ruled", rules, 3000)
    yield from changed("valued", values, 3000)
    yield "crowded", crowded(story)
    chance = random.Random(7)
    for turn in range(3000):
        values = [0, 1, 2, 6, 13, 14, 34, 55, 255, chance.randrange(256)]
        yield f"change {turn}", with_changes(chance, story, turn % 4 + 1, values)


LOOK = (0, [b"look"])
# Grammars by which `look` is read in another way, or not at all.
GRAMMARS = {
    "no line": [], "another word": [(0, [b"l"])], "a capital": [(0, [b"Look"])], "twice": [(0, [b"LOOK"]), LOOK],
    "more words": [(1, [b"look", b"at", SOMETHING]), (0, [b"look", b"round"])], "no token": [(0, []), LOOK], "an empty word": [(0, [b""]), LOOK],
    "a slot in front": [(1, [SOMETHING]), LOOK], "a slot alone": [(2, [SOMETHING])], "a slot behind": [(1, [b"look", SOMETHING])],
}


def damaged_more(story, others):
    """Stories for `calls`."""
    for name, lines in GRAMMARS.items():
        yield f"a grammar of {name}", written(dict(unnumbered(story), grammar=lines))
    furniture, rules = furnished(story), ruled(story)
    yield from cut_or_flipped("ruled", rules)
    yield from cut_or_flipped("valued", valued(story))
    for name, other in others:
        yield from cut_or_flipped(name, other)
    chance = random.Random(9)
    for byte in range(256):
        yield f"byte {byte} more", story + bytes([byte])
    for turn in range(12000):
        yield f"any change {turn}", with_changes(chance, story, turn % 3 + 1, range(256))
        yield f"furnished, any change {turn}", with_changes(chance, furniture, turn % 3 + 1, range(256))
        yield f"ruled, any change {turn}", with_changes(chance, rules, turn % 3 + 1, range(256))


def some_bodies(scratch):
    """The stories of some of the sources of tests/bodies that are taken, each with its name."""
    taken = [case for case in json.loads((folder / "bodies/phrases.json").read_text()) if not case.get("refusal")]
    for case in [*taken[::STEP], *(case for case in taken if case["name"] == ABOUT_MUCH)]:
        (scratch / "source").write_bytes(case["source"].encode())
        yield case["name"], compiled(scratch / "source", scratch / "story")


def compiled(path, story):
    """The story of a source."""
    subprocess.run([program, "compile", path, story], check=True)
    return story.read_bytes()


def judged(story):
    """What a plain reader says of a story: the fault, or what it tells at first and to `look`, None where it can't say that."""
    try:
        return opening_and_look(story)
    except Fault as fault:
        return str(fault)


def played(path):
    """What the program says of a story: its status and what it writes."""
    run = subprocess.run([program, "play", path], stdin=subprocess.DEVNULL, capture_output=True, timeout=10)
    return run.returncode, run.stdout, run.stderr


def by_program(path, stories):
    """Each story with what the program says of it, and what is wanted."""
    for name, data in stories:
        path.write_bytes(data)
        wanted, told = judged(data), played(path)
        if isinstance(wanted, str):
            yield name, told, (2, b"", f"{path}: {wanted}\n".encode()), wanted
        elif wanted[0] is None:
            yield name, (told[0], told[2]), (0, b""), "untold"
        else:
            yield name, told, (0, wanted[0] + b"\n>", b""), "played"


def by_calls(path, stories):
    """Each story with what `calls` says of it, and what is wanted."""
    stories = list(stories)
    path.write_text("".join(data.hex() + "\n" for _, data in stories))
    run = subprocess.run([*calls, path], capture_output=True, check=True, timeout=300)
    for (name, data), told in zip(stories, run.stdout.decode().split("\n")[:-1], strict=True):
        wanted = judged(data)
        if isinstance(wanted, str):
            yield name, told, wanted, wanted
        elif None in wanted:
            said = [None if known is None else part for known, part in zip(wanted, told.split("\t"), strict=True)]
            yield name, said, [None if known is None else known.hex() for known in wanted], "untold"
        else:
            yield name, told, "\t".join(said.hex() for said in wanted), "played"


def failures(answers):
    """How many answers there are, how many aren't what is wanted, and of how many stories not all that they say is; each fault must be
    among them."""
    count = failed = untold = 0
    missing = {"played", *FAULTS}
    for name, told, wanted, sort in answers:
        count += 1
        untold += sort == "untold"
        missing.discard(sort)
        if told != wanted:
            failed += 1
            print(f"damaged stories: {name}: {str(told)[:200]}, wanted {str(wanted)[:200]}")
    for sort in missing:
        failed += 1
        print(f"damaged stories: none is {sort}")
    return count, failed, untold


def main():
    with tempfile.TemporaryDirectory() as scratch:
        path = pathlib.Path(scratch) / "story"
        story = compiled(source, path)
        others = list(some_bodies(pathlib.Path(scratch)))
        count, failed, untold = failures(by_program(path, damaged(story)))
        print(f"damaged stories: {count - failed} passed, {failed} failed; of {untold} not all that they say")
        more, failed_more, untold = failures(by_calls(path, damaged_more(story, others)))
        print(f"damaged stories: of {more} calls {more - failed_more} passed, {failed_more} failed; of {untold} not all that they say")
    sys.exit(failed + failed_more != 0)


main()
