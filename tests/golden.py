#!/usr/bin/env python3
"""Golden transcripts: what `i7story test` tells of transcripts that were kept, each line told by hand, and what it writes anew.
Use: tests/golden.py PROGRAM"""
import os
import pathlib
import subprocess
import sys
import tempfile

STORIES = pathlib.Path(__file__).resolve().parents[1] / "stories"
HALL = b'The Hall is a room. "A bare hall."\n\nThe Garden is north of the Hall.\n'
# a description that holds what looks like a prompt and a command
FORGED = b'The Hall is a room. "A note reads:[paragraph break]>look[line break]Nothing."\nThe Yard is north of the Hall.\n'
ENDING = b'The Hall is a room.\nInstead of jumping, end the story saying "You have won".\n'
LISTING = b'The Hall is a room.\nInstead of jumping, say "You have:[paragraph break]* a ball[line break]".\n'
WELCOME = b'The Hall is a room.\nWhen play begins, say "* Welcome *[line break]".\n'
ASKING = b"The Hall is a room. A red box and a blue box are closed openable containers in the Hall.\n"

WALK = b"Hall\nA bare hall.\n\n>n\nGarden\n\n>s\nHall\nA bare hall.\n\n>"
WON = b"Hall\n\n>z\nTime passes.\n\n>jump\n\n*** You have won ***\n"
NOTE = b"Hall\nA note reads:\n\n>look\nNothing.\n\n>n\nYard\n\n>"
HAVE = b"Hall\n\n>jump\nYou have:\n\n* a ball\n\n>z\nTime passes.\n\n>"
WELCOMED = b"* Welcome *\nHall\n\n>z\nTime passes.\n\n>"
PARDON = b"Hall\nA bare hall.\n\n>\nI beg your pardon?\n\n>n\nGarden\n\n>"

# name; source; kept files; flags; status; what is told; the files behind it, where they change
ROWS = [
    ("the same", HALL, [WALK], [], 0, b"0.txt: same, 3 of 3 answers\n", None),
    ("line breaks behind it", HALL, [WALK + b"\n\n"], [], 0, b"0.txt: same, 3 of 3 answers\n", None),
    ("an opening alone", HALL, [b"Hall\nA bare hall.\n\n>"], [], 0, b"0.txt: same, 1 of 1 answers\n", None),
    ("comments in front", HALL, [b"* walk\n* there and back\n" + WALK], [], 0, b"0.txt: same, 3 of 3 answers\n", None),
    ("two in a file", HALL, [b"* one\n" + WALK + b"\n\n* two\n" + PARDON + b"\n"], [], 0, b"0.txt: same, 6 of 6 answers\n", None),
    ("two files", HALL, [WALK, PARDON], [], 0, b"0.txt: same, 3 of 3 answers\n1.txt: same, 3 of 3 answers\n", None),
    ("an empty command", HALL, [PARDON], [], 0, b"0.txt: same, 3 of 3 answers\n", None),
    ("a command in a description", FORGED, [NOTE], [], 0, b"0.txt: same, 2 of 2 answers\n", None),
    ("a story that ends", ENDING, [WON], [], 0, b"0.txt: same, 3 of 3 answers\n", None),
    ("a story that ends, and another", ENDING, [b"* a\n" + WON + b"\n* b\n" + WON], [], 0, b"0.txt: same, 6 of 6 answers\n", None),
    ("another word", HALL, [WALK.replace(b"Garden", b"Grove")], [], 6,
     b"0.txt:4: >n\n[-Grove-]{+Garden+}\n0.txt: differs, 2 of 3 answers are the same\n", WALK),
    ("another opening", HALL, [WALK.replace(b"A bare hall.", b"A bare, cold hall.", 1)], [], 6,
     b"0.txt:1: the opening\nHall\nA [-bare, cold-]{+bare+} hall.\n0.txt: differs, 2 of 3 answers are the same\n", WALK),
    ("the first of two", HALL, [WALK.replace(b"A bare hall.", b"A hall.")], [], 6,
     b"0.txt:1: the opening\nHall\nA {+bare +}hall.\n0.txt: differs, 1 of 3 answers are the same\n", WALK),
    ("both of two", HALL, [WALK.replace(b"A bare hall.", b"A hall.")], ["--all"], 6,
     b"0.txt:1: the opening\nHall\nA {+bare +}hall.\n0.txt:7: >s\nHall\nA {+bare +}hall.\n0.txt: differs, 1 of 3 answers are the same\n", WALK),
    ("a line more", HALL, [WALK.replace(b"Garden\n", b"Garden\nA rose.\n")], [], 6,
     b"0.txt:4: >n\nGarden\n[-A rose.\n-]\n0.txt: differs, 2 of 3 answers are the same\n", WALK),
    ("the last prompt lacks", HALL, [WALK[:-2]], [], 6, b"0.txt: what was kept ends elsewhere\n0.txt: differs, 3 of 3 answers are the same\n", WALK),
    ("a command behind the end", ENDING, [WON + b"\n>z\nTime passes.\n\n>"], [], 6,
     b"0.txt: what was kept ends elsewhere\n0.txt: differs, 3 of 3 answers are the same\n", WON),
    ("an end that isn't", HALL, [b"Hall\nA bare hall.\n\n>n\nGarden\n\n*** The End ***\n"], [], 6,
     b"0.txt:4: >n\nGarden\n[-\n*** The End ***\n-]\n0.txt: differs, 1 of 2 answers are the same\n", b"Hall\nA bare hall.\n\n>n\nGarden\n\n>"),
    ("nothing kept", HALL, [b""], [], 6, b"0.txt:1: the opening\n{+Hall\nA bare hall.\n+}\n0.txt: differs, 0 of 1 answers are the same\n", b"Hall\nA bare hall.\n\n>"),
    ("carriage returns", HALL, [WALK.replace(b"\n", b"\r\n")], [], 0, b"0.txt: same, 3 of 3 answers\n", None),
    ("a line break in front of a comment", HALL, [b"\n* one\n" + WALK], [], 0, b"0.txt: same, 3 of 3 answers\n", None),
    ("an answer with a list", LISTING, [HAVE], [], 0, b"0.txt: same, 3 of 3 answers\n", None),
    ("a list that differs", LISTING, [HAVE.replace(b"have", b"had")], [], 6,
     b"0.txt:3: >jump\nYou [-had:-]{+have:+}\n\n* a ball\n0.txt: differs, 2 of 3 answers are the same\n", HAVE),
    ("an opening like a comment", WELCOME, [WELCOMED], [], 0, b"0.txt: same, 2 of 2 answers\n", None),
    ("a comment in front of such an opening", WELCOME, [b"* a note\n" + WELCOMED], [], 0, b"0.txt: same, 2 of 2 answers\n", None),
    ("an empty command that differs", HALL, [PARDON.replace(b"pardon?", b"pardon.")], [], 6,
     b"0.txt:4: >\nI beg your [-pardon.-]{+pardon?+}\n0.txt: differs, 2 of 3 answers are the same\n", PARDON),
    # what holds no prompt is no transcript, and stays as it is
    ("a comment alone", HALL, [b"* a"], [], 6, b"0.txt:1: the opening\n{+Hall\nA bare hall.\n+}\n0.txt: differs, 0 of 1 answers are the same\n", None),
    ("a shopping list", HALL, [b"eggs\nmilk\n"], [], 6,
     b"0.txt:1: the opening\n[-eggs\nmilk-]{+Hall\nA bare hall.+}\n0.txt: differs, 0 of 1 answers are the same\n", None),
    ("a question", ASKING, [b"Hall\nYou can see a red box and a blue box here.\n\n>open box\nWhich do you mean, the red box or the blue box?\n\n>red\nYou open the red box.\n\n>"],
     [], 0, b"0.txt: same, 3 of 3 answers\n", None),
]


def tried(program, room, row):
    """What is wrong with the way in which the program tells a row's files; nothing where all is well."""
    name, source, kept, flags, status, told, anew = row
    for form in ("source.i7", "story"):
        for number, text in enumerate(kept):
            open(f"{room}/{number}.txt", "wb").write(text)
        open(f"{room}/source.i7", "wb").write(source)
        subprocess.run([program, "compile", "source.i7", "story"], cwd=room, check=True)
        files = [f"{number}.txt" for number in range(len(kept))]
        run = subprocess.run([program, "test", *flags, form, *files], cwd=room, capture_output=True, timeout=60)
        if (run.returncode, run.stdout, run.stderr) != (status, told, b""):
            return f"{form}: status {run.returncode}\n{run.stdout.decode()}{run.stderr.decode()}"
        for turn in ("written anew", "written anew twice"):
            subprocess.run([program, "test", "--bless", form, *files], cwd=room, capture_output=True, timeout=60)
            written = open(f"{room}/0.txt", "rb").read()
            if written != (anew or kept[0]):
                return f"{form}: {turn} as\n{written.decode()}"
    return None


def faults(program, room):
    """The statuses of what can't be tried: a source and a story that are refused, files that aren't there, words that lack."""
    open(f"{room}/bad.i7", "wb").write(b"The Hall frobnicates.\n")
    open(f"{room}/bad", "wb").write(b"I7ST")
    open(f"{room}/0.txt", "wb").write(WALK)
    open(f"{room}/source.i7", "wb").write(HALL)
    for words, status, err in [
        (["bad.i7", "0.txt"], 1, b"bad.i7:1: C5 NotUnderstood\n"), (["bad", "0.txt"], 2, b"bad: L3 Truncated\n"),
        (["none", "0.txt"], 3, b"none: cannot be read\n"), (["source.i7", "none"], 3, b"none: cannot be read\n"), (["source.i7"], 5, None),
        (["source.i7", "-"], 5, None), (["--bless", "source.i7", "./source.i7"], 3, b"./source.i7: cannot be written\n")]:
        run = subprocess.run([program, "test", *words], cwd=room, capture_output=True, timeout=60)
        if run.returncode != status or err not in (None, run.stderr):
            yield f"{' '.join(words)}: status {run.returncode}, {run.stderr.decode()}"


def sample(program):
    """What is wrong with the sample of stories/, which holds two transcripts of five answers."""
    run = subprocess.run([program, "test", "two-rooms.i7", "two-rooms.txt"], cwd=STORIES, capture_output=True, timeout=60)
    if (run.returncode, run.stdout) != (0, b"two-rooms.txt: same, 5 of 5 answers\n"):
        yield f"the sample: status {run.returncode}, {run.stdout.decode()}{run.stderr.decode()}"


def main(program):
    program, failed = os.path.abspath(program), 0
    with tempfile.TemporaryDirectory() as room:
        for row in ROWS:
            why = tried(program, room, row)
            if why:
                failed += 1
                print(f"golden: {row[0]}: {why}")
        for why in [*faults(program, room), *sample(program)]:
            failed += 1
            print(f"golden: {why}")
    print(f"golden: {len(ROWS) + 8 - failed} passed, {failed} failed")
    return 1 if failed else 0


if __name__ == "__main__":
    sys.exit(main(sys.argv[1]))
