#!/usr/bin/env python3
"""Counts the machine's instructions that the built program takes, by callgrind: to compile, a byte of the source; a turn that goes
to another room; and a look in a room of many things. Counts are differences of two runs, so that starting the program is
left out.

With --peers it counts instead what Inform 6 with its library and dfrotz take of the same rooms: to compile them whole, and a turn. They are
Debian's packages inform6-compiler, inform6-library and frotz; where they aren't installed it says so.

Use: tests/speed.py PROGRAM [--peers]    (needs valgrind; no part of the gate)"""
import os
import pathlib
import re
import shutil
import subprocess
import sys
import tempfile

program = str(pathlib.Path(sys.argv[1]).resolve())
MOST_OBJECTS = 987
THERE_AND_BACK = b"n\ns\n"
LOOK = b"look\n"


def row_of_rooms(rooms):
    """A source of rooms in a row, each with a thing, as many as there may be."""
    things = min(rooms, MOST_OBJECTS - rooms)
    lines = ["Room 1 is a room."]
    lines += [f"Room {n} is north of room {n - 1}." for n in range(2, rooms + 1)]
    lines += [f"A thing {n} is in room {n}." for n in range(1, things + 1)]
    return "\n".join(lines) + "\n"


def full_room(things):
    """A source of one room with so many things."""
    return "\n".join(["The Hall is a room."] + [f"A thing {n} is in the Hall." for n in range(1, things + 1)]) + "\n"


def counted(words, commands=b""):
    """How many instructions a run of a program takes."""
    done = subprocess.run(
        ["valgrind", "--tool=callgrind", "--callgrind-out-file=/dev/null", *words],
        input=commands,
        capture_output=True,
        check=True,
    )
    return int(re.search(rb"Collected : (\d+)", done.stderr).group(1))


def instructions(words, commands=b""):
    """How many instructions a run of the program takes."""
    return counted([program, *words], commands)


def save(name, source):
    pathlib.Path(name).write_text(source)
    return len(source)


def compiled(source):
    save("s.i7", source)
    subprocess.run([program, "compile", "s.i7", "story"], check=True)


def turn_takes(lines):
    """The instructions of a turn, where these lines are typed over and over."""
    few, many = (instructions(["play", "story"], lines * times) for times in (100, 1100))
    return (many - few) // (1000 * lines.count(b"\n"))


def told_rooms(rooms):
    """A row of rooms with a text and a thing each."""
    lines = ['Room 1 is a room. "A room."'] + [f'Room {n} is north of room {n - 1}. "A room."' for n in range(2, rooms + 1)]
    return "\n".join(lines + [f"A thing {n} is in room {n}." for n in range(1, rooms + 1)]) + "\n"


def inform6_rooms(rooms):
    """The same rooms, as Inform 6 says them."""
    lines = ['Constant Story "Rooms";', 'Constant Headline "^";', 'Include "parser";', 'Include "verblib";']
    for n in range(1, rooms + 1):
        ways = [f"n_to R{n + 1}"] * (n < rooms) + [f"s_to R{n - 1}"] * (n > 1)
        lines.append(f'Object R{n} "room {n}" with description "A room.", {", ".join(ways)} has light;')
    lines += [f"Object T{n} \"thing {n}\" R{n} with name 'thing' '{n}//';" for n in range(1, rooms + 1)]
    return "\n".join(lines + ["[ Initialise; location = R1; ];", 'Include "grammar";']) + "\n"


def peers():
    """Inform 6, the folder of its library, and dfrotz, or None."""
    games = os.environ["PATH"] + ":/usr/games"
    compiler, player = shutil.which("inform6"), shutil.which("dfrotz", path=games)
    library = pathlib.Path("/usr/share/inform6/library")
    return (compiler, f"+include_path={library}", player) if compiler and player and (library / "parser.h").exists() else None


def count_peers(compiler, library, player):
    """Tells what both take of the same rooms."""
    print("rooms  to compile: i7story     Inform 6   a turn: i7story    dfrotz")
    for rooms in (2, 100, 450):
        compiled(told_rooms(rooms))
        save("s.inf", inform6_rooms(rooms))
        whole, theirs = instructions(["compile", "s.i7", "none"]), counted([compiler, library, "-v8", "s.inf", "s.z8"])
        few, many = (counted([player, "-p", "-m", "s.z8"], THERE_AND_BACK * times + b"quit\ny\n") for times in (10, 110))
        print(f"{rooms:5}  {whole:19}  {theirs:11}  {turn_takes(THERE_AND_BACK):15}  {(many - few) // 200:8}")


with tempfile.TemporaryDirectory() as scratch:
    os.chdir(scratch)
    if "--peers" in sys.argv[2:]:
        found = peers()
        sys.exit(count_peers(*found) if found else print("the peers aren't installed: inform6-compiler, inform6-library, frotz"))
    save("least.i7", "The Hall is a room.\n")
    least = instructions(["compile", "least.i7", "none"])
    print("rooms  instructions a byte to compile  a turn")
    for rooms in (2, 20, 100, 500, 900):
        source = row_of_rooms(rooms)
        compiled(source)
        a_byte = (instructions(["compile", "s.i7", "none"]) - least) // len(source)
        print(f"{rooms:5}  {a_byte:30}  {turn_takes(THERE_AND_BACK):6}")
    print("things  instructions of a look")
    for things in (10, 100, 200, 400):
        compiled(full_room(things))
        print(f"{things:6}  {turn_takes(LOOK):22}")
