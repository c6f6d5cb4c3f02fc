#!/usr/bin/env python3
"""Compiles the sixty-one standard rules as an author would write them, without names. By a plain reader of the story each is of the
book and about the action of the standard rule of its number, and about nothing more; and each book lists the author's behind the
standard ones. What each body means is what play_meaning/specs/StandardRules.antt says, read by tests/plain_definitions.py.

Use: tests/standard_sentences.py PROGRAM    (the program of `i7story`; that of `calls` is built where it isn't yet)"""
import pathlib
import subprocess
import sys
import tempfile

from plain_definitions import standard_bodies
from plain_stories import STANDARD_RULES, standard_rules, tables
from row_files import report
from rule_trees import told

HALL = "The Hall is a room.\n\n"
SENTENCES = """
Carry out looking: if in darkness, say "Darkness[line break]"; otherwise say "[location][line break]".
Carry out looking: if in darkness, say "It is pitch dark, and you can't see a thing."; otherwise say "[description of the location]".
Carry out looking: if not in darkness and the number of described not scenery things in the location is at least 1, say "You can see [a list of described not scenery things in the location] here."
Carry out looking: if not in darkness, now the location is visited.
Carry out examining: if the noun has a description, say "[description of the noun]"; otherwise say "You see nothing special about [the noun]."
Carry out examining: if the number of visible things in the noun is at least 1, say "In [the noun] is [a list of visible things in the noun]."
Carry out examining: if the number of visible things on the noun is at least 1, say "On [the noun] is [a list of visible things on the noun]."
Carry out examining: if the noun is a device, say "[The noun] is switched [if the noun is switched on]on[otherwise]off[end if]."
Check taking: if the noun is the player, say "You can't take yourself." instead.
Check taking: if the noun is a person, say "[The noun] wouldn't like that." instead.
Check taking: if the noun is part of something, say "That is part of something else." instead.
Check taking: if the player has the noun, say "You already have that." instead.
Check taking: if the noun is scenery, say "That is hardly portable." instead.
Check taking: if the noun is fixed in place, say "That is fixed in place." instead.
Carry out taking: now the player carries the noun.
Report taking: say "Taken."
Check dropping: if the noun is not carried by the player and the noun is not worn by the player, say "You don't have that." instead.
Carry out dropping: now the noun is in the location.
Report dropping: say "Dropped."
Check putting something on something: if the noun is the second noun, say "You can't put something on itself." instead.
Check putting something on something: if the second noun is not a supporter, say "You can't put things on [the second noun]." instead.
Check putting something on something: if the noun encloses the second noun, say "You can't put something on what it holds." instead.
Carry out putting something on something: now the noun is on the second noun.
Report putting something on something: say "You put [the noun] on [the second noun]."
Check inserting something into something: if the noun is the second noun, say "You can't put something into itself." instead.
Check inserting something into something: if the second noun is not a container, say "You can't put things into [the second noun]." instead.
Check inserting something into something: if the noun encloses the second noun, say "You can't put something into what it holds." instead.
Check inserting something into something: if the second noun is closed, say "[The second noun] is closed." instead.
Carry out inserting something into something: now the noun is in the second noun.
Report inserting something into something: say "You put [the noun] into [the second noun]."
Check opening: if the noun is not openable, say "You can't open that." instead.
Check opening: if the noun is open, say "That is already open." instead.
Carry out opening: now the noun is open.
Report opening: say "You open [the noun]."
Check closing: if the noun is not openable, say "You can't close that." instead.
Check closing: if the noun is closed, say "That is already closed." instead.
Carry out closing: now the noun is closed.
Report closing: say "You close [the noun]."
Check going: if the door noun from the location is closed, say "[The door noun from the location] is closed." instead.
Check going: if the room noun from the location is nothing, say "You can't go that way." instead.
Carry out going: now the player is in the room noun from the location.
Report going: try looking.
Check wearing: if the noun is not wearable, say "You can't wear that." instead.
Check wearing: if the noun is worn by the player, say "You are already wearing that." instead.
Carry out wearing: now the player wears the noun.
Report wearing: say "You put on [the noun]."
Check taking off: if the noun is not worn by the player, say "You aren't wearing that." instead.
Carry out taking off: now the player carries the noun.
Report taking off: say "You take off [the noun]."
Carry out taking inventory: say "You are carrying [a list of things carried by the player]."
Carry out taking inventory: if the number of things worn by the player is at least 1, say "You are wearing [a list of things worn by the player]."
Report waiting: say "Time passes."
Report jumping: say "You jump on the spot."
Check switching on: if the noun is not a device, say "You can't switch that." instead.
Check switching on: if the noun is switched on, say "That is already on." instead.
Carry out switching on: now the noun is switched on.
Report switching on: say "You switch [the noun] on."
Check switching off: if the noun is not a device, say "You can't switch that." instead.
Check switching off: if the noun is switched off, say "That is already off." instead.
Carry out switching off: now the noun is switched off.
Report switching off: say "You switch [the noun] off."
""".strip().split("\n")


def compiled(program):
    """The tables of the story with all these rules."""
    with tempfile.TemporaryDirectory() as scratch:
        source, story = pathlib.Path(scratch) / "source", pathlib.Path(scratch) / "story"
        source.write_text(HALL + "\n\n".join(SENTENCES))
        subprocess.run([program, "compile", source, story], check=True, timeout=10)
        return tables(story.read_bytes())


def answers():
    program = pathlib.Path(sys.argv[1]).resolve()
    t = compiled(program)
    own = t["rules"][STANDARD_RULES:]
    for number, (rule, standard) in enumerate(zip(own, standard_rules(), strict=True), 1):
        yield f"rule {number}", str(rule[:7]), str(standard[:7])
    for number, book in enumerate(t["books"]):
        listed = [place for place, rule in enumerate(2 * standard_rules()) if rule[0] == number]
        yield f"book {number}", str(book), str(listed)
    bodies = told([HALL + sentence for sentence in SENTENCES])
    for number, (body, wanted) in enumerate(zip(bodies, standard_bodies(), strict=True), 1):
        yield f"body {number}", body, wanted


report("standard sentences", answers())
