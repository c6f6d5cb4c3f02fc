#!/usr/bin/env python3
"""A story written by hand from docs/story-format.md, tests/story_files/two_rooms.hex: the source that says it is compiled to its
bytes, and each change of changes.rows makes it refused, or leaves a story that plays. A plain reader of the format must say the
same. The numbers with which a story begins are those that numbers.rows tells of numbers.i7, the rules, books and scenes of sources
those of rules.rows, by the readers of a loaded story too; the order of rules that sentences list, the standard ones among them, is
that of listings.rows; what sentences declare that an action asks for is what actions.rows tells, and what they say that commands and
words mean what grammar.rows tells.

Use: tests/story_files.py PROGRAM    (the program of `i7story`; that of `calls` is built where it isn't yet,
tests/row_files.py how rows are written)"""
import pathlib
import re
import subprocess
import sys
import tempfile

from plain_stories import (
    A_DIRECTION, ACTIONS, DIRECTIONS, NONE8, NONE16, PLAYER_WORDS, SOMETHING, STANDARD_LINES, STANDARD_RULES, Fault, has, name_words,
    opening_and_look, rules_told, tables)
from programs import calls_of
from row_files import digits_of, report, rows_of
from rule_sources import STANDARD_NAMES, own_words, tables_of

program = pathlib.Path(sys.argv[1]).resolve()
calls = calls_of("rules")
folder = pathlib.Path(__file__).resolve().parent / "story_files"
CHANGE = re.compile(r"(\d+|end)([=+-])([\d,]+)")
# what a rule is about that asks for no action, noun, second noun, place or scene
NOTHING = "- - - - -"
# the name that a source gives a rule
NAMED = re.compile(r"\(this is the (.+?) rule\)")
TWO_ROOMS = b"""The Hall is a room. "A bare hall."\n\nThe Garden is north of the Hall.\n"""


def changed(story, told):
    """The story with each of these changes."""
    pieces = [bytes([byte]) for byte in story] + [b""]
    for change in told.split():
        place, sign, said = CHANGE.fullmatch(change).groups()
        numbers = bytes(int(number) for number in re.findall(r"\d+", said))
        place = len(story) if place == "end" else int(place)
        if sign == "-":
            pieces[place - numbers[0] : place] = [b""] * numbers[0]
        else:
            pieces[place] = numbers if sign == "=" else numbers + pieces[place]
    return b"".join(pieces)


def compiled(scratch, source):
    """The story of a source."""
    (scratch / "source").write_bytes(source)
    subprocess.run([program, "compile", scratch / "source", scratch / "story"], check=True)
    return (scratch / "story").read_bytes()


def played(scratch, story):
    """What the program says of a story: the fault, or that it plays."""
    path = scratch / "story"
    path.write_bytes(story)
    done = subprocess.run([program, "play", path], stdin=subprocess.DEVNULL, capture_output=True, timeout=10)
    if done.returncode == 0 and done.stdout and not done.stderr:
        return b"plays"
    if done.returncode == 2 and not done.stdout:
        return done.stderr.removeprefix(b"%s: " % bytes(path)).removesuffix(b"\n")
    return b"status %d: %s" % (done.returncode, done.stderr)


def read_plainly(story):
    """What a plain reader says of a story."""
    try:
        opening_and_look(story)
    except Fault as fault:
        return str(fault).encode()
    return b"plays"


def number_of(told, thing, number):
    """The number of a property that an object has, with its sign, or `-`."""
    kinds = told["numbers"]
    if not has(told, thing["kind"], kinds[number]):
        return "-"
    return signed(thing["numbers"][sum(has(told, thing["kind"], given) for given in kinds[:number])])


def signed(number):
    """A number of four bytes as it is written."""
    return str(number - 2**32 if number >= 2**31 else number)


def numbers_of(told, asked):
    """What a row of numbers asks."""
    if asked == b"variables":
        return " ".join(signed(number) for number in told["variables"]).encode()
    number = int(asked.removeprefix(b"property "))
    return " ".join(number_of(told, thing, number) for thing in told["objects"]).encode()


def aspect_told(said):
    """What a rule says of a noun or of the place: `-` for anything, an object's number, or a kind and its adjectives."""
    if said[0] == 2:
        return f"k{said[1]}" + "".join(f"+{flag}:{side}" for flag, side in said[2])
    return str(said[1]) if said[0] == 1 else "-"


def about_told(rule):
    """What a rule is about."""
    _, action, *nouns, scene, _, _ = rule
    return " ".join(["-" if action == NONE8 else str(action), *map(aspect_told, nouns), "-" if scene == NONE8 else str(scene)])


def rules_of(told):
    """What a row of rules tells of a story."""
    own = list(enumerate(told["rules"]))[STANDARD_RULES:]
    places = {number: place for book in told["books"] for place, number in enumerate(book)}
    rules = [(rule[0], "-" if rule[6] == NONE16 else rule[6], rule[7][1], places.get(number, "-")) for number, rule in own]
    said = ", ".join(" ".join(map(str, numbers)) for numbers in rules)
    scenes = " ".join(str(scene[0]) for scene in told["scenes"])
    about = [about_told(rule) for _, rule in own]
    return [said or "-", str(len(told["books"])), scenes or "-", *([", ".join(about)] if set(about) - {NOTHING} else [])]


def book_told(book, names):
    """The rules of a book: standard ones by their numbers from 1 on, joined where they follow one another, others by their names."""
    runs = []
    for rule, before in zip(book, [None, *book]):
        if rule >= STANDARD_RULES:
            runs.append([names[rule - STANDARD_RULES]])
        elif before == rule - 1:
            runs[-1][1:] = [str(rule + 1)]
        else:
            runs.append([str(rule + 1)])
    return ", ".join("-".join(run) for run in runs)


def books_of(told, source, asked):
    """The books that a row of listings asks for, each with its rules."""
    names = NAMED.findall(source)
    assert len(names) == len(told["rules"]) - STANDARD_RULES, source
    numbers = re.findall(r"(?:^|; )(\d+):", asked)
    return "; ".join(f"{number}: {book_told(told['books'][int(number)], names)}".strip() for number in numbers)


def names_of(told):
    """The names of a story's objects, in small letters."""
    return [told["strings"][thing["name"]].decode().lower() for thing in told["objects"]]


def plain_tables(told, source):
    """Tables 8 to 12 of a story, and what a plain reading of its source, which describes nothing, tells of them."""
    plain = tables_of(source, 0, names_of(told))
    return str(rules_told(told)), str(plain)


def entry_told(entry):
    """An entry of table 8."""
    return " ".join("-" if byte == NONE8 else str(byte) for byte in entry)


def actions(scratch):
    """The answers to the rows of actions."""
    for place, (source, asked) in rows_of(folder / "actions.rows"):
        story = compiled(scratch, source)
        told = tables(story)
        yield place, ", ".join(map(entry_told, told["actions"][len(ACTIONS) :])) or "-", asked.decode()
        yield f"{place}, plainly", read_plainly(story), b"plays"
        yield f"{place}, played", played(scratch, story), b"plays"
        yield f"{place}, by its source", *plain_tables(told, source.decode())


def token_told(token):
    """A token of a line."""
    return {SOMETHING: "[something]", A_DIRECTION: "[direction]"}.get(token) or token.decode()


def line_told(action, tokens):
    """A line of table 9."""
    return " ".join([str(action), *map(token_told, tokens)])


def words_of(told, number):
    """The words of an object behind those of its name, the player's or a direction's own."""
    thing = told["objects"][number]
    name = told["strings"][thing["name"]]
    own = PLAYER_WORDS if number == 0 else DIRECTIONS[number - 1] if number <= 12 else name_words(name)
    return [told["strings"][word].decode() for word in thing["words"][len(own):]]


def plain_words(told, source):
    """The words of each object, and what a plain reading of its source tells of them."""
    found = [[told["strings"][word].decode() for word in thing["words"]] for thing in told["objects"]]
    said = own_words(source, names_of(told))
    front = [words[: len(words) - len(words_of(told, number))] for number, words in enumerate(found)]
    return str(found), str([list(dict.fromkeys(words + more)) for words, more in zip(front, said, strict=True)])


def grammar(scratch):
    """The answers to the rows of grammar."""
    for place, (source, lines, words) in rows_of(folder / "grammar.rows"):
        story = compiled(scratch, source)
        told = tables(story)
        own = [line_told(*line) for line in rules_told(told)["grammar"]][: -len(STANDARD_LINES)]
        yield place, "; ".join(own) or "-", lines.decode()
        more = {number: words_of(told, number) for number in range(len(told["objects"]))}
        yield f"{place}, its words", "; ".join(" ".join([str(number), *said]) for number, said in more.items() if said) or "-", words.decode()
        yield f"{place}, plainly", read_plainly(story), b"plays"
        yield f"{place}, played", played(scratch, story), b"plays"
        yield f"{place}, by its source", *plain_tables(told, source.decode())
        yield f"{place}, its words by its source", *plain_words(told, source.decode())


def listings(scratch):
    """The answers to the rows of listings, and to a source for each standard rule that lists it nowhere."""
    for place, (source, asked) in rows_of(folder / "listings.rows"):
        story = compiled(scratch, source)
        told = tables(story)
        yield place, books_of(told, source.decode(), asked.decode()), asked.decode()
        yield f"{place}, plainly", read_plainly(story), b"plays"
        yield f"{place}, played", played(scratch, story), b"plays"
        yield f"{place}, by its source", *plain_tables(told, source.decode())
    for name in STANDARD_NAMES:
        source = f"The Hall is a room. The {name} rule is not listed in any rulebook."
        yield f"{name} rule", *plain_tables(tables(compiled(scratch, source.encode())), source)


def rules_read(scratch, sources):
    """What the readers of a loaded story say of the rules of sources."""
    path = scratch / "sources"
    path.write_bytes(b"".join(source + b"\x1e" for source in sources))
    done = subprocess.run([*calls, "rules", path], capture_output=True, check=True, timeout=60)
    return [line or "-" for line in done.stdout.decode().split("\n")[:-1]]


def answers(scratch):
    story = digits_of(folder / "two_rooms.hex")
    yield "two_rooms.hex", compiled(scratch, TWO_ROOMS).hex(), story.hex()
    for place, (change, wanted, _) in rows_of(folder / "changes.rows"):
        other = changed(story, change.decode())
        yield place, played(scratch, other), wanted
        yield f"{place}, plainly", read_plainly(other), wanted
    told = tables(compiled(scratch, (folder / "numbers.i7").read_bytes()))
    yield "numbers.i7", str(len(told["numbers"])), "2"
    for place, (asked, wanted) in rows_of(folder / "numbers.rows"):
        yield place, numbers_of(told, asked), wanted
    rules = list(rows_of(folder / "rules.rows"))
    read = rules_read(scratch, [source for _, (source, *_) in rules])
    for (place, (source, *wanted)), said in zip(rules, read, strict=True):
        story = compiled(scratch, source)
        yield f"{place}, by readers", said, wanted[0].decode()
        yield place, "\t".join(rules_of(tables(story))), b"\t".join(wanted).decode()
        yield f"{place}, plainly", read_plainly(story), b"plays"
    yield from listings(scratch)
    yield from actions(scratch)
    yield from grammar(scratch)


with tempfile.TemporaryDirectory() as folder_of_files:
    report("story files", answers(pathlib.Path(folder_of_files)))
