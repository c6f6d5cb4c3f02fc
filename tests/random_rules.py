#!/usr/bin/env python3
"""Sources of rules with random heads, of sentences that list these and standard rules, and of some that declare actions, say what
commands and words mean or say on what scenes begin and end: 300 that are taken, whose tables 8 to 12 and the actions that their rules try are those that a plain reading
tells (tests/rule_sources.py), and 300 with rules, listings, actions or commands among them that are refused: the code that is looked
for first is told, at the first of these of which it stands.

Use: tests/random_rules.py PROGRAM"""
import pathlib
import random
import subprocess
import sys
import tempfile

import plain_codes
from plain_stories import STANDARD_RULES, rules_told, standard_rules, tables
from row_files import report
from rule_sources import (
    ACTION_BOOKS, ACTION_NAMES, KIND_NAMES, LONE_BOOKS, PROPERTIES, STAGES, STANDARD_NAMES, actions_of, parts_of, sentences,
    tables_of, tried)

program = pathlib.Path(sys.argv[1]).resolve()
TURNS = 300
WORLD = """The Hall is a room. The Yard is north of the Hall. The box is an openable container in the Hall. The red ball is in the box. \
The table is a supporter in the Yard. Bob is a man in the Yard. The gate is a door. The storm is a scene. The calm day is a recurring \
scene. The tidy rules is a rulebook. The long sweep rules is a rulebook. Gazing it through is an action applying to one visible thing \
and one thing and requiring light."""
OBJECTS = ["the box", "box", "a red ball", "the red ball", "Bob", "the table", "the gate", "the player", "north", "yourself", "the Hall"]
# The names of actions by how many nouns they have: standard ones, and those that a source may declare, among them some that begin
# like others or are parts of these, and that hold words which no other name may.
STANDARD_ACTIONS = {
    0: ["doing anything", "looking", "taking inventory", "waiting", "jumping"],
    1: ["examining", "taking", "dropping", "opening", "closing", "going", "wearing", "taking off", "switching on", "switching off"],
    2: ["putting it on", "inserting it into", "gazing it through"]}
NEW_ACTIONS = {
    0: ["jumping up", "waiting in line", "going for it", "is", "doing", "the taking", "looking and listening", "storm", "a"],
    1: ["lifting", "taking it in", "peering in", "asking it twice", "switching", "if", "is kind of", "breaking it of the rule", "box"],
    2: ["weighing it with", "taking it from", "giving it", "tying", "putting it on top of", "putting it", "it", "looking at it through"]}
SLOTS = ["one thing", "one visible thing", "one carried thing"]
SCENES = ["the storm", "storm", "a calm day", "the calm day"]
CONDITIONS = ["in darkness", "the noun is lit", "the turn count is 1", "the box is open and Bob is in the Hall"]
MANY_LIT, MANY_DARK = "lit " * 10, "dark " * 10
# Names of rules, among them some that other things have, and that hold words which no other name may.
RULE_NAMES = [
    f"{front}{end}" for front in ["ash", "box", "tidy", "storm", "not", "rule", "first in", "zorb's"]
    for end in ["", " clock", " rule", " 7", " of Bob"]]
OWN_BOOKS = ["tidy", "long sweep"]
# Words and slots of commands.
WORDS = ["weigh", "Weigh", "take", "look", "look,", "at", "with", "WITH", "of", "xyzzy", "the", "7", "don't", "n"]
SLOT_MARKS = ["[something]", "[direction]", "[ Something ]", "[DIRECTION]"]
# The standard rules by their names, each with the words in front of which its book stands.
STANDARD = dict(zip(STANDARD_NAMES, [list(STAGES)[list(STAGES.values()).index(rule[0])] for rule in standard_rules()], strict=True))
# Rules and listings by what they are refused with, in the order in which it is looked for.
FAULTS = {
    "C9 Twice": [
        'Every turn (this is the room heading rule), say "x".', 'Before taking the zorb (this is the can\'t take scenery rule), say "x".',
        "Taking is an action applying to one thing.", "The Putting It On are an action out of world.",
        "A gazing IT through is an action applying to nothing.", "The report waiting rules is a rulebook.",
        "Check gazing it through rules are a rulebook.", "The storm ends when in darkness. Storm ends when the squall is lit."],
    "C7 UnknownName": [
        'Before taking the zorb, say "x".', 'Every turn in the zorb, say "x".', 'A tidy rule during the squall, say "x".',
        'When the squall ends, say "x".', 'Check frobbing, say "x".', 'Instead of taking the box when the zorb is lit, say "x".',
        'Every turn in the box when the zorb is lit, say "x".', 'After looking in the box during the squall, say "x".',
        f'Before looking in a {MANY_DARK}room during the squall, say "x".', 'The clean rule in the Hall, say "x".',
        'Every turn, say "[zorb]".', 'Instead of taking the box, try frobbing.',
        'Check gazing, say "x".', 'Instead of gazing the box, say "x".', "Every turn, try gazing the box through.",
        "Every turn, try gazing a box through something.", "The list worn rule is listed first in the carry out gazing rules.",
        'The zorb rule is listed first in the instead rules.', 'The zorb rule is not listed in any rulebook.',
        'A zorb rule is listed last in the zorb rules.', 'The of the rule is not listed in any rulebook.',
        'The room heading rule is listed last in the zorb rules.', 'The list worn rule is listed last in the storm rules.',
        'The list worn rule is listed first in the when play begins rules.', 'The room body rule is listed last in the carry out looking rules.',
        'The room body text rule is listed first in the carry out rules.', 'The mark visited rule is listed last in carry out frobbing rules.',
        'The squall begins when in darkness.', 'The calm day begins when the zorb is lit.', 'The box ends when in darkness.',
        'Understand "frob" as frobbing.', 'Understand "frob" or "[something]" as the zorb.', 'Understand "big" as thing.',
        'Understand "gaze [something] [something]" as gazing.', 'Understand "tidy" as the tidy rules.'],
    "C8 WrongKind": [
        'Every turn in the box, say "x".', 'Before looking in a thing, say "x".', f'A tidy rule in a {MANY_LIT}thing, say "x".',
        f'After taking {MANY_LIT}things in the box, say "x".', f'Every turn in the box, say "[list of {MANY_LIT}things]".',
        'Report waiting in north, say "x".', 'Report gazing the box through Bob in the box, say "x".',
        'The room heading rule is listed first in the check looking rules.', 'The list worn rule is listed last in the report taking inventory rules.',
        "The can't take scenery rule is listed first in the instead rules.", "Can't open open rule is listed last in the tidy rules.",
        'A standard report taking rule is listed last in after rules.',
        'Understand "take" as taking.', 'Understand "rest" or "rest [direction]" as waiting.', 'Understand "red [something]" as the red ball.',
        'Understand "put [something]" as putting it on.', 'Understand "gaze [something] [something] [something]" as gazing it through.'],
    "C12 TooMany": [
        f'Before taking {MANY_LIT}things, say "x".', f'Every turn in {MANY_DARK}rooms, say "x".', f'Every turn, say "[list of {MANY_LIT}things]".',
        f'Check putting something on {MANY_LIT}things, say "x".', f'Before looking when the box is {MANY_LIT}thing, say "x".',
        f"The storm begins when the box is a {MANY_LIT}thing.", f'Understand "{"a " * 33}" as waiting.',
        f'Understand "{"[something] " * 2}{"a " * 31}" as putting it on.', f'Understand "{" ".join(map(str, range(32)))}" as the table.'],
}


def described(chance, kinds):
    """A description by a kind of these."""
    adjectives = chance.choices([name for name in PROPERTIES if name], k=chance.choice([0, 0, 1, 1, 2, 3]))
    return chance.choice(["", "a ", "the ", "some ", "an "]) + " ".join([*adjectives, chance.choice(kinds)])


def noun(chance):
    return chance.choice([chance.choice(OBJECTS), "something", described(chance, KIND_NAMES)])


def action(chance, own):
    """The name of an action, a standard one or one of the source's, and how many nouns it has."""
    count = chance.choice([0, 1, 1, 2])
    if own and chance.random() < 0.5:
        return chance.choice(list(own.items()))
    return chance.choice(STANDARD_ACTIONS[count]), count


def with_nouns(name, count, noun, second):
    """An action with its nouns, as many as it has."""
    if count == 0:
        return name
    first, behind = parts_of(name)
    return " ".join(part for part in [*first, noun, *behind, second if count == 2 else ""] if part)


def pattern(chance, own):
    name, count = action(chance, own)
    first = noun(chance)
    # an action of one noun may leave it out
    if count == 1 and chance.random() < 0.25:
        first = ""
    return with_nouns(name, count, first, noun(chance))


def body(chance, own):
    """A phrase, and the words that it tries, if it tries an action."""
    if chance.random() < 0.7:
        return 'say "x"', None
    name, count = action(chance, own)
    if name == "doing anything":
        name = "jumping"
    words = with_nouns(name, count, chance.choice(OBJECTS), chance.choice(OBJECTS))
    return chance.choice(["try ", "silently try "]) + words, words


def declaration(chance, name, count):
    """A sentence that declares an action of this name."""
    slots = " and ".join(chance.choices(SLOTS, k=count)) or "nothing"
    if count == 2:
        slots = chance.choice([slots, "two things"])
    told = [f"applying to {slots}", f"applying to {slots} and requiring light", f"out of world and applying to {slots}"]
    told = chance.choice([*told, *["out of world"] * (count == 0)])
    # an article in front of the name is the free one
    article = chance.choice(["", "the ", "A ", "some "] if len(name.split()) == 1 or parts_of(name)[0][0] != "the" else ["A "])
    sentence = f"{article}{name} {chance.choice(['is', 'are'])} an action {told}."
    return chance.choice([sentence, sentence.capitalize(), sentence.upper()])


def declarations(chance):
    """Sentences that declare some actions, and how many nouns each of these has."""
    new = [(name, count) for count, names in NEW_ACTIONS.items() for name in names]
    own = dict(chance.sample(new, chance.choice([0, 2, 6, len(new)])))
    return [declaration(chance, name, count) for name, count in own.items()], own


def asked(chance):
    """A place, a scene and a condition, or some of them."""
    place = chance.choice(["the Hall", "Hall", "the Yard", "a Yard", described(chance, ["room"])])
    all_asked = [f" in {place}", f" during {chance.choice(SCENES)}", f" when {chance.choice(CONDITIONS)}"]
    return "".join(words for words in all_asked if chance.random() < 0.3)


def rule(chance, own):
    """The head of a rule, and the words with which a listing names its book, or begins to, if one can."""
    sort = chance.randrange(10)
    if sort < 6:
        book = chance.choice(ACTION_BOOKS)
        return f"{book.capitalize()} {pattern(chance, own)}{asked(chance)}", book.removesuffix(" of")
    if sort == 6:
        return "When play begins", None
    if sort == 7:
        return f"When {chance.choice(SCENES)} {chance.choice(['begins', 'ends'])}", None
    book = chance.choice(["every turn", *OWN_BOOKS])
    head = book if book == "every turn" else f"{chance.choice(['a ', 'the ', ''])}{book} rule"
    return head.capitalize() + asked(chance), book


def rules(chance, count, own):
    """Rules, of which some have names, each with the words that it tries; and of each name the words of the rule's book."""
    names, told, books = chance.sample(RULE_NAMES, len(RULE_NAMES)), [], {}
    for _ in range(count):
        head, book = rule(chance, own)
        if names and chance.random() < 0.6:
            name = names.pop()
            books[name] = book
            head += f" (this is the {chance.choice([name, name.upper()])} rule)"
        phrase, words = body(chance, own)
        told.append((f"{head}, {phrase}.", words))
    return told, books


def subject(chance, name):
    """The words with which a listing of a rule begins."""
    article = chance.choice(["the ", "The ", "A ", "some ", ""])
    return f"{article}{chance.choice([name, name.capitalize()])} rule {chance.choice(['is', 'are'])}"


def listing_in(chance, name, book, own):
    """A sentence that lists a rule in this book."""
    words = f"{book} {chance.choice([*ACTION_NAMES, 'gazing it through', *own])}" if book in STAGES else book
    article = chance.choice(["the ", "a ", ""])
    return f"{subject(chance, name)} listed {chance.choice(['first', 'last'])} in {article}{chance.choice([words, words.title()])} rules."


def listing(chance, name, book, own):
    """A sentence that lists a rule of this book, or takes it out."""
    if book is None or chance.random() < 0.2:
        return f"{subject(chance, name)} not listed in any rulebook."
    return listing_in(chance, name, book, own)


def listings(chance, books, actions):
    """Sentences that list some of these rules and of the standard ones, of a few several."""
    own = chance.sample(list(books), min(len(books), chance.choice([0, 1, 4, 12])))
    standard = chance.sample(list(STANDARD), chance.choice([0, 0, 1, 6]))
    listed = [name for name in [*own, *standard] for _ in range(chance.choice([1, 1, 1, 2, 3]))]
    return [listing(chance, name, {**STANDARD, **books}[name], actions) for name in chance.sample(listed, len(listed))]


def fault(chance, code, books, actions):
    """A paragraph that is refused so, where the rules of these names stand."""
    if code == "C8 WrongKind" and chance.random() < 0.4:
        name = chance.choice([*books, *STANDARD])
        own = {**STANDARD, **books}[name]
        return listing_in(chance, name, chance.choice([book for book in [*LONE_BOOKS, *STAGES, *OWN_BOOKS] if book != own]), actions)
    return chance.choice(FAULTS[code])


def changes(chance):
    """Sentences that say on what some of the scenes begin and end."""
    told = [f"{scene} {edge} when {chance.choice(CONDITIONS)}." for scene in ["The storm", "Calm day"] for edge in ["begins", "ends"]]
    return chance.sample(told, chance.randrange(len(told) + 1))


def command(chance, count):
    """A text with so many slots, some of them without a blank beside them."""
    words = chance.choices(WORDS, k=chance.choice([0, 1, 1, 2, 3, 32 - count]))
    for _ in range(count):
        words.insert(chance.randrange(len(words) + 1), chance.choice(SLOT_MARKS))
    return "".join(word + ("" if "[" in word and chance.random() < 0.2 else " ") for word in words)


def meaning(chance, own):
    """Texts, and what they mean: an action, or an object."""
    name, count = action(chance, own)
    if chance.random() < 0.3:
        # an action goes before an object of its name
        name = chance.choice([name for name in OBJECTS if name.split()[-1] not in own])
        texts = [" ".join(chance.choices(WORDS, k=2)) for _ in range(chance.choice([1, 1, 3]))]
    else:
        texts = [command(chance, count) for _ in range(chance.choice([1, 1, 1, 2, 4]))]
    return texts, name


def commands(chance, own):
    """Sentences that say what commands and words mean."""
    told = [meaning(chance, own) for _ in range(chance.choice([0, 1, 4, 12]))]
    # an action whose name begins with an article isn't named so
    known = [(texts, name) for texts, name in told if name in OBJECTS or name.split()[0] not in ("a", "the", "doing")]
    return ["Understand {} as {}.".format(" or ".join(f'"{text}"' for text in texts), name) for texts, name in known]


def mixed(chance, told, more):
    """These paragraphs, with more at any places among them; each in its order."""
    places = sorted(chance.choices(range(len(told) + 1), k=len(more)))
    mix = list(told)
    for place, paragraph in reversed(list(zip(places, more))):
        mix.insert(place, paragraph)
    return mix


def compiled(scratch, source):
    """What the program answers of a source, and the tables of its story, if there is one."""
    (scratch / "source").write_text(source)
    done = subprocess.run([program, "compile", scratch / "source", scratch / "story"], capture_output=True, text=True, timeout=10)
    if done.returncode == 0:
        return "taken", tables((scratch / "story").read_bytes())
    return done.stderr.strip().removeprefix(f"{scratch}/source:"), None


def tries_of(t, rule):
    """The actions that the body of a rule tries, by number."""
    return [arguments["a"] for _, _, arguments, _ in plain_codes.cut(t["codes"][rule[7][1]]) if "a" in arguments]


def taken(scratch, chance):
    """What the program and a plain reading say of random rules."""
    actions, own = declarations(chance)
    told, books = rules(chance, chance.randrange(1, 60), own)
    paragraphs = mixed(chance, [sentence for sentence, _ in told], listings(chance, books, own))
    source = "\n\n".join([WORLD, *mixed(chance, paragraphs, [*actions, *changes(chance), *commands(chance, own)])])
    answer, t = compiled(scratch, source)
    if t is None:
        return answer, "taken"
    objects = [t["strings"][o["name"]].decode().lower() for o in t["objects"]]
    wanted = tables_of(source, 0, objects)
    known = actions_of(sentences(source))
    tries = [[tried(words, objects, known)] if words else [] for _, words in told]
    return str((rules_told(t), [tries_of(t, rule) for rule in t["rules"][STANDARD_RULES:]])), str((wanted, tries))


def refused(scratch, chance):
    """What the program says of rules, listings, actions and commands some of which are at fault, and what it is to say."""
    actions, own = declarations(chance)
    told, books = rules(chance, chance.randrange(1, 6), own)
    codes = chance.choice([list(FAULTS), *[list(FAULTS)[1:]] * 4, list(FAULTS)[2:], list(FAULTS)[3:]])
    faults = [(code, fault(chance, code, books, own)) for code in chance.choices(codes, k=chance.randrange(6))]
    # a rulebook that is declared twice is refused before
    faults = list(dict.fromkeys(faults))
    more = [(None, sentence) for sentence in [*listings(chance, books, own), *actions, *commands(chance, own)]] + faults
    paragraphs = mixed(chance, [(None, sentence) for sentence, _ in told], chance.sample(more, len(more)))
    # each is a paragraph of one line
    found = [(list(FAULTS).index(code), 2 * place + 3) for place, (code, _) in enumerate(paragraphs) if code]
    wanted = f"{min(found)[1]}: {list(FAULTS)[min(found)[0]]}" if found else "taken"
    return compiled(scratch, "\n\n".join([WORLD, *(sentence for _, sentence in paragraphs)]))[0], wanted


def answers():
    with tempfile.TemporaryDirectory() as folder:
        for judge in [taken, refused]:
            for turn in range(TURNS):
                yield f"{judge.__name__} {turn}", *judge(pathlib.Path(folder), random.Random(turn))


report("random rules", answers())
