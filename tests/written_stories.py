"""A plain writer of story files, from docs/story-format.md alone: the bytes of tables, and of stories that hold much."""
import plain_codes
from plain_stories import (
    BUILT_IN_BOOKS, CARRIED, CONTAINER, DONE, DOOR, EVERY_TURN, FLAGS, KINDS, LIGHT, NONE16, NONE8, OUT_OF_WORLD, ROOM, SAY, SEEN,
    SOMETHING, SUPPORTER, THING, Said, lines_told, name_words, tables, values_had)


def u(width, n):
    return n.to_bytes(width, "big")


def listed(width, numbers):
    return u(1, len(numbers)) + b"".join(u(width, n) for n in numbers)


def table(entries):
    entries = list(entries)
    return u(2, len(entries)) + b"".join(entries)


def aspect_of(said):
    if said[0] == 2:
        return bytes([2, said[1], len(said[2])]) + b"".join(bytes(pair) for pair in said[2])
    return bytes([1]) + u(2, said[1]) if said[0] == 1 else bytes([said[0]])


def rule_of(r):
    book, action, noun, second, place, scene, condition, done = r
    aspects = b"".join(aspect_of(said) for said in [noun, second, place])
    body = bytes([0]) + u(2, done[1]) if done[0] == 0 else bytes(done)
    return u(2, book) + u(1, action) + aspects + u(1, scene) + u(2, condition) + body


def line_of(action, tokens):
    return u(1, action) + listed(2, tokens)


def rules_written(t):
    """The bytes of tables 8 to 12, where the lines of the grammar have numbers of strings."""
    return (table(t["actions"]) + table(line_of(*line) for line in t["grammar"]) + table(rule_of(r) for r in t["rules"])
            + table(table(u(2, n) for n in book) for book in t["books"])
            + table(u(1, recurs) + u(2, begins) + u(2, ends) for recurs, begins, ends in t["scenes"]))


def values_written(t, named):
    """The bytes of tables 14 and 15, where names of values have numbers by this."""
    return (table([listed(2, [named(name) for name in names]) + listed(1, given) for names, given in t["values"]])
            + table(listed(1, owned) for owned in t["owned"]))


def written(t):
    """The bytes of tables whose strings stand as themselves, in lines of the grammar and codes too; they are numbered as they are
    named."""
    strings = []

    def named(text):
        if text not in strings:
            strings.append(text)
        return strings.index(text)

    def line(action, tokens):
        return action, [token if isinstance(token, int) else named(token) for token in tokens]

    def coded(part):
        return u(2, named(part.text)) if isinstance(part, Said) else part

    def entry(o):
        return (u(1, o["kind"]) + u(2, named(o["name"])) + u(1, o["article"]) + u(2, o["code"])
                + listed(2, [named(w) for w in o["words"]]) + u(1, o["relation"]) + u(2, o["holder"])
                + listed(1, o["flags"]) + listed(4, o["numbers"]))

    objects = table([entry(o) for o in t["objects"]])
    rules = rules_written(dict(t, grammar=[line(*told) for told in t["grammar"]]))
    codes = table(u(2, len(code)) + code for code in [b"".join(coded(part) for part in parts) for parts in t["codes"]])
    ways = table(b"".join(u(2, room) + u(2, door) for room, door in ways) for ways in t["ways"])
    values = values_written(t, named) if t["values"] else b""
    return (b"I7ST" + u(2, 2 if values else 1) + table(u(2, len(text)) + text for text in strings)
            + table(u(1, above) for above in t["kinds"]) + table(listed(1, given) for given in t["flags"])
            + table(listed(1, given) for given in t["numbers"]) + table(u(4, v) for v in t["variables"])
            + objects + ways + rules + codes + values)


def parted(t, code):
    """A code with the strings that it says in the place of their numbers."""
    parts, behind = [b""], 0
    for place, _, arguments, end in plain_codes.cut(code):
        if "S" in arguments:
            parts += [parts.pop() + code[behind : place + 1], Said(t["strings"][arguments["S"]]), b""]
            behind = end
    return [*parts[:-1], parts[-1] + code[behind:]]


def unnumbered(data):
    """The tables of a story with the strings in the place of their numbers."""
    t = tables(data)
    codes = [parted(t, code) for code in t["codes"]]
    objects = [dict(o, name=t["strings"][o["name"]], words=[t["strings"][w] for w in o["words"]]) for o in t["objects"]]
    values = [([t["strings"][name] for name in names], given) for names, given in t["values"]]
    return dict(t, objects=objects, grammar=lines_told(t), codes=codes, values=values)


def furnished(story):
    """A story of two rooms with kinds, things and a room more, and with codes that work out what they say."""
    t = unnumbered(story)

    def add(kind, name, relation=NONE8, holder=NONE16, flags=(), numbers=(), code=NONE16):
        words = name_words(name)
        t["objects"].append({"kind": kind, "name": name, "article": 1, "code": code, "words": words,
                             "relation": relation, "holder": holder, "flags": flags, "numbers": numbers})

    t["kinds"] = KINDS + [ROOM, CONTAINER, 11, 8]
    t["numbers"], t["variables"] = [[CONTAINER], [THING, 12]], [7, 2 ** 32 - 1]
    t["objects"][0]["numbers"] = [1]
    t["objects"][14]["kind"] = 10
    add(11, b"box", 0, 13, [0, 8], [3, 4])
    add(THING, b"Silver coin", 0, 15, [3, 8], [2 ** 31], code=1)
    add(SUPPORTER, b"table", 0, 13, [6, 8], [0], code=2)
    add(9, b"Ann", 0, 14, [8], [0], code=3)
    add(THING, b"hat", 3, 18, [7, 8], [0])
    add(THING, b"ball", 2, 0, [8], [0])
    add(THING, b"handle", 4, 15, [8], [0])
    add(DOOR, b"gate", NONE8, NONE16, [1, 6, 8], [0])
    add(ROOM, b"Cave", NONE8, NONE16, [4])
    add(12, b"bag", 1, 17, [0], [1, 2])
    add(13, b"Tom", 0, 23, [8], [5])
    t["ways"].append([(14, NONE16), (13, 22)] + [(NONE16, NONE16)] * 9 + [(NONE16, 22)])
    t["ways"][0][1] = (23, 22)
    t["codes"] += [
        # the location's name, and a string
        [bytes.fromhex("10 23 01 22"), Said(b" gleams."), bytes.fromhex("37")],
        # one string or another, by the number of objects of which test 4 holds
        [bytes.fromhex("20 00 0004 01 00000002 09 32 0013 22"), Said(b"Bare."), bytes.fromhex("33 0016 22"), Said(b"Full."), bytes.fromhex("37")],
        # a list of the objects of which test 5 holds
        [bytes.fromhex("21 01 00 0005 37")],
        # it is described; it is a person
        [bytes.fromhex("11 00 12 08 01 3b")],
        [bytes.fromhex("11 00 13 06 3b")],
    ]
    return written(t)


def ruled(story):
    """A furnished story with two actions and lines for them, two scenes, two rulebooks and rules, among them one about nouns, a place and a scene and
    one that is standard and about an action of the author's, and one that tries another; the Hall's description asks about a
    scene; both scenes would end, but nothing begins them."""
    t = unnumbered(furnished(story))
    t["actions"] += [bytes([2, CARRIED, SEEN, LIGHT]), bytes([0, NONE8, NONE8, OUT_OF_WORLD])]
    # the author's lines stand in front of those of every story
    t["grammar"][:0] = [(16, [b"Weigh", SOMETHING, b"with", SOMETHING]), (17, [b"score"]), (2, [b"take", SOMETHING])]
    t["scenes"] = [(1, NONE16, 9), (0, NONE16, 10)]
    t["books"] = [[] for _ in range(BUILT_IN_BOOKS + 4 + 2)]
    t["books"][0], t["books"][EVERY_TURN], t["books"][13] = [2], [4, 0], [3]
    anything, always = (0,), NONE16
    t["rules"] = [
        (EVERY_TURN, NONE8, anything, anything, anything, NONE8, always, (0, 4)),
        (12, 2, (1, 16), (2, CONTAINER, [(0, 1), (2, 0)]), (1, 13), 1, 5, (0, 6)),
        (0, 16, anything, (2, THING, []), anything, NONE8, always, (1, 61)),
        (13, NONE8, anything, anything, anything, NONE8, 7, (0, 8)),
        (EVERY_TURN, NONE8, anything, anything, anything, NONE8, always, (1, 1)),
    ]
    tests = t["codes"][4:]
    t["codes"][0] = [bytes.fromhex("1a 00 32 000b 22"), Said(b"Wet "), bytes.fromhex("33 000e 22"), Said(b"Dry "), bytes([SAY]), Said(b"hall."), bytes([DONE])]
    # the tests that the table and Ann name stand behind the codes of the rules and the scenes
    t["codes"][2][0] = t["codes"][2][0].replace(bytes.fromhex("20 00 0004"), bytes.fromhex("20 00 000b"))
    t["codes"][3][0] = t["codes"][3][0].replace(bytes.fromhex("21 01 00 0005"), bytes.fromhex("21 01 00 000c"))
    t["codes"][4:] = [
        [bytes([SAY]), Said(b"Tick."), bytes([SAY]), Said(b"\n"), bytes([DONE])],
        # a scene happens; the noun is lit, and nothing is decided
        [bytes.fromhex("1a 01 3b")],
        [bytes.fromhex("0e 26 03 01 38")],
        # fewer than two rooms; each lit thing is named, an action tried, a rulebook followed, the story ended
        [bytes.fromhex("20 00 000d 01 00000002 09 3b")],
        [bytes.fromhex("34 00 35 00 000e 000f 11 00 23 01 33 0002 0e 0f 30 01 11 31 000d 36"), Said(b"Over."), bytes.fromhex("3a")],
        # there have been two turns; it is dark
        [bytes.fromhex("01 00000002 04 0a 3b")],
        [bytes.fromhex("19 3b")],
        *tests,
        [bytes.fromhex("11 00 13 01 3b")],
        [bytes.fromhex("11 00 12 03 01 3b")],
    ]
    return written(t)


def valued(story):
    """A furnished story with two kinds of value, the one of things, the other of rooms and containers; the Hall's description asks
    for a value and names it."""
    t = unnumbered(furnished(story))
    t["values"] = [([b"red", b"blue", b"red"], [THING]), ([b"dry", b"Silver coin"], [ROOM, CONTAINER])]
    t["owned"] = [[(number + q) % len(t["values"][q][0]) for q in values_had(t, o["kind"])] for number, o in enumerate(t["objects"])]
    t["codes"][0] = [bytes.fromhex("10 1e 01 00 32 000d 22"), Said(b"Dry "), bytes.fromhex("33 0010 22"), Said(b"Wet "), bytes.fromhex("10 2c 01 37")]
    return written(t)


def crowded(story):
    """A story at its limits: 1,000 objects in a chain, 100 kinds in a chain, 100 properties given to many, lines of 32 words."""
    t = unnumbered(story)
    t["kinds"] = KINDS + [CONTAINER] + list(range(10, 99))
    t["flags"] = FLAGS + [list(range(99, 9, -1))[::-1]] * 89
    t["numbers"] = [list(range(10, 100))] * 60
    t["grammar"][:0] = [(12, [b"%d" % (number * word) for word in range(32)]) for number in range(100)]
    for number in range(15, 1000):
        name = b"box %d" % number
        t["objects"].append({"kind": 99, "name": name, "article": 1, "code": NONE16, "words": name_words(name),
                             "relation": 0, "holder": number + 1 if number < 999 else 13,
                             "flags": [0] + list(range(11, 100)), "numbers": [0] * 60})
    return written(t)
