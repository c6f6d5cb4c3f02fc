#!/usr/bin/env python3
"""Compares what bodies of tests/bodies/phrases.json mean with trees written by hand, for rules are resolved before they are emitted.

Use: tests/rule_trees.py PROGRAM    (the program of `i7story`; that of `calls` is built where it isn't yet)

Objects go by their numbers: the player is 0, north to outside are 1 to 12, and the source's own follow by first mention;
variables, properties and scenes go by theirs."""
import json
import pathlib
import subprocess
import tempfile

from programs import calls_of
from row_files import report

folder = pathlib.Path(__file__).resolve().parent / "bodies"


# ---- trees, as the program prints them


def record(name, **fields):
    return name + " { " + ", ".join(f"{field}: {told}" for field, told in fields.items()) + " }"


def row(parts):
    return "[" + ", ".join(parts) + "]"


def printed(text):
    """The bytes of a text."""
    return record("TextBytes", bytes=list(text.encode()))


def the(number):
    return f"The(ObjNo({number}))"


def room_from(direction, room):
    return f"RoomFrom({direction}, {room})"


def door_from(direction, room):
    return f"DoorFrom({direction}, {room})"


def those(*adjectives, kind=None):
    """The objects of a kind of which these hold, each a property and which of its names."""
    told = [record("Adjective", quality=f"Is({flag}, {side})", denied="false") for flag, side in adjectives]
    kind = "None" if kind is None else f"Some(KindNo({kind}))"
    return record("Description", adjectives=record("Listed", all=row(told)), kind=kind, held="None")


def number(first, *joined):
    """A number, and what is joined to it, each an operator and a term."""
    return record("Number", first=first, rest=row(record("Joined", operator=operator, term=term) for operator, term in joined))


def literal(value):
    return f"Literal({value})"


SCORE, LEVEL = "Variable(0)", "Variable(1)"


def is_(term, value):
    return f"Equals({number(term)}, {number(literal(value))})"


def clause(basic, denied=False):
    return record("Clause", basic=basic, denied=str(denied).lower())


def conjunction(first, *rest):
    return record("Conjunction", first=first, rest=row(rest))


def either(first, *rest):
    return record("Condition", first=first, rest=row(rest))


def if_so(basic, denied=False):
    return either(conjunction(clause(basic, denied)))


def piece(text):
    return f"Bytes({printed(text)})"


def figure(*told):
    return f"Figure({number(*told)})"


def plain(told):
    return f"Plain({told})"


BREAK = plain(piece("\n"))


def text(*parts):
    return record("Text", parts=row(parts))


def say_all(*parts):
    return f"Say({text(*parts)})"


def say(words):
    """What says nothing but words that end no sentence."""
    return plain(say_all(plain(piece(words))))


def sentence(words):
    return plain(say_all(plain(piece(words)), BREAK))


def branch(condition, *phrases):
    return record("Branch", condition=condition, phrases=row(phrases))


def if_(first, *branches, otherwise=()):
    return f"If({first}, {row(branches)}, {row(otherwise)})"


def repeat(description, *phrases):
    return f"Repeat({description}, {row(phrases)})"


def instead(simple):
    return f"Instead({simple})"


def now(variable, *told):
    """A variable is set to a number."""
    return f"NowVariable({variable}, {number(*told)})"


def end(words="The End"):
    return f"EndStory({printed(words)})"


SUCCEEDS, FAILS, UNDECIDED = "Leave(Decides(Success))", "Leave(Decides(Failure))", "Leave(NoDecision)"
PLUS, MINUS, TIMES = "Plus", "Minus", "Times"
DIRECTIONS = those(kind=2)

# ---- what the bodies mean, by the names of their cases

TREES = {
    "text-01": [sentence("Hello.")],
    "text-02": [sentence("Well?"), sentence("Go!"), sentence('"No."'), say("so"), sentence("x.")],
    "text-03": [say("Hello. ")],
    "text-07": [say(""), say("x")],
    "description-of-03": [plain(say_all(plain("DescriptionOf(Location)"), plain(piece("x"))))],
    "list-05": [plain(say_all(plain(f"Listing(Plain, {DIRECTIONS})")))],
    "number-12": [plain(say_all(plain(figure(literal(-2147483648), (MINUS, literal(1))))))],
    "number-16": [plain(now(1, literal(-2147483648))), plain(now(0, literal(0), (MINUS, LEVEL)))],
    "number-18": [plain(now(0, literal(2147483647))), plain(now(0, SCORE, (PLUS, literal(1))))],
    "number-19": [plain(now(0, literal(-2147483647))), plain(now(0, SCORE, (MINUS, literal(2))))],
    "number-20": [if_(branch(if_so(f"Equals({number(literal(2147483647), (PLUS, LEVEL))}, {number(literal(0))})"), say("x")))],
    "number-21": [if_(branch(either(conjunction(
        clause(is_(LEVEL, 1)), clause(f"Equals({number(literal(2147483647), (PLUS, LEVEL))}, {number(literal(0))})"))), say("x")))],
    "number-22": [if_(branch(either(
        conjunction(clause(is_(LEVEL, 5))), conjunction(clause(is_(SCORE, 0))),
        conjunction(clause(f"Equals({number(literal(2147483647), (PLUS, LEVEL))}, {number(literal(0))})"))), say("x")))],
    "number-24": [repeat(DIRECTIONS, plain(now(0, SCORE, (PLUS, literal(1000000000)))))],
    "now-23": [
        plain(f"NowNowhere({the(13)})"), plain(f"NowNowhere({the(14)})"), plain(f"NowNowhere({the(1)})"), plain("NowNowhere(Nothing)"),
        plain(say_all(
            plain("Name(Plain, Location)"), plain(piece(", ")), plain(f"Name(Definite, {door_from(the(1), the(14))})"), plain(piece(", ")),
            f"If({if_so('IsSo(' + the(13) + ', ' + record('Adjective', quality='Visible', denied='false') + ')')}, "
            f"{row([piece('visible')])}, [])")),
    ],
    "set-number-01": [
        plain(now(0, literal(3))), plain(now(1, SCORE, (TIMES, LEVEL))), plain(now(0, LEVEL, (MINUS, SCORE))),
        plain(say_all(plain(figure(SCORE)), plain(piece(" ")), plain(figure(LEVEL)))),
    ],
    "set-number-04": [
        plain(now(0, f"CountOf({those(kind=0)})")),
        plain(now(1, "TurnCount", (PLUS, f"CountOf({those(kind=1)})"), (TIMES, literal(10)))),
        plain(say_all(plain(figure(SCORE)), plain(piece(" ")), plain(figure(LEVEL)))),
    ],
    "if-01": [if_(branch(if_so(is_(SCORE, 0)), say("a")))],
    "if-02": [if_(branch(if_so(is_(SCORE, 1)), say("a"))), say("b")],
    "if-03": [if_(branch(if_so(is_(SCORE, 1)), say("a")), otherwise=[say("b")])],
    "if-04": [if_(branch(if_so(is_(SCORE, 0)), say("a")), otherwise=[say("b")]), say("c")],
    "if-05": [if_(branch(if_so(is_(SCORE, 0)), say("a"), say("b"))), say("c")],
    "if-06": [
        if_(branch(if_so(is_(SCORE, 1)), say("a")), branch(if_so(is_(LEVEL, 5)), say("b")), branch(if_so(is_(LEVEL, 5)), say("c")),
            otherwise=[say("d")]),
        say("e"),
    ],
    "if-07": [if_(branch(if_so(is_(SCORE, 1)), say("a")), branch(if_so(is_(LEVEL, 4)), say("b")), otherwise=[say("d"), say("e")])],
    "if-08": [if_(branch(if_so(is_(SCORE, 1)), say("a")), branch(if_so(is_(LEVEL, 4)), say("b"))), say("e")],
    "if-10": [
        if_(branch(if_so(is_(SCORE, 0)),
                   if_(branch(if_so(is_(LEVEL, 1)), say("a")), otherwise=[say("b"), if_(branch(if_so(is_(LEVEL, 5)), say("c")))])),
            otherwise=[say("d")]),
        say("e"),
    ],
    "if-11": [if_(branch(if_so(is_(SCORE, 0)), if_(branch(if_so(is_(LEVEL, 1)), say("a")), otherwise=[say("b")])), otherwise=[say("c")])],
    "if-12": [
        if_(branch(if_so(is_(SCORE, 0)), say("a"))), if_(branch(if_so(is_(LEVEL, 1)), say("b")), otherwise=[say("c")]), say("d"),
    ],
    "if-13": [if_(branch(if_so(is_(SCORE, 0)), say("a"), say("b")))],
    "if-14": [say("a"), say("b"), if_(branch(if_so(is_(LEVEL, 5)), say("c")), otherwise=[say("d")])],
    "if-16": [say("a"), say("b")],
    "if-18": [say("a"), if_(branch(if_so(is_(SCORE, 0)), say("b")))],
    "if-19": [if_(branch(if_so(is_(SCORE, 0)), say("a")), otherwise=[say("b")])],
    "if-20": [if_(branch(if_so(is_(LEVEL, 5)), say("a"), plain(SUCCEEDS))), say("b")],
    "repeat-23": [repeat(
        DIRECTIONS, plain(now(0, SCORE, (PLUS, literal(1)))),
        if_(branch(if_so(f"IsAtMost({number(literal(10))}, {number(SCORE)})"),
                   plain(say_all(plain(figure(SCORE)), plain(piece(" ")), plain("Name(Plain, Turning(0))"), plain(piece("; ")))))))],
    "repeat-24": [
        repeat(those(kind=0), plain(now(0, SCORE, (PLUS, "PropertyOf(0, Turning(0))"), (TIMES, "PropertyOf(0, Turning(0))")))),
        plain(say_all(plain(figure(SCORE)))),
    ],
    "repeat-27": [repeat(DIRECTIONS, repeat(DIRECTIONS, repeat(DIRECTIONS, repeat(DIRECTIONS, say("")))))],
    "decision-01": [say("a"), plain(SUCCEEDS), say("b")],
    "decision-02": [say("a"), plain(FAILS), say("b")],
    "decision-03": [say("a"), plain(UNDECIDED), say("b")],
    "decision-05": [say("a"), plain(FAILS), say("b")],
    "decision-06": [instead(say_all(plain(piece("a")))), say("b")],
    "decision-07": [if_(branch(if_so(is_(SCORE, 0)), instead(now(0, literal(3))))), say("b")],
    "decision-09": [if_(branch(if_so(is_(SCORE, 1)), say("a")), otherwise=[instead(say_all(plain(piece("b"))))]), say("c")],
    "decision-10": [instead(SUCCEEDS)],
    "decision-13": [if_(branch(if_so("InDarkness"), plain(FAILS)), otherwise=[plain(SUCCEEDS), plain(FAILS)])],
    "decision-14": [if_(branch(if_so("InDarkness"), plain(FAILS))), sentence("x.")],
    "ending-01": [plain(end()), say("a")],
    "ending-02": [plain(end())],
    "ending-05": [plain(end(""))],
    "ending-06": [instead(end("No")), say("a")],
}


def told(sources):
    """The trees of the one rule of each source, a line for each."""
    with tempfile.NamedTemporaryFile("w", newline="") as scratch:
        scratch.write("".join(source + "\x1e" for source in sources))
        scratch.flush()
        done = subprocess.run([*calls_of("rules"), "trees", scratch.name], capture_output=True, check=True, timeout=60)
    return done.stdout.decode().split("\n")[:-1]


def main():
    sources = {case["name"]: case["source"] for case in json.loads((folder / "phrases.json").read_text())}
    lines = told([sources[name] for name in TREES])
    report("rule trees", ((name, line, row(TREES[name])) for name, line in zip(TREES, lines, strict=True)))


if __name__ == "__main__":
    main()
