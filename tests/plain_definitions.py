"""A plain reader of crates/play_meaning/specs/StandardRules.antt: works out its definitions, and tells the bodies of the rules as
the program of `calls` prints trees. What they take from other files stands here by the tables of docs/story-format.md."""
import pathlib
import re

from rule_trees import branch, clause, conjunction, either, if_, instead, number, piece, plain, record, row, text

FILE = pathlib.Path(__file__).resolve().parents[1] / "crates/play_meaning/specs/StandardRules.antt"
TOKEN = re.compile(r'"[^"]*"|[()\[\]{};]|[^\s()\[\]{};"]+')
KINDS = {"thing": 0, "container": 4, "supporter": 5, "person": 6, "device": 7}
FLAGS = {"open": 0, "openable": 1, "scenery": 5, "fixed_in_place": 6, "wearable": 7, "described": 8, "switched_on": 9, "visited": 10}
ACTIONS = [
    "looking", "examining", "taking", "dropping", "putting_on", "inserting", "opening", "closing", "going", "wearing", "taking_off",
    "taking_inventory", "waiting", "jumping", "switching_on", "switching_off"]
GIVEN = {
    **{f"{name}_kind": value for name, value in KINDS.items()}, **{f"{name}_flag": value for name, value in FLAGS.items()},
    **{name: value for value, name in enumerate(ACTIONS)}, "check_book": 2, "carry_out_book": 3, "report_book": 5,
    "true": True, "false": False, "dark_text": "It is pitch dark, and you can't see a thing.\n",
    # texts stand for the lists of their bytes
    "codes": lambda text: text, "said": lambda text: text + "\n", "pos": lambda value: value}


# ---- definitions


def definitions():
    """The definitions of the file: of each name its parameters and the tokens that it is."""
    code = re.sub(r"(?m)^--.*$", "", FILE.read_text())
    found = {}
    for told in re.finditer(r"(?m)^(\w+)((?: \w+)*) =((?:.*(?:\n +.*)*))", code):
        found[told[1]] = told[2].split(), TOKEN.findall(told[3])
    return found


class Reader:
    """Works out tokens, by definitions, with values for parameters."""

    def __init__(self, tokens, values, names):
        self.tokens, self.values, self.names, self.place = tokens, values, names, 0

    def next(self):
        return self.tokens[self.place] if self.place < len(self.tokens) else ""

    def take(self):
        self.place += 1
        return self.tokens[self.place - 1]

    def whole(self):
        """Values that `++` or `∷` joins, to the right."""
        value = self.applied()
        if self.next() == "++":
            self.take()
            return joined(value, self.whole())
        if self.next() == "∷":
            self.take()
            return joined([value], self.whole())
        return value

    def applied(self):
        """A value, with those behind it as its arguments."""
        if self.next() == "record":
            return self.record()
        value = self.one()
        while self.next() not in ("", ")", "]", "}", ";", "++", "∷"):
            argument = self.one()
            value = value + (argument,) if isinstance(value, tuple) else value(argument)
        return value

    def record(self):
        self.place += 2
        fields = {}
        while self.next() != "}":
            name = self.take()
            self.take()
            fields[name] = self.whole()
            if self.next() == ";":
                self.take()
        self.take()
        return fields

    def one(self):
        token = self.take()
        if token == "(":
            value = self.whole()
            self.take()
            return value
        if token == "[":
            self.take()
            return []
        if token[0] == '"':
            return token[1:-1]
        if token.isdigit():
            return int(token)
        if token in self.values:
            return self.values[token]
        # a constructor and its arguments are a tuple
        return (token,) if token[0].isupper() else value_of(token, self.names)


def joined(front, behind):
    """Two lists, or two texts: a list of numbers is a text."""
    if isinstance(front, str) or isinstance(behind, str) or front and isinstance(front[0], int):
        front, behind = (told if isinstance(told, str) else "".join(map(chr, told)) for told in (front, behind))
    return front + behind


def value_of(name, names):
    """What a name stands for: what is given, or its definition, which takes its parameters one by one."""
    if name in GIVEN:
        return GIVEN[name]
    parameters, tokens = names[name]

    def taking(values):
        if len(values) == len(parameters):
            return Reader(tokens, dict(zip(parameters, values)), names).whole()
        return lambda value: taking([*values, value])
    return taking([])


# ---- as trees are printed


def object_told(told):
    name, *parts = told
    if name == "The":
        return f"The(ObjNo({parts[0]}))"
    return f"{name}({', '.join(map(object_told, parts))})" if parts else name


def adjective_told(told, denied=False):
    if told[0] == "NotSo":
        return adjective_told(told[1], not denied)
    quality = f"Is({told[1]}, {told[2][0]})" if told[0] == "Quality" else told[0]
    return record("Adjective", quality=quality, denied=str(denied).lower())


def description_told(told):
    _, adjectives, kind, *held = told
    place = "None"
    if held:
        place = f"Some({record('Held', relation=held[0][0], holder=object_told(held[1]))})"
    kind = "None" if kind == ("None",) else f"Some(KindNo({kind[1]}))"
    return record("Description", adjectives=record("Listed", all=row(map(adjective_told, adjectives))), kind=kind, held=place)


def number_told(told):
    return number(f"CountOf({description_told(told[1])})" if told[0] == "CountOf" else f"Literal({told[1]})")


# what stands at the places of a condition
PARTS = {
    "IsSo": [object_told, adjective_told], "IsOne": [object_told, description_told], "IsSame": [object_told, object_told],
    "IsHeld": [object_told, lambda relation: relation[0], object_told],
    "IsHeldByOne": [object_told, lambda relation: relation[0], description_told], "Has": [object_told, object_told],
    "Encloses": [object_told, object_told], "HasDescription": [object_told], "IsAtMost": [number_told, number_told], "InDarkness": []}


def clause_told(told, denied=False):
    name, *parts = told
    if name == "Not":
        return clause_told(parts[0], not denied)
    said = ", ".join(tell(part) for tell, part in zip(PARTS[name], parts, strict=True))
    return clause(f"{name}({said})" if said else name, denied)


def condition_told(told):
    parts = told[1:] if told[0] == "And" else [told]
    return either(conjunction(*map(clause_told, parts)))


def bytes_told(told):
    """The pieces of bytes: a break of the line is one of its own."""
    return [piece(part) for part in re.findall(r"\n|[^\n]+", told or "")]


def pieces_told(told):
    """What a text says one behind the other, all of it plain."""
    return [said for name, *parts in chain(told) for said in piece_told(name, parts)]


def piece_told(name, parts):
    if name == "Bytes":
        return bytes_told(parts[0])
    if name == "Name":
        return [f"Name({parts[0][0]}, {object_told(parts[1])})"]
    if name == "Listing":
        return [f"Listing({parts[0][0]}, {description_told(parts[1])})"]
    return [f"DescriptionOf({object_told(parts[0])})"]


def chain(told):
    """The parts of a text, each without those behind it."""
    while told != ("Silence",):
        yield told[:-1]
        told = told[-1]


def text_told(told):
    said = []
    for name, *parts in chain(told):
        if name == "IfSaid":
            condition, *sides = parts
            said.append(f"If({condition_told(condition)}, {', '.join(row(pieces_told(side)) for side in sides)})")
        else:
            said += [plain(part) for part in piece_told(name, parts)]
    return text(*said)


def simple_told(told):
    name, *parts = told
    if name == "Say":
        return f"Say({text_told(parts[0])})"
    if name == "NowIs":
        return f"NowIs({object_told(parts[0])}, {parts[1]}, {str(parts[2]).lower()})"
    if name == "NowHeld":
        return f"NowHeld({object_told(parts[0])}, {parts[1][0]}, {object_told(parts[2])})"
    return f"Try({str(parts[0]).lower()}, ActNo({parts[1]}), {object_told(parts[2])}, {object_told(parts[3])})"


def phrase_told(told):
    if told[0] == "If":
        return if_(branch(condition_told(told[1]), *phrases_told(told[2])), otherwise=phrases_told(told[3]))
    return instead(simple_told(told[1])) if told[0] == "Instead" else plain(simple_told(told))


def phrases_told(told):
    """The phrases of a body."""
    return [] if told == ("End",) else [phrase_told(told[1]), *phrases_told(told[2])]


def standard_bodies():
    """What the standard rules do, as trees are printed."""
    return [row(phrases_told(rule["body"])) for rule in value_of("standard_rules", definitions())]
