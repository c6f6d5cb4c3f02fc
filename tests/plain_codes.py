"""A plain checker of codes, which goes by the profile's words: where loops lie, where jumps lead, what stands on the operands;
and what makes codes that are sound, or nearly."""
import struct

TEST, DESCRIBING, BODY = 0, 1, 2

# Each instruction: its arguments, what it takes (the last pushed last) and what it gives. N, T, O: a number, a truth, an object.
# A kind of value is q, one of its values w. Arguments of two bytes: a test C, a string S, a rulebook B, a place P; of four: a number i; the others of one.
ROWS = {
    0x01: ("i", "", "i"), 0x02: ("v", "", "N"), 0x03: ("n", "O", "N"), 0x04: ("", "", "N"), 0x05: ("", "NN", "N"),
    0x06: ("", "NN", "N"), 0x07: ("", "NN", "N"), 0x08: ("", "=", "T"), 0x09: ("", "NN", "T"), 0x0A: ("", "NN", "T"),
    0x0B: ("", "T", "T"), 0x0C: ("", "TT", "T"), 0x0D: ("", "TT", "T"), 0x0E: ("", "", "O"), 0x0F: ("", "", "O"),
    0x10: ("", "", "O"), 0x11: ("l", "", "O"), 0x12: ("fd", "O", "T"), 0x13: ("k", "O", "T"), 0x14: ("r", "OO", "T"),
    0x15: ("r", "O", "O"), 0x16: ("", "OO", "T"), 0x17: ("", "O", "T"), 0x18: ("", "O", "T"), 0x19: ("", "", "T"),
    0x1A: ("s", "", "T"), 0x1B: ("", "O", "T"), 0x1C: ("", "OO", "O"), 0x1D: ("", "OO", "O"), 0x1E: ("qw", "O", "T"), 0x20: ("oC", "", "N"),
    0x21: ("moC", "", ""), 0x22: ("S", "", ""), 0x23: ("m", "O", ""), 0x24: ("", "N", ""), 0x25: ("", "O", ""),
    0x26: ("fb", "O", ""), 0x27: ("n", "ON", ""), 0x28: ("v", "N", ""), 0x29: ("r", "OO", ""), 0x2A: ("", "OO", ""),
    0x2B: ("", "O", ""), 0x2C: ("q", "O", ""), 0x2D: ("qw", "O", ""), 0x30: ("ba", "OO", ""), 0x31: ("B", "", ""), 0x32: ("P", "T", ""), 0x33: ("P", "", ""),
    0x34: ("o", "", ""), 0x35: ("xCP", "", ""), 0x36: ("S", "", ""), 0x37: ("", "", ""), 0x38: ("", "", ""),
    0x39: ("", "", ""), 0x3A: ("", "", ""), 0x3B: ("", "T", ""),
}
IF_ZERO, JUMP, BEGIN, NEXT, ANSWER = 0x32, 0x33, 0x34, 0x35, 0x3B
ENDS = range(0x37, 0x3C)
# The greatest value of an argument that means the same in each story.
LAST = {"r": 4, "d": 3, "b": 1, "m": 4}
COUNTED = {"v": "variables", "n": "numbers", "f": "flags", "k": "kinds", "s": "scenes", "a": "actions", "S": "strings", "B": "books"}
# How many there are of what arguments name; beside these `values` has how many values each kind of value has.
COUNTS = ["objects", "kinds", "flags", "numbers", "variables", "scenes", "strings", "codes", "actions", "books", "own"]


def packed_counts(sizes):
    """The counts as calls of codes read them."""
    return b"".join(struct.pack(">H", sizes[name]) for name in COUNTS) + bytes([len(sizes["values"]), *sizes["values"]])


def width(argument):
    return 4 if argument == "i" else 2 if argument in "CSBP" else 1


class Unsound(Exception):
    pass


def demand(holds):
    if not holds:
        raise Unsound


def cut(code):
    """The code's instructions: place, byte, arguments by their letters, the place behind."""
    place, found = 0, []
    while place < len(code):
        byte, start = code[place], place
        demand(byte in ROWS)
        place += 1
        arguments = {}
        for argument in ROWS[byte][0]:
            said = code[place : place + width(argument)]
            demand(len(said) == width(argument))
            arguments[argument] = int.from_bytes(said, "big", signed=argument == "i")
            demand(arguments[argument] <= LAST.get(argument, arguments[argument]))
            place += width(argument)
        found.append((start, byte, arguments, place))
    return found


def loops_of(found):
    """Where each loop lies: from its next turn up to its exit, in front of which a jump leads back."""
    behind = {end: (place, byte, arguments) for place, byte, arguments, end in found}
    starts = {place for place, _, _, _ in found}
    loops = []
    for place, byte, arguments, end in found:
        if byte == BEGIN:
            demand(any(p == end and b == NEXT for p, b, _, _ in found))
        if byte == NEXT:
            demand(behind.get(place, (0, 0, 0))[1] == BEGIN)
            leaving = arguments["P"]
            demand(leaving > place and leaving in starts)
            back = behind[leaving]
            demand(back[1] == JUMP and back[2]["P"] == place)
            loops.append((place, leaving))
    for place, byte, arguments, end in found:
        if byte == JUMP and arguments["P"] <= place:
            demand((arguments["P"], end) in loops)
    for a, b in loops:
        for c, d in loops:
            demand(not (a < c < b < d))
    return loops


def inside(loops, place):
    return sorted(loop for loop in loops if loop[0] <= place < loop[1])


def take(stack, wanted):
    """Takes what is wanted off the operands: each a set of the sorts that it may be."""
    if wanted == "=":
        demand(len(stack) > 1)
        demand(stack.pop() & stack.pop())
        return
    for sort in reversed(wanted):
        demand(stack and sort in stack.pop())


def is_named(argument, arguments, sizes, depth):
    value = arguments[argument]
    if argument in COUNTED:
        return value < sizes[COUNTED[argument]]
    values = sizes["values"]
    return {
        "q": value < len(values),
        "w": arguments.get("q", 0) < len(values) and value < values[arguments.get("q", 0)],
        "C": sizes["own"] < value < sizes["codes"],
        "l": value < depth,
        "o": value == depth and depth <= 8,
        "x": value + 1 == depth,
    }.get(argument, True)


def allowed(role, byte):
    if role == TEST:
        return byte <= 0x20 or byte == ANSWER
    if role == DESCRIBING:
        return byte <= 0x24 or byte in (0x2C, IF_ZERO, JUMP, 0x37)
    return byte != ANSWER


def check(code, role, around, sizes):
    demand(0 < len(code) < 65536)
    found = cut(code)
    loops = loops_of(found)
    before, stack = {}, []
    for place, byte, arguments, end in found:
        before[place] = len(stack)
        demand(allowed(role, byte))
        depth = around + len(inside(loops, place))
        demand(all(is_named(argument, arguments, sizes, depth) for argument in arguments))
        _, wanted, given = ROWS[byte]
        take(stack, wanted)
        if given == "i":
            stack.append({"N", "O"} if -1 <= arguments["i"] < sizes["objects"] else {"N"})
        elif given:
            stack.append({given})
        demand(len(stack) <= 64)
        if byte in ENDS:
            stack = []
        else:
            demand(byte not in (IF_ZERO, JUMP, BEGIN, NEXT) or not stack)
            demand(end < len(code) or byte == JUMP)
        if byte == ANSWER:
            demand(end == len(code))
    for place, byte, arguments, _ in found:
        if byte == IF_ZERO or (byte == JUMP and arguments["P"] > place):
            goal = arguments["P"]
            demand(goal > place and before.get(goal) == 0 and inside(loops, goal) == inside(loops, place))


def is_sound(code, role, around, sizes):
    try:
        check(code, role, around, sizes)
    except Unsound:
        return False
    return True


def strings_of(code):
    """The strings that a code names, in order."""
    return [arguments["S"] for _, _, arguments, _ in cut(code) if "S" in arguments]


def tests_of(code, around):
    """The tests that a code names, in order, each with how many loops are open around it."""
    found = cut(code)
    loops = loops_of(found)
    return [(arguments["C"], around + len(inside(loops, place)) + ("o" in arguments))
            for place, _, arguments, _ in found if "C" in arguments]


def are_table(codes, uses, sizes):
    """Whether codes are a table: first one for each of these uses, then the tests that codes name, each once and in turn."""
    wanted = [(use, 0) for use in uses]
    for number, code in enumerate(codes):
        if number == len(wanted):
            return False
        role, around = wanted[number]
        if not is_sound(code, role, around, {**sizes, "own": number, "codes": len(codes)}):
            return False
        for test, within in tests_of(code, around):
            if test != len(wanted):
                return False
            wanted.append((TEST, within))
    return len(wanted) == len(codes)


class Maker:
    """Makes codes that are sound, or nearly."""

    def __init__(self, chance, role, around, sizes):
        self.chance, self.role, self.around, self.sizes = chance, role, around, sizes

    def argument(self, letter, depth):
        count = min(self.sizes[COUNTED[letter]], 256 ** width(letter)) if letter in COUNTED else 0
        value = {
            "i": self.chance.choice([-1, 0, 1, self.sizes["objects"] - 1, self.sizes["objects"], -2, 70000]),
            "C": self.chance.randint(self.sizes["own"] + 1, max(self.sizes["own"] + 1, self.sizes["codes"] - 1)),
            "l": self.chance.randrange(max(1, depth)),
            "o": depth,
            "q": self.chance.randrange(max(1, len(self.sizes["values"]))),
            "w": self.chance.choice([0, 0, 1]),
        }.get(letter, self.chance.randrange(LAST[letter] + 1) if letter in LAST else self.chance.randrange(max(1, count)))
        return value.to_bytes(width(letter), "big", signed=letter == "i")

    def instruction(self, byte, depth):
        return bytes([byte]) + b"".join(self.argument(letter, depth) for letter in ROWS[byte][0])

    def value(self, sort, depth, deep):
        """Code that gives an operand of this sort."""
        fits = [b for b, (_, takes, gives) in ROWS.items() if gives == sort and (deep < 3 or not takes) and (b != 0x11 or depth)]
        byte = self.chance.choice(fits + ([0x01] if sort == "N" else []))
        takes = ROWS[byte][1]
        if takes == "=":
            takes = self.chance.choice(["NN", "TT", "OO"])
        return b"".join(self.value(part, depth, deep + 1) for part in takes) + self.instruction(byte, depth)

    def straight(self, depth):
        doing = [b for b, (_, _, gives) in ROWS.items() if not gives and b not in (IF_ZERO, JUMP, BEGIN, NEXT) and b not in ENDS]
        byte = self.chance.choice([b for b in doing if allowed(self.role, b)])
        return b"".join(self.value(part, depth, 1) for part in ROWS[byte][1]) + self.instruction(byte, depth)

    def phrases(self, place, depth, deep):
        """Code that stands at a place and leaves no operand."""
        made = b""
        for _ in range(self.chance.randrange(3)):
            shape = self.chance.randrange(5) if deep < 4 else 0
            if shape == 1:
                made += self.choice(place + len(made), depth, deep)
            elif shape == 2 and self.role == BODY:
                made += self.loop(place + len(made), depth, deep)
            elif shape == 3 and self.chance.randrange(4) == 0:
                made += bytes([0x37 if self.role == DESCRIBING else self.chance.choice([0x37, 0x38, 0x39, 0x3A])])
            else:
                made += self.straight(depth)
        return made

    def choice(self, place, depth, deep):
        test = self.value("T", depth, 1)
        first = place + len(test) + 3
        yes = self.phrases(first, depth, deep + 1)
        no = self.phrases(first + len(yes) + 3, depth, deep + 1)
        end = first + len(yes) + 3 + len(no)
        return test + struct.pack(">BH", IF_ZERO, first + len(yes) + 3) + yes + struct.pack(">BH", JUMP, end) + no

    def loop(self, place, depth, deep):
        turn = self.phrases(place + 8, depth + 1, deep + 1)
        test = self.argument("C", depth)
        return bytes([BEGIN, depth, NEXT, depth]) + test + struct.pack(">H", place + 11 + len(turn)) + turn + struct.pack(">BH", JUMP, place + 2)

    def code(self):
        if self.role == TEST:
            return self.value("T", self.around, 0) + bytes([ANSWER])
        return self.phrases(0, 0, 0) + bytes([0x37])


def changed(chance, code):
    code = bytearray(code)
    for _ in range(chance.choice([1, 1, 1, 2, 3])):
        place = chance.randrange(len(code)) if code else 0
        shape = chance.randrange(6)
        if shape == 0 and code:
            code[place] ^= 1 << chance.randrange(8)
        elif shape == 1 and code:
            code[place] = (code[place] + chance.choice([1, -1])) % 256
        elif shape == 2 and code:
            del code[place]
        elif shape == 3:
            code.insert(place, chance.choice(list(ROWS) + [0, 1, 2]))
        elif shape == 4:
            code = code[:place]
        else:
            code += bytes([chance.choice(list(ROWS))])
    return bytes(code)
