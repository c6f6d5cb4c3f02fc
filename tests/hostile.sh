#!/usr/bin/env bash
# Sources of the greatest length that are hard on a reader: each compiles or is refused within a second, as the first part of its name
# says, and those of few sentences, phrases, pieces of texts and words of rules and commands take at most 40 bytes of memory for each of
# theirs. And stories whose rules and codes are hard on a loader: each plays or is refused within a second, as the first part of its name
# says. And lines of as many commands as there may be, and of commands for as many things, and as many boxes as there may be, each in the one
# before: each is played within a second.
# A program that is built without proofs is slower: I7STORY_SECONDS says how many seconds each may take, where it isn't one.
# Use: tests/hostile.sh PROGRAM
set -u
program=$(realpath "$1")
here=$(realpath "$(dirname "$0")")
scratch=$(mktemp -d)
trap 'rm -rf "$scratch"' EXIT
cd "$scratch" || exit 1
python3 - <<'PY'
import random
longest = 262144
def save(name, unit):
    text = (unit * (longest // len(unit) + 1))[:longest]
    open(name + ".i7", "wb").write(text if isinstance(text, bytes) else text.encode())
save("C3_brackets", "[")
save("C5_quotes", '"')
save("C13_blanks", " ")
save("C13_lines_and_tabs", "\n\t")
save("C5_one_word", "x")
save("C6_is", "is ")
save("C5_of", "of ")
save("C5_articles", "a ")
save("C6_ways", "x is north of ")
save("C6_rules", "rule is listed first in ")
save("C6_actions", "is an action ")
save("C6_actions_applying", "x is an action applying to one thing and ")
save("C6_actions_requiring", "x is an action applying to nothing and requiring light ")
save("C6_actions_out_of_world", "is an action out of world and applying to one ")
save("C13_stops", ".")
save("C5_and", "and ")
save("C5_commas", ",")
save("C6_placed", "x is in ")
save("C13_carries", "carries ")
save("C5_open", "(")
save("C13_headings", "Part x\n\n")
save("C5_short", "x.")
save("C8_closed_texts", '"a." ')
save("C5_colons", ":")
half = longest // 2
open("C5_body.i7", "w").write(":" + "." * (longest - 1))
open("C5_text_brackets.i7", "w").write('Frob "' + "[" * (longest - 7) + '"')
open("C13_nested.i7", "wb").write(b"[" * half + b"]" * half)
open("C2_random.i7", "wb").write(random.Random(7).randbytes(longest))
hall = "The Hall is a room.\n\n"
def save_rule(name, front, unit, behind):
    count = (longest - len(hall + front + behind)) // len(unit)
    open(name + ".i7", "w").write(hall + front + unit * count + behind)
save_rule("C7_rule_conditions", "Every turn when x is y", " and x is y", ":\n\tsay \"a\".")
save_rule("C7_rule_alternatives", "Every turn when x is y", " or x is y", ":\n\tsay \"a\".")
save_rule("C7_rule_sum", "Every turn, now x is x", " plus x", ".")
save_rule("C7_rule_rooms", "Every turn, move x to the room", " north from the room", " x.")
save_rule("C7_rule_moves", "Every turn, move x", " to x", ".")
save_rule("C7_rule_gifts", "Every turn, now x", " carries", " x.")
save_rule("C7_rule_verbs", "Every turn when x", " has", " x, rule fails.")
save_rule("compiles_rule_phrases", "Every turn:", "\n\trule fails;", "")
save_rule("C7_rule_inline_ifs", "Every turn:", "\n\tif x is y, rule fails; otherwise rule fails;", "")
save_rule("C5_rule_words", "Every turn, say ", "x ", "\"a\".")
save_rule("C7_rule_substitutions", "Every turn, say \"", "[x]", "\".")
save_rule("C7_rule_text_ifs", "Every turn, say \"", "[if x is y]a[end if]", "\".")
save_rule("C7_description_substitutions", "\"", "[x]", "\"")
save_rule("C12_description", "\"", "a", "\"")
save_rule("C5_rule_colons", "Every turn", ":", "")
save_rule("C5_rule_heads", "Every turn", " when x is y (this is the rule", "")
save_rule("C7_rule_places", "A tidy rule", " in the rule", ", rule fails.")
save_rule("C7_rule_patterns", "Before x", " during x when x is y", ", rule fails.")
save_rule("C7_rule_pattern_words", "Before taking", " x", ", rule fails.")
save_rule("C12_rule_adjectives", "Before taking", " lit", " thing, rule fails.")
save_rule("C7_rule_scenes", "When x", " begins", ", rule fails.")
save("C5_scene_whens", "x begins when ")
save_rule("compiles_scene_conditions", "The storm is a scene. The storm begins when in darkness", " or in darkness", ".")
save_rule("C9_scene_changes", "The storm is a scene.\n", "The storm ends when in darkness.\n", "")
blocks = "".join("\t" * n + "if x is y:\n" for n in range(1, 700))
open("C5_rule_blocks.i7", "w").write(hall + "Every turn:\n" + blocks)
open("C12_rules_many.i7", "w").write(hall + "Every turn, rule fails.\n" * ((longest - len(hall)) // 24))
open("compiles_rules_of_patterns.i7", "w").write(hall + "Before taking a lit thing in a dark room, rule fails.\n" * 1939)
open("C7_rules_unknown.i7", "w").write(hall + "Before taking x, rule fails.\n" * ((longest - len(hall)) // 29))
def save_listings(name, rules, unit):
    """Saves rules of these names, and behind them as many listings as there is room for, of each in turn."""
    told = "".join(f"Every turn (this is the {rule} rule), rule fails.\n" for rule in rules)
    listings = [unit.format(rule) for rule in rules or ["list worn"]]
    count = (longest - len(hall + told)) // max(map(len, listings))
    open(name + ".i7", "w").write(hall + told + "".join(listings[n % len(listings)] for n in range(count)))
save_listings("compiles_listings_of_rules", [f"r{n}" for n in range(1939)], "The {} rule is listed first in the every turn rules.\n")
save_listings("compiles_listings_of_long_names", ["x" * 70 + f"{n}" for n in range(1500)], "The {} rule is listed last in the every turn rules.\n")
save_listings("compiles_listings_of_one_rule", [], "The {} rule is listed first in the carry out looking rules.\n")
save_listings("C7_listings_unknown", [f"r{n}" for n in range(1939)], "The x{} rule is not listed in any rulebook.\n")
save_listings("C8_listings_of_other_books", [f"r{n}" for n in range(1939)], "The {} rule is listed first in the report taking off rules.\n")
def save_actions(name, actions, behind=""):
    """Saves as many of these sentences as there is room for, each in turn, and these behind them."""
    count = (longest - len(hall + behind)) // max(map(len, actions))
    open(name + ".i7", "w").write(hall + "".join(actions[:count]) + behind)
APPLYING = "is an action applying to two things and requiring light.\n"
save_rule("compiles_action_of_many_words", "", "x ", "is an action applying to nothing.")
save_rule("compiles_action_of_one_long_word", "", "x", " is an action applying to nothing.")
save_rule("compiles_action_of_its", "", "it ", "is an action applying to one thing.")
save_rule("compiles_action_named_as_actions", "", "x is an action applying to nothing ", "is an action out of world.")
save_rule("compiles_action_without_end", "", "x is an action applying to one thing and one thing ", ".")
save_actions("C12_actions_many", [f"x{n} {APPLYING}" for n in range(9000)])
save_actions("C9_actions_of_one_name", [f"x {APPLYING}"] * 9000)
save_actions("compiles_actions_of_long_names", [f"{'x' * 1000} {n} {APPLYING}" for n in range(184)])
save_actions("compiles_actions_of_many_words", [f"{'x ' * 500}{n} {APPLYING}" for n in range(184)])
save_actions("C7_actions_of_near_names", [f"go it{' it' * n} {APPLYING}" for n in range(184)], "Before go" + " it" * 60 + ", rule fails.\n")
save_actions("C7_actions_in_places", [f"go in{' in' * n} {APPLYING}" for n in range(184)], "Before go" + " in" * 60 + ", rule fails.\n")
save_actions("C7_actions_of_one_front", [f"go it {n} {APPLYING}" for n in range(184)], "Before go" + " x" * 20000 + ", rule fails.\n")
save_actions("C7_actions_tried", [f"go it {n} {APPLYING}" for n in range(184)], "Every turn, try go" + " x" * 50000 + ".\n")
save_actions("compiles_rules_of_actions", [f"go it {n} {APPLYING}" for n in range(184)], "Before go the player 183 the player in a dark room, try go the player 0 the player.\n" * 1000)
save_actions("compiles_listings_of_actions", [f"go it {n} {APPLYING}" for n in range(184)], "The list worn rule is listed first in the carry out go it 183 rules.\n" * 3500)
save_actions("compiles_rulebooks_of_actions", [f"go it {n} {APPLYING}" for n in range(184)] + [f"The check go it {n} all rules is a rulebook.\n" for n in range(100)])
ball = hall + "The ball is in the Hall.\n"
def save_places(name, last):
    """Saves a chain of things in boxes, told twice, and a last place that closes a cycle at its one end or the other."""
    chain = "".join(f"x{n} is in x{n + 1}. " for n in range(900))
    places = chain * 4
    open(name + ".i7", "w").write(hall + places * ((longest - len(hall) - 100) // len(places)) + last)
save_places("C11_places_in_a_circle", "x900 is in x0.")
save_places("C11_places_in_a_short_circle", "x900 is in x899.")
def save_texts(name, count, unit, meaning):
    """Saves a sentence that says of so many such texts what they mean."""
    open(name + ".i7", "w").write(ball + "Understand " + "or".join([unit] * count) + "as " + meaning + ".\n")
save_texts("compiles_understand_texts", 65000, '""', "waiting")
save_texts("C12_understand_texts_too_many", 65503, '""', "waiting")
save_texts("compiles_understand_words_of_one", 50000, '"a"', "the ball")
save_rule("C12_understand_long_text", 'Understand "', "a ", '" as waiting.')
save_rule("C12_understand_longer_text", 'The ball is in the Hall. Understand "', "a ", '" as the ball.')
open("compiles_understand_long_words.i7", "w").write(ball + "Understand " + " or ".join(['"' + "a " * 32000 + '"'] * 4) + " as the ball.")
open("C12_understand_many_words.i7", "w").write(ball + 'Understand "' + " ".join(map(str, range(40000))) + '" as the ball.')
save_rule("C8_understand_slots", 'Understand "', "[something]", '" as taking.')
save_rule("C5_understand_brackets", 'Understand "', "[", '" as taking.')
save_rule("C7_understand_meaning", 'Understand "a" as', " x", ".")
save_rule("C5_understand_ors", 'Understand "a"', " or", ' "a" as waiting.')
save_rule("C7_understand_ass", 'Understand "a"', " as", " waiting.")
save("C5_understands", 'Understand "a" as ')
def save_sentences(name, unit):
    """Saves as many of these sentences as there is room for."""
    open(name + ".i7", "w").write(ball + unit * ((longest - len(ball)) // len(unit)))
things = "".join(f"x{n} is in the Hall.\n" for n in range(986))
everything = [f"x{n}" for n in range(986)]
opening = "Hall\nYou can see " + ", ".join(everything[:-1]) + f" and {everything[-1]} here.\n"
# a line of 128 looks; each of 986 things taken and dropped; and 51 commands of which all but eight have nothing to do
typed = ["l." * 127 + "l", "take all. drop all", "undo." * 51]
said = ["\n".join([opening] * 128), "\n".join("".join(f"{thing}: {done}.\n" for thing in everything) for done in ["Taken", "Dropped"]),
        "\n".join(["Previous turn undone.\n"] * 8 + ["You can't undo any further.\n"] * 43)]
open("many_commands.source", "w").write(hall + things)
open("many_commands.typed", "w").write("".join(line + "\n" for line in typed))
open("many_commands.want", "w").write("\n>".join([opening, *said, ""]))
# the most boxes, each in the one before; what is in the last is reached, and the first isn't put into what it holds
open("nested_boxes.source", "w").write(hall + "x0 is an open container in the Hall.\n" + "".join(f"x{n} is an open container in x{n - 1}.\n" for n in range(1, 986)))
open("nested_boxes.typed", "w").write("take x985\nput x985 in x984\ntake x0\nput x0 in x985\n")
said = ["Taken.\n", "You put x985 into x984.\n", "Taken.\n", "You can't put something into what it holds.\n"]
open("nested_boxes.want", "w").write("\n>".join(["Hall\nYou can see x0 here.\n", *said, ""]))
text = '"' + "a " * 30000 + '"'
open("compiles_understand_words_among_things.i7", "w").write(hall + things + f"Understand {text} or {text} or {text} or {text[:-40000]}\" as x985.\n")
save_sentences("compiles_understand_sentences", 'Understand "a" as ball.\n')
save_sentences("compiles_understand_lines", 'Understand "a" as waiting.\n')
save_sentences("C7_understand_unknown", 'Understand "a" as x.\n')
save_actions("compiles_understand_actions", [f"go it {n} {APPLYING}" for n in range(184)], 'Understand "go [something] [something]" as go it 183.\n' * 4500)
rooms = "".join(f"Room{n} is north of Room{n - 1}. \"The walls of room {n} are bare and cold here.\"\n\n" for n in range(1, 980))
open("compiles_rooms.i7", "w").write("Room0 is a room.\n\n" + rooms)
open("C12_long_rulebook.i7", "w").write("The Hall is a room. The " + "x" * 65536 + " rules is a rulebook.")
open("C12_long_property.i7", "w").write("The Hall is a room. A thing can be " + "x" * 65536 + ".")
words = "".join(f"Hall is a room.\n\n" for n in range(longest // 17))
open("compiles_one_room.i7", "w").write(words[:longest])
PY
echo 'The Hall is a room. "A bare hall." The Garden is north of the Hall.' >two_rooms.source
"$program" compile two_rooms.source two_rooms || exit 1
PYTHONPATH=$here python3 - <<'PY'
import random
from plain_stories import ACTIONS, NONE8, NONE16, SOMETHING, Cursor, tables, world_tables
from written_stories import rules_written, table, u
data = open("two_rooms", "rb").read()
head = Cursor(data)
head.take(6)
STRINGS = head.table(head.text)
world = Cursor(data)
world.take(6)
world_tables(world)
WORLD = data[head.place : world.place]
LINES = tables(data)["grammar"]
LONGEST = 65535
# the Hall's description says the last string
HALL = bytes.fromhex("22 003c 37")
assert STRINGS[0x3c:] == [b"A bare hall."]
ROOM = bytes.fromhex("11 00 13 01 3b")
ANYTHING = (0,)
NO_BOOKS = [[] for _ in range(8)]
def in_every_turn(listed):
    return NO_BOOKS[:6] + [listed] + NO_BOOKS[7:]
def save(name, rules, codes, strings=(), said=b"", **others):
    """Saves the story of two rooms with these rules, with codes behind that of the Hall, with strings behind its own, and perhaps
    with other tables. One that is played lists the rules in the every turn rules, and no rule of looking: this is said of a turn."""
    if name.startswith("plays_"):
        others.setdefault("books", in_every_turn(list(range(len(rules)))))
        open(name + ".want", "wb").write(b"\n>" + said + b"\n>")
    texts = table(u(2, len(text)) + text for text in [*STRINGS, *strings])
    told = rules_written({**tables(data), "rules": rules, "books": NO_BOOKS, **others})
    open(name + ".story", "wb").write(data[:6] + texts + WORLD + told + table(u(2, len(code)) + code for code in [HALL, *codes]))
def does(code):
    """A rule that does this code."""
    return (6, NONE8, ANYTHING, ANYTHING, ANYTHING, NONE8, NONE16, (0, code))
FOUR = [does(code) for code in range(1, 5)]
def named_in_turn(unit, size, first):
    """Bodies of as many units as there is room for, each naming the next test, and those tests."""
    count = (LONGEST - 1) // size
    bodies = [b"".join(unit(place * size, first + body * count + place) for place in range(count)) + b"\x37" for body in range(4)]
    return bodies, count * 4
def loop(place, test):
    return bytes.fromhex("34 00 35 00") + u(2, test) + u(2, place + 11) + b"\x33" + u(2, place + 2)
def count(place, test):
    return bytes.fromhex("20 00") + u(2, test) + b"\x24"
save("plays_long_bodies", FOUR, [bytes.fromhex("22 003c") * 21844 + b"\x37" * 3] * 4, said=STRINGS[0x3c] * 21844 * 4 + b"\n")
save("plays_choices", FOUR, [bytes.fromhex("19 32 fffc") * 16383 + b"\x37"] * 4)
bodies, tests = named_in_turn(loop, 11, 5)
save("plays_loops", FOUR, bodies + [ROOM] * tests, said=b"[The turn was abandoned: too much work.]\n")
bodies, tests = named_in_turn(count, 5, 5)
save("plays_tests", FOUR, bodies + [ROOM] * tests, said=b"2" * tests + b"\n")
save("L6_tests_out_of_turn", FOUR, bodies[::-1] + [ROOM] * tests)
save("L6_same_tests", FOUR, bodies[:1] * 4 + [ROOM] * tests)
save("L6_test_left_out", FOUR, bodies + [ROOM] * (tests - 1))
bodies, tests = bodies[:2], tests // 2
deep = [bytes.fromhex("20 01") + u(2, 3 + tests + number) + bytes.fromhex("01 00000000 08 3b") for number in range(tests)]
save("plays_tests_in_tests", FOUR[:2], named_in_turn(count, 5, 3)[0][:2] + deep + [ROOM] * tests, books=NO_BOOKS)
save("plays_strings", FOUR[:3], [b"".join(b"\x22" + u(2, 61 + body * 21823 + n) for n in range(21823)) + b"\x37" for body in range(3)], [b"%d" % n for n in range(65469)], said=b"".join(b"%d" % n for n in range(65469)) + b"\n")
save("plays_bodies_of_a_byte", [does(code) for code in range(1, 2001)], [b"\x37"] * 2000)
save("L6_codes_of_a_byte", [], [b"\x37"] * 65534)
save("L6_more_codes_of_a_byte", [does(code) for code in range(1, 2001)], [b"\x37"] * 65534)
save("L5_bodies_backwards", [does(code) for code in range(2000, 0, -1)], [b"\x37"] * 2000)
def names(test, loops=0):
    return bytes([0x20, loops]) + u(2, test) + bytes.fromhex("01 00000000 08 3b")
save("L6_each_names_the_next", FOUR[:1], [count(0, 2) + b"\x37"] + [names(number + 1, min(number - 1, 8)) for number in range(2, 65533)] + [ROOM])
save("L6_each_names_the_last", FOUR[:1], [count(0, 2) + b"\x37"] + [names(number - 1, 1) for number in range(2, 65534)])
save("L6_each_names_itself", FOUR[:1], [count(0, 2) + b"\x37"] + [names(number, 1) for number in range(2, 65534)])
save("L6_two_name_each_other", FOUR[:1], [count(0, 2) + b"\x37", names(3, 1), names(2, 2)])
save("L6_random", FOUR, [random.Random(7).randbytes(LONGEST) for _ in range(4)])
save("L6_jumps_back", FOUR, [bytes.fromhex("33 0000") * 21845] * 4)
save("L6_loops_in_loops", FOUR, [b"".join(bytes([0x34, n % 9, 0x35, n % 9]) + u(2, 5 + n) + u(2, LONGEST - 1) for n in range(8191)) + b"\x37" * 7] * 4)
save("L6_operands", FOUR, [bytes.fromhex("04") * (LONGEST - 1) + b"\x37"] * 4)
save("L6_jumps_into_arguments", FOUR, [bytes.fromhex("19 32 fffb") * 16383 + b"\x37"] * 4)
save("L5_many_rules", [does(1)] * LONGEST, [b"\x37"])
save("L5_many_books", [], [], books=[[]] * LONGEST)
save("L7_long_books", [does(1)], [b"\x37"], books=[[0] * LONGEST] * 8)
def standard(book):
    """A rule of this book that does what the first standard rule does."""
    return (book, NONE8, ANYTHING, ANYTHING, ANYTHING, NONE8, NONE16, (1, 1))
save("plays_full_book", [standard(6)] * 2000, [], books=in_every_turn(list(range(1999, -1, -1))), said=b"Hall\n" * 2000)
save("L7_last_again", [standard(6)] * 2000, [], books=in_every_turn([*range(2000), 1999]))
save("L7_last_of_another", [standard(6)] * 1999 + [standard(7)], [], books=in_every_turn(list(range(2000))))
save("L5_listed_behind", [standard(6)] * 2000, [], books=in_every_turn(list(range(2001))))
save("L5_many_scenes", [], [], books=[[]] * LONGEST, scenes=[(0, NONE16, NONE16)] * LONGEST)
dark = b"\x19" + b"\x0b" * (LONGEST - 3) + b"\x3b"
save("plays_scenes", [], [dark[:1] + dark[-8192:]] * 100, books=[[]] * 108, scenes=[(1, 2 * n + 1, 2 * n + 2) for n in range(50)])
save("L6_scenes_of_one_test", [], [dark], books=[[]] * 108, scenes=[(1, 1, 1)] * 50)
save("L5_tests_backwards", [], [dark] * 2, books=[[]] * 10, scenes=[(0, 2, 1)])
save("L5_many_actions", [], [], actions=ACTIONS + [bytes([1, 1, 255, 0])] * (LONGEST - len(ACTIONS)))
save("L5_many_standard_actions", [], [], actions=(ACTIONS * LONGEST)[:LONGEST])
def about(action):
    """A rule about this action that does the first code."""
    return (6, action, ANYTHING, ANYTHING, ANYTHING, NONE8, NONE16, (0, 1))
OWN = [bytes([2, 2, 2, 3])] * 184
save("plays_actions", [(*about(199)[:7], (0, code)) for code in range(1, 2001)], [bytes.fromhex("0e 0f 30 00 c7") * 6 + b"\x37"] * 2000, actions=ACTIONS + OWN)
save("L5_rules_of_other_actions", [about(199)] * 1999 + [about(200)], [b"\x37"], actions=ACTIONS + OWN)
save("L6_other_action_tried", FOUR, [bytes.fromhex("0e 0f 30 00 c7") * 13106 + b"\x37"] * 3 + [bytes.fromhex("0e 0f 30 00 c7") * 13105 + bytes.fromhex("0e 0f 30 00 c8 37")], actions=ACTIONS + OWN)
OWN_LINES = LONGEST - len(LINES)
LOOK = LINES[0][1][0]
save("plays_lines_of_slots", [], [], grammar=[(2, [SOMETHING])] * OWN_LINES + LINES)
save("plays_lines_of_two_slots", [], [], grammar=[(4, [LOOK, SOMETHING, SOMETHING])] * OWN_LINES + LINES)
save("plays_lines_of_32_words", [], [], grammar=[(0, [LOOK] * 32)] * 20000 + LINES)
save("L5_lines_of_33_words", [], [], grammar=LINES + [(0, [LOOK] * 32)] * 20000 + [(0, [LOOK] * 33)])
save("L5_lines_of_a_slot_too_many", [], [], grammar=[(2, [SOMETHING])] * OWN_LINES + LINES[1:] + [(2, [SOMETHING] * 2)])
save("L5_lines_backwards", [], [], grammar=LINES[::-1] * (LONGEST // len(LINES)))
def described(count):
    """A rule about three kinds with so many properties each."""
    kind = (2, 4, [(2, 0)] * count)
    return (6, NONE8, kind, kind, kind, NONE8, NONE16, (1, 1))
save("plays_properties", [described(9)] * 2000, [])
save("L5_properties", [described(9)] * 1999 + [described(255)], [])
PY
# The least address space, in KiB, in which an empty source is answered.
least_space() {
  local low=1024 high=1048576 middle
  while [ $((high - low)) -gt 16 ]; do
    middle=$(((low + high) / 2))
    (ulimit -v $middle; exec "$program" compile empty story) >out 2>&1 </dev/null
    if [ $? -le 1 ]; then high=$middle; else low=$middle; fi
  done
  echo $high
}
: >empty
space=$(($(least_space) + 40 * 256))
passed=0
failed=0
for source in *.i7; do
  limit=$space
  case $source in
    compiles_* | *_closed_texts.i7 | *_places_in_a_* | *_scene_changes.i7 | C12_long_*) limit=unlimited ;;
    *_rule_colons.i7 | *_rule_moves.i7 | *_rule_gifts.i7 | *_rule_verbs.i7 | *_rule_pattern_words.i7 | *_substitutions.i7 | *_rules_many.i7) limit=unlimited ;;
    *_actions_in_places.i7 | *_actions_many.i7 | *_actions_of_*.i7 | *_actions_tried.i7) limit=unlimited ;;
    *_understand_unknown.i7 | *_understand_texts_too_many.i7 | *_understand_long*_text.i7 | *_understand_meaning.i7) limit=unlimited ;;
  esac
  (ulimit -v "$limit"; exec timeout "${I7STORY_SECONDS:-1}" "$program" compile "$source" story) 2>err </dev/null
  status=$?
  case $source in
    compiles_*) [ $status = 0 ] && [ ! -s err ] ;;
    *) [ $status = 1 ] && grep -qE "^$source:[0-9]+: ${source%%_*} [A-Za-z]+\$" err ;;
  esac
  if [ $? = 0 ]; then
    passed=$((passed + 1))
  else
    failed=$((failed + 1))
    echo "hostile: $source: status $status, $(head -c 100 err)"
  fi
done
for story in *.story; do
  echo look | timeout "${I7STORY_SECONDS:-1}" "$program" play "$story" >out 2>err
  status=$?
  case $story in
    plays_*) [ $status = 0 ] && [ ! -s err ] && cmp -s out "${story%.story}.want" ;;
    *) [ $status = 2 ] && [ ! -s out ] && grep -qE "^$story: ${story%%_*} [A-Za-z]+\$" err ;;
  esac
  if [ $? = 0 ]; then
    passed=$((passed + 1))
  else
    failed=$((failed + 1))
    echo "hostile: $story: status $status, $(head -c 100 err)"
  fi
done
for played in many_commands nested_boxes; do
  "$program" compile $played.source $played || exit 1
  timeout "${I7STORY_SECONDS:-1}" "$program" play $played <$played.typed >out 2>err
  if [ $? = 0 ] && [ ! -s err ] && cmp -s out $played.want; then
    passed=$((passed + 1))
  else
    failed=$((failed + 1))
    echo "hostile: $played: $(head -c 100 err)"
  fi
done
echo "hostile: $passed passed, $failed failed"
[ $failed = 0 ]
