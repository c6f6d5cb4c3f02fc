"""Sources with rules, by a plain reading: where their sentences begin and end, and what these put into tables 8 to 12 of the story,
the actions, the lines of the grammar, the rules and the sentences that list them; and the words that they give objects."""
import re

from plain_stories import (
    ACTIONS, A_DIRECTION, AFTER, BEFORE, BUILT_IN_BOOKS, CARRIED, CARRY_OUT, CHECK, EVERY_TURN, INSTEAD, KINDS, LIGHT, NONE8, NONE16,
    OUT_OF_WORLD, REPORT, SEEN, SOMETHING, TOUCHED, kinds_above, standard_lines, standard_rules)

COMMENT = re.compile(r'("[^"]*")|\[[^]]*\]')
FINAL = re.compile(r"[.?!]'?$|$")
NEXT = re.compile(r'\s+["A-Z]|\s*$')
RULEBOOK = re.compile(r"(?:an? |the |some )?(.+) rules (?:is|are) a rulebook\.?", re.I | re.S)
CHANGE = re.compile(r"(?:an? |the |some )?(?P<scene>.+?) (?P<edge>begins|ends) when .+", re.I)
SCENE = re.compile(r"(?:an? |the |some )?(.+?) (?:is|are) a (recurring )?scene\.?", re.I | re.S)
# A sentence that declares an action: what it applies to, and whether it requires light or is out of world.
SLOT = "one (?:visible |carried )?thing"
SLOTS = f"nothing|{SLOT}(?: and {SLOT})?|two things"
ACTION = re.compile(
    rf"(?:an? |the |some )?(?P<name>.+?) (?:is|are) an action (?:applying to (?P<slots>{SLOTS})(?P<light> and requiring light)?"
    rf"|(?P<out>out of world)(?: and applying to (?P<out_slots>{SLOTS}))?)\.?", re.I)
NEEDS = {
    "nothing": [], "one thing": [TOUCHED], "one visible thing": [SEEN], "one carried thing": [CARRIED], "two things": [TOUCHED, TOUCHED]}
# A rule is a head, perhaps with a name, and behind a colon phrases, or behind a comma one of these.
RULE = re.compile(
    r"([\w' -]+?)(?: \(this is the (?P<name>.+?) rule\))?(?::|, ?(?:say|now|move|increase|decrease|(?:silently )?try|follow|rule|stop"
    r"|make|continue|end|if|repeat)\b)", re.I)
ACTION_BOOKS = ["before", "instead of", "check", "carry out", "after", "report"]
HEAD = re.compile(
    rf"(?P<acts>{'|'.join(ACTION_BOOKS)}) (?P<pattern>.+)|(?P<every>every turn)(?: in (?P<at>.+))?|when play begins"
    r"|when (?:an? |the |some )?(?P<scene>.+) (?P<edge>begins|ends)|(?:an? |the |some )?(?P<own>.+?) rule(?: in (?P<place>.+))?", re.I)
# What may stand behind all that: a scene and a condition.
ASKED = re.compile(r"(?P<front>.+?)(?: during (?:an? |the |some )?(?P<scene>.+?))?(?P<asks> when .+)?", re.I)
ACTION_NAMES = [
    "looking", "examining", "taking", "dropping", "putting it on", "inserting it into", "opening", "closing", "going", "wearing",
    "taking off", "taking inventory", "waiting", "jumping", "switching on", "switching off"]
KIND_NAMES = ["thing", "room", "direction", "door", "container", "supporter", "person", "device", "man", "woman"]
# of the properties of one word both names, the first with side 1, the second with side 0
PROPERTIES = {
    name: (number, 1 - place)
    for number, names in enumerate([["open", "closed"], ["openable", "unopenable"], ["transparent", "opaque"], ["lit", "unlit"],
                                    ["lighted", "dark"], ["scenery"], ["", "portable"], ["wearable"], ["described", "undescribed"],
                                    [], ["visited", "unvisited"]])
    for place, name in enumerate(names)}
ANYTHING = (0,)
# A sentence that lists a rule first or last in a rulebook, or in none.
LISTING = re.compile(
    r"(?:an? |the |some )?(?P<rule>.+?) rule (?:is|are) (?:listed (?P<at>first|last) in (?:an? |the |some )?(?P<book>.+?) rules"
    r"|not listed in any rulebook)\.?", re.I)
# A sentence that says what commands or words mean, and a slot in one of its texts.
UNDERSTAND = re.compile(r'understand (?P<texts>"[^"]*"(?: or "[^"]*")*) as (?:an? |the |some )?(?P<meaning>.+?)\.?', re.I)
SLOT_MARK = re.compile(r"\[\s*(something|direction)\s*\]", re.I)
SLOT_TOKENS = {"something": SOMETHING, "direction": A_DIRECTION}
# How a listing names the rulebooks that every story has: alone, or in front of an action.
LONE_BOOKS = {"before": BEFORE, "instead": INSTEAD, "after": AFTER, "every turn": EVERY_TURN}
STAGES = {"check": CHECK, "carry out": CARRY_OUT, "report": REPORT}
STAGE = re.compile(rf"({'|'.join(STAGES)}) (.+)")
# The names of the sixty-one standard rules, in the order of their numbers.
STANDARD_NAMES = """
room heading. room body text. room contents. mark visited.
examine description. examine containers. examine supporters. examine devices.
can't take yourself. can't take people. can't take parts. can't take what's held. can't take scenery. can't take what's fixed.
standard carry out taking. standard report taking.
can't drop what's not held. standard carry out dropping. standard report dropping.
can't put on itself. can't put on non-supporters. can't put on its contents.
standard carry out putting it on. standard report putting it on.
can't insert into itself. can't insert into non-containers. can't insert into its contents. can't insert into closed containers.
standard carry out inserting it into. standard report inserting it into.
can't open unopenable. can't open open. standard carry out opening. standard report opening.
can't close unopenable. can't close closed. standard carry out closing. standard report closing.
can't go through closed doors. can't go that way. standard carry out going. standard report going.
can't wear what's not wearable. can't wear what's worn. standard carry out wearing. standard report wearing.
can't take off what's not worn. standard carry out taking off. standard report taking off.
list carried. list worn. standard report waiting. standard report jumping.
can't switch on non-devices. can't switch on what's on. standard carry out switching on. standard report switching on.
can't switch off non-devices. can't switch off what's off. standard carry out switching off. standard report switching off
""".strip().replace(".\n", ". ").split(". ")


def without_comments(source):
    """The source with blanks in place of its comments, its line breaks kept."""
    return COMMENT.sub(lambda found: found[1] or re.sub(r"[^\n]", " ", found[0]), source)


def end_of(source, start):
    """Where the sentence ends that begins at `start`: behind a colon in front of the next line that isn't indented, else
    behind a full stop, behind a text that ends so, or at the end of the paragraph."""
    in_text = False
    for place in range(start, len(source)):
        char, behind = source[place], source[place + 1 : place + 2]
        if char == '"':
            in_text = not in_text
            if not in_text and FINAL.search(source[:place])[0] and NEXT.match(source, place + 1):
                return place + 1
        elif in_text:
            continue
        elif char == ":":
            line = re.compile(r"\n(?=\S)").search(source, place)
            return line.start() if line else len(source.rstrip())
        elif char == "." and (not behind or behind.isspace()) or source.startswith("\n\n", place):
            return place + (char == ".")
    return len(source)


def sentences(source):
    """The sentences of a source."""
    source, end = without_comments(source), 0
    while found := re.compile(r"\S").search(source, end):
        end = end_of(source, found.start())
        yield source[found.start() : end]


def declared(told):
    """The names of the rulebooks that sentences declare, and of the scenes, each with whether it may happen again."""
    rulebooks, scenes = [], {}
    for sentence in told:
        if action_of(sentence):
            continue
        if found := RULEBOOK.fullmatch(sentence):
            rulebooks.append(found[1].lower())
        elif found := SCENE.fullmatch(sentence):
            scenes[found[1].lower()] = found[2] is not None
    return rulebooks, scenes


def action_of(sentence):
    """The name of the action that a sentence declares, in small letters, and its entry of table 8; none of another sentence."""
    found = ACTION.fullmatch(" ".join(sentence.split()))
    if not found:
        return None
    slots = (found["slots"] or found["out_slots"] or "nothing").lower()
    needs = [need for slot in slots.split(" and ") for need in NEEDS[slot]]
    marks = LIGHT * bool(found["light"]) + OUT_OF_WORLD * bool(found["out"])
    return found["name"].lower(), bytes([len(needs), *needs, *[NONE8] * (2 - len(needs)), marks])


def actions_of(told):
    """The actions of a source, each with its entry of table 8, by number: those of every story, and those that sentences declare."""
    return [*zip(ACTION_NAMES, ACTIONS, strict=True), *filter(None, map(action_of, told))]


def aspect_of(words, objects):
    """What words ask of a noun or of a place: nothing, one of these objects, or adjectives and a kind; none if they name neither."""
    words = re.sub(r"^(?:an?|the|some) ", "", (words or "").lower())
    if words in ("", "something"):
        return ANYTHING
    if words == "player" or words in objects:
        return 1, 0 if words == "player" else objects.index(words)
    *adjectives, kind = words.split()
    if kind not in KIND_NAMES or not all(name in PROPERTIES for name in adjectives):
        return None
    return 2, KIND_NAMES.index(kind), [PROPERTIES[name] for name in adjectives]


def parts_of(name):
    """The words of an action's name in front of its `it`, and those behind."""
    words = name.split()
    cut = words.index("it") if "it" in words else len(words)
    return words[:cut], words[cut + 1 :]


def nouns_in(words, name, count):
    """The nouns that words may give an action of this name, which has so many: those with the shortest first noun in front."""
    if count == 0:
        return [("", "")] if words == name.split() else []
    first, second = parts_of(name)
    if words[: len(first)] != first:
        return []
    rest = words[len(first) :]
    found = []
    for cut in range(len(rest) + 1):
        noun, behind = " ".join(rest[:cut]), " ".join(rest[cut + len(second) :])
        fits = not behind if count == 1 else noun and behind
        if rest[cut : cut + len(second)] == second and fits:
            found.append((noun, behind))
    return found


def length_of(name):
    """How long an action's name is: the part in front of its `it` counts first."""
    return tuple(map(len, parts_of(name)))


def by_length(actions):
    """The numbers of actions, in the order in which they are tried: the longest name goes first, of names as long the lower number."""
    return sorted(range(len(actions)), key=lambda number: length_of(actions[number][0]), reverse=True)


def tried(words, objects, actions):
    """The number of the action that words behind `try` name: it has all its nouns."""
    words = words.lower().split()
    for number in by_length(actions):
        name, entry = actions[number]
        for nouns in nouns_in(words, name, entry[0]):
            if all((aspect_of(noun, objects) or ANYTHING)[0] == 1 for noun in nouns[: entry[0]]):
                return number
    raise ValueError(words)


def acted(words, objects, actions):
    """The action of a pattern, its noun, its second noun and the place."""
    words = words.lower().split()
    # the place begins as early as it can, and has a word
    cuts = [cut for cut, word in enumerate(words[:-1]) if word == "in"] + [len(words)]
    for number in [None, *by_length(actions)]:
        for cut in cuts:
            place = aspect_of(" ".join(words[cut + 1 :]), objects)
            front = words[:cut]
            if number is None:
                nouns = [("", "")] if front == ["doing", "anything"] else []
            else:
                name, entry = actions[number]
                nouns = nouns_in(front, name, entry[0])
            for noun, second in nouns:
                asked = [aspect_of(noun, objects), aspect_of(second, objects), place]
                if None not in asked:
                    return NONE8 if number is None else number, *asked
    raise ValueError(words)


def key_of(name):
    """The name of a rule in small letters; `are` reads as `is`."""
    return " ".join("is" if word == "are" else word for word in name.lower().split())


def head_of(sentence, rulebooks, scenes, objects, actions):
    """What table 10 says of a rule in front of its condition, whether it has one, and its name in small letters, if it has one; none
    of another sentence."""
    rule = RULE.match(" ".join(sentence.split()))
    asked = rule and ASKED.fullmatch(rule[1])
    found = asked and HEAD.fullmatch(asked["front"])
    if not found:
        return None
    names, act = list(scenes), (NONE8, ANYTHING, ANYTHING, aspect_of(found["at"] or found["place"], objects))
    if found["acts"]:
        book, act = ACTION_BOOKS.index(found["acts"].lower()), acted(found["pattern"], objects, actions)
    elif found["scene"]:
        book = BUILT_IN_BOOKS + 2 * names.index(found["scene"].lower()) + (found["edge"].lower() == "ends")
    elif found["own"]:
        book = BUILT_IN_BOOKS + 2 * len(names) + rulebooks.index(found["own"].lower())
    else:
        book = EVERY_TURN + (not found["every"])
    scene = names.index(asked["scene"].lower()) if asked["scene"] else NONE8
    name = rule["name"] and key_of(rule["name"])
    return (book, *act, scene), asked["asks"] is not None, name


def understood(told):
    """The texts of each sentence that says what commands or words mean, and what that is, in small letters."""
    for sentence in told:
        if found := UNDERSTAND.fullmatch(" ".join(sentence.split())):
            yield re.findall('"([^"]*)"', found["texts"]), found["meaning"].lower()


def tokens_of(text):
    """The tokens of a line of the grammar: a slot stands wherever its mark does, and words are parted by blanks."""
    parts = SLOT_MARK.split(text)
    return [token for place, part in enumerate(parts)
            for token in ([SLOT_TOKENS[part.lower()]] if place % 2 else [word.encode() for word in part.split()])]


def lines_of(told, actions):
    """Table 9, with strings in the place of their numbers: the lines of the author's, and those of every story."""
    names = [name for name, _ in actions]
    own = [(names.index(meaning), tokens_of(text)) for texts, meaning in understood(told) if meaning in names for text in texts]
    return own + standard_lines()


def own_words(source, objects):
    """The words that sentences give the objects of these names, in small letters, besides those of their names, each as often as it
    is said."""
    told = list(sentences(source))
    names = [name for name, _ in actions_of(told)]
    words = [[] for _ in objects]
    for texts, meaning in understood(told):
        if meaning not in names:
            number = 0 if meaning == "player" else objects.index(meaning)
            words[number] += [word.lower() for text in texts for word in text.split()]
    return words


def book_named(words, rulebooks, scenes, actions):
    """The rulebook that a listing names, or none: one that every story has goes before the author's."""
    words = words.lower()
    stage = STAGE.fullmatch(words)
    if words in LONE_BOOKS:
        return LONE_BOOKS[words]
    if stage and stage[2] in dict(actions):
        return STAGES[stage[1]]
    return BUILT_IN_BOOKS + 2 * len(scenes) + rulebooks.index(words) if words in rulebooks else None


def listing_of(sentence):
    """The name of the rule that a sentence lists, whether first, last or nowhere, and the words of the book; none of another."""
    found = LISTING.fullmatch(" ".join(sentence.split()))
    return found and (key_of(found["rule"]), (found["at"] or "nowhere").lower(), found["book"])


def changes_of(told, scenes, heads):
    """Of which scenes sentences that are no rules say that they begin, and of which that they end, each as its name and the verb."""
    found = [CHANGE.fullmatch(" ".join(sentence.split())) for sentence, head in zip(told, heads) if not head]
    return {(change["scene"].lower(), change["edge"].lower()) for change in found if change and change["scene"].lower() in scenes}


def scenes_from(code, scenes, changes):
    """Table 12, where the first code of a scene's tests has this number."""
    for name, recurs in scenes.items():
        begins, ends = ((name, edge) in changes for edge in ["begins", "ends"])
        yield int(recurs), code if begins else NONE16, code + begins if ends else NONE16
        code += begins + ends


def closeness(said):
    """How closely a noun or a place is told: as an object, or by a kind, how deep it is, and by how many adjectives."""
    if said[0] == 2:
        return 1, len(kinds_above({"kinds": KINDS}, said[1])), len(said[2])
    return said[0] * 2, 0, 0


def in_order(rules, book, listed):
    """The rules of a book. First stand those listed first, of these the one of the latest sentence in front; then those that no
    sentence lists: those that ask more in front, of others those whose noun is told more closely, then the second noun, then the
    place, and of others the earlier; last those listed last, as their sentences stand."""
    def told(number):
        _, action, noun, second, place, scene, condition, _ = rules[number]
        nouns = [noun, second, place]
        asks = (action != NONE8) + sum(said != ANYTHING for said in nouns) + (scene != NONE8) + (condition != NONE16)
        return asks, *(closeness(said) for said in nouns)
    own = [number for number, rule in enumerate(rules) if rule[0] == book]
    plain = sorted((number for number in own if number not in listed), key=told, reverse=True)
    # a rule that is listed again stands there by its later sentence
    first, last = ([number for number, at in listed.items() if at == where and number in own] for where in ["first", "last"])
    return first[::-1] + plain + last


def tables_of(source, described, objects=()):
    """Tables 8 to 12 of a source's story, as a plain reader of stories gives them, with the strings of lines in the place of their
    numbers, where so many objects are described, and the objects have these names, in small letters."""
    told = list(sentences(source))
    rulebooks, scenes = declared(told)
    actions = actions_of(told)
    found = [head_of(sentence, rulebooks, scenes, objects, actions) for sentence in told]
    heads = list(filter(None, found))
    rules, code, names = standard_rules(), described, list(STANDARD_NAMES)
    for head, asks, name in heads:
        rules.append((*head, code if asks else NONE16, (0, code + asks)))
        code += asks + 1
        names.append(name)
    listed = {}
    for name, at, book in filter(None, map(listing_of, told)):
        number = names.index(name)
        assert book is None or book_named(book, rulebooks, scenes, actions) == rules[number][0], (name, book)
        # the latest sentence about a rule counts, and stands where it does
        listed.pop(number, None)
        listed[number] = at
    return {
        "actions": [entry for _, entry in actions], "grammar": lines_of(told, actions), "rules": rules,
        "books": [in_order(rules, book, listed) for book in range(BUILT_IN_BOOKS + 2 * len(scenes) + len(rulebooks))],
        "scenes": list(scenes_from(code, scenes, changes_of(told, scenes, found))),
    }
