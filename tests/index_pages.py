#!/usr/bin/env python3
"""Reads the pages that `i7story index` writes. Of every sample, with its source and without: the page is read by a parser of HTML
(html5lib where it is installed, and Python's own), and whole by a parser of XML, the map in it as SVG; it runs no script and fetches nothing;
each link leads to one place of the page; no two rooms are drawn over one another; a line that isn't curved leads in its direction; each
room that is drawn has its entry; the lines of the source are those of its file; and the page is the same when it is written again, to a file
too. What the page shows of two samples, of a source with lost rooms and of one with texts that would be markup is told by hand. Of 900 rooms the
page is written within a second. The picture docs/index-map.svg is the map of tests/index_pages/manor.i7.

Use: tests/index_pages.py PROGRAM [--picture]     --picture: writes the picture anew"""
import html.parser
import os
import pathlib
import re
import subprocess
import sys
import tempfile
import time
import xml.etree.ElementTree as tree

from row_files import report

try:
    import html5lib
except ImportError:
    html5lib = None

program = pathlib.Path(sys.argv[1]).resolve()
here = pathlib.Path(__file__).resolve().parent
stories = here.parent / "stories"
SVG = "{http://www.w3.org/2000/svg}"
HTML = "{http://www.w3.org/1999/xhtml}"
# elements that HTML has without an end
VOID = {"meta", "link", "br", "hr", "img", "input"}
COMPASS = {
    "north": (0, -1), "northeast": (1, -1), "northwest": (-1, -1), "south": (0, 1), "southeast": (1, 1), "southwest": (-1, 1),
    "east": (1, 0), "west": (-1, 0), "up": (1, -1), "down": (-1, 1), "inside": (1, 1), "outside": (-1, -1)}


def written(source, *words):
    """The page of a source."""
    done = subprocess.run([program, "index", "-", *words], input=source, capture_output=True, timeout=60)
    return done.stdout if done.returncode == 0 else b"status %d: " % done.returncode + done.stderr


class Reader(html.parser.HTMLParser):
    """Reads a page as HTML, and keeps what isn't closed as it was opened."""

    def __init__(self):
        super().__init__(convert_charrefs=True)
        self.open, self.faults, self.tags = [], [], set()

    def handle_starttag(self, tag, attributes):
        self.tags.add(tag)
        if len({name for name, _ in attributes}) != len(attributes):
            self.faults.append(f"an attribute twice in {tag}")
        if tag not in VOID:
            self.open.append(tag)

    def handle_startendtag(self, tag, attributes):
        self.tags.add(tag)

    def handle_endtag(self, tag):
        if not self.open or self.open.pop() != tag:
            self.faults.append(f"{tag} at {self.getpos()}")


def faults_of(text):
    """What a parser of HTML finds wrong with a page."""
    reader = Reader()
    reader.feed(text)
    reader.close()
    faults = reader.faults + [f"{tag} isn't closed" for tag in reader.open]
    faults += [f"the page holds {tag}" for tag in sorted(reader.tags & {"script", "link", "img", "iframe", "object"})]
    faults += [f"the page fetches {it}" for it in re.findall(r"(?:src|href)=\"([^#\"][^\"]*)\"|url\(([^#)][^)]*)\)|@import", text)]
    if html5lib:
        parser = html5lib.HTMLParser(strict=False)
        parser.parse(text)
        # a picture's elements may be closed by a stroke, which this parser notes of HTML's own
        faults += [str(it) for it in parser.errors if it[1] != "non-void-element-with-trailing-solidus"]
    return "; ".join(faults) or "none"


def words_in(element):
    """The words that an element shows."""
    return " ".join("".join(element.itertext()).split())


def ids_in(page):
    return [it.get("id") for it in page.iter() if it.get("id")]


def links_in(page):
    return [it.get("href") for it in page.iter() if it.get("href")]


def boxes(page):
    """The boxes of rooms, by the entries to which they lead."""
    for link in page.iter(f"{SVG}a"):
        group = link.find(f"{SVG}g")
        rect = group.find(f"{SVG}rect")
        if group.get("class") != "door":
            yield link.get("href")[1:], tuple(float(rect.get(it)) for it in ("x", "y", "width", "height"))


def drawn_over(page):
    """Rooms that are drawn over one another."""
    placed = list(boxes(page))
    for place, (one, (x, y, wide, high)) in enumerate(placed):
        for other, (left, top, width, height) in placed[place + 1:]:
            if x < left + width and left < x + wide and y < top + height and top < y + high:
                yield f"{one} and {other}"


def sign(number):
    return (number > 0) - (number < 0)


def misled(page):
    """Straight lines that don't lead in their directions, or into a room's box on their way."""
    rooms = dict(boxes(page))
    for group in page.iter(f"{SVG}g"):
        if group.get("class") == "straight":
            title = words_in(group.find(f"{SVG}title"))
            path = group.find(f"{SVG}path").get("d")
            x, y, right, below = (float(it) for it in re.findall(r"-?\d+", path))
            direction = re.search(r", (\w+): ", title)[1]
            if (sign(right - x), sign(below - y)) != COMPASS[direction]:
                yield title
            for room, (left, top, width, height) in rooms.items():
                points = ((x + (right - x) * step / 50, y + (below - y) * step / 50) for step in range(1, 50))
                if any(left < px < left + width and top < py < top + height for px, py in points):
                    yield f"{title} through {room}"


def entry(page, name):
    """The entry of this name."""
    found = [it for it in page.iter() if it.get("id") == name]
    return words_in(found[0]) if len(found) == 1 else f"{len(found)} entries"


def by_hand(name, page, rows):
    """Entries of a page that are told by hand."""
    for place, wanted in rows.items():
        yield f"{name}, {place}", entry(page, place), wanted


def rooms_drawn(page):
    return {words_in(link.find(f"{SVG}g/{SVG}title")): words_in(link.find(f"{SVG}g")) for link in page.iter(f"{SVG}a")}


def ways_drawn(page):
    """How ways are drawn."""
    return sorted((it.get("class"), words_in(it.find(f"{SVG}title"))) for it in page.iter(f"{SVG}g") if it.get("class") in ("straight", "curve"))


def at_hand(page):
    """What is seen at a glance."""
    return [words_in(it) for it in next(it for it in page.iter(f"{HTML}ul") if it.get("class") == "glance")]


def of_any(name, source, text):
    """What holds of any page."""
    yield f"{name}, as HTML", faults_of(text), "none"
    page = tree.fromstring(text)
    ids = ids_in(page)
    yield f"{name}, names given twice", str(sorted({it for it in ids if ids.count(it) > 1})), "[]"
    yield f"{name}, links that lead nowhere", str(sorted({it for it in links_in(page) if it[1:] not in ids})), "[]"
    yield f"{name}, rooms drawn over one another", str(list(drawn_over(page))), "[]"
    yield f"{name}, lines that mislead", str(list(misled(page))), "[]"
    lines = [int(it) for it in re.findall(r"\bline (\d+)", "".join(page.itertext()))]
    yield f"{name}, lines past the last", str([it for it in lines if it > source.count(b"\n") + 1]), "[]"
    rooms = [it for it, _ in boxes(page)]
    yield f"{name}, rooms without an entry", str([it for it in rooms if entry(page, it) == "0 entries"]), "[]"


def of_source(name, source, text):
    """That a page shows the source's lines."""
    page = tree.fromstring(text)
    shown = next(it for it in page.iter(f"{HTML}div") if it.get("class") == "source")
    lines = ["".join(line.itertext()).removeprefix(str(place)) for place, line in enumerate(shown, 1)]
    yield f"{name}, its lines", "\n".join(lines), source.decode().replace("\r\n", "\n")


def to_file(name, source, text):
    """That a page is the same in a file, and when it is written again."""
    with tempfile.TemporaryDirectory() as room:
        pathlib.Path(room, "a.i7").write_bytes(source)
        done = subprocess.run([program, "index", "a.i7", "-o", "a.html"], cwd=room, capture_output=True, timeout=60)
        told = pathlib.Path(room, "a.html").read_bytes() if done.returncode == 0 and not done.stdout else done.stderr
        yield f"{name}, in a file", told.decode(), text
        done = subprocess.run([program, "index", "a.i7", "-o", "a.i7"], cwd=room, capture_output=True, timeout=60)
        yield f"{name}, over its source", str((done.returncode, done.stderr, pathlib.Path(room, "a.i7").read_bytes() == source)), \
            str((3, b"a.i7: cannot be written\n", True))


def samples():
    for path in sorted(stories.glob("**/*.i7")):
        source = path.read_bytes()
        text = written(source).decode()
        yield from of_any(path.name, source, text)
        if "<" in text:
            with_source = written(source, "--source").decode()
            yield from of_any(f"{path.name} with its source", source, with_source)
            yield from of_source(path.name, source, with_source)
    yield from to_file("museum.i7", (stories / "museum.i7").read_bytes(), written((stories / "museum.i7").read_bytes()).decode())


# Told by hand of stories/museum.i7: objects are numbered from 13 by first mention, the author's rules from 61 in their order.
MUSEUM = {
    "o13": "Gallery line 5",
    "o14": "Armoury line 7",
    "o15": "alarm bell thing line 9 scenery",
    "o16": "glass case container line 9 closed, openable",
    "o18": "helmet thing line 10 wearable",
    "o19": "stand supporter line 10",
    "o20": "guard man line 11",
    "s0": "closing time line 3",
    "b1": "instead of",
    "r64": "instead of taking something during the closing time night line 23"
           "listed first by the sentence of line 15; before the next, since it is listed first",
    "r63": "instead of taking the statue heavy statue line 21"
           "asks 2, noun 10,000; before the next, since it asks more",
    "r62": "instead of taking something museum piece line 19asks 1",
    "r61": "instead of doing anything daydream line 17",
    "r70": "when play begins greeting line 46",
    "r9": "can't take people built inlisted last by the sentence of line 29; before the next, since the earlier sentence lists it",
    "r65": "check wearing the helmet too small line 31listed last by the sentence of line 32",
    "r68": "a alarm rule first warning line 38"
           "listed first by the sentence of line 41; before the next, since it is listed first",
    "r67": "a alarm rule when the guard is in the location caught line 36listed last by the sentence of line 41",
    "unlisted": "In no rulebook",
    "a2": "taking built in",
}

# Told by hand of stories/cave.i7.
CAVE = {
    "o13": "Cave Mouth line 3",
    "o14": "Cave line 5",
    "o15": "Grotto line 7",
    "o16": "brass lamp lantern line 10 lit",
    "o17": "chest container line 11 closed",
    "o18": "candle thing line 11 lit",
    "o19": "pool thing line 12 scenery",
    "o20": "moss thing line 12",
    "k10": "lantern line 9 (1)",
    "k5": "supporter built in (0)",
}


def told():
    museum = tree.fromstring(written((stories / "museum.i7").read_bytes()))
    yield from by_hand("museum.i7", museum, MUSEUM)
    yield "museum.i7, its ways", str(ways_drawn(museum)), "[('straight', 'Gallery, north: Armoury')]"
    yield "museum.i7, at a glance", str(at_hand(museum)), str([
        "0 rooms to which no way leads from the start", "0 rooms with a way that doesn’t lead back", "0 things that stand nowhere",
        "3 rules in no rulebook: can't take scenery, daydream, greeting", "0 things that no words part from another"])
    cave = tree.fromstring(written((stories / "cave.i7").read_bytes()))
    yield from by_hand("cave.i7", cave, CAVE)
    yield "cave.i7, its ways", str(ways_drawn(cave)), "[('straight', 'Cave Mouth, north: Cave'), ('straight', 'Cave, east: Grotto')]"
    yield "cave.i7, its rooms", str(sorted(rooms_drawn(cave))), "['Cave', 'Cave Mouth', 'Grotto']"


# Rooms in two groups, a way that can't be drawn so, a door, a way that leads back elsewhere, what stands nowhere, and things that are alike.
LOST = b"""The Hall is a room. The Garden is north of the Hall. North of the Garden is the Hall. The Pit is south of the Hall.
The gate is a door. The gate is east of the Hall and west of the Yard.
The Attic is above the Hall.
The Moon is a room. The Crater is east of the Moon.
The key is a thing. The red ball and the ball red are in the Hall.
"""
LOST_WAYS = [
    ("curve", "Garden, north: Hall"), ("straight", "Hall, east: Yard, by gate"), ("straight", "Hall, north: Garden"),
    ("straight", "Hall, south: Pit"), ("straight", "Hall, up: Attic"), ("straight", "Moon, east: Crater")]
LOST_GLANCE = [
    "2 rooms to which no way leads from the start: Moon, Crater", "1 room with a way that doesn’t lead back: Garden",
    "1 thing that stands nowhere: key", "0 rules in no rulebook", "1 thing that no words part from another: ball red"]

# Texts and words that would be markup.
MARKED = b"""\"<b>Title</b> & more\" by someone

The Hall is a room. \"A & B < C > D 'E' &amp; <script>alert(1)</script>[if the ball is in the location]<i>[end if].\"
The ball is in the Hall.
Understand \"<b>\" or \"a&b\" as the ball. Understand \"zap <u> [something]\" as taking.
Instead of taking the ball: say \"<'>\".
"""
MARKED_SHOWN = {
    "h1": ["<b>Title</b> & more"],
    "title": ["<b>Title</b> & more: index", "Hall"],
    "p text": ["A & B < C > D 'E' &amp; <script>alert(1)</script>[if the ball is in the location]<i>[end if]."],
    "kbd of words": ["<b>", "<u>", "a&b"],
}


def shown_in(page):
    """What a page shows of texts that would be markup."""
    words = next(it for it in page.iter(f"{HTML}ul") if it.get("class") == "plain words")
    return {
        "h1": [words_in(it) for it in page.iter(f"{HTML}h1")],
        "title": [words_in(it) for it in page.iter() if it.tag in (f"{HTML}title", f"{SVG}title")],
        "p text": [words_in(it) for it in page.iter(f"{HTML}p") if it.get("class") == "text"],
        "kbd of words": [words_in(it) for it in words.iter(f"{HTML}kbd") if set("<&") & set(words_in(it))],
    }


def hard():
    page = tree.fromstring(written(LOST))
    yield from of_any("a source with a lost room", LOST, written(LOST).decode())
    yield "a source with a lost room, its ways", str(ways_drawn(page)), str(LOST_WAYS)
    yield "a source with a lost room, at a glance", str(at_hand(page)), str(LOST_GLANCE)
    yield "a source with a lost room, the alike", entry(page, "alike"), "Alike"
    for words in [[], ["--source"]]:
        yield from of_any("a source of markup", MARKED, written(MARKED, *words).decode())
    page = tree.fromstring(written(MARKED))
    yield "a source of markup, what it shows", str(shown_in(page)), str(MARKED_SHOWN)
    yield from of_source("a source of markup", MARKED, written(MARKED, "--source").decode())
    yield "a source that is refused", written(b"The Hall frobs.").decode(), "status 1: -:1: C5 NotUnderstood\n"


# What the map of the manor can't be drawn without: ways of the compass there and back that hold together.
MANOR = {
    "Drive, north: Hall, by front door", "Hall, east: Library", "Hall, north: Kitchen", "Hall, west: Dining Room", "Library, east: Conservatory",
    "Conservatory, north: Rose Garden", "Rose Garden, west: Scullery", "Kitchen, east: Scullery", "Kitchen, southwest: Dining Room",
    "Landing, north: Bedroom", "Landing, east: Ancestral Long Gallery", "Bedroom, west: Laundry Chute"}
MANOR_OTHERS = {
    "Drive, west: Pond", "Cellar, east: Drive", "Hall, up: Landing", "Rose Garden, inside: Summer House", "Scullery, down: Cellar", "Chapel, down: Crypt"}
PICTURE_STYLE = (
    "<style>svg{background:#fff;color-scheme:light dark}rect{fill:#fff;stroke:#8a7f6c;stroke-width:1.2}.start rect{fill:#f3e3c9}.lost rect{fill:#f7d9d3}"
    "path{fill:none;stroke:#8a7f6c;stroke-width:1.6}.other{stroke-dasharray:5 4}marker path{fill:#8a7f6c;stroke:none}"
    "text{font:12px system-ui,sans-serif;fill:#23211d;text-anchor:middle}.say{font-size:10px;fill:#6d675d;paint-order:stroke;stroke:#fff;stroke-width:3px}"
    ".door rect{fill:#b0552a;stroke:none}.group{text-anchor:start;fill:#9a3324}"
    "@media (prefers-color-scheme:dark){svg{background:#211f1c}rect{fill:#2a2723;stroke:#9a8f7c}.start rect{fill:#4a3b22}.lost rect{fill:#552a24}path{stroke:#9a8f7c}"
    "marker path{fill:#9a8f7c}text{fill:#e9e4d9}.say{fill:#a59d8e;stroke:#211f1c}.door rect{fill:#e08d5a}.group{fill:#ee9484}}</style>")


def manor():
    text = written((here / "index_pages" / "manor.i7").read_bytes()).decode()
    yield from of_any("the manor", (here / "index_pages" / "manor.i7").read_bytes(), text)
    ways = ways_drawn(tree.fromstring(text))
    yield "the manor, ways that are straight", str(sorted(MANOR - {name for shape, name in ways if shape == "straight"})), "[]"
    # a way back that can't be straight is drawn by itself
    yield "the manor, its ways", str({name for _, name in ways} - {"Cellar, up: Scullery"} ^ MANOR ^ MANOR_OTHERS), "set()"
    opening, rest = re.search(r"(?s)(<svg [^>]*>)(.*?</svg>)", text).groups()
    picture = opening + PICTURE_STYLE + rest + "\n"
    if "--picture" in sys.argv:
        (here.parent / "docs" / "index-map.svg").write_text(picture)
    yield "docs/index-map.svg, the map of the manor", (here.parent / "docs" / "index-map.svg").read_text(), picture


def long():
    """A source of 900 rooms, thirty by thirty, each with a way up to none, and one of 900 without a way."""
    rooms = [(column, row) for row in range(30) for column in range(30)]
    grid = "".join(
        (f"R{row}x{column} is a room.\n" if not column and not row else "")
        + (f"R{row}x{column} is east of R{row}x{column - 1}.\n" if column else "")
        + (f"R{row}x{column} is south of R{row - 1}x{column}.\n" if row else "") for column, row in rooms)
    for name, source in [("900 rooms in rows", grid), ("900 rooms apart", "".join(f"R{it} is a room.\n" for it in range(900)))]:
        began = time.time()
        text = written(source.encode()).decode()
        spent = time.time() - began
        yield f"{name}, the time", "within its time" if spent <= float(os.environ.get("I7STORY_SECONDS", "1")) else f"{spent:.2f} s", "within its time"
        page = tree.fromstring(text)
        yield f"{name}, rooms", str(len(list(boxes(page)))), "900"
        yield f"{name}, rooms drawn over one another", str(list(drawn_over(page))[:3]), "[]"


def answers():
    yield from samples()
    yield from told()
    yield from hard()
    yield from manor()
    yield from long()


report("index pages", ((place, one.encode(), other.encode()) for place, one, other in answers()))
