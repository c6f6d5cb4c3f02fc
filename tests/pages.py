#!/usr/bin/env python3
"""Plays what pages show, and holds that their links lead somewhere. tests/shown_pages.py says what blocks and tables show.

A link leads to a file that is there, and a heading that it names is one of that page. Each section of the pages on the language links to
a section of docs/definitions.md, and that one back, and so does the page of each crate; the files that are named there are there. The tables of
what is built in are those of the compiler.

Use: tests/pages.py PROGRAM"""
import pathlib
import re
import sys

import shown_pages
from row_files import report

top = pathlib.Path(__file__).resolve().parents[1]
CRATES = sorted(top.glob("crates/*/README.md"))
PAGES = [top / "README.md", *sorted(top.glob("docs/**/*.md")), top / "editors/README.md", *CRATES]
LANGUAGE = [top / "docs/language.md", *sorted(top.glob("docs/language/*.md"))]
DEFINITIONS = top / "docs/definitions.md"


def without_blocks(text):
    return re.sub(r"(?ms)^```.*?^```$", "", text)


def slug(heading):
    """The name by which a link reaches a heading."""
    return re.sub(r"[^\w\- ]", "", heading.lower()).replace(" ", "-")


def headings(page):
    return {slug(it) for it in re.findall(r"(?m)^#+ (.*)$", without_blocks(page.read_text()))}


def links(page, text):
    """Each link of a text on a page, as the page and the heading that it leads to; of other sites none."""
    for path, heading in re.findall(r"\]\(([^)#:\s]*)(?:#([^)\s]*))?\)", without_blocks(text)):
        yield (page.parent / path).resolve() if path else page, heading


def leads(page):
    """Each link of a page, and that what it names is there."""
    for there, heading in links(page, page.read_text()):
        is_there = there.exists() and (not heading or heading in headings(there))
        yield f"{page.relative_to(top)}, the link to {there}#{heading}", str(is_there), "True"


def sections(page):
    """The sections of a page, each with its name and its words."""
    return {slug(name): words for name, words in re.findall(r"(?ms)^## ([^\n]*)\n(.*?)(?=^## |\Z)", page.read_text())}


def ways(pages, others):
    """Which sections of some pages lead to which of others."""
    for page in pages:
        for name, words in sections(page).items():
            yield from {((page, name), (there, heading)) for there, heading in links(page, words) if there in others and heading}


def both_ways():
    """Each section on the language leads to one of the definitions, and each of these that leads to one on the language is led to."""
    to, back = set(ways(LANGUAGE, [DEFINITIONS])), {(b, a) for a, b in ways([DEFINITIONS], LANGUAGE)}
    for page in LANGUAGE:
        for name in sections(page):
            told = "defined" if (page, name) in {rule for rule, _ in to} else "not defined"
            yield f"{page.relative_to(top)}, the definition of {name}", told, "defined"
    for rule, defined in to | back:
        told = "links both ways" if (rule, defined) in to & back else "a link one way"
        yield f"{rule[0].relative_to(top)}, {rule[1]} and the definitions {defined[1]}", told, "links both ways"


def crates_both_ways():
    """Each page of a crate leads to the definitions whose code it is, and these back to it."""
    to = {(page, heading) for page in CRATES for there, heading in links(page, page.read_text()) if there == DEFINITIONS and heading}
    back = {(there, name) for name, words in sections(DEFINITIONS).items() for there, _ in links(DEFINITIONS, words) if there in CRATES}
    for page, heading in to | back:
        told = "links both ways" if (page, heading) in to & back else "a link one way"
        yield f"{page.relative_to(top)} and the definitions {heading}", told, "links both ways"


def named_files():
    """Each file of a crate that the definitions name, and that it is there."""
    for name in sorted(set(re.findall(r"`(\w+/(?:specs|src|proofs)/[^` ]*|tests/[^` ]*|crates/[^` ]*)`", DEFINITIONS.read_text()))):
        yield f"docs/definitions.md, the file {name}", str((top / name).exists() or (top / "crates" / name).exists()), "True"


def literals(crate, name, shape):
    """What a shape finds in a file of a crate."""
    return re.findall(shape, (top / "crates" / crate / "src" / name).read_text())


def built_in():
    """That the tables of kinds, properties, directions and actions are the compiler's."""
    world, rules = top / "docs/language/world.md", top / "docs/language/rules.md"
    kinds = shown_pages.table_column(world, "| kind | under | what it is |", 0)
    properties = shown_pages.table_column(world, "| property | its opposite | of | true at first of |", 0, 1)
    told = {word for cell in kinds + properties for word in cell.split(", ") if word}
    yield "kinds and properties", sorted(told), sorted(literals("world_meaning", "kinds.rt", r'b"([^"]*)"'))
    directions = shown_pages.table_column(world, "| direction | typed | opposite | said in a sentence |", 0, 1, 2)
    ways = literals("world_meaning", "direction.rt", r'\(b"(\w+)", b"(\w+)", Direction::(\w+)\)')
    yield "directions", [it.strip("`") for it in directions], [word.lower() for way in ways for word in way]
    actions = shown_pages.table_column(rules, "| action | its noun | its second noun | a command | prints |", 0)
    names = literals("i7_actions", "action.rt", r"\(&\[([^\]]*)\], NounCount")
    yield "actions", sorted(actions), sorted(" ".join(re.findall(r'b"([^"]*)"', it)) for it in names)


def answers(program):
    for page in PAGES:
        yield from ((f"{page.relative_to(top)}, {place}", told, wanted) for place, told, wanted in shown_pages.shown(program, page))
        yield from leads(page)
    yield from both_ways()
    yield from crates_both_ways()
    yield from named_files()
    yield from ((f"the compiler's {name}", str(on_page), str(in_code)) for name, on_page, in_code in built_in())


report("pages", ((place, told.encode(), wanted.encode()) for place, told, wanted in answers(pathlib.Path(sys.argv[1]).resolve())))
