#!/usr/bin/env python3
"""What the grammars of editors/ make of samples: of each token of tests/editors/tokens.rows its class, as told by hand; that their regular
expressions are read alike everywhere; and that their lists of words are those of the tables of docs/language. The grammar of Vim is only
tried where a Vim that knows syntax is installed.

A row is a sample, words of one of its lines with the token between « and », and the token's class, or `plain`.

Use: tests/editors.py PROGRAM    (which takes the sample that is no story's)"""
import functools
import json
import pathlib
import re
import shutil
import subprocess
import sys
import tempfile

import shown_pages
import textmate
from row_files import report, rows_of
from shown_pages import table_column

top = pathlib.Path(__file__).resolve().parents[1]
TEXTMATE = top / "editors/vscode/syntaxes/i7story.tmLanguage.json"
VIM = top / "editors/vim"
CORNERS = top / "tests/editors/corners.i7"

# The classes of tokens, by the beginning of a scope, and by the name of a group of Vim's.
SCOPES = {
    "comment": "comment", "markup.heading": "heading", "string": "text", "constant.other.placeholder": "substitution",
    "constant.character.escape": "escape", "keyword.control.rule": "head", "keyword.control": "control", "keyword.other.phrase": "phrase",
    "keyword.other.sentence": "sentence", "keyword.operator": "operator", "support.function.action": "action", "support.type.kind": "kind",
    "support.constant.property": "property", "constant.language.direction": "direction", "variable.language": "object",
    "constant.numeric": "number", "entity.name.function": "name", "source": "plain", "meta.rule": "plain"}
GROUPS = {
    "TextControl": "control", "TextPhrase": "phrase", "RuleWord": "head", "RuleName": "name", "NameEdge": "head", "Rule": "plain",
    "Lines": "plain", "": "plain"}


# Words of the grammars' lists besides those of the pages' tables, and words that stand inside phrases.
BESIDES = {"kind": {"men", "women", "people", "something"}, "action": {"try", "silently try"}}
INSIDE = {"finally", "saying", "running through", "when", "during"}


def class_of_scopes(scopes):
    return next(SCOPES[it] for it in SCOPES if scopes[-1].startswith(it))


def class_of_group(group):
    name = group.removeprefix("i7story")
    return GROUPS.get(name, name.lower())


def textmate_classes(grammar, sample):
    """Of each character of a sample its class in the TextMate grammar."""
    return [class_of_scopes(it) for it in grammar.scopes(sample.read_text())]


VIM_SCRIPT = """set nocompatible runtimepath^={vim}
filetype plugin on
syntax enable
edit {sample}
let lines = map(range(1, line('$')), {{_, l -> map(range(1, strlen(getline(l))), {{_, c -> synIDattr(synID(l, c, 1), 'name')}})}})
let tabs = [&expandtab, &filetype]
call writefile([json_encode(lines), json_encode(tabs)], '{room}/told')
qall!
"""


def vim_told(sample):
    """Of each byte of a sample's lines its group in Vim, and whether tabs are written as spaces, with the file's type."""
    with tempfile.TemporaryDirectory() as room:
        script = pathlib.Path(room, "script.vim")
        script.write_text(VIM_SCRIPT.format(vim=VIM, sample=sample, room=room))
        command = ["vim", "-es", "-u", "NONE", "-i", "NONE", "-n", "-S", script]
        subprocess.run(command, stdin=subprocess.DEVNULL, stdout=subprocess.DEVNULL, stderr=subprocess.DEVNULL, timeout=60)
        return [json.loads(it) for it in pathlib.Path(room, "told").read_text().splitlines()]


def vim_classes(sample):
    """Of each character of a sample its class in the grammar of Vim."""
    told = []
    for line, groups in zip(sample.read_text().splitlines(), vim_told(sample)[0]):
        starts = [len(line[:place].encode()) for place in range(len(line))]
        told += [class_of_group(groups[it]) for it in starts] + ["plain"]
    return told


def has_vim():
    """Whether a Vim is installed that knows syntax and JSON."""
    if not shutil.which("vim"):
        return False
    said = subprocess.run(["vim", "--version"], capture_output=True, text=True, timeout=60).stdout
    return "+syntax" in said and "+eval" in said


def tokens(classes_of, which):
    """What each row's token is, by classes of a sample's characters."""
    classes_of = functools.cache(classes_of)
    for place, (name, words, wanted) in rows_of(top / "tests/editors/tokens.rows"):
        sample = top / name.decode()
        front, token, back = re.split("[«»]", words.decode())
        at = sample.read_text().find(front + token + back) + len(front)
        told = {it for it, letter in zip(classes_of(sample)[at:at + len(token)], token) if not letter.isspace()}
        yield f"{place}, {which}", " ".join(sorted(told)) if at >= len(front) else "no such words", wanted.decode()


def named(cells):
    return {word.strip() for it in cells for word in it.split(",") if word.strip()}


def first_words(cells):
    return {it.split()[0].rstrip(":,") for cell in cells for it in re.findall(r"`([^`]*)`", cell)} - {".."}


def lists():
    """The lists of words that the pages on the language tell, by their classes."""
    world, rules, phrases = (top / f"docs/language/{it}.md" for it in ("world", "rules", "phrases"))
    actions = table_column(rules, "| action | its noun | its second noun | a command | prints |", 0)
    return {
        "kind": named(table_column(world, "| kind | under | what it is |", 0)),
        "property": named(table_column(world, "| property | its opposite | of | true at first of |", 0, 1)) | {"visible", "touchable"},
        "direction": named(table_column(world, "| direction | typed | opposite | said in a sentence |", 0)),
        "action": {it.split(" it")[0] for it in actions} | {"doing anything"},
        "phrase": first_words(
            table_column(phrases, "| phrase | a phrase | what it does |", 1) + table_column(phrases, "| phrase | what it does |", 0)),
    }


def alternatives(pattern):
    """The words of the lists in a regular expression of the TextMate grammar."""
    return {word for it in re.findall(r"\(([a-z]+(?:[| ]+[a-z]+)+)\)", pattern) for word in it.split("|")}


def textmate_words(repository, name):
    """The words of a list of the TextMate grammar."""
    return alternatives(repository[name]["match"])


def vim_words(group):
    """The words of a list of the grammar of Vim."""
    lines = re.findall(rf"(?m)^syntax match i7story{group} (.*)$", (VIM / "syntax/i7story.vim").read_text())
    listed = {word for line in lines for it in re.findall(r"\\%\(([a-z][a-z \\|]*)\\\)", line) for word in it.split(r"\|")}
    return {it for it in listed if not it.endswith(" ")}


def listed(repository):
    """The words of the lists of both grammars, and those of the pages."""
    for name, wanted in lists().items():
        told = {"TextMate": textmate_words(repository, name), "Vim": vim_words(name.capitalize())}
        if name == "phrase":
            controls = {"TextMate": textmate_words(repository, "control"), "Vim": vim_words("Control")}
            told = {which: {it.split()[0] for it in (words | controls[which]) - INSIDE} for which, words in told.items()}
        for which, words in told.items():
            yield f"the words of {which} for {name}", str(sorted(words - BESIDES.get(name, set()))), str(sorted(wanted))
    for rule in ("colonRule", "commaRule"):
        told = alternatives(repository[rule]["begin"]) & alternatives(repository["action"]["match"])
        yield f"the actions at the beginning of {rule}", str(sorted(told)), str(sorted(lists()["action"]))


def answers(program):
    grammar = textmate.Grammar(TEXTMATE)
    yield "tests/editors/corners.i7", shown_pages.verdict(program, CORNERS.read_text()), "taken"
    yield from ((f"TextMate, {it}", str(textmate.is_common(it)), "True") for it in grammar.patterns())
    for it in sorted(top.glob("editors/vscode/*.json")):
        yield str(it.relative_to(top)), type(json.loads(it.read_text())).__name__, "dict"
    yield from listed(grammar.top["repository"])
    yield from tokens(lambda sample: textmate_classes(grammar, sample), "TextMate")
    if has_vim():
        yield "Vim, its settings", str(vim_told(CORNERS)[1]), str([0, "i7story"])
        yield from tokens(vim_classes, "Vim")
    else:
        print("editors: no Vim with syntax is installed, so its grammar is passed over")


if __name__ == "__main__":
    program = pathlib.Path(sys.argv[1]).resolve()
    report("editors", ((place, told.encode(), wanted.encode()) for place, told, wanted in answers(program)))
