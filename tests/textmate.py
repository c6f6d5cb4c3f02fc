"""Reads a text by a TextMate grammar: of each character its scopes, outermost first, as VS Code gives them.

Of grammars there are `match`, `begin`, `end`, `captures` and its two likes, `patterns`, `include` and `repository`. Regular expressions are
read by `re`: `is_common` tells of one whether the reader of an editor, Oniguruma, reads it alike."""
import json
import re

# What `re` reads otherwise than Oniguruma, or one of them not at all, as a look behind at letters, which may be of any case.
APART = re.compile(r"\\[AGHKRXZhkpz]|\(\?[>i(]*\)|\(\?<[^=!]|\(\?P|[*+?}]\+|\[\[:|&&|\(\?<[=!](?:[^)\\A-Za-z]|\\.)*[A-Za-z]")


def is_common(pattern):
    """Whether a regular expression is one that both read alike."""
    try:
        re.compile(pattern)
    except re.error:
        return False
    return not APART.search(pattern)


class Grammar:
    def __init__(self, path):
        self.top = json.loads(path.read_text())
        self.compiled = {}

    def regex(self, pattern):
        if pattern not in self.compiled:
            self.compiled[pattern] = re.compile(pattern)
        return self.compiled[pattern]

    def rules(self, rule):
        """The rules that a rule's patterns are, those that it includes in their places."""
        for it in rule.get("patterns", []):
            if "include" in it:
                named = self.top if it["include"] == "$self" else self.top["repository"][it["include"][1:]]
                is_list = named is self.top or not ("match" in named or "begin" in named)
                yield from self.rules(named) if is_list else [named]
            elif "match" in it or "begin" in it:
                yield it
            else:
                yield from self.rules(it)

    def patterns(self):
        """Each regular expression of the grammar."""
        found = [self.top]
        while found:
            it = found.pop()
            yield from (it[key] for key in ("match", "begin", "end") if key in it)
            found += [*it.get("patterns", []), *it.get("repository", {}).values()]

    def first(self, stack, line, at):
        """The rule that matches first in a line, the end of the innermost open one before others; and how."""
        found = [(self.regex(rule[key]).search(line, at), rule, key) for rule, key in self.candidates(stack)]
        return min((it for it in found if it[0]), key=lambda it: it[0].start(), default=None)

    def candidates(self, stack):
        if len(stack) > 1:
            yield stack[-1], "end"
        for rule in self.rules(stack[-1]):
            yield rule, "begin" if "begin" in rule else "match"

    def scopes(self, text):
        """Of each character of a text its scopes."""
        stack, told = [self.top], []
        for line in text.splitlines(keepends=True):
            told += self.of_line(stack, line)
        return told

    def of_line(self, stack, line):
        """The scopes of a line's characters; the stack of open rules is moved on."""
        told, at, before = [], 0, None
        while at < len(line):
            found = self.first(stack, line, at)
            if not found or (found[0].start(), id(found[1]), found[2], len(stack)) == before:
                break
            match, rule, key = found
            told += [open_scopes(stack)] * (match.start() - at)
            told += captured(stack, match, rule, key)
            before = (match.end(), id(rule), key, len(stack)) if not match.group() else None
            stack[:] = {"begin": stack + [rule], "end": stack[:-1], "match": stack}[key]
            at = match.end()
        return told + [open_scopes(stack)] * (len(line) - at)


def open_scopes(stack):
    """The scopes of what stands within rules that are open, the grammar's own first."""
    return [it for it in (rule.get("scopeName") or rule.get("name") for rule in stack) if it]


def captured(stack, match, rule, key):
    """The scopes of what a rule matched."""
    whole = open_scopes(stack if key == "end" else stack + [rule])
    told = [whole] * len(match.group())
    for number, it in rule.get({"begin": "beginCaptures", "end": "endCaptures", "match": "captures"}[key], {}).items():
        start, end = match.span(int(number))
        for place in range(start - match.start(), end - match.start()) if start >= 0 else []:
            told[place] = told[place] + [it["name"]]
    return told
