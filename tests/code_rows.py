#!/usr/bin/env python3
"""Compares what codes are and do with what is told by hand, by the rows of tests/codes/*.rows.

Use: tests/code_rows.py PROGRAM [SORT]    (the program of `i7story`; that of `calls` is built where it isn't yet)

A row is a line of fields, a tab between them. A file is a sort, and what the fields are stands in its first lines. `{9*lit }` is
nine times `lit `, `{9>if so:}` are nine lines, each a tab deeper than the one before, and a line that begins with `#` says what
the rows below it are about. Bodies are done in the stories of tests/codes/worlds, with the strings that stand there, numbered
from 0 on."""
import json
import pathlib
import re
import subprocess
import sys
import tempfile

from plain_codes import BODY, DESCRIBING, TEST, packed_counts
from programs import calls_of

wanted_sort = sys.argv[2] if len(sys.argv) > 2 else ""
folder = pathlib.Path(__file__).resolve().parent / "codes"
MARK = re.compile(r"\{(\d+)([*>])([^{}]*)\}")
# What there is beside a code whose soundness is asked.
SIZES = {
    "objects": 3, "kinds": 2, "flags": 2, "numbers": 2, "variables": 1, "scenes": 1, "strings": 2, "codes": 3, "actions": 4,
    "books": 2, "own": 0, "values": [2, 1],
}


def told(sort, *words, records):
    """What calls of a sort print of records."""
    with tempfile.NamedTemporaryFile() as file:
        file.write(records)
        file.flush()
        done = subprocess.run([*calls_of(sort), *words, file.name], capture_output=True, check=True, timeout=300)
    return done.stdout.decode()


def lines_told(form, records):
    return told("rules", form, records=records.encode()).split("\n")[:-1]


def repeated(mark):
    count, sort, text = int(mark[1]), mark[2], mark[3]
    return text * count if sort == "*" else "".join("\t" * deep + text + "\n" for deep in range(1, count + 1))


def written_out(text):
    """A text with its marks, `\\t` and `\\n` written out."""
    return MARK.sub(repeated, text.replace("\\t", "\t").replace("\\n", "\n"))


def printed(text):
    """What is wanted as it is printed: texts as lists of bytes."""
    return re.sub(r'"(?:[^"\\]|\\.)*"', lambda found: str(list(json.loads(found[0]).encode())), text)


def spelling(rows):
    """The instructions of bytes, which spell these again."""
    found = lines_told("spelling", "".join(digits.replace(" ", "").replace("|", "") + "\n" for digits, _ in rows))
    for (digits, wanted), line in zip(rows, found, strict=True):
        spelled = digits.split("|")[0].replace(" ", "")
        yield line, f"[{'' if wanted == 'none' else wanted}]\t{spelled}"


def packed(code):
    """A code as calls of codes read it."""
    role, digits = code.split(":")
    use = {"b": BODY, "d": DESCRIBING}.get(role, TEST)
    said = bytes.fromhex(digits)
    return bytes([use, int(role[1:] or 0)]) + packed_counts(SIZES) + len(said).to_bytes(3, "big") + said


def soundness(rows):
    """Whether codes are sound."""
    digits = told("codes", records=b"".join(packed(code) for code, _ in rows))
    for (_, wanted), digit in zip(rows, digits, strict=True):
        yield {"1": "sound", "0": "unsound"}[digit], wanted


def run_of(how, codes, facts):
    """A run as calls of rules read it."""
    asked = ";".join(fact.split(" = ")[0] for fact in facts)
    return f"{how} {codes.replace(', ', '|').replace(' ', '').replace('|', ' ')}\t{asked}"


def runs_told(world, rows):
    """What is printed of the runs in a world, a line for each."""
    source, strings = ((folder / "worlds" / name).read_text() for name in [f"{world}.i7", "strings"])
    runs = "".join(run_of(how, codes, facts) + "\n" for where, how, codes, _, *facts in rows if where == world)
    return iter(lines_told("runs", "\x1f".join([source, strings, runs])))


def bodies(rows):
    """What bodies come to, say and leave behind."""
    found = {world: runs_told(world, rows) for world in {row[0] for row in rows}}
    for world, _, _, end, *facts in rows:
        values = [fact.split(" = ", 1)[1] for fact in facts]
        yield next(found[world]), printed("\t".join([end.replace(" ", "\t", 1), *values]))


def lengths(codes):
    """Codes with how many bytes each has in place of its digits."""
    return re.sub(r":([0-9a-f]+)", lambda digits: f":{len(digits[1]) // 2}", codes)


def joined(codes):
    """Codes without the blanks between their bytes."""
    return re.sub(r" (?![bdt]\d*:)", "", codes)


def emitted(rows):
    """What the rules of sources are emitted as, or do."""
    for form, wanted, source in rows:
        (line,) = lines_told("bodies" if form == "bodies" else "codes", written_out(source) + "\x1e")
        wanted = printed(written_out(wanted))
        if form == "codes":
            yield joined(line), joined(wanted)
        else:
            yield lengths(line) if form == "lengths" else line, wanted


def lines_of(path):
    """The rows of a file with their lines' numbers."""
    lines = path.read_text().splitlines()
    return [(number, line) for number, line in enumerate(lines, 1) if not line.startswith("#")]


passed = failed = 0
for sort in [spelling, soundness, bodies, emitted]:
    if wanted_sort not in ("", sort.__name__):
        continue
    lines = lines_of(folder / f"{sort.__name__}.rows")
    for (number, _), (line, wanted) in zip(lines, sort([line.split("\t") for _, line in lines]), strict=True):
        passed += line == wanted
        if line != wanted:
            failed += 1
            print(f"code_rows: {sort.__name__}.rows:{number}: wanted {wanted[:500]}, got {line[:500]}")
print(f"code_rows: {passed} passed, {failed} failed")
sys.exit(1 if failed or not passed else 0)
