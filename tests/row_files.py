"""Files of rows: a row is a line of fields, a tab between them, and a line that begins with `#` says what the rows below it are
about. In a field `\\n` stands for the end of a line, `\\t` for a tab, `\\r` for a carriage return, `\\\\` for a backslash and `\\xff`
for a byte; `{9*lit }` is nine times `lit `, `{0*x}` nothing, and in `{9*R# is a room.\\n}` the nine are numbered from 0 on in
place of `#`."""
import re
import sys

MARK = re.compile(rb"\{(\d+)\*([^{}]*)\}")
SIGN = re.compile(rb"\\(n|t|r|\\|x[0-9a-f]{2})")
SIGNS = {b"n": b"\n", b"t": b"\t", b"r": b"\r", b"\\": b"\\"}


def repeated(mark):
    return b"".join(mark[2].replace(b"#", b"%d" % number) for number in range(int(mark[1])))


def sign(found):
    return SIGNS.get(found[1]) or bytes([int(found[1][1:], 16)])


def written_out(field):
    """The bytes of a field."""
    return SIGN.sub(sign, MARK.sub(repeated, field))


def rows_of(path):
    """The rows of a file, each with its place and the bytes of its fields."""
    for number, line in enumerate(path.read_bytes().split(b"\n"), 1):
        if line and not line.startswith(b"#"):
            yield f"{path.name}:{number}", [written_out(field) for field in line.split(b"\t")]


def digits_of(path):
    """The bytes of a file of their hexadecimal digits, in which a line that begins with `#` says what stands below it."""
    lines = path.read_text().splitlines()
    return bytes.fromhex("".join(line for line in lines if not line.startswith("#")))


def report(name, answers):
    """Counts answers, each a place, what is told and what is wanted, prints how they differ, and ends the program."""
    passed = failed = 0
    for place, told, wanted in answers:
        if told == wanted:
            passed += 1
        else:
            failed += 1
            print(f"{name}: {place}: wanted {wanted[:500]}, got {told[:500]}")
    print(f"{name}: {passed} passed, {failed} failed")
    sys.exit(1 if failed or not passed else 0)
