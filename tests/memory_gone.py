#!/usr/bin/env python3
"""Plays each row of tests/rows that plays, and refuses all memory from a given allocation on, as a machine does that has no more: from each of
the first, and from forty others spread over the run. A run must end in one of two ways: with status 4, the one line `i7story: out of memory`
and no transcript; or with status 0 and a transcript that is the row's up to the first command that is told as abandoned, and in which
each command is answered behind that.

Use: tests/memory_gone.py PROGRAM"""
import concurrent.futures
import os
import pathlib
import subprocess
import sys
import tempfile

here = pathlib.Path(__file__).resolve().parent
ABANDONED = b"[The turn was abandoned: out of memory.]\n"
FIRST, SPREAD = 10, 40


def rows():
    """Each row that plays with its commands echoed: its name, its source, its commands and its transcript."""
    for row in sorted((here / "rows").iterdir()):
        if (row / "transcript").is_file() and not (row / "without_echo").is_file():
            sample = row / "sample"
            source = here.parent / "stories" / sample.read_text().strip() if sample.is_file() else row / "source.i7"
            yield row.name, source, (row / "commands").read_bytes(), (row / "transcript").read_bytes()


def run(program, shim, source, commands, refused):
    """The status, both outputs and the number of allocations, where all are refused from this one on (0: none)."""
    how = [f"REFUSE={refused}", "REFUSE_ON=1", f"LD_PRELOAD={shim}"]
    with tempfile.NamedTemporaryFile() as told:
        # the shim writes to descriptor 9
        words = ["sh", "-c", 'file=$1; shift; exec "$@" 9>"$file"', "sh", told.name, "env", *how, program, "run", source, "--transcript"]
        done = subprocess.run(words, input=commands, capture_output=True, timeout=60)
        return done.returncode, done.stdout, done.stderr, int(told.read() or 0)


def is_as_it_may_be(status, out, err, transcript):
    """Whether a run to which memory was refused ended as it may."""
    if status == 4:
        return not out and err == b"i7story: out of memory\n"
    front, abandoned, behind = out.partition(ABANDONED)
    # a story that ends in the row may go on here
    answered = out.count(b"\n>") >= transcript.count(b"\n>")
    return status == 0 and not err and (out == transcript if not abandoned else transcript.startswith(front) and answered)


def tried(program, shim, row):
    """What of the row ended as it may, and what didn't."""
    name, source, commands, transcript = row
    status, out, err, count = run(program, shim, source, commands, 0)
    if (status, out, err) != (0, transcript, b"") or not count:
        return 0, [f"memory gone: {name}: the plain run: status {status}, {count} allocations, {err[:100]}"]
    wanted = sorted({*range(1, min(FIRST, count) + 1), *(1 + count * n // SPREAD for n in range(SPREAD))})
    wrong = []
    for refused in wanted:
        status, out, err, _ = run(program, shim, source, commands, refused)
        if not is_as_it_may_be(status, out, err, transcript):
            wrong.append(f"memory gone: {name}: all from allocation {refused} of {count} on: status {status}, {err[:100]}, {out[-200:]}")
    return len(wanted) - len(wrong), wrong


def main(program):
    with tempfile.TemporaryDirectory() as scratch, concurrent.futures.ThreadPoolExecutor(2) as pool:
        shim = f"{scratch}/refuse.so"
        subprocess.run(["cc", "-shared", "-fPIC", "-O1", "-o", shim, str(here / "refuse.c"), "-ldl"], check=True)
        found = [it for it in pool.map(lambda row: tried(program, shim, row), rows())]
    passed, wrong = sum(it[0] for it in found), [line for it in found for line in it[1]]
    print(*wrong, sep="\n", end="\n" if wrong else "")
    print(f"memory gone: {passed} passed, {len(wrong)} failed")
    return 1 if wrong or not passed else 0


if __name__ == "__main__":
    sys.exit(main(os.path.realpath(sys.argv[1])))
