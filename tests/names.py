#!/usr/bin/env python3
"""Compares what the names of a source stand for with what is told by hand: of each source tests/names/NAME.i7 the rows of NAME.rows,
what is asked and what is told (tests/row_files.py says how rows are written).

Use: tests/names.py PROGRAM    (the program of `i7story`; that of `calls` is built where it isn't yet)"""
import pathlib
import subprocess
import tempfile

from programs import calls_of
from row_files import report, rows_of

calls = calls_of("rules")
folder = pathlib.Path(__file__).resolve().parent / "names"
rows = [(row, path.with_suffix(".i7")) for path in sorted(folder.glob("*.rows")) for row in rows_of(path)]
with tempfile.NamedTemporaryFile() as file:
    file.write(b"".join(source.read_bytes() + b"\x1f" + asked + b"\x1e" for (_, (asked, _)), source in rows))
    file.flush()
    done = subprocess.run([*calls, "names", file.name], capture_output=True, check=True, timeout=300)
told = done.stdout.split(b"\n")[:-1]
report("names", ((place, line, wanted) for line, ((place, (_, wanted)), _) in zip(told, rows, strict=True)))
