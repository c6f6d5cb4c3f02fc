"""The repository's crates, and what the kit's command `rt` does with them: asked of rt's own library where rt has no word for it, as to
check a copy of a crate."""
import functools
import hashlib
import importlib.machinery
import importlib.util
import os
import pathlib
import subprocess
import sys
import tempfile

sys.dont_write_bytecode = True
top = pathlib.Path(__file__).resolve().parents[1]
kept = top / "out"


@functools.lru_cache(maxsize=None)
def home():
    """The kit's folder."""
    return pathlib.Path(subprocess.run(["rt", "doc"], capture_output=True, text=True, check=True).stdout.strip()).parent


@functools.lru_cache(maxsize=None)
def library():
    """The library of rt, which stands beside it."""
    spec = importlib.util.spec_from_file_location("rtlib", home() / "bin" / "rtlib.py")
    made = importlib.util.module_from_spec(spec)
    sys.modules["rtlib"] = made
    spec.loader.exec_module(made)
    made.guarded()
    return made


def command():
    """The command rt, as a module."""
    loader = importlib.machinery.SourceFileLoader("rt", str(home() / "bin" / "rt"))
    made = importlib.util.module_from_spec(importlib.util.spec_from_loader("rt", loader))
    loader.exec_module(made)
    return made


@functools.lru_cache(maxsize=None)
def crates():
    """The crates as rt knows them, by their names, each after those that it stands on."""
    found = library().crates_below(str(top))
    return {it.name: it for it in sorted(found, key=lambda it: len(it.below()))}


def lines_in(file):
    """The libraries that each crate of a list names, those of the kit among them."""
    lines = [line for line in file.read_text().splitlines() if line and not line.startswith("#")]
    return {line.partition(":")[0].strip(): line.partition(":")[2].split() for line in lines}


@functools.lru_cache(maxsize=None)
def crates_of_tests():
    """The libraries that each crate of tests names. These crates are Rust without proofs, in files `.rs`, which rt doesn't read."""
    return lines_in(top / "tests" / "crates" / "libraries.txt")


@functools.lru_cache(maxsize=None)
def lines_of_crates():
    """The libraries that each crate names, those of tests among them."""
    return {**lines_in(top / "crates.txt"), **crates_of_tests()}


def folder(name):
    """The folder of a crate."""
    return top / "tests" / "crates" / name if name in crates_of_tests() else top / "crates" / name


def stands_on(name):
    """The crates of the repository that a crate stands on, itself among them."""
    found, left = set(), [name]
    while left:
        name = left.pop()
        if name in lines_of_crates() and name not in found:
            found.add(name)
            left += lines_of_crates()[name]
    return found


def files(name):
    """The files that a crate is made of."""
    return [it for part in ("src", "specs", "proofs") for it in sorted((folder(name) / part).rglob("*")) if it.is_file()]


def sources(name):
    """A sum of all that a program is made of: the text of its crate and of those that it stands on, and the libraries that these name."""
    made = hashlib.sha256()
    for crate in sorted(stands_on(name)):
        made.update(repr((crate, lines_of_crates()[crate])).encode())
        for file in files(crate):
            made.update(f"{file.relative_to(top)}\0".encode() + hashlib.sha256(file.read_bytes()).digest())
    return made.hexdigest()


def proved(name):
    """The program that was proved and built."""
    return top / "crates" / name / "out" / name


def built(name):
    """The program that was built without proofs."""
    return kept / "built" / name


def is_of(program, sums):
    """Whether the program is there, and made of sources of this sum."""
    stamp = program.with_name(program.name + ".sources")
    return os.access(program, os.X_OK) and stamp.is_file() and stamp.read_text().strip() == sums


def stamp(program, sums):
    """Keeps beside a program of which sources it is made."""
    program.with_name(program.name + ".sources").write_text(sums + "\n")


def ran(words, **how):
    """A command's status, what it said on both streams, its processor seconds and the most memory that one process of it held, in MB."""
    with tempfile.TemporaryFile() as said:
        command = subprocess.Popen(words, stdin=subprocess.DEVNULL, stdout=said, stderr=subprocess.STDOUT, **how)
        _, status, used = os.wait4(command.pid, 0)
        command.returncode = os.waitstatus_to_exitcode(status)
        said.seek(0)
        return command.returncode, said.read().decode(errors="replace"), used.ru_utime + used.ru_stime, used.ru_maxrss // 1024


def check(crate, folder, flags):
    """What a check of the crate's text in this folder says, over the libraries that stand in the repository, and its processor seconds."""
    words = crates()[crate].words(["--jobs", "1"], keeps=False)
    _, said, seconds, _ = ran([*library().guarded(), library().RATTLE, "check", *words, *flags], cwd=folder)
    return said, seconds
