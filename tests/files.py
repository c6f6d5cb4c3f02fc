#!/usr/bin/env python3
"""No file is lost: a story that can't be written whole leaves the old one as it was, a source is never written over, and a play beside
compiles of one path finds a whole story each time. And what is read from standard input, and which commands from a file.

Use: tests/files.py PROGRAM"""
import concurrent.futures
import os
import pathlib
import resource
import shutil
import signal
import stat
import subprocess
import sys
import tempfile

program = str(pathlib.Path(sys.argv[1]).resolve())
stories = pathlib.Path(__file__).resolve().parents[1] / "stories"
SOURCE = (stories / "two-rooms.i7").read_bytes()
OPENING = b"Hall\nA bare hall.\n\n>"
passed = failed = 0


def count(name, good, told=""):
    global passed, failed
    passed, failed = passed + bool(good), failed + (not good)
    if not good:
        print(f"files: {name}: {told}")


def ran(*words, given=b"", program=program, **how):
    """What a run of the program came to: its status, and what it wrote on both streams."""
    done = subprocess.run([program, *words], input=given, stdout=subprocess.PIPE, stderr=subprocess.PIPE, timeout=60, **how)
    return done.returncode, done.stdout, done.stderr


def wants(name, got, *wanted):
    count(name, got == wanted, f"{got}, wanted {wanted}")


def names():
    return sorted(os.listdir())


def story_of(source):
    """The bytes that a source is compiled to, by way of standard output."""
    return ran("compile", source, "/dev/stdout")[1]


def sources_stay():
    """A story that is the source's own file is refused."""
    pathlib.Path("own.i7").write_bytes(SOURCE)
    os.link("own.i7", "hard.i7")
    os.symlink("own.i7", "soft.i7")
    os.symlink("soft.i7", "softer.i7")
    for source, story in [("own.i7", "own.i7"), ("own.i7", "./own.i7"), ("own.i7", "hard.i7"), ("hard.i7", "soft.i7"), ("softer.i7", "own.i7")]:
        before = names()
        wants(f"compile {source} {story}", ran("compile", source, story), 3, b"", f"{story}: cannot be written\n".encode())
        count(f"{source} is as it was", pathlib.Path("own.i7").read_bytes() == SOURCE and names() == before)
    with open("own.i7", "rb") as given:
        done = subprocess.run([program, "compile", "-", "hard.i7"], stdin=given, stdout=subprocess.PIPE, stderr=subprocess.PIPE)
    wants("the source on standard input", (done.returncode, done.stderr), 3, b"hard.i7: cannot be written\n")
    count("it is as it was", pathlib.Path("own.i7").read_bytes() == SOURCE)


def no_room(ignored):
    """Lets no file grow past a hundred bytes; a process that tries to is told so, or is ended."""
    def begin():
        resource.setrlimit(resource.RLIMIT_FSIZE, (100, 100))
        resource.setrlimit(resource.RLIMIT_CORE, (0, 0))
        signal.signal(signal.SIGXFSZ, signal.SIG_IGN if ignored else signal.SIG_DFL)
    return begin


def old_stories_stay():
    """Where there is no room for a story, the old one stays, and nothing is left beside it."""
    pathlib.Path("two.i7").write_bytes(SOURCE)
    wants("compiling", ran("compile", "two.i7", "two"), 0, b"", b"")
    whole, before = pathlib.Path("two").read_bytes(), names()
    wants("no room", ran("compile", "two.i7", "two", preexec_fn=no_room(True)), 3, b"", b"two: cannot be written\n")
    count("the old story stays", pathlib.Path("two").read_bytes() == whole and names() == before, names())
    status, _, _ = ran("compile", "two.i7", "two", preexec_fn=no_room(False))
    count("ended for want of room", status == -signal.SIGXFSZ, status)
    count("the old story stays then, too", pathlib.Path("two").read_bytes() == whole)
    for left in set(names()) - set(before):
        os.remove(left)
    wants("no room for a new story", ran("compile", "two.i7", "new", preexec_fn=no_room(True)), 3, b"", b"new: cannot be written\n")
    count("nothing is left of it", names() == before, names())
    wants("a full device", ran("compile", "two.i7", "/dev/full"), 3, b"", b"/dev/full: cannot be written\n")
    wants("a folder", ran("compile", "two.i7", "."), 3, b"", b".: cannot be written\n")
    pathlib.Path("two.0.new").write_bytes(b"another's")
    wants("beside a file that another left", ran("compile", "two.i7", "two"), 0, b"", b"")
    count("that stays", pathlib.Path("two.0.new").read_bytes() == b"another's")


def places_are_taken():
    """A new story has the mode of the old one, and stands where a link leads."""
    whole = story_of("two.i7")
    pathlib.Path("old").write_bytes(b"an old story, which is of another length")
    os.chmod("old", 0o640)
    os.symlink("old", "link")
    wants("compiling to a link", ran("compile", "two.i7", "link"), 0, b"", b"")
    count("the link stays", os.path.islink("link") and not os.path.islink("old"))
    count("the story stands there", pathlib.Path("old").read_bytes() == whole)
    count("its mode stays", stat.S_IMODE(os.stat("old").st_mode) == 0o640)
    os.symlink("nothing", "dangling")
    wants("compiling to a link that leads nowhere", ran("compile", "two.i7", "dangling"), 0, b"", b"")
    count("it leads there now", os.path.islink("dangling") and pathlib.Path("nothing").read_bytes() == whole)
    wants("no such folder", ran("compile", "two.i7", "no/story"), 3, b"", b"no/story: cannot be written\n")


def as_nobody():
    os.setgid(65534)
    os.setuid(65534)


def locked_folders():
    """Where nothing may be made beside a file that may be written, it is written itself."""
    if os.geteuid():
        return
    with tempfile.TemporaryDirectory() as room:
        os.chmod(room, 0o755)
        shutil.copy(program, f"{room}/program")
        pathlib.Path(room, "two.i7").write_bytes(SOURCE)
        pathlib.Path(room, "story").write_bytes(b"an old story")
        os.chmod(f"{room}/story", 0o666)
        wants("a locked folder", ran("compile", "two.i7", "story", program=f"{room}/program", cwd=room, preexec_fn=as_nobody), 0, b"", b"")
        count("its file is written", pathlib.Path(room, "story").read_bytes() == story_of("two.i7"))
        wants("a new file there", ran("compile", "two.i7", "new", program=f"{room}/program", cwd=room, preexec_fn=as_nobody), 3, b"", b"new: cannot be written\n")


def streams_are_written():
    """What is no plain file is written as it stands."""
    whole = story_of("two.i7")
    count("a pipe", whole.startswith(b"I7ST"), whole[:10])
    done = subprocess.run(["bash", "-c", '"$0" compile two.i7 /dev/fd/3 3>behind', program])
    count("/dev/fd/3", done.returncode == 0 and pathlib.Path("behind").read_bytes() == whole)
    with open("out", "wb") as out:
        done = subprocess.run([program, "compile", "two.i7", "/dev/stdout"], stdout=out)
        out.seek(0, os.SEEK_END)
        out.write(b"behind")
    count("/dev/stdout of a file", done.returncode == 0 and pathlib.Path("out").read_bytes() == whole + b"behind")


def compiles_beside_plays():
    """Forty compiles of two sources to one path, beside sixty plays of it: each play is of a whole story."""
    pathlib.Path("other.i7").write_bytes(b"The Cave is a room.")
    ran("compile", "two.i7", "shared")
    jobs = [("compile", ["two.i7", "other.i7"][number % 2], "shared") for number in range(40)]
    jobs = [job for pair in zip(jobs, [("play", "shared")] * 40) for job in pair] + [("play", "shared")] * 20
    with concurrent.futures.ThreadPoolExecutor(8) as pool:
        for job, (status, out, err) in zip(jobs, pool.map(lambda job: ran(*job), jobs)):
            count(f"{job}", (status, err) == (0, b"") and (job[0] == "compile" or out in (OPENING, b"Cave\n\n>")), (status, out, err))
    count("nothing is left beside it", not [it for it in names() if it.startswith("shared.")], names())


def input_is_read():
    """`-` is standard input, where the commands aren't; --commands tells where these come from."""
    pathlib.Path("typed").write_bytes(b"n\n")
    played = OPENING + b"Garden\n\n>"
    wants("compile -", ran("compile", "-", "read", given=SOURCE), 0, b"", b"")
    count("the story of what was read", pathlib.Path("read").read_bytes() == story_of("two.i7"))
    wants("run - --commands", ran("run", "-", "--commands", "typed", given=SOURCE), 0, played, b"")
    wants("play - --commands", ran("play", "-", "--commands=typed", given=story_of("two.i7")), 0, played, b"")
    wants("run --commands", ran("run", "two.i7", "--commands", "typed", given=b"look\n"), 0, played, b"")
    wants("an echo", ran("run", "two.i7", "--commands", "typed", "--transcript"), 0, OPENING + b"n\nGarden\n\n>", b"")
    for form in ("run", "play"):
        status, out, err = ran(form, "-", given=SOURCE)
        count(f"{form} -", (status, out) == (5, b"") and b"- is no file" in err and b"--commands" in err, (status, out, err))
    wants("no commands", ran("run", "two.i7", "--commands", "none"), 3, b"", b"none: cannot be read\n")
    wants("commands in a folder", ran("run", "two.i7", "--commands", "."), 3, OPENING, b"i7story: V1 Read\n")
    pathlib.Path("bad.i7").write_bytes(b"The Hall is a room.\nThe Hall frobnicates.\n")
    wants("a refused source on standard input", ran("compile", "-", "read", given=b"Hello."), 1, b"", b"-:1: C5 NotUnderstood\n")
    wants("a source named -", (pathlib.Path("./-").write_bytes(SOURCE) and 0, *ran("run", "./-", given=b"n\n")), 0, 0, played, b"")


def listings_are_told():
    """What can't be listed is told as what can't be played is."""
    wants("a listing of a refused source", ran("rules", "bad.i7"), 1, b"", b"bad.i7:2: C5 NotUnderstood\n")
    wants("a listing of standard input", ran("rules", "-", given=b"Hello."), 1, b"", b"-:1: C5 NotUnderstood\n")
    wants("a listing of no file", ran("rules", "none.i7"), 3, b"", b"none.i7: cannot be read\n")
    with open("/dev/full", "wb") as full:
        done = subprocess.run([program, "rules", "two.i7"], stdout=full, stderr=subprocess.PIPE, timeout=60)
    wants("a listing on a full device", (done.returncode, done.stderr), 3, b"")
    status, out, err = ran("rules")
    count("a listing of nothing", (status, out) == (5, b"") and err, (status, out, err))


with tempfile.TemporaryDirectory() as scratch:
    os.chdir(scratch)
    for part in (sources_stay, old_stories_stay, places_are_taken, locked_folders, streams_are_written, compiles_beside_plays, input_is_read, listings_are_told):
        part()
    os.chdir("/")
print(f"files: {passed} passed, {failed} failed")
sys.exit(1 if failed or not passed else 0)
