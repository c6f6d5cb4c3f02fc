#!/usr/bin/env python3
"""The program's streams, in both forms that play: each prompt is there before the line behind it is typed,
and a stream that fails, or that never ends, is told.
Use: tests/streams.py PROGRAM"""
import os
import subprocess
import sys
import tempfile

OPENING = b"Hall\nA bare hall.\n\n>"
passed = failed = 0


def count(name, good):
    global passed, failed
    passed, failed = passed + good, failed + (not good)
    if not good:
        print(f"streams: {name}")


def reads(stream, text):
    """Whether these bytes come next."""
    for place in range(len(text)):
        if stream.read(1) != text[place:place + 1]:
            return False
    return True


def prompts(name, words, echo):
    """A player that waits for each prompt gets each answer before it types on, behind the line itself if lines are echoed."""
    player = subprocess.Popen(words, stdin=subprocess.PIPE, stdout=subprocess.PIPE, bufsize=0)
    good = reads(player.stdout, OPENING)
    for line, answer in [(b"n\n", b"Garden\n\n>"), (b"s\n", OPENING), (b"n. s\n", b"Garden\n\n" + OPENING), (b"xyzzy\n", b"I don't know that verb.\n\n>")]:
        player.stdin.write(line)
        good = good and reads(player.stdout, line * echo + answer)
    player.stdin.close()
    count(f"{name}: a prompt in front of each line", good and player.stdout.read() == b"" and player.wait() == 0)


def told(name, words, status, out, err, **streams):
    run = subprocess.run(words, stderr=subprocess.PIPE, timeout=60, **{"stdout": subprocess.PIPE, **streams})
    count(name, (run.returncode, run.stdout or b"", run.stderr) == (status, out, err))


def main():
    program = os.path.abspath(sys.argv[1])
    source = os.path.join(os.path.dirname(os.path.abspath(__file__)), "rows", "two_rooms", "source.i7")
    with tempfile.TemporaryDirectory() as scratch:
        story = os.path.join(scratch, "story")
        subprocess.run([program, "compile", source, story], check=True)
        for name, words in [("run", [program, "run", source]), ("play", [program, "play", story])]:
            prompts(name, words, False)
            prompts(f"{name} with a transcript", words + ["--transcript"], True)
            folder = os.open(scratch, os.O_RDONLY)
            told(f"{name}: commands from a folder", words, 3, OPENING, b"i7story: V1 Read\n", stdin=folder)
            full = open("/dev/full", "wb")
            told(f"{name}: a full device", words, 3, b"", b"", stdin=subprocess.DEVNULL, stdout=full)
            told(f"{name}: commands without end", words, 3, OPENING, b"i7story: V3 InputTooLong\n", input=b"a" * 16777217)
            told(f"{name}: as many blanks as are read", words, 0, OPENING + b"I beg your pardon?\n\n>", b"",
                 input=b" " * 16777216)
            told(f"{name}: as many full stops as are read", words, 0, OPENING + b"I beg your pardon?\n\n>", b"",
                 input=b"." * 16777216)
            told(f"{name}: a command behind as many cuts as are read", words, 0, OPENING + b"That line is too long.\n\n>", b"",
                 input=b"then " * 3355443 + b"z")
            told(f"{name}: a carriage return, and a last line without a break", words + ["--transcript"], 0,
                 OPENING + b"n\nGarden\n\n>look\nGarden\n\n>", b"", input=b"n\r\nlook")
            told(f"{name}: nothing behind a line that ends the session", words, 0, OPENING, b"", input=b"q\nx\n")
            told(f"{name}: nothing behind a command that ends the session", words, 0, OPENING + OPENING[:-2], b"", input=b"look.q.look\nx\n")
        unreadable = [program, "run", b"\xff.i7"]
        told("a word that isn't UTF-8", unreadable, 5, b"", b"i7story: a word that isn't UTF-8\n", stdin=subprocess.DEVNULL)
    print(f"streams: {passed} passed, {failed} failed")
    sys.exit(failed != 0)


main()
