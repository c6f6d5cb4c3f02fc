"""What a page shows of sources and plays, each as it is and as it is shown.

A block ```inform7 is a source, and so is the file of a link that ends in `.i7`. Behind it a block ```part stands in it whole, a block
```transcript is what is written for the commands that stand behind its prompts, a block ```rules what `i7story rules` prints of it with the words
that follow there, and a block ```refused how it is refused, where its path is story.i7. A source is taken, but in front of ```refused.

Tables speak of the source in front of them, or of that of a block ```inform7 scene, if the page has one. A row of a table that ends in a code,
or in `taken`, has a sentence or phrase that is refused with that code behind that source, or taken, and one that is taken. In a table one of
whose heads is one of `WAYS`, what stands in that column is taken, each piece of it by itself. Where `prints` is a head too, it prints what stands
there, a piece for each line, or `a blank line`; where `is refused` is one, it is refused with that code; where `a break follows` is one, that is
so, or not."""
import pathlib
import re
import shlex
import subprocess
import tempfile

PIECE = re.compile(r"(?ms)^```([^\n]*)\n(.*?)^```$|\]\(([^)#:]+\.i7)\)|((?:^\|[^\n]*\n)+)")

# What is put behind the source for a piece of a column, by the head of the column.
WAYS = {
    "a sentence": "\n{}\n",
    "a head": '{}, say "Yes."',
    "a phrase": "Instead of jumping: {}.",
    "a condition": 'Instead of jumping: if {}, say "Yes."',
    "an object": "Instead of jumping: if {} is nothing, now the lamp is lit.",
    "a number": 'Instead of jumping: say "[{}]".',
    "a description": 'Instead of jumping: say "[a list of {}]".',
    "a text": "Instead of jumping: say {}.",
    "a command": "",
}


def printed(program, source, words, commands=""):
    """What the program writes on both streams for these words and commands, the source's path being story.i7."""
    with tempfile.TemporaryDirectory() as room:
        pathlib.Path(room, "story.i7").write_text(source)
        done = subprocess.run([program, *words], cwd=room, input=commands.encode(), stdout=subprocess.PIPE, stderr=subprocess.STDOUT, timeout=60)
    return done.stdout.decode()


def ran(program, source, commands):
    """What is written for a source and these commands."""
    return printed(program, source, ["run", "story.i7", "--transcript"], commands)


def played(program, source, transcript):
    """What is written for a source and the commands of a transcript."""
    return ran(program, source, "".join(f"{line[1:]}\n" for line in transcript.splitlines() if len(line) > 1 and line[0] == ">"))


def verdict(program, source):
    """The code with which a source is refused, or `taken`."""
    found = re.match(r"story\.i7:\d+: (C\d+) ", ran(program, source, ""))
    return found[1] if found else "taken"


def behind(source, words):
    """A source with words behind it. Words with a small letter are a phrase."""
    sentence = f"Instead of jumping: {words}{'' if words.endswith(chr(34)) else '.'}" if words[0].islower() else words
    return f"{source}\n{sentence}\n"


def judged_rows(program, source, table):
    """What each row with a code says of its words, and what is so."""
    for left, right, code in re.findall(r"(?m)^\| `([^|]*)` \| `([^|]*)` \| (C\d+|taken) \|", table):
        yield left, verdict(program, behind(source, left)), code
        yield right, verdict(program, behind(source, right)), "taken"


def cells(line):
    return [it.strip() for it in line.strip().strip("|").split("|")]


def table_column(page, head, *columns):
    """The cells of some columns of the table of a page that begins with a head."""
    table = page.read_text().partition(f"\n{head}\n")[2].partition("\n\n")[0]
    return [cells(line)[it] for line in table.splitlines()[1:] for it in columns]


def answered(program, source, command):
    """What is written for a command behind a source."""
    return ran(program, source, f"{command}\n").partition(f">{command}\n")[2].removesuffix("\n>").rstrip("\n")


def tried(program, source, way, piece, prints):
    """What a piece of a column comes to, and what it is to come to."""
    whole = f"{source}\n{WAYS[way].format(piece)}\n"
    if way == "a command":
        return answered(program, source, piece), "\n".join(prints)
    if prints is not None:
        return answered(program, whole, "jump"), "\n".join(prints)
    return (answered(program, whole, "jump"), "Yes.") if way == "a condition" else (verdict(program, whole), "taken")


def piece_rows(program, source, way, row):
    """What each piece of a cell comes to, of a row told by the heads of its columns."""
    prints = re.findall(r"`([^`]*)`|a blank line", row["prints"]) if "prints" in row else None
    for piece in re.findall(r"`([^`]*)`", row[way]):
        if "is refused" in row:
            yield piece, verdict(program, f"{source}\n{WAYS[way].format(piece)}\n"), re.match(r"\w+", row["is refused"])[0]
        elif "a break follows" in row:
            said = answered(program, f'{source}\nInstead of jumping: say {piece}; say "Next"\n', "jump")
            yield piece, "yes" if said.endswith("\nNext") else "no", row["a break follows"]
        else:
            yield (piece, *tried(program, source, way, piece, prints))


def column_rows(program, source, table):
    """The pieces of the columns whose heads are ways."""
    head, _, *rows = map(cells, table.splitlines())
    for row in (dict(zip(head, it)) for it in rows):
        for way in WAYS.keys() & row.keys():
            yield from piece_rows(program, source, way, row)


def of_block(program, source, sort, block):
    """What a block shows that stands behind a source."""
    if sort == "transcript":
        yield block[:40], played(program, source, block).rstrip("\n"), block.rstrip("\n")
    elif sort == "refused":
        yield block[:40], ran(program, source, ""), block
    elif sort.startswith("rules"):
        yield block[:40], printed(program, source, ["rules", "story.i7", *shlex.split(sort)[1:]]), block


def shown(program, page):
    """What a page shows of its sources, as it is and as it is shown. The parts of a file stand in front of its link."""
    source, scene, parts = "", "", []
    pieces = PIECE.findall(page.read_text())
    for number, (sort, block, link, table) in enumerate(pieces):
        if link:
            source = (page.parent / link).read_text()
            yield from ((f"a part of {link}", str(part in source), "True") for part in parts)
            parts = []
        elif table:
            yield from judged_rows(program, scene or source, table)
            yield from column_rows(program, scene or source, table)
        elif sort == "part":
            parts.append(block)
        elif sort.startswith("inform7"):
            source = block
            scene = block if sort == "inform7 scene" else scene
            if [it[0] for it in pieces[number + 1:number + 2]] != ["refused"]:
                yield block[:40], verdict(program, source), "taken"
        else:
            yield from of_block(program, source, sort, block)
