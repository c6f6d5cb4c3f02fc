#!/usr/bin/env python3
"""Tries the wrong bodies: of each the prover must refuse the function that it names.

Use: tests/wrong_bodies.py [CRATE | CRATE/NAME ..]   those of all crates but dear ones, those of some crates, or some alone
     tests/wrong_bodies.py --stand                   only sees that each can still be applied

A wrong body is a file tests/wrong_bodies/CRATE/NAME.edit: a line `proof: ` with the function whose proof must fail, as a check prints
it but for the crate; then `file: `, and pairs of `old: `, which stands once in that file, and `new: `. One with which the prover
came to no end in a quarter of an hour is dear, and ends in `.dear`.

They are tried over the libraries that `tools/ci` or `./i7story prove` left, a crate at a time on each processor. Such a library holds what was
proved of it, module by module: in a copy of the crate a check begins with that, so that little but the named functions is proved. These must
be proved as they stand, and none with its edit. Edits inside different functions are tried in one check, since a proof reads no other
function's body; an edit of a function that calls another with an edit is tried once more, behind that."""
import collections
import concurrent.futures
import json
import os
import pathlib
import re
import shutil
import sys
import tempfile
import time

here = pathlib.Path(__file__).resolve().parent
sys.path.insert(0, str(here.parent / "tools"))
import kit


class Edit:
    """A wrong body as its file tells it."""

    def __init__(self, path):
        self.crate, self.name, self.is_dear = path.parent.name, f"{path.parent.name}/{path.stem}", path.suffix == ".dear"
        said = collections.defaultdict(list)
        for line in path.read_text().splitlines():
            key, _, value = line.partition(":")
            said[key].append(value.removeprefix(" "))
        self.is_whole = set(said) == {"proof", "file", "old", "new"} and len(said["old"]) == len(said["new"])
        self.proof, self.file = "".join(said["proof"]), "".join(said["file"])
        self.pairs = list(zip(said["old"], said["new"]))

    def text(self):
        file = kit.top / "crates" / self.crate / self.file
        return file.read_text() if file.is_file() else ""

    def applied(self, text):
        """The text with the edit; None where a line that it takes out doesn't stand there once."""
        for old, new in self.pairs:
            if text.count(old) != 1:
                return None
            text = text.replace(old, new)
        return text

    def stands(self):
        return self.is_whole and self.applied(self.text()) is not None

    def is_inside(self):
        """Whether all that it changes lies in the body of the function whose proof must fail."""
        return all(function_around(self.text(), old) == self.proof.rpartition("::")[2] for old, _ in self.pairs)


def function_around(text, piece):
    """The name of the function whose body the piece lies in, as rt fmt lays functions out; None where it lies in none."""
    at = text.index(piece)
    for head in reversed([*re.finditer(r"(?m)^( *)(?:pub(?:\([^)]*\))? )?(?:const )?fn (\w+)", text[:at])]):
        begins = re.compile(rf"(?m)^{head[1]}\{{|\{{$").search(text, head.end())
        ends = re.compile(rf"(?m)^{head[1]}\}}$").search(text, head.end())
        if begins and ends and begins.start() < at < ends.start():
            return head[2]
    return None


def batches(edits):
    """The edits in lists, of which each is tried in one check: none but one names a function, and what lies elsewhere stands alone."""
    made = []
    for edit in edits:
        fits = [it for it in made if edit.is_inside() and it[0].is_inside() and edit.proof not in {other.proof for other in it}]
        if fits:
            fits[0].append(edit)
        else:
            made.append([edit])
    return made


def verdicts(said, crate):
    """What the check says of each function, by its name."""
    return dict(re.findall(rf"(?m)^fn {crate}::(\S+): (.*)$", said))


# An error in a file of lemmas.
OF_LEMMAS = re.compile(r"(?m)^\./proofs/(\w+)\.antt:\d+:\d+: error")


def lacks_own_goal(verdict, said, function, crate):
    """Whether a goal of the function's own is not proved: one that the search left, or one whose answer is refused, or a lemma that it cites.
    The goals of a function that stands in a cycle of calls stand with the cycle's, and begin with its name where others are in it."""
    path, name = function.replace("::", "/"), function.rpartition("::")[2]
    calls_itself = f"{path.removesuffix(name)}+{name}"
    left = re.match(r"no proof: expected answers in \./proofs/(\S+)/Answers\.antt; `search` did not prove (.*)", verdict)
    refused = re.match(r"not proved; it stands on `Rattle\.\w+\.proofs\.(\S+)\.Answers\.(.*)", verdict)
    told = re.findall(r"(?m)^\./proofs/(\S+)/Answers\.antt:\d+:\d+: error: `(.*)", said) if verdict.startswith("not proved") else []
    lemma = re.match(r"not proved; it stands on `Rattle\.\w+\.proofs\.([\w.]+)\.[\w-]+`", verdict)
    for place, goals in [it.groups() for it in (left, refused) if it] + told:
        own = place.replace(".", "/")
        if own in (path, calls_itself) or own.rpartition("/")[2].startswith("+") and f"{name}-" in goals:
            return True
    # a file of lemmas is no function's folder
    lemmas = [lemma[1].replace(".", "/")] if lemma else [place for place in OF_LEMMAS.findall(said) if verdict == "not proved"]
    return any((kit.top / "crates" / crate / "proofs" / f"{it}.antt").is_file() for it in lemmas)


def unread(said, function):
    """The first line of an error that says that the function's answers, or the edited text, can't be read, rather than that a goal fails."""
    own = f"proofs/{function.replace('::', '/')}/"
    errors = [it for it in said.splitlines() if re.match(r"\S+:\d+:\d+: error", it)]
    names = r"has no field|is not in scope|has no `|is no name|expected the end|cannot continue"
    return next((it for it in errors if (own in it or it.startswith(("src/", "./src/", "specs/"))) and re.search(names, it)), "")


def first_error(said):
    """The first line in which a check tells an error, or its last line."""
    lines = said.strip().splitlines() or [""]
    return next((line for line in lines if "error" in line), lines[-1])[:240]


def refused(said, edit):
    """What is wrong with the way in which a check took the edit; nothing where it refused it for a goal of the function's own."""
    verdict = verdicts(said, edit.crate).get(edit.proof)
    if verdict is None:
        return f"BAD EDIT, {edit.proof} was not tried: {first_error(said)}"
    if verdict == "proved":
        return f"NOT REFUSED: {edit.proof} is still proved"
    if not lacks_own_goal(verdict, said, edit.proof, edit.crate) or unread(said, edit.proof):
        return f"BAD EDIT, no goal of {edit.proof} is open: {verdict[:200]}; {unread(said, edit.proof) or first_error(said)}"
    return None


# How a verdict begins of a function that calls one that isn't proved.
CALLS = re.compile(r"not proved; it calls |no proof: the borrow checker's part in its proof is not made yet: a call of ")


def waits(said, edit, batch):
    """Whether nothing is told of the edit's function but that it calls others that aren't proved, where another edit of the batch may be why."""
    verdict = verdicts(said, edit.crate).get(edit.proof, "")
    return len(batch) > 1 and bool(CALLS.match(verdict)) and not lacks_own_goal(verdict, said, edit.proof, edit.crate)


def modules_in(library):
    """What a built library holds of its own proofs, by the names of the modules; nothing where it holds its statements alone."""
    rows = [json.loads(line) for line in (library / "checked.json").read_text().splitlines()]
    data = (library / "checked.a").read_bytes()
    return {name: data[place : place + size] for name, place, size in rows if "/" not in name}


def write_proved(modules, to):
    """Writes modules where a check looks for what an earlier one proved: in a folder named by the kernel, which each of them names."""
    kernel = re.search(rb"(?m)^--@ kernel (\S+)$", next(iter(modules.values())))[1].decode()
    folder = to / kernel.replace("/", "_")
    folder.mkdir(parents=True)
    for name, module in modules.items():
        (folder / f"{name}.oantt").write_bytes(module)


class Copy:
    """A copy of a crate with what was proved of it, and the seconds that its checks took."""

    def __init__(self, room, crate):
        self.room, self.crate, self.seconds = room, crate, 0
        for part in ("src", "specs", "proofs"):
            if (kit.top / "crates" / crate / part).is_dir():
                shutil.copytree(kit.top / "crates" / crate / part, room / part)
        modules = modules_in(pathlib.Path(kit.crates()[crate].rlib) / "toolchain")
        if modules:
            write_proved(modules, room / "proved")
        else:
            # as a plain `rt ci` leaves it: proved once more
            _, self.seconds = kit.check(crate, room, ["--incremental", room / "proved"])

    def checked(self, functions):
        """What a check of these functions says, over what was proved of the crate as it stands."""
        only = [word for function in sorted(functions) for word in ("--only", function)]
        # a check replaces such a file, and changes none
        shutil.copytree(self.room / "proved", self.room / "kept", copy_function=os.link)
        said, seconds = kit.check(self.crate, self.room, [*only, "--incremental", self.room / "kept"])
        shutil.rmtree(self.room / "kept")
        self.seconds += seconds
        return said

    def checked_with(self, batch):
        """What a check of the edits' functions says, with the edits."""
        whole = {edit.file: (self.room / edit.file).read_text() for edit in batch}
        files = dict(whole)
        for edit in batch:
            files[edit.file] = edit.applied(files[edit.file])
        for file, text in files.items():
            (self.room / file).write_text(text)
        said = self.checked({edit.proof for edit in batch})
        for file, text in whole.items():
            (self.room / file).write_text(text)
        return said


def wrong_in(copy, batch):
    """What is wrong with each edit of a batch, by its name; those that wait for others of it are tried behind these."""
    wrong = {}
    while batch:
        said = copy.checked_with(batch)
        waiting = [edit for edit in batch if waits(said, edit, batch)]
        settled = [edit for edit in batch if edit not in waiting or len(waiting) == len(batch)]
        wrong.update({edit.name: refused(said, edit) for edit in settled})
        batch = [edit for edit in waiting if edit not in settled]
    return wrong


def tried(crate, edits):
    """What is wrong with each of a crate's edits, by its name, and the processor seconds that trying them took."""
    named = {edit.proof for edit in edits}
    with tempfile.TemporaryDirectory(prefix="wrong-bodies-") as room:
        copy = Copy(pathlib.Path(room), crate)
        said = copy.checked(named)
        found = verdicts(said, crate)
        unproved = {it: found.get(it, "not tried") for it in named if found.get(it) != "proved"}
        wrong = {it.name: f"{it.proof} as it stands: {unproved[it.proof]}, {first_error(said)}" for it in edits if it.proof in unproved}
        for batch in batches([it for it in edits if it.proof not in unproved]):
            wrong.update(wrong_in(copy, batch))
    return {name: why for name, why in wrong.items() if why}, copy.seconds


def all_edits():
    """The wrong bodies of all crates."""
    return [Edit(path) for path in sorted(here.glob("wrong_bodies/*/*")) if path.suffix in (".edit", ".dear")]


def tried_until(end, crate, edits):
    """As `tried`, if there is time: nothing where the time is over."""
    return tried(crate, edits) if end is None or time.time() < end else None


def try_all(edits, end=None):
    """The edits that weren't refused, those that weren't tried since the time was over, and the processor seconds of each crate; all are told
    as they are found."""
    by_crate, wrong, left, seconds = collections.defaultdict(list), {}, [], {}
    # asked of rt in the first thread, as rt wants it
    kit.crates()
    for edit in edits:
        by_crate[edit.crate].append(edit)
    with concurrent.futures.ThreadPoolExecutor(len(os.sched_getaffinity(0))) as pool:
        runs = {pool.submit(tried_until, end, *it): it[0] for it in sorted(by_crate.items(), key=lambda it: -len(it[1]))}
        for run in concurrent.futures.as_completed(runs):
            crate = runs[run]
            if run.result() is None:
                left += by_crate[crate]
                print(f"wrong bodies of {crate}: {len(by_crate[crate])} not tried, for want of time", flush=True)
                continue
            found, seconds[crate] = run.result()
            wrong.update(found)
            print(f"wrong bodies of {crate}: {len(by_crate[crate]) - len(found)} refused, {len(found)} not; {seconds[crate]:.0f} s of a processor", flush=True)
            for name, why in sorted(found.items()):
                print(f"  {name}: {why}", flush=True)
    return wrong, left, seconds


def main(words):
    edits = all_edits()
    fallen = [it for it in edits if not it.stands()]
    for edit in fallen:
        print(f"{edit.name} can't be applied, or lacks a line")
    if words == ["--stand"]:
        print(f"{len(edits) - len(fallen)} passed, {len(fallen)} failed")
        return 1 if fallen else 0
    named = [it for it in edits if (it.crate in words or it.name in words if words else not it.is_dear)]
    chosen = [it for it in named if it not in fallen]
    wrong, _, seconds = try_all(chosen)
    print(f"{sum(seconds.values()) / 60:.1f} processor minutes")
    print(f"{len(chosen) - len(wrong)} passed, {len(wrong) + len(fallen)} failed")
    return 1 if wrong or fallen or not chosen else 0


if __name__ == "__main__":
    sys.exit(main(sys.argv[1:]))
