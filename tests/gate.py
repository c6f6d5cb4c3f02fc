#!/usr/bin/env python3
"""The gate: each wrong body can be applied; `rt ci` (by tools/ci) proves everything from nothing and passes the program; over what it left
the wrong bodies are refused, a function at a time; and each script of tests/ passes over the built program and the crates of tests,
which are built without proofs. It ends with what that took, by crate and sort.

Use: tests/gate.py"""
import collections
import os
import pathlib
import re
import subprocess
import sys
import threading
import time

here = pathlib.Path(__file__).resolve().parent
sys.path.insert(0, str(here.parent / "tools"))
import kit
import scripts
import wrong_bodies

TICKS = os.sysconf("SC_CLK_TCK")
PAGE = os.sysconf("SC_PAGE_SIZE")
# Behind so many minutes no crate's wrong bodies are begun, so that a slow machine comes to the end: the gate says which it left.
MOST_MINUTES = 140
SORTS = ["proofs", "programs", "wrong bodies"]


class Watch:
    """Reads every half second what the prover's processes have used: processor seconds by crate and sort, and memory."""

    def __init__(self):
        self.used, self.most_at_once, self.most_of_one, self.ended = {}, 0, 0, threading.Event()
        self.thread = threading.Thread(target=self.watch)
        self.thread.start()

    def watch(self):
        while not self.ended.wait(0.5):
            found = {pid: it for pid in os.listdir("/proc") if pid.isdigit() and (it := self.read(pid))}
            held = collections.Counter()
            for pid, (words, fields) in found.items():
                # a check's copies are its children, and what they used is theirs until they end
                is_copy = fields[1] in found
                held[fields[1] if is_copy else pid] += int(fields[21]) * PAGE
                if not is_copy:
                    self.keep(pid, words, fields)
            self.most_at_once = max(self.most_at_once, held.total())
            self.most_of_one = max([self.most_of_one, *held.values()])

    def read(self, pid):
        """The words and the numbers of the process, as proc(5) tells them from its third on, if it is the prover's."""
        try:
            words = pathlib.Path("/proc", pid, "cmdline").read_bytes().decode(errors="replace").split("\0")
            if not words[0].endswith("/bin/rattle") or "--crate-name" not in words:
                return None
            return words, pathlib.Path("/proc", pid, "stat").read_text().rpartition(")")[2].split()
        except OSError:
            return None

    def keep(self, pid, words, fields):
        """Keeps what the process and its ended children used so far, by its crate and sort."""
        sort = "programs" if "--crate-checked" in words else "proofs"
        crate = words[words.index("--crate-name") + 1]
        # utime, stime and those of its children, its start: fields 14 to 17, and 22
        self.used[pid, fields[19]] = crate, sort, sum(map(int, fields[11:15])) / TICKS

    def end(self):
        """The seconds by crate and sort."""
        self.ended.set()
        self.thread.join()
        seconds = collections.Counter()
        for crate, sort, used in self.used.values():
            seconds[crate, sort] += used
        return seconds


def proved():
    """Whether `rt ci` passes, and how many it says have passed; all that it says is kept in out/ci.log."""
    kit.kept.mkdir(exist_ok=True)
    how = {"cwd": kit.top, "stdin": subprocess.DEVNULL}
    last = ""
    with open(kit.kept / "ci.log", "w") as log:
        with subprocess.Popen([kit.top / "tools" / "ci"], stdout=subprocess.PIPE, stderr=subprocess.STDOUT, text=True, errors="replace", **how) as command:
            for last in command.stdout:
                log.write(last)
                # one line a function would be thousands
                if not re.match(r"fn \S+: proved$", last):
                    print(last, end="", flush=True)
    found = re.match(r"(\d+) passed, 0 failed", last)
    return command.returncode == 0 and found is not None, int(found[1]) if found else 0


def table(seconds):
    """The processor minutes by crate and sort, the dearest crate first."""
    of_crate = collections.Counter()
    for (crate, _), used in seconds.items():
        of_crate[crate] += used
    rows = [("processor minutes", *SORTS)]
    for crate, _ in of_crate.most_common():
        rows.append((crate, *(f"{seconds[crate, sort] / 60:.1f}" for sort in SORTS)))
    rows.append(("all", *(f"{sum(used for (_, of), used in seconds.items() if of == sort) / 60:.1f}" for sort in SORTS)))
    return "\n".join(f"{row[0]:20}" + "".join(f"{field:>14}" for field in row[1:]) for row in rows)


def used_so_far():
    """The processor seconds of all that this process ran and waited for."""
    times = os.times()
    return times.children_user + times.children_system


def main():
    began = time.time()
    edits = wrong_bodies.all_edits()
    if not all([it.stands() for it in edits]):
        sys.exit(wrong_bodies.main(["--stand"]))
    print(f"{sum(it.is_dear for it in edits)} dear wrong bodies are only seen to apply", flush=True)
    edits = [it for it in edits if not it.is_dear]
    watch = Watch()
    well, passed = proved()
    seconds, of_proofs = watch.end(), used_so_far()
    if not well:
        return 1
    kit.stamp(kit.proved("i7story"), kit.sources("i7story"))
    wrong, left, of_edits = wrong_bodies.try_all(edits, began + 60 * MOST_MINUTES)
    of_wrong_bodies = used_so_far() - of_proofs
    seconds.update({(crate, "wrong bodies"): used for crate, used in of_edits.items()})
    failed, ran = scripts.all_told(kit.proved("i7story"), []) if scripts.build([]) else (["the crates of tests"], 0)
    of_scripts = used_so_far() - of_proofs - of_wrong_bodies
    print(table(seconds))
    print(f"rt ci {of_proofs / 60:.1f}, wrong bodies {of_wrong_bodies / 60:.1f}, scripts {of_scripts / 60:.1f} processor minutes: "
          f"{used_so_far() / 60:.1f} in all, {(time.time() - began) / 60:.1f} by the clock on {len(os.sched_getaffinity(0))} processors")
    print(f"memory: {watch.most_of_one / 1e9:.1f} GB at most of one check, {watch.most_at_once / 1e9:.1f} GB of those at once")
    failures = len(wrong) + len(failed)
    if left:
        print(f"{len(left)} wrong bodies were not tried, for want of time: {' '.join(sorted({it.crate for it in left}))}")
    print(f"{passed + len(edits) - len(left) - len(wrong) + ran - len(failed)} passed, {failures} failed")
    return 1 if failures else 0


if __name__ == "__main__":
    sys.exit(main())
