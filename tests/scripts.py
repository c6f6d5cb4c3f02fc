#!/usr/bin/env python3
"""Runs the scripts of tests/ over a built program, as many at once as there are processors, and tells of each whether it passed, its
time and its processor seconds; of one that failed, all that it said.

Use: tests/scripts.py PROGRAM [NAME ..]     NAME: only scripts of these names, as `rows` or `plays`"""
import concurrent.futures
import os
import pathlib
import subprocess
import sys
import time

here = pathlib.Path(__file__).resolve().parent
sys.path.insert(0, str(here.parent / "tools"))
import kit

# The scripts, those that take longest first.
SIDE_BY_SIDE = [
    "refused_memory.sh", "damaged_stories.py", "codes.py", "code_runs.py", "refused_calls.py", "story_files.py", "refused_sources.py",
    "memory_gone.py", "long_sessions.py", "bodies.py", "cases.py", "plays.py", "random_rules.py", "rows.sh", "files.py", "program.sh", "launcher.py", "streams.py", "golden.py", "pages.py", "editors.py",
    "code_rows.py", "readings.py", "meanings.py", "names.py", "rule_trees.py", "standard_sentences.py", "rule_listings.py", "index_pages.py", "worlds.py", "asked_rules.py", "unit_tests.py"]
# These hold what they run to a time, and so run with nothing beside them.
ALONE = ["hostile.sh", "long_rules.py"]


def build(programs):
    """Builds the crates of tests that are run, and these programs, without proofs, all at once; whether all were built."""
    names = [*programs, *(name for name in kit.crates_of_tests() if kit.lines_of_crates()[name])]
    build = lambda name: subprocess.run([kit.top / "tools" / "build", name], stdout=subprocess.DEVNULL).returncode == 0
    with concurrent.futures.ThreadPoolExecutor(len(os.sched_getaffinity(0))) as pool:
        return all([*pool.map(build, names)])


def run(script, program):
    """The script, whether it passed, what it said, and its seconds by the clock and of a processor."""
    began = time.time()
    status, said, seconds, _ = kit.ran([here / script, program])
    return script, status == 0, said, time.time() - began, seconds


def all_run(program, names):
    """What each script of these names came to, told as it ends."""
    chosen = lambda scripts: [it for it in scripts if not names or it.partition(".")[0] in names]
    with concurrent.futures.ThreadPoolExecutor(len(os.sched_getaffinity(0))) as pool:
        yield from (it.result() for it in concurrent.futures.as_completed([pool.submit(run, it, program) for it in chosen(SIDE_BY_SIDE)]))
    yield from (run(it, program) for it in chosen(ALONE))


def all_told(program, names):
    """Runs the scripts of these names, or all, tells what each came to, and answers those that failed and how many ran."""
    failed, ran = [], 0
    for script, well, said, wall, seconds in all_run(pathlib.Path(program).resolve(), names):
        last = "".join(said.strip().splitlines()[-1:])
        print(f"{script}: {last}; {wall:.0f} s, {seconds:.0f} s of a processor" if well else f"== {script} FAILED\n{said}", flush=True)
        failed, ran = failed + [script] * (not well), ran + 1
    return failed, ran


def main(program, *names):
    unknown = set(names) - {it.partition(".")[0] for it in SIDE_BY_SIDE + ALONE}
    if unknown:
        sys.exit(f"no script is named {', '.join(sorted(unknown))}")
    failed, ran = all_told(program, names)
    print(f"{ran - len(failed)} passed, {len(failed)} failed" + (f": {' '.join(failed)}" if failed else ""))
    return 1 if failed else 0


if __name__ == "__main__":
    sys.exit(main(*sys.argv[1:]))
