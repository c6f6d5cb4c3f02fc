"""The crates of tests that scripts run beside the program of `i7story`, which is their argument: they are built without proofs, of the
sources as they stand."""
import functools
import pathlib
import subprocess

top = pathlib.Path(__file__).resolve().parents[1]


@functools.lru_cache(maxsize=None)
def built(name):
    """The path of the program of a crate, which is built unless it stands already."""
    return subprocess.run([top / "tools" / "build", name], stdout=subprocess.PIPE, text=True, check=True).stdout.strip()


def calls_of(sort):
    """The words that run the program of `calls`, whose first is the sort of the calls."""
    return [built("calls"), sort]
