"""The user time of the program of `crates/bench_tasks`, which stands in build/."""

import pathlib
import resource
import subprocess
import sys

sys.path.append(str(pathlib.Path(__file__).resolve().parent.parent / "scripts"))

import plain_ends  # noqa: E402, F401

MEASUREMENTS = 5
PROGRAM = pathlib.Path(__file__).parent.parent / "build/bench_tasks"


def seconds(*words):
    """Returns the least user time of several runs of the program with these words."""
    least = float("inf")
    for _ in range(MEASUREMENTS):
        before = resource.getrusage(resource.RUSAGE_CHILDREN).ru_utime
        subprocess.run([PROGRAM, *map(str, words)], stdout=subprocess.DEVNULL, check=True)
        least = min(least, resource.getrusage(resource.RUSAGE_CHILDREN).ru_utime - before)
    return least
