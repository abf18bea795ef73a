#!/usr/bin/env python3
"""Proves mgr and the crates below it, and leaves the program at build/mgr.

`rt ci` does the work, in a copy that has these crates alone, without wrong bodies: it proves side by
side what does not wait for one another, and what it proves the gate need not prove again.

The prover's own words go to build/prove.log, whose end is shown if a crate fails. When each crate was done in a
build from nothing is kept in build/took.json: a later one says how long what is left took then.
"""

import os
import pathlib
import shutil
import sys
import tempfile

import plain_ends  # noqa: F401
from progress import Progress

TOP = pathlib.Path(__file__).resolve().parent.parent
BUILD = TOP / "build"
LOG = BUILD / "prove.log"
TOOK = BUILD / "took.json"
PROGRAM = "mgr"

LEFT_OUT = shutil.ignore_patterns("out", "must-fail", "wrong")


def listed():
    """Returns each line of crates.txt by its crate."""
    lines = [line.partition("#")[0].strip() for line in (TOP / "crates.txt").read_text().splitlines()]
    return {line.partition(":")[0].split()[0]: line for line in lines if line}


def lines_below(name):
    """Returns the lines of crates.txt of a crate and of those below it, each by its crate."""
    all_lines = listed()
    found, left = {}, [name]
    while left:
        crate = left.pop()
        if crate in all_lines and crate not in found:
            found[crate] = all_lines[crate]
            left += all_lines[crate].partition(":")[2].split()
    return found


def copy(lines, to):
    """Makes a tree of the crates of these lines, without wrong bodies and what runs left."""
    to.mkdir()
    (to / "crates.txt").write_text("".join(f"{line}\n" for line in lines.values()))
    shutil.copy(TOP / "HANDLES", to)
    for crate in lines:
        shutil.copytree(TOP / "crates" / crate, to / "crates" / crate, ignore=LEFT_OUT)


def prove(tree, count):
    """Proves the crates of a copy, and says of each when it is done; ends the program if one fails."""
    progress = Progress(count, LOG, TOOK)
    status, _ = progress.run(tree)
    if status:
        progress.show_faults()
        sys.exit(f"{PROGRAM} is not proved: {LOG.relative_to(TOP)} has more")
    if len(progress.proved) == count:
        progress.keep()


def main():
    BUILD.mkdir(exist_ok=True)
    # It is dated from before the build, so that an edit made meanwhile is built the next time.
    begun = BUILD / "begun"
    begun.touch()
    lines = lines_below(PROGRAM)
    with tempfile.TemporaryDirectory(prefix="mgr-build-") as folder:
        tree = pathlib.Path(folder) / "tree"
        copy(lines, tree)
        prove(tree, len(lines))
        # Moved into place, so that a program that runs goes on.
        new = BUILD / "mgr.new"
        shutil.copy(tree / "crates" / PROGRAM / "out" / PROGRAM, new)
        at = begun.stat().st_mtime
        os.utime(new, (at, at))
        os.replace(new, BUILD / PROGRAM)


if __name__ == "__main__":
    main()
