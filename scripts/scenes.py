#!/usr/bin/env python3
"""Plays the scenes of `scenes/`: what one does with mgr, and what is to be seen of it.

usage: scenes.py MGR [FILE..]. The last line counts the scenes that passed and those that failed. A line that
can't be read, a scene that compares nothing and a file with no scene are failures too. A scene that this
machine can't play is said to be left out, and counts as neither.
"""

import pathlib
import sys

import plain_ends
from play.notation import Unreadable
from play.playing import play_all
from play.reading import scenes_of

HERE = pathlib.Path(__file__).resolve().parent.parent


def main():
    mgr = plain_ends.named_mgr()
    passed, failed = played(pathlib.Path(mgr).resolve(), sys.argv[2:])
    print(f"{passed} passed, {failed} failed")
    return 1 if failed or not passed else 0


def played(mgr, names=()):
    """Plays the scenes of these files, or all; returns how many passed and failed."""
    paths = [*map(pathlib.Path, names)] or sorted((HERE / "scenes").glob("**/*.txt"))
    scenes, misread = [], 0
    for path in paths:
        try:
            scenes += scenes_of(path)
        except Unreadable as fault:
            print(fault)
            misread += 1
        except OSError as fault:
            print(f"{path}: {fault.strerror}")
            misread += 1
    outcomes = play_all(mgr, scenes)
    for line in (line for outcome in outcomes for line in outcome.faults):
        print(line)
    left_out = [it.left_out for it in outcomes if it.left_out]
    for line in left_out:
        print(line)
    failed = sum(bool(it.faults) for it in outcomes)
    print(f"scenes: {len(outcomes)} of {len(paths)} files, {sum(it.compared for it in outcomes)} comparisons")
    return len(outcomes) - len(left_out) - failed, failed + misread


if __name__ == "__main__":
    sys.exit(main())
