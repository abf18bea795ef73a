#!/usr/bin/env python3
"""Measures compaction: what `mgr compact` makes of logs, and what it and the reading cost.

Prints a row for each log, without `--dels` and with it: its operations; its bytes and those of the
compacted log, and how many times fewer these are; the microseconds that an operation takes in `mgr show`
of the log, in `mgr compact`, and in `mgr show` of what that wrote; and both over the first. With
`--before PROGRAM` the first is what `PROGRAM show` of the log takes, say an mgr from before there were
runs. Times are of user and system together, the least of three. That text and size are right is tested
first: `mgr show` has to write the same of both.
"""

import argparse
import os
import resource
import shutil
import subprocess
import sys

from measure import BUILD, LOGS, generated

MGR = str(BUILD / "mgr")
MEASUREMENTS = 3
ROWS = [
    ("typing", 10_000),
    ("typing", 100_000),
    ("typing", 1_000_000),
    ("chain", 1_000_000),
    # As many as the editing trace has whose size others publish (crdt-benchmarks, B4).
    ("author", 259_778),
]
FOLDER = LOGS / "compaction"
NOTE = FOLDER / "note.ops"


def seconds_of(words, log=os.devnull):
    """Returns the time that a program takes, of user and system."""
    before = resource.getrusage(resource.RUSAGE_CHILDREN)
    with open(log, "rb") as given:
        subprocess.run(words, cwd=FOLDER, stdin=given, stdout=subprocess.DEVNULL, check=True)
    after = resource.getrusage(resource.RUSAGE_CHILDREN)
    return after.ru_utime - before.ru_utime + after.ru_stime - before.ru_stime


def shown(log, program=MGR):
    return min(seconds_of([program, "show"], log) for _ in range(MEASUREMENTS))


def compacted(log, *switches):
    """Compacts a copy of the log some times, and returns the least time; the last copy stays."""
    return min(compacted_once(log, *switches) for _ in range(MEASUREMENTS))


def compacted_once(log, *switches):
    shutil.rmtree(FOLDER, ignore_errors=True)
    FOLDER.mkdir(parents=True)
    shutil.copyfile(log, NOTE)
    return seconds_of([MGR, "compact", *switches, "note"])


def text_of(log):
    with open(log, "rb") as given:
        return subprocess.run([MGR, "show"], stdin=given, capture_output=True, check=True).stdout


def main():
    parser = argparse.ArgumentParser(description="Measures what mgr compact makes of logs, and what it costs.")
    parser.add_argument("--before", metavar="PROGRAM", type=os.path.abspath, default=MGR)
    before = parser.parse_args().before
    print("                                          bytes of:           fewer     us/op of:                   over show:")
    print("log               operations         log   compacted      times    show  compact    again   compact    again")
    for shape, count in ROWS:
        log = generated(shape, count)
        for switches in ((), ("--dels",)):
            print_row(shape, count, log, switches, before)


def print_row(shape, count, log, switches, before):
    times = [compacted(log, *switches)]
    if text_of(log) != text_of(NOTE):
        sys.exit(f"{log} and {NOTE} differ in their texts")
    times = [shown(log, before), *times, shown(NOTE)]
    sizes = os.path.getsize(log), os.path.getsize(NOTE)
    each = " ".join(f"{seconds * 1e6 / count:>8.2f}" for seconds in times)
    ratios = " ".join(f"{seconds / times[0]:>8.2f}" for seconds in times[1:])
    bytes_ = f"{sizes[0]:>11,} {sizes[1]:>11,} {sizes[0] / sizes[1]:>10.1f}"
    print(f"{' '.join([shape, *switches]):<15} {count:>12,} {bytes_} {each} {ratios}", flush=True)


if __name__ == "__main__":
    main()
