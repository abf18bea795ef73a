#!/usr/bin/env python3
"""Measures the commands that merge, mend and tell of notes, each beside the reading of the same notes.

Prints a row a command: the operations of its log; the seconds of user and system time of the command, and of the
runs that it is measured beside; how many times these it takes, and what is wanted of that. Two notes of 100,000
operations that differ in 100 are merged, 50 of them on each side: typed after one log, or spread over it. That is
beside the loading of both, by `mgr edit` without keys, and beside `mgr show` of both. `mgr log`, `mgr who` of a
text of at most 1,000 pieces, and `mgr mend` of a damaged log, are beside `mgr show NAME` of a million operations.
The runs are done in turn, and the median of each is taken; how much the machine did meanwhile is said at the end.
A call by hand may name another mgr, fewer operations, and the commands that it is about.
"""

import argparse
import os
import pathlib
import resource
import shutil
import statistics
import subprocess

from exchange import insertion, scattered_logs
from measure import BUILD, generated

FOLDER = BUILD / "bench" / "notes"
MEASUREMENTS = 5
MERGED, TOLD = 100_000, 1_000_000
DIFFERENT = 100
PIECES = 1_000

SHOW = ["show", "note"]
LOAD = ["edit", "note", "--replica", "1"]


def seconds_of(mgr, words, folder):
    """Returns the seconds of user and system time of a job in a folder; it has to be done."""
    before = resource.getrusage(resource.RUSAGE_CHILDREN)
    subprocess.run([mgr, *words], cwd=folder, stdin=subprocess.DEVNULL, stdout=subprocess.DEVNULL, check=True)
    after = resource.getrusage(resource.RUSAGE_CHILDREN)
    return after.ru_utime - before.ru_utime + after.ru_stime - before.ru_stime


class Place:
    """A folder with a note, which is put anew before each run."""

    def __init__(self, name, log):
        self.folder = FOLDER / name
        self.folder.mkdir(parents=True)
        self.log = self.folder / "log"
        shutil.move(log, self.log) if isinstance(log, pathlib.Path) else self.log.write_bytes(log)

    def seconds(self, mgr, words):
        for path in self.folder.glob("note*"):
            path.unlink()
        shutil.copy(self.log, self.folder / "note.ops")
        return seconds_of(mgr, words, self.folder)


class Rows:
    """Commands that are measured beside others, and the rows that were printed of them."""

    def __init__(self, mgr, chosen):
        self.mgr, self.chosen = mgr, chosen
        head = "".join(f"{name:>12}" for name in ("operations", "s", "beside, s", "times", "wanted"))
        print(f"{'':<44}{head}")

    def row(self, what, count, own, beside, wanted):
        """Prints the row of a command. It and those beside it are places with words."""
        if self.chosen not in what:
            return
        runs = [[place.seconds(self.mgr, words) for place, words in [own, *beside]] for _ in range(MEASUREMENTS)]
        seconds, *others = map(statistics.median, zip(*runs))
        times = seconds / sum(others)
        told = "well" if times <= wanted else "MORE"
        print(f"{what:<44}{count:>12,}{seconds:>12.3f}{sum(others):>12.3f}{times:>12.2f}{wanted:>12.1f}  {told}", flush=True)


def behind(log, replica, clock):
    """Returns a log with half of what differs typed after it."""
    typed = [insertion(clock + at, clock + at - 1 if at > 1 else 0) for at in range(1, DIFFERENT // 2 + 1)]
    return log + "".join(typed).replace(",9]", f",{replica}]").encode()


def typed_notes(count):
    log = generated("typing", count - DIFFERENT // 2).read_bytes()
    return behind(log, 8, count), behind(log, 9, count)


def spread_notes(count):
    return [log.encode() for log in scattered_logs(count)]


def merges(rows, count):
    for what, notes in (("typed", typed_notes(count)), ("spread", spread_notes(count))):
        places = [Place(f"{what}-{at}", log) for at, log in enumerate(notes)]
        merge = places[0], ["merge", "note", places[1].log]
        rows.row(f"merge, {what}, beside two loads", count, merge, [(place, LOAD) for place in places], 1.2)
        rows.row(f"merge, {what}, beside two mgr show", count, merge, [(place, SHOW) for place in places], 1.2)


def in_pieces(count):
    """Returns a log whose text is of so many pieces: in turn of one of nine replicas."""
    lines, parent, length = [], (0, 0), count // PIECES
    for counter in range(1, count + 1):
        replica = 1 + (counter - 1) // length % 9
        lines.append(b'{"char":"a","id":[%d,%d],"op":"ins","parent":[%d,%d]}\n' % (counter, replica, *parent))
        parent = counter, replica
    return b"".join(lines)


def damaged(log):
    """Returns a log that lost a newline, has a line of no operation and an identifier twice, and is torn."""
    lines = log.splitlines(keepends=True)
    half = len(lines) // 2
    lines[half] = lines[half][:-1]
    doubled = b'{"char":"#","id":[%d,1],"op":"ins","parent":[0,0]}\n'
    return b"".join([*lines[:100], b"no line\n", *lines[100:], doubled % 1, doubled % 9, lines[-1][:-9]])


def about_one(rows, count):
    log = generated("typing", count)
    typed, pieces = Place("typed", log), Place("pieces", in_pieces(count))
    broken = Place("broken", damaged(typed.log.read_bytes()))
    rows.row("log of a note", count, (typed, ["log", "note"]), [(typed, SHOW)], 1.5)
    rows.row(f"who, {PIECES:,} pieces", count, (pieces, ["who", "note"]), [(pieces, SHOW)], 1.5)
    rows.row(f"who --lines, {PIECES:,} pieces", count, (pieces, ["who", "note", "--lines"]), [(pieces, SHOW)], 1.5)
    rows.row("who, as three type", count, (typed, ["who", "note"]), [(typed, SHOW)], 1.5)
    rows.row("mend, a damaged log", count, (broken, ["mend", "note"]), [(typed, SHOW)], 1.5)
    rows.row("mend, a log in order", count, (typed, ["mend", "note"]), [(typed, SHOW)], 1.5)


def main():
    parser = argparse.ArgumentParser(description=__doc__)
    parser.add_argument("--mgr", metavar="PATH", default=BUILD / "mgr", help="another mgr")
    parser.add_argument("--part", metavar="N", type=int, default=1, help="an Nth of all operations")
    parser.add_argument("--work", metavar="WORDS", default="", help="the commands with these words in their names alone")
    given = parser.parse_args()
    shutil.rmtree(FOLDER, ignore_errors=True)
    FOLDER.mkdir(parents=True)
    rows = Rows(os.path.abspath(given.mgr), given.work)
    merges(rows, MERGED // given.part)
    about_one(rows, TOLD // given.part)
    print(f"\nThe load of the last minute is {os.getloadavg()[0]:.1f}, on {os.cpu_count()} processors.")


if __name__ == "__main__":
    main()
