#!/usr/bin/env python3
"""Measures live sessions: `mgr edit --live` from a report or a key to the status and the frame that answer it.

Prints a row a figure: how often it was measured, and the median and the worst milliseconds by the clock, as a front
would wait for the lines; what it then reads in them is not counted. They are of a text of 100,000 characters in a
log: an insertion of another anywhere in the text, up to its status with the frame, and with --changes up to the
status that says how the text changed; 100,000 such reports in one stream, and a tenth of them with --changes, up to
the status that counts all; a character typed in the middle, up to its frame, up to the second status, which comes
once it is in the log, and beside these up to its frame by --trace; a splice anywhere, up to the status that says its
change, and up to the second one; and a paste of 50 KB. An insertion and a key then are of 990,000 characters, too. A
call by hand may name another mgr, and fewer characters and measurements.
"""

import argparse
import json
import os
import random
import re
import shutil
import statistics
import subprocess
import threading
import time

from keys import text_of
from measure import BUILD

FOLDER = BUILD / "bench" / "live"
SMALL, LARGE, STREAM = 100_000, 990_000, 100_000
TIMES, FEW_TIMES, PASTES = 1000, 200, 9
PASTE = 50_000
ROWS = 24
BLOCK = 1 << 20

# How many lines come after a status, and whether another one does. Within a text the quotes would be escaped.
AFTER = re.compile(rb'"(?:operations|rows)":(\d+)')
MORE = b'"more":true'

# Who wrote the text, who reports, and who types.
WRITER, OTHER, TYPIST = 9, 2, 1


def insertion(char, counter, replica, parent):
    line = {"char": char, "id": [counter, replica], "op": "ins", "parent": parent}
    return json.dumps(line, separators=(",", ":"), ensure_ascii=False).encode() + b"\n"


def log_of(size):
    """Returns a log of a text of so many characters, each after the one before it."""
    text = text_of(size)
    return b"".join(insertion(it, at, WRITER, [at - 1, WRITER if at > 1 else 0]) for at, it in enumerate(text, 1))


def typed(count):
    """Returns so many keys that write words, and end lines."""
    return [bytes([key]) for key in text_of(count).replace("\n", "\r").encode()]


def report(**members):
    return b"\xff" + json.dumps(members, separators=(",", ":"), sort_keys=True).encode() + b"\n"


def told(line):
    """Returns what the line of a status says."""
    status = json.loads(line)
    if status["refused"]:
        raise SystemExit(f"a report is refused: {status['refused']}")
    return status


class Lines:
    """What a session writes, line by line."""

    def __init__(self, output):
        self.output, self.rest, self.lines = output, b"", []

    def next(self):
        while not self.lines:
            written = os.read(self.output.fileno(), BLOCK)
            if not written:
                raise SystemExit("mgr has ended")
            *self.lines, self.rest = (self.rest + written).split(b"\n")
            self.lines.reverse()
        return self.lines.pop()


class Session:
    """An `mgr edit` over a text of so many characters, in a new folder."""

    def __init__(self, mgr, log, size, *words):
        shutil.rmtree(FOLDER, ignore_errors=True)
        FOLDER.mkdir(parents=True)
        (FOLDER / "note.ops").write_bytes(log)
        self.size, self.counter = size, size
        command = [mgr, "edit", "note", "--replica", str(TYPIST), "--rows", str(ROWS), *words]
        pipes = {"stdin": subprocess.PIPE, "stdout": subprocess.PIPE}
        self.process = subprocess.Popen(command, cwd=FOLDER, bufsize=0, **pipes)
        self.lines = Lines(self.process.stdout)

    def write(self, given):
        while given:
            given = given[self.process.stdin.write(given) :]

    def frame(self):
        for _ in range(ROWS):
            self.lines.next()

    def line(self):
        """Returns the line of the next status, once all lines after it are there."""
        line = self.lines.next()
        for _ in range(sum(int(count) for count in AFTER.findall(line))):
            self.lines.next()
        return line

    def status(self):
        return told(self.line())

    def answers(self, given):
        """Returns the seconds up to the first status that comes of a block, and up to the last one."""
        begin = time.perf_counter()
        self.write(given)
        lines, seconds = [self.line()], [time.perf_counter() - begin]
        while MORE in lines[-1]:
            lines.append(self.line())
            seconds.append(time.perf_counter() - begin)
        for line in lines:
            told(line)
        return seconds[0], seconds[-1]

    def insertion(self, chance):
        """Returns a report of an insertion of another anywhere in the text."""
        self.counter += 1
        return b"\xff" + insertion("x", self.counter, OTHER, [chance.randint(1, self.size), WRITER])

    def end(self):
        self.process.kill()
        self.process.wait()
        self.process.stdin.close()
        self.process.stdout.close()


class Table:
    def __init__(self, mgr):
        self.mgr = mgr
        print(f"{'':<58}{'characters':>12}{'times':>8}{'median, ms':>12}{'worst, ms':>12}")

    def row(self, what, size, seconds):
        median, worst = statistics.median(seconds) * 1e3, max(seconds) * 1e3
        print(f"{what:<58}{size:>12,}{len(seconds):>8,}{median:>12.3f}{worst:>12.3f}", flush=True)

    def begin(self, log, size, *words):
        session = Session(self.mgr, log, size, "--live", *words)
        session.status()
        return session

    def measured(self, log, size, times, given, *words):
        """Returns the seconds up to the first statuses and up to the last ones, of blocks that are given."""
        session, chance = self.begin(log, size, *words), random.Random(size)
        seconds = [session.answers(given(session, chance)) for _ in range(times)]
        session.end()
        return zip(*seconds)

    def reports(self, log, size, times):
        first, _ = self.measured(log, size, times, Session.insertion)
        self.row("a report, to its status with a frame", size, first)
        first, _ = self.measured(log, size, times, Session.insertion, "--changes")
        self.row("a report, to its status with --changes", size, first)

    def stream(self, log, size, count, *words):
        session, chance = self.begin(log, size, *words), random.Random(size)
        given = b"".join(session.insertion(chance) for _ in range(count))
        begin = time.perf_counter()
        feeder = threading.Thread(target=session.write, args=(given,))
        feeder.start()
        while session.status()["reports"] < count:
            pass
        what = " ".join([f"{count:,} reports in one stream, all", *("with " + word for word in words)])
        self.row(what, size, [time.perf_counter() - begin])
        feeder.join()
        session.end()

    def keys(self, log, size, times):
        down = b"\x0e" * (size // 120)
        session = self.begin(log, size)
        session.answers(b"\x1b<")
        session.answers(down)
        first, last = zip(*[session.answers(key) for key in typed(times)])
        session.end()
        self.row("a key, to its status with a frame", size, first)
        self.row("a key, to its second status, which tells it", size, last)
        self.row("a key, to its frame by --trace", size, self.traced(log, size, times, down))

    def traced(self, log, size, times, down):
        session, seconds = Session(self.mgr, log, size, "--trace"), []
        session.frame()
        # A frame for each byte that completes a key.
        for key in (b"\x1b<", *[down[:1]] * len(down), *typed(times)):
            begin = time.perf_counter()
            session.write(key)
            session.frame()
            seconds.append(time.perf_counter() - begin)
        session.end()
        return seconds[-times:]

    def splices(self, log, size, times):
        # Each changes the text: the one before has another number, and where the text was loaded it has none.
        bases = iter(range(1, times + 1))

        def splice(session, chance):
            lo, base = chance.randint(0, session.size - 5), next(bases)
            return report(base=base, hi=lo + 5, lo=lo, op="splice", text=f"{base:05}")

        first, last = self.measured(log, size, times, splice, "--changes")
        self.row("a splice, to its change", size, first)
        self.row("a splice, to its second status, which tells it", size, last)

    def pastes(self, log, size, times, length):
        given = report(op="paste", text=text_of(length))
        seconds = []
        for _ in range(times):
            first, last = self.measured(log, size, 1, lambda *_: given)
            seconds.append((*first, *last))
        first, last = zip(*seconds)
        self.row(f"a paste of {length:,} characters, to its status with a frame", size, first)
        self.row(f"a paste of {length:,} characters, to its second status", size, last)


def main():
    parser = argparse.ArgumentParser(description=__doc__)
    parser.add_argument("--mgr", metavar="PATH", default=BUILD / "mgr", help="another mgr")
    parser.add_argument("--part", metavar="N", type=int, default=1, help="an Nth of all characters and measurements")
    given = parser.parse_args()
    part, table = given.part, Table(os.path.abspath(given.mgr))
    small, large = SMALL // part, LARGE // part
    log = log_of(small)
    table.reports(log, small, TIMES // part)
    table.stream(log, small, STREAM // part)
    table.stream(log, small, STREAM // 10 // part, "--changes")
    table.keys(log, small, TIMES // part)
    table.splices(log, small, TIMES // part)
    table.pastes(log, small, PASTES, PASTE // part)
    log = log_of(large)
    table.reports(log, large, FEW_TIMES // part)
    table.keys(log, large, FEW_TIMES // part)
    shutil.rmtree(FOLDER)
    print(f"\nThe load of the last minute is {os.getloadavg()[0]:.1f}, on {os.cpu_count()} processors.")


if __name__ == "__main__":
    main()
