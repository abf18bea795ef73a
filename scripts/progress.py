"""Says how far a run of `rt ci` has come: how much is done, what is left, and how long that took the last time.

On a terminal that is one line, which moves; else a line for each crate. All that rt says goes to a log.
"""

import json
import os
import re
import subprocess
import sys
import threading
import time

TOLD = re.compile(r"rt: (\w+) (is kept|proved|NOT PROVED)")
FAULT = re.compile(r"NOT PROVED|NOT TRIED|BAD EDIT|FAILED|error|the program (ended|was stopped|had not)|differ")
SHOWN, END = 30, "end"


def minutes(seconds):
    whole = round(seconds / 60)
    return f"{whole} minute{'s' if whole > 1 else ''}" if whole else "less than a minute"


class Progress:
    """How far a run has come; `took` is the file of when each crate was done, in seconds, in an earlier run."""

    def __init__(self, count, log, took):
        self.count, self.log, self.took = count, log, took
        self.earlier = json.loads(took.read_text()) if took.is_file() else {}
        self.times, self.proved, self.last = {}, set(), "begun"
        self.begun, self.at = time.monotonic(), 0.0
        self.moves, self.is_over = sys.stdout.isatty(), threading.Event()

    def left(self):
        """Returns the seconds that what is left took the last time, or nothing if that is not known."""
        if END not in self.earlier:
            return None
        come = max((self.earlier.get(crate, 0.0) for crate in self.times), default=0.0)
        return max(0.0, self.earlier[END] - come - (time.monotonic() - self.begun - self.at))

    def line(self):
        left = self.left()
        times = "" if left is None else f", {minutes(left)} by the last time"
        return f"{len(self.times)} of {self.count} crates done, {self.count - len(self.times)} left{times}: {self.last}"

    def show(self):
        print(f"\r\x1b[K{self.line()}" if self.moves else self.line(), end="" if self.moves else "\n", flush=True)

    def tick(self):
        while not self.is_over.wait(1):
            self.show()

    def note(self, line):
        """Takes note of a line of rt, and shows it if it is about a crate."""
        told = TOLD.match(line)
        if told:
            self.at = self.times[told[1]] = time.monotonic() - self.begun
            self.proved |= {told[1]} if told[2] == "proved" else set()
            self.last = f"{told[1]} {told[2]}"
            self.show()

    def run(self, tree):
        """Runs `rt ci` in a tree; returns its status and its last lines."""
        how_long = "" if self.earlier else "; from nothing they take half an hour or more"
        print(f"{self.count} crates; {os.path.relpath(self.log)} has all that is said{how_long}", flush=True)
        how = {"stdin": subprocess.DEVNULL, "stdout": subprocess.PIPE, "stderr": subprocess.STDOUT, "errors": "replace"}
        last = []
        if self.moves:
            threading.Thread(target=self.tick, daemon=True).start()
        with self.log.open("w") as kept, subprocess.Popen(["rt", "ci"], cwd=tree, text=True, **how) as gate:
            for line in gate.stdout:
                kept.write(line)
                kept.flush()
                self.note(line)
                last = [*last[-4:], line.rstrip()]
        self.is_over.set()
        if self.moves:
            print()
        return gate.returncode, last

    def keep(self):
        """Keeps how long each crate took, for the next run."""
        self.took.write_text(json.dumps({**self.times, END: time.monotonic() - self.begun}))

    def show_faults(self):
        """Shows what rt said of what failed, and the end of the log."""
        lines = self.log.read_text(errors="replace").splitlines()
        print(*[line for line in lines[:-SHOWN] if FAULT.search(line)][:SHOWN], *lines[-SHOWN:], sep="\n", file=sys.stderr)
