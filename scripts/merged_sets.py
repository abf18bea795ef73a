#!/usr/bin/env python3
"""Brings random sets of notes together in three ways, and looks whether they make one note.

usage: merged_sets.py MGR [SETS]. A set is made from a seed: three replicas begin with one log, and go on apart by
keys that insert, delete, kill and undo; some save in runs, one log may be compacted, and of one some lines are
missing, so that operations wait, and others stand twice. Then `mgr join` makes one log of all, `mgr merge` takes
them into a new note in another order, and a third note gets what it lacks through `mgr claims` and `mgr missing`.
All have to have the same operations and to show the same text, and `mgr who` has to tell that text. `make hostile`
calls it. It ends with an error where one is not so.
"""

import json
import os
import pathlib
import random
import subprocess
import sys
import tempfile
from concurrent.futures import ThreadPoolExecutor

import plain_ends
from notes import expect

SETS = 1000
SECONDS = 60
REPLICAS = (1, 2, 3)
BEGUN = b"the text that all begin with"
SAVED = b"\x18\x13\x18\x03"

# ESC < and >, C-f, C-b, C-d, C-k, ESC d and C-_ among what is typed.
MOVES = (b"\x1b<", b"\x1b>", b"\x06\x06\x06", b"\x02\x02\x02\x02")
CHANGES = (b"abc ", b"xy", b"\x04\x04", b"\x0b", b"\x1bd", b"\x1f", b"words in a row ")


class Replicas:
    """Notes that are written in apart, each in a folder of its own."""

    def __init__(self, mgr, folder, seed):
        self.mgr = mgr
        self.folder = folder
        self.random = random.Random(seed)
        for name in ("1", "2", "3", "all"):
            (folder / name).mkdir()

    def run(self, where, *words, given=b""):
        """Returns what a job writes, which has to be done."""
        done = subprocess.run([self.mgr, *words], cwd=self.folder / where, input=given, capture_output=True, timeout=SECONDS)
        expect(f"the status of {' '.join(words)}, which says {done.stderr},", 0, done.returncode)
        return done.stdout

    def edit(self, replica, keys):
        switches = ["--runs"] if self.random.random() < 0.3 else []
        self.run(str(replica), "edit", "note", "--replica", str(replica), *switches, given=keys + SAVED)

    def go_apart(self):
        self.edit(1, BEGUN)
        log = (self.folder / "1/note.ops").read_bytes()
        for replica in REPLICAS[1:]:
            (self.folder / str(replica) / "note.ops").write_bytes(log)
        for replica in REPLICAS:
            for _ in range(self.random.randrange(1, 3)):
                self.edit(replica, b"".join(self.random.choice(MOVES) + self.random.choice(CHANGES) for _ in range(6)))
        if self.random.random() < 0.3:
            self.run("2", "compact", "note", "--dels")
        self.tear_lines(self.folder / "3/note.ops")

    def tear_lines(self, path):
        """Takes some lines out of a log, and doubles others: the first one stays, which all share."""
        lines = path.read_bytes().splitlines(keepends=True)
        kept = [line for line in lines[1:] if self.random.random() < 0.9]
        path.write_bytes(b"".join(lines[:1] + kept + self.random.sample(kept, len(kept) // 3)))

    def operations(self, where):
        """Returns what `mgr log` says of the operations of a note."""
        numbers = json.loads(self.run(where, "log", "note", "--json"))
        return {name: numbers[name] for name in ("operations", "insertions", "deletions", "visible", "waiting", "replicas")}

    def come_together(self):
        """Each way makes the same note."""
        logs = [f"../{replica}/note.ops" for replica in REPLICAS]
        self.random.shuffle(logs)
        joined = self.run("all", "join", *logs)
        text = self.run("all", "show", given=joined)
        self.random.shuffle(logs)
        self.run("all", "merge", "note", *logs)
        for giver in ("2", "3"):
            claims = self.run("1", "claims", "note")
            missing = self.run(giver, "missing", "note", given=claims)
            self.run("1", "merge", "note", "-", "--adopt", given=missing)
        self.run("2", "merge", "note", "-", given=joined)
        for where in ("all", "1", "2"):
            expect(f"the text of {where}", text, self.run(where, "show", "note"))
            expect(f"what {where} has", self.operations("all"), self.operations(where))
            pieces = [json.loads(line)["text"] for line in self.run(where, "who", "note").splitlines()]
            expect(f"the pieces of {where}", text.decode(), "".join(pieces))


def play(mgr, seed):
    with tempfile.TemporaryDirectory() as folder:
        replicas = Replicas(mgr, pathlib.Path(folder), seed)
        replicas.go_apart()
        replicas.come_together()


def main(mgr, sets=SETS):
    mgr = str(pathlib.Path(mgr).resolve())
    with ThreadPoolExecutor(os.cpu_count()) as pool:
        list(pool.map(lambda seed: play(mgr, seed), range(int(sets))))
    print(f"{sets} random sets of three notes were joined, merged and exchanged through pipes: each made one note")


if __name__ == "__main__":
    main(plain_ends.named_mgr(), *sys.argv[2:])
