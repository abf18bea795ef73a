#!/usr/bin/env python3
"""Exchanges random pairs of notes whole and briefly, and looks whether the same comes of it.

usage: brief_pairs.py MGR [PAIRS]. A pair is two logs made from a seed: of the operations of one random log each
has a part, and these are apart, within one another, equal, or share some; rows longer than a block of
counters are among them. In some pairs one number was used apart: insertions of one have another character or
parent in the other, or both are logs of their own. Each pair is exchanged by two `mgr edit`, and once more, from
the same logs, by two with `--brief`. Both exchanges have to leave the same operations in each log, the same
texts, and messages of one kind, line numbers and counts aside: `Sent`, after which both logs have the
operations of both, or, if an insertion of one is another in the other, `Conflict` at the one that waits and
`Cut` or `Socket fault` at the one that connects. No note comes near its 1,000,000 identifiers, so `Full` is not
tried. `make hostile` calls it. It ends with an error where one is not so.
"""

import json
import os
import pathlib
import random
import re
import shutil
import subprocess
import sys
import tempfile
from concurrent.futures import ThreadPoolExecutor

import plain_ends
from compactions import Notes, deletion, insertion
from session import EXCHANGE, SERVE, Unexpected
from play.peers import await_listener, free_port

PAIRS = 1000
SECONDS = 60

# How many ports are tried for one who waits.
PORTS = 5

SIDES = ("waits", "connects")

# Of ten pairs, in how many one number was used apart.
APART_OF_TEN = 3

# What the one that connects says where the other one refuses what it sent: which one is by chance.
BROKEN_OFF = {"Cut": "broken off", "Socket fault": "broken off"}


# ---- pairs of logs


class Pair:
    """The operations of two logs, each as a line."""

    def __init__(self, seed):
        self.random = random.Random(seed)
        notes = Notes(seed)
        shares = self.random.choice((self.apart, self.within, self.equal, self.some, self.nearly_all))
        insertions, deletions = shares(list(notes.inserted)), shares(sorted(notes.deleted))
        sides = [({it: notes.inserted[it] for it in mine}, gone) for mine, gone in zip(insertions, deletions)]
        if self.random.randrange(10) < APART_OF_TEN:
            self.use_apart(seed, sides)
        if self.random.random() < 0.5:
            sides.reverse()
        self.agree = all(sides[1][0].get(it, element) == element for it, element in sides[0][0].items())
        self.logs = [self.log(*side) for side in sides]

    def apart(self, items):
        chosen = {it for it in items if self.random.random() < 0.5}
        return [it for it in items if it in chosen], [it for it in items if it not in chosen]

    def within(self, items):
        return items, [it for it in items if self.random.random() < 0.7]

    def equal(self, items):
        return items, items

    def some(self, items):
        return [[it for it in items if self.random.random() < 0.6] for _ in SIDES]

    def nearly_all(self, items):
        """All but one or two."""
        left_out = [self.random.choices(items, k=2) if items else [] for _ in SIDES]
        return [[it for it in items if it not in few] for few in left_out]

    def use_apart(self, seed, sides):
        """Gives one side another log of the same numbers, or changes some of its insertions."""
        mine = sides[1][0]
        if self.random.random() < 0.4 or not mine:
            other = Notes(seed + 10**6)
            sides[1] = other.inserted, other.deleted
            return
        for element in self.random.sample(sorted(mine), min(len(mine), self.random.choice((1, 1, 2, 9)))):
            parent, sign = mine[element]
            if parent != (0, 0) and self.random.random() < 0.5:
                mine[element] = (0, 0), sign
            else:
                mine[element] = parent, "!" if sign != "!" else "?"

    def log(self, inserted, deleted):
        lines = [insertion(it, *element) for it, element in inserted.items()] + [deletion(it) for it in deleted]
        if self.random.random() < 0.5:
            self.random.shuffle(lines)
        return "".join(lines)


# ---- what two mgr make of them


class Outcome:
    """What an exchange left of each side: the operations of its log, its text, and the kind of its message."""

    def __init__(self, folder, messages):
        self.kinds = [kind_of(message) for message in messages]
        self.operations, self.texts = [], []
        for name in SIDES:
            lines = (folder / name / "note.ops").read_text().splitlines(keepends=True)
            self.operations.append(frozenset(lines))
            if len(self.operations[-1]) != len(lines):
                raise Unexpected(f"a log has {len(lines) - len(self.operations[-1])} lines twice")
            text = folder / name / "note"
            self.texts.append(text.read_bytes() if text.exists() else None)


def kind_of(message):
    message = BROKEN_OFF.get(message, message)
    return re.sub(r"\d+", "N", message)


def editor(mgr, folder, port, words, keys):
    """Begins a session that presses these keys, and then ends."""
    command = [mgr, "edit", "note", "--replica", "9", "--port", str(port), "--rows", "3", "--cols", "40", *words]
    pipes = {"stdin": subprocess.PIPE, "stdout": subprocess.PIPE, "stderr": subprocess.PIPE}
    process = subprocess.Popen(command, cwd=folder, **pipes)
    process.stdin.write(keys)
    process.stdin.close()
    process.stdin = None
    return process


def message_of(process):
    """Returns what a session said at its end."""
    shown, error = process.communicate(timeout=SECONDS)
    if process.returncode or error:
        raise Unexpected(f"mgr edit ends with {process.returncode}, and says {error!r}")
    return shown.decode().split("\n")[-2]


def waiting(mgr, folder, words):
    """Begins a session that waits for a peer; returns it and its port. Another program may take a port first: then another one."""
    for _ in range(PORTS):
        port = free_port()
        waits = editor(mgr, folder, port, words, SERVE)
        if await_listener(port, lambda: waits.poll() is not None):
            return waits, port
        waits.kill()
        waits.communicate()
    raise Unexpected("nobody waits")


def exchanged(mgr, folder, pair, *words):
    """Has two meet that have these logs; returns what came of it."""
    for name, log in zip(SIDES, pair.logs):
        (folder / name).mkdir(parents=True)
        (folder / name / "note.ops").write_text(log)
    waits, port = waiting(mgr, folder / SIDES[0], words)
    try:
        connects = editor(mgr, folder / SIDES[1], port, words, EXCHANGE)
        messages = [message_of(waits), message_of(connects)]
    finally:
        waits.kill()
    return Outcome(folder, messages)


def expect(what, wanted, came):
    if came != wanted:
        raise Unexpected(f"{what}: {str(came)[:300]}, and not {str(wanted)[:300]}")


def tried(mgr, seed):
    """Exchanges a pair whole and briefly; returns the kind of what was said, or raises what was not as it has to be."""
    pair = Pair(seed)
    folder = pathlib.Path(tempfile.mkdtemp(prefix="mgr-pair-"))
    try:
        whole = exchanged(mgr, folder / "whole", pair)
        brief = exchanged(mgr, folder / "brief", pair, "--brief")
        wanted = ["Sent N, received N"] * 2 if pair.agree else ["line N: Conflict", "broken off"]
        expect("what was said behind a whole exchange", wanted, whole.kinds)
        expect("what was said behind a brief one", wanted, brief.kinds)
        for side, operations in zip(SIDES, whole.operations):
            if pair.agree:
                both = frozenset("".join(pair.logs).splitlines(keepends=True))
                expect(f"the operations of the one that {side}, but those of both", frozenset(), operations ^ both)
        for side, one, other in zip(SIDES, whole.operations, brief.operations):
            expect(f"operations of the one that {side} behind one of the exchanges alone", frozenset(), one ^ other)
        expect("the texts behind the brief exchange", whole.texts, brief.texts)
        expect_shown(mgr, folder / "brief", brief)
    except (Unexpected, OSError, subprocess.SubprocessError) as fault:
        return f"pair {seed}: {fault}; it is in {folder}"
    shutil.rmtree(folder)
    return whole.kinds[0]


def expect_shown(mgr, folder, outcome):
    """If a side put its text, it has to be that of its log."""
    for side, text in zip(SIDES, outcome.texts):
        if text is not None:
            with open(folder / side / "note.ops", "rb") as given:
                shown = subprocess.run([mgr, "show"], stdin=given, check=True, capture_output=True, timeout=SECONDS).stdout
            expect(f"the text of the one that {side}", shown, text)


def main():
    mgr = plain_ends.named_mgr()
    count = int(sys.argv[2]) if len(sys.argv) > 2 else PAIRS
    with ThreadPoolExecutor(os.cpu_count()) as pool:
        came = list(pool.map(lambda seed: tried(mgr, seed), range(count)))
    agreed, conflicts = came.count("Sent N, received N"), came.count("line N: Conflict")
    faults = [it for it in came if it.startswith("pair ")]
    for fault in faults[:20]:
        print(fault)
    if faults:
        sys.exit(f"{len(faults)} of {count} pairs are not as they have to be")
    print(f"{count} random pairs were exchanged whole and briefly, with the same outcome: {agreed} became one, {conflicts} conflict")


if __name__ == "__main__":
    main()
