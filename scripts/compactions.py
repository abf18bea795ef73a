#!/usr/bin/env python3
"""Compacts random logs, and looks whether they stand for what they stood for before.

usage: compactions.py MGR [LOGS]. Each log is made from a seed: insertions of some replicas, in rows and alone,
with counters left out, of elements that wait for a parent and of some that never comes, rows about as long as
a run may be; deletions, also of what is not there yet, and in one log of three runs of them; lines that stand
twice; in any order. After `mgr compact` the log has to be the lines that its operations have by the rule, byte
for byte: runs by rising identifier, then deletions, in runs too if the log had one; they have to be no more than
the log had; what it replaced has to be kept beside it; and `mgr show` and a frame of `mgr edit` have to be as
before. So it has to be after `mgr compact --dels` then, with all deletions in runs, and after `mgr compact` once
more, which changes nothing. Of each tenth log, besides: a session has to send the same bytes as before, and a
note with nothing that hears the compacted lines from a peer has to save each operation of the log once.
`make hostile` calls it. It ends with an error where one is not so.
"""

import json
import pathlib
import random
import shutil
import socket
import subprocess
import sys
import tempfile
import threading

import plain_ends
from session import EXCHANGE, HOST, Session, Unexpected, end_all

LOGS = 1000
SECONDS = 60
MOST, GREATEST = 4096, (1 << 53) - 1
SIGNS = "abcdefgh xyz,.\n\t\"\\\x01\x7f\u00e9\u20ac\U0001f600"


# ---- operations: insertions by identifier, as parent and sign, and identifiers that are deleted


class Notes:
    def __init__(self, seed):
        self.random = random.Random(seed)
        self.inserted, self.deleted, self.lines = {}, set(), []
        self.long = seed % 50 == 0
        self.runs, self.has_runs = self.random.choice((0, 0, 0.5)), False
        for _ in range(self.random.randrange(12)):
            self.random.choice((self.row, self.row, self.row, self.gap, self.deletions))()
        for _ in range(self.random.randrange(3)):
            self.lines += self.random.sample(self.lines, min(3, len(self.lines)))
        if self.random.random() < 0.7:
            self.random.shuffle(self.lines)

    def row(self):
        """Insertions, each after the one before it."""
        lengths = (MOST - 1, MOST, MOST + 1, 2 * MOST + 1) if self.long else (1, 1, 2, 3, 9, 40)
        parent = self.parent()
        replica = self.random.randint(1, 3)
        counter = self.counter(parent)
        for _ in range(self.random.choice(lengths)):
            if counter > GREATEST or (counter, replica) in self.inserted:
                return
            self.insert((counter, replica), parent)
            parent, counter = (counter, replica), counter + 1

    def gap(self):
        """As many as a run may have, or a row of few, in which one counter is left out."""
        parent = self.parent()
        replica, counter = self.random.randint(1, 3), self.counter(parent)
        left_out = self.random.choice((MOST - 1, MOST, MOST + 1)) if self.long else self.random.randint(1, 5)
        for number in range(left_out + 3):
            here = (counter + number + (number >= left_out), replica)
            if here[0] > GREATEST or here in self.inserted:
                return
            self.insert(here, parent)
            parent = here

    def counter(self, parent):
        """A counter above the parent's; now and then one of the last that there are."""
        if self.random.random() < 0.05:
            return max(parent[0] + 1, GREATEST - self.random.randrange(5))
        return parent[0] + 1 + self.random.choice((0, 0, 0, 1, 7))

    def parent(self):
        """The root, an element, or one that may never come."""
        if self.inserted and self.random.random() < 0.7:
            return self.random.choice(sorted(self.inserted))
        return self.random.choice(((0, 0), (0, 0), (self.random.randint(1, 30), self.random.randint(1, 4))))

    def deletions(self):
        known = sorted(self.inserted) or [(1, 1)]
        for _ in range(self.random.randint(1, 6)):
            counter, replica = self.random.choice(known)
            element = min(GREATEST, counter + self.random.choice((0, 0, 0, 1))), replica
            if self.random.random() < self.runs:
                self.delete_run(element)
            else:
                self.delete(element)

    def insert(self, element, parent):
        sign = self.random.choice(SIGNS)
        self.inserted[element] = (parent, sign)
        self.lines.append(insertion(element, parent, sign))

    def delete(self, element):
        self.deleted.add(element)
        self.lines.append(deletion(element))

    def delete_run(self, element):
        counter, replica = element
        count = self.random.choice((1, 1, 2, 3, 9, MOST if self.long else 40))
        count = min(count, GREATEST + 1 - counter)
        self.deleted.update((counter + number, replica) for number in range(count))
        self.has_runs = True
        self.lines.append(deletion_run(element, count))

    def single(self):
        """Returns the lines of the operations, each once and alone."""
        insertions = [insertion(element, *self.inserted[element]) for element in self.inserted]
        return insertions + [deletion(element) for element in self.deleted]

    def compacted(self, dels=False):
        """Returns the lines by the rule."""
        runs, seen = [], set()
        for element in sorted(self.inserted):
            if element not in seen:
                elements = self.run_from(element)
                seen.update(elements)
                runs.append(run([self.inserted[it] for it in elements], element))
        most = MOST if dels or self.has_runs else 1
        return runs + self.compacted_deletions(most)

    def compacted_deletions(self, most):
        """Returns those of the deletions, in runs of at most so many."""
        runs, seen = [], set()
        for element in sorted(self.deleted):
            if element not in seen:
                elements = self.deleted_from(element, most)
                seen.update(elements)
                runs.append(deletions(element, len(elements)))
        return runs

    def deleted_from(self, element, most):
        elements = [element]
        while len(elements) < most:
            following = (elements[-1][0] + 1, element[1])
            if following not in self.deleted:
                break
            elements.append(following)
        return elements

    def run_from(self, element):
        elements = [element]
        while len(elements) < MOST:
            following = (element[0] + 1, element[1])
            if self.inserted.get(following, (None,))[0] != element:
                break
            elements.append(following)
            element = following
        return elements


def text(signs):
    return json.dumps(signs, ensure_ascii=False)


def insertion(element, parent, sign):
    return f'{{"char":{text(sign)},"id":[{element[0]},{element[1]}],"op":"ins","parent":[{parent[0]},{parent[1]}]}}\n'


def deletion(element):
    return f'{{"id":[{element[0]},{element[1]}],"op":"del"}}\n'


def deletions(element, count):
    return deletion(element) if count == 1 else deletion_run(element, count)


def deletion_run(element, count):
    return f'{{"count":{count},"id":[{element[0]},{element[1]}],"op":"dels"}}\n'


def run(insertions, element):
    parent, sign = insertions[0]
    if len(insertions) == 1:
        return insertion(element, parent, sign)
    signs = text("".join(sign for _, sign in insertions))
    return f'{{"id":[{element[0]},{element[1]}],"op":"run","parent":[{parent[0]},{parent[1]}],"text":{signs}}}\n'


# ---- what mgr does with them


def ran(folder, *words, given=b""):
    done = subprocess.run(words, cwd=folder, input=given, capture_output=True, timeout=SECONDS)
    if done.returncode or done.stderr:
        raise Unexpected(f"{' '.join(words[1:3])} ends with {done.returncode}, and says {done.stderr!r}")
    return done.stdout


def seen(mgr, folder, log):
    """Returns the text and a frame of the log that stands there."""
    frame = ran(folder, mgr, "edit", "note", "--replica", "9", "--rows", "8", "--cols", "40")
    return ran(folder, mgr, "show", given=log), frame


class Peer(threading.Thread):
    """Hears one that connects to the end, and then says these bytes."""

    def __init__(self, said):
        super().__init__(daemon=True)
        self.said, self.heard = said, b""
        self.listener = socket.create_server((HOST, 0))
        self.listener.settimeout(SECONDS)
        self.port = self.listener.getsockname()[1]
        self.start()

    def run(self):
        link, _ = self.listener.accept()
        with self.listener, link:
            link.settimeout(SECONDS)
            while piece := link.recv(1 << 16):
                self.heard += piece
            link.sendall(self.said)


def exchanged(mgr, folder, said):
    """Returns what a session of the note sends to a peer that says these bytes."""
    peer = Peer(said)
    session = Session(mgr, folder, 9, "--port", str(peer.port))
    session.send(EXCHANGE)
    session.settle()
    session.end()
    peer.join(SECONDS)
    return peer.heard


NOTHING = b'{"count":0,"op":"end"}\n'


def compacted(mgr, folder, lines, before, *switches):
    """Returns what the log is compacted to, which has to be these lines."""
    log = folder / "note.ops"
    old = log.read_bytes()
    ran(folder, mgr, "compact", *switches, "note")
    new, wanted = log.read_bytes(), "".join(lines).encode()
    if new != wanted:
        raise Unexpected(f"the log is {new[:300]!r}, and not {wanted[:300]!r}")
    kept = folder / "note.ops~"
    if kept.read_bytes() != old:
        raise Unexpected("what was replaced is not kept")
    kept.unlink()
    if seen(mgr, folder, new) != before:
        raise Unexpected("text or frame is not as before")
    return new


def tried(mgr, folder, notes, thoroughly):
    old = "".join(notes.lines).encode()
    log = folder / "note.ops"
    log.write_bytes(old)
    before = seen(mgr, folder, old)
    sent = exchanged(mgr, folder, NOTHING) if thoroughly else None
    lines = notes.compacted()
    if len(lines) > len(notes.lines):
        raise Unexpected(f"{len(notes.lines)} lines become {len(lines)}")
    compacted(mgr, folder, lines, before)
    new = compacted(mgr, folder, notes.compacted(dels=True), before, "--dels")
    compacted(mgr, folder, notes.compacted(dels=True), before)
    if thoroughly:
        if exchanged(mgr, folder, NOTHING) != sent:
            raise Unexpected("what is sent is not as before")
        received(mgr, folder, notes, new)


def received(mgr, folder, notes, lines):
    """Has a note with nothing hear the compacted lines."""
    log = folder / "note.ops"
    log.unlink()
    (folder / "note").unlink(missing_ok=True)
    single = notes.single()
    exchanged(mgr, folder, lines + b'{"count":%d,"op":"end"}\n' % len(single))
    saved = log.read_bytes().decode().splitlines(keepends=True) if log.exists() else []
    if sorted(saved) != sorted(single):
        raise Unexpected(f"{len(saved)} lines were saved of {len(single)} operations")


def main():
    mgr = plain_ends.named_mgr()
    count = int(sys.argv[2]) if len(sys.argv) > 2 else LOGS
    operations = lines = 0
    for seed in range(count):
        folder = pathlib.Path(tempfile.mkdtemp())
        notes = Notes(seed)
        try:
            tried(mgr, folder, notes, seed % 10 == 0)
        except (Unexpected, OSError, subprocess.SubprocessError) as fault:
            end_all()
            sys.exit(f"log {seed}: {fault}; it is in {folder}")
        operations += len(notes.single())
        lines += len(notes.compacted())
        shutil.rmtree(folder)
    print(f"{count} random logs of {operations} operations were compacted to {lines} lines: each stands for the same")


if __name__ == "__main__":
    main()
