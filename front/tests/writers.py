"""People who write in one note over a channel: what each types and takes stands in the own log at once."""

import itertools
import json
import os
import pathlib
import shutil
import stat
import sys
import threading
import time
import unittest
from collections.abc import Callable, Sequence
from unittest import mock

from context import TESTS, InFolder

from mgr_front.channels import Event, Present, State, Took
from mgr_front.channels.worker import Worker
from mgr_front.notes import Note
from mgr_front.shared import SharedNote

SECONDS = 60.0
# A built mgr, if there is one.
BUILT = os.environ.get("MGR") or shutil.which(str(TESTS.parent.parent / "build" / "mgr"))


def program(folder: pathlib.Path) -> str:
    """Returns a built mgr, or what takes its place."""
    if BUILT:
        return BUILT
    path = folder / "logs"
    path.write_text(f'#!/bin/sh\nexec {sys.executable} {TESTS / "fake_logs.py"} "$@"\n')
    path.chmod(stat.S_IRWXU)
    return str(path)


class Writer(SharedNote):
    """One who writes, as a note for a channel and as a front."""

    def __init__(self, mgr: str, folder: pathlib.Path, replica: int) -> None:
        folder.mkdir(exist_ok=True)
        super().__init__(mgr, Note(str(folder / "note")), replica)
        self.lock = threading.Lock()
        self.states: list[State] = []
        self.present: list[Present] = []
        self.channel: Worker | None = None

    # ---- what a channel calls

    def post(self, event: Event) -> None:
        if isinstance(event, Took):
            # As mgr does it, what conflicts is refused.
            known = {str(json.loads(line)["id"]) for line in self.lines() if b'"ins"' in line}
            self.save([line for line in event.lines if b'"del"' in line or str(json.loads(line)["id"]) not in known])
        elif isinstance(event, State):
            self.states.append(event)
        else:
            self.present.append(event)

    # ---- what a person does

    def save(self, lines: Sequence[bytes]) -> None:
        with self.lock, open(self.log, "ab") as file:
            file.write(b"".join(line + b"\n" for line in lines))

    def lines(self) -> list[bytes]:
        path = pathlib.Path(self.log)
        return path.read_bytes().splitlines() if path.exists() else []

    def type(self, text: str) -> None:
        """Types after the last character that it has."""
        ids = [json.loads(line)["id"] for line in self.lines()]
        counters, last = itertools.count(max(ids, default=[0])[0] + 1), max(ids, default=[0, 0])
        made = []
        for sign, counter in zip(text, counters):
            told = {"char": sign, "id": [counter, self.replica], "op": "ins", "parent": last}
            made.append(json.dumps(told, separators=(",", ":")).encode())
            last = [counter, self.replica]
        self.save(made)
        if self.channel:
            self.channel.tell(made)

    def signs(self) -> str:
        """Returns the characters that it has, in any order."""
        told = {line for line in self.lines()}
        signs = [json.loads(line).get("char", "") + json.loads(line).get("text", "") for line in told]
        return "".join(sorted("".join(signs)))

    def word(self) -> str:
        return self.states[-1].word if self.states else ""


class WithWriters(InFolder):
    """A test with people who write in one note."""

    def setUp(self) -> None:
        super().setUp()
        state = mock.patch.dict(os.environ, XDG_STATE_HOME=str(self.folder / "state"), XDG_CACHE_HOME=str(self.folder / "cache"))
        state.start()
        self.addCleanup(state.stop)
        self.program = program(self.folder)
        self.writers: list[Writer] = []

    def begin(self, replica: int, make: "Callable[[Writer], Worker]", text: str = "") -> Writer:
        """Returns one who has typed this text before, and joins by a channel that is made so."""
        writer = Writer(self.program, self.folder / str(replica), replica)
        if text:
            writer.type(text)
        self.open(writer, make)
        return writer

    def open(self, writer: Writer, make: "Callable[[Writer], Worker]") -> None:
        self.writers.append(writer)
        writer.channel = make(writer)
        writer.channel.start()
        self.addCleanup(writer.channel.close, SECONDS)

    def close(self, writer: Writer) -> None:
        assert writer.channel
        self.assertTrue(writer.channel.close(SECONDS), writer.states)
        writer.channel = None

    def make(self, writer: Writer) -> Worker:
        """Returns a writer's channel."""
        raise NotImplementedError

    def first(self, text: str = "a") -> Writer:
        """Returns one who has typed this text before, and has joined."""
        one = self.begin(1, self.make, text)
        self.wait("live", one.word)
        return one

    def pair(self) -> tuple[Writer, Writer]:
        """Returns two who have joined and written `ab`."""
        one, other = self.first(), self.begin(2, self.make)
        self.wait("a", other.signs)
        self.wait("live", other.word)
        other.type("b")
        for writer in (one, other):
            self.wait("ab", writer.signs)
        return one, other

    def expect_apart(self, word: str, why: str = "") -> Writer:
        """Returns one who has typed `a`, and stands apart in this way, which is said with these words."""
        one = self.begin(1, self.make, "a")
        self.wait(word, one.word)
        self.assertIn(why, one.states[-1].why)
        return one

    def expect_well(self, *writers: Writer) -> None:
        """All was well with these up to now, and they leave."""
        for writer in writers:
            self.assertEqual([state.word for state in writer.states], ["joining", "live"])
            self.close(writer)

    def wait(self, wanted: object, of: Callable[[], object]) -> None:
        """Waits until something is as it has to be."""
        end = time.monotonic() + SECONDS
        while (came := of()) != wanted:
            if time.monotonic() > end:
                self.assertEqual(came, wanted, [writer.states for writer in self.writers])
            time.sleep(0.02)


__all__ = ["Writer", "WithWriters", "unittest"]
