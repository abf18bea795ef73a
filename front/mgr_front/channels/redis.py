"""A stream of Redis that carries a note between many writers."""

import time
from collections import deque
from collections.abc import Iterator
from contextlib import contextmanager, suppress
from typing import Any

from mgr_front.channels import Apart, Post
from mgr_front.channels.presence import Presence
from mgr_front.channels.stream import ANSWER, BY, FIRST, LINES, Stream, lines_of
from mgr_front.channels.worker import Descriptors, Worker
from mgr_front.copies import digest
from mgr_front.shared import SharedNote, text_of
from mgr_front.wire import Broken, saying

# Seconds: for one writer to give what the stream lacks, and for which claims may differ since something is under way.
GIVING, UNDER_WAY = 10.0, 10.0
# So much of what is said is taken at once, and so much of it may have entries to come.
MOST_SAID, MOST_EARLY = 1000, 100


class RedisStream(Worker):
    """A note that is carried by a stream of Redis."""

    def __init__(self, note: SharedNote, post: Post, url: str, person: str = "") -> None:
        super().__init__(note, post)
        self.stream = Stream(url)
        self.presence: Presence = Presence(note.replica, person, post)
        # What hears the channel, and when it heard this writer last.
        self.ear: Any = None
        self.heard = 0.0
        # How many entries of the stream were read, and the last one; when something came or was told.
        self.count, self.last, self.changed = 0, FIRST, 0.0
        # Digests of what was heard on the channel, whose entries need not be taken.
        self.early: deque[str] = deque(maxlen=MOST_EARLY)

    @contextmanager
    def connected(self) -> Iterator[None]:
        """Hears the channel from now on."""
        ear = self.stream.link.pubsub()
        ear.subscribe(self.stream.channel)
        ear.get_message(timeout=ANSWER)
        self.ear, self.heard = ear, self.presence.signed
        try:
            yield
        finally:
            self.ear = None
            ear.close()
            with suppress(Exception):  # If the connection is gone, others find out that this writer is.
                self.stream.say("leave", replica=self.note.replica)
            self.stream.link.connection_pool.disconnect()

    def descriptors(self) -> Descriptors:
        return [self.ear.connection._sock] if self.ear else [], []

    def join(self) -> None:
        """Takes all of the stream, and gives what it lacks: one at a time does, after what others gave."""
        self.stream.check()
        given = self._compare_all()
        if given:
            with self.stream.link.lock(self.stream.giver, timeout=GIVING):
                if self.stream.after(self.last) != ([], self.count):
                    given = self._compare_all()
                if given:
                    self.stream.add(text_of(given))

    def _compare_all(self) -> list[bytes]:
        """Takes all of the stream that the note lacks, and returns what the stream lacks."""
        entries = self.stream.after(FIRST)
        self.last, self.count = entries[0][-1][0] if entries[0] else FIRST, entries[1]
        given, _ = self.compare(lines_of(entries), mends=True)
        self.changed = time.monotonic()
        return given

    def turn(self) -> float:
        said = self._said()
        if self.heard < self.presence.signed < time.monotonic() - ANSWER:
            raise Apart("the connection is gone")
        if self.told:
            lines, count = text_of(self.told), len(self.told)
            # So others have it while the server writes the entry to its disk.
            self.stream.say("lines", lines=lines.decode())
            self.stream.add(lines)
            self.passed(count)
            self.changed = time.monotonic()
        digests = {str(told.get("digest")) for told in said if told.get("op") == "alive"}
        if digests or any(told.get("op") == "entry" for told in said):
            self._look()
        # Where others have something else, all is compared, unless something is under way.
        if time.monotonic() > self.changed + UNDER_WAY and digests - {digest(self.note.claims())}:
            self.join_all()
        seconds = min(self.presence.turn(self.stream.say, self.note.claims), ANSWER)
        return 0.0 if len(said) == MOST_SAID else seconds

    def _said(self) -> list[dict[str, Any]]:
        """Returns what was said on the channel. Lines, and who is where, are taken."""
        said: list[dict[str, Any]] = []
        while len(said) < MOST_SAID and (message := self.ear.get_message()):
            told = {}
            with suppress(Broken):
                told = saying(message["data"] if isinstance(message["data"], bytes) else b"")
            said.append(told)
        for told in said:
            self.presence.take(told)
            if told.get("by") == self.stream.by:
                self.heard = time.monotonic()
            elif told.get("op") == "lines":
                # Half a character makes no operation.
                lines = str(told.get("lines")).encode("utf-8", "surrogatepass")
                self.early.append(digest(lines))
                self.take(lines.splitlines())
        return said

    def _look(self) -> None:
        """Takes what is new. A stream that was emptied, trimmed or begun anew is read from its beginning."""
        entries, size = self.stream.after(self.last)
        if size != self.count + len(entries):
            self.join_all()
        elif entries:
            self.last, self.count, self.changed = entries[-1][0], size, time.monotonic()
            others = [members.get(LINES) or b"" for _, members in entries if members.get(BY) != self.stream.by.encode()]
            news = [lines for lines in others if digest(lines) not in self.early]
            self.take(b"\n".join(news).splitlines())
