"""Lines between a hub and its writers: operations as mgr spells them, and what both say, which begins with its `op`."""

import json
import re
import socket
import time
from collections import deque
from collections.abc import Iterable, Iterator
from contextlib import suppress
from typing import Any, NamedTuple

VERSION = 1
# No line is longer; claims of more come in several.
LONGEST, PIECE = 65536, 16384
# So many bytes are read or written at once.
BLOCK = 16384
# So many bytes of claims at most, and so many that wait for a peer beside what it asked for.
MOST_CLAIMS, MOST_WAITING = 1 << 23, 1 << 20
# Seconds: that a peer may say nothing, that it may take nothing.
SILENCE, STUCK = 150.0, 20.0

_PLAIN = r'[^"\\\x00-\x1f]*'
_TEXT = rf'"({_PLAIN}(?:\\(?:["\\/bfnrt]|u[0-9A-Fa-f]{{4}}){_PLAIN})*)"'
_NUMBER = "(0|[1-9][0-9]{0,15})"
_ID = rf"\[{_NUMBER},{_NUMBER}\]"
OPERATION = re.compile(
    rf'{{(?:"char":{_TEXT},)?(?:"count":{_NUMBER},)?"id":{_ID},"op":"(ins|run|dels?)"'
    rf'(?:,"parent":{_ID})?(?:,"text":{_TEXT})?}}'
)
# Which of a character, a count, a parent and a text each kind has.
MEMBERS = {"ins": (1, 0, 1, 0), "run": (0, 0, 1, 1), "del": (0, 0, 0, 0), "dels": (0, 1, 0, 0)}
# The greatest numbers of identifiers; so many operations stand in one line.
MOST_COUNTER, MOST_REPLICA, MOST_OPERATIONS = (1 << 53) - 1, 65535, 4096
# Each line counts as so many characters more.
LINE = 64
SAYING = b'{"op":"'


class Broken(OSError):
    """A connection that is of no more use. Says why."""


class Operation(NamedTuple):
    """What a line does: so many operations of rising counters; the text that they put, or none if they delete."""

    counter: int
    replica: int
    size: int
    text: str


def operation(line: bytes) -> Operation | None:
    """Returns what a line does; None if mgr would not take it as an operation, in the spelling that mgr writes.

    Nothing else of others is told mgr as a report, which would press keys, say.
    """
    try:
        found = OPERATION.fullmatch(line.decode() if len(line) <= LONGEST else "")
        if not found:
            return None
        char, count, counter, replica, kind, of, by, text = found.groups()
        put = char or text or ""
        if "\\" in put:
            put = json.loads(f'"{put}"')
            put.encode()
    except ValueError:  # It is no UTF-8, or has half a character.
        return None
    made = Operation(int(counter), int(replica), int(count) if count else len(put) or int(kind == "del"), put)
    is_whole = MEMBERS[kind] == tuple(part is not None for part in (char, count, of, text))
    is_after = of is None or of == by == "0" or 0 < int(by) <= MOST_REPLICA and 0 < int(of) < made.counter
    is_within = 0 < made.size <= (1 if kind == "ins" else MOST_OPERATIONS) and 0 < made.replica <= MOST_REPLICA
    return made if is_whole and is_after and is_within and 0 < made.counter <= MOST_COUNTER + 1 - made.size else None


def is_operation(line: bytes) -> bool:
    return operation(line) is not None


def weight(told: dict[str, Any] | bytes) -> int:
    """Returns as how many characters something counts that was said: those that it has and some more, or deletes."""
    found = operation(told) if isinstance(told, bytes) else None
    # Deletions of neighbours are one line once they pass on, and cost no more than their characters.
    return found.size if found and not found.text else LINE + (found.size if found else len(told))


def in_runs(lines: Iterable[bytes]) -> list[bytes]:
    """Returns the same operations, deletions of neighbours in one line: mgr takes that as one change of the text."""
    made: list[bytes] = []
    last = none = Operation(0, 0, MOST_OPERATIONS, "")
    for line in lines:
        told = operation(line) or none
        if told.text or told.size != 1:
            last = none
        elif last.size < MOST_OPERATIONS and told[:2] == (last.counter + last.size, last.replica):
            last = last._replace(size=last.size + 1)
            made[-1] = b'{"count":%d,"id":[%d,%d],"op":"dels"}' % (last.size, last.counter, last.replica)
            continue
        else:
            last = told
        made.append(line)
    return made


def said(op: str, **members: Any) -> bytes:
    """Returns the line that says something."""
    return json.dumps({"op": op, **members}, separators=(",", ":")).encode() + b"\n"


def saying(line: bytes) -> dict[str, Any]:
    """Returns what a line says, in texts, whole numbers and lists of these; one that says nothing is `Broken`."""
    with suppress(ValueError, RecursionError):
        made: dict[str, Any] = json.loads(line.decode() if line.startswith(SAYING) else "")
        # What stands within each other need not end.
        parts = [part for each in made.values() for part in (each if isinstance(each, list) else [each])]
        if isinstance(made["op"], str) and all(part is None or isinstance(part, (str, int)) for part in parts):
            return made
    raise Broken("a line that is neither an operation nor anything else")


def claims_said(claims: bytes) -> bytes:
    """Returns the lines that give claims."""
    text = claims.decode("ascii", "replace")
    places = range(0, len(text) or 1, PIECE)
    return b"".join(said("claims", text=text[at : at + PIECE], more=at + PIECE < len(text)) for at in places)


class Wire:
    """A connection that never blocks, and what waits to be written."""

    def __init__(self, link: socket.socket) -> None:
        self.link = link
        link.setblocking(False)
        # A line that was begun, lines that nobody asked for yet, and claims.
        self.begun, self.lines, self.claims = b"", deque[bytes](), bytearray()
        # What waits, and how many of its bytes were asked for, and may be many.
        self.waiting, self.asked = bytearray(), 0
        # When something was read, and when something was written or nothing waited; how many bytes were read.
        self.heard = self.written = self.begun_at = time.monotonic()
        self.total = 0

    def fileno(self) -> int:
        return self.link.fileno()

    def say(self, op: str, **members: Any) -> None:
        self.pass_on(said(op, **members))

    def pass_on(self, lines: bytes) -> None:
        """Has whole lines wait."""
        if not self.waiting:
            self.written = time.monotonic()
        self.waiting += lines

    def answer(self, lines: bytes) -> None:
        """Has lines wait that were asked for, however many."""
        self.pass_on(lines)
        self.asked += len(lines)

    def take(self) -> Iterator[dict[str, Any] | bytes]:
        """Reads what came, and yields what is said, claims once they are whole, and operations.

        Anything else is `Broken`, and so is the end. What is not asked for comes the next time, before more is read.
        """
        self.lines += self._lines() if not self.lines else ()
        while self.lines:
            line = self.lines.popleft()
            told = line if is_operation(line) else self._whole(saying(line))
            if told:
                yield told

    def _lines(self) -> list[bytes]:
        """Returns the lines that came, without newlines."""
        try:
            block = self.link.recv(BLOCK)
        except BlockingIOError:
            return []
        if not block:
            raise Broken("the other end is gone")
        self.heard = time.monotonic()
        self.total += len(block)
        *lines, self.begun = (self.begun + block).split(b"\n")
        if max(map(len, (*lines, self.begun))) > LONGEST:
            raise Broken("a line that is too long")
        return lines

    def _whole(self, told: dict[str, Any]) -> dict[str, Any] | None:
        """Returns what is said, claims once all pieces of them have come."""
        if told["op"] != "claims":
            return told
        text = told.get("text")
        if not isinstance(text, str) or not 0 < len(self.claims) + len(text) <= MOST_CLAIMS:
            raise Broken("claims that are none")
        self.claims += text.encode("ascii", "replace")
        if told.get("more"):
            return None
        claims, self.claims = bytes(self.claims), bytearray()
        return {"op": "claims", "claims": claims}

    def write(self) -> None:
        """Writes as much as is taken now. What was asked for counts as written first."""
        try:
            count = self.link.send(self.waiting[:BLOCK])
        except BlockingIOError:
            return
        del self.waiting[:count]
        self.asked = max(0, self.asked - count)
        self.written = time.monotonic()

    def check(self, now: float) -> None:
        """A peer that says or takes nothing for too long is `Broken`."""
        if now > self.heard + SILENCE:
            raise Broken("nothing was heard")
        if self.waiting and now > self.written + STUCK:
            raise Broken("nothing is taken")
