"""Random lines of others, whole ones and ones that are broken in many ways: for what reads them, and for each engine.

HOSTILE says how many each gets, and SEED which ones.
"""

import json
import os
import random
import re
import socket
import subprocess
import sys
import unittest
from collections.abc import Callable, Iterator
from typing import Any
from unittest import mock

from context import InFolder
from test_hub import Hubs
from writers import BUILT, program

from mgr_front import meeting
from mgr_front.cells import clean
from mgr_front.channels import Apart, Event, stream
from mgr_front.channels.folder import Folder
from mgr_front.channels.git import GitBranch
from mgr_front.channels.hub import Hub
from mgr_front.channels.redis import RedisStream
from mgr_front.channels.worker import Worker
from mgr_front.company import Company
from mgr_front.editor import REPORT, Talk
from mgr_front.notes import Note
from mgr_front.shared import SharedNote
from mgr_front.statuses import Status, Statuses
from mgr_front.view import echo_line, picture
from mgr_front.wire import LONGEST, VERSION, Broken, Operation, Wire, operation, said, saying

ENTRIES, SEED = int(os.environ.get("HOSTILE", "1000")), os.environ.get("SEED") or os.urandom(4).hex()
PLACES = b'{"op":"places","places":['
# Faults of mgr that say nothing of a line by itself, but of the text that is to take it.
OF_THE_TEXT = "Full", "Conflict", "Clock", "Far", "Memory"
REPLICA = 7

NUMBERS = "0 1 -1 -0 01 1.0 1e0 1e400 4096 4097 65535 65536 9007199254740991 9007199254740992 18446744073709551616 NaN".split()
NUMBERS += ["-Infinity", "true", "null", '"1"', "[]", "{}", "1,2", "\u0663", "9" * 5000]
# As they may stand within a text of JSON, or not.
SIGNS = ["a", "b ", "\u6f22", "\U0001f600", "\u202e", "\u2028", "\x7f", "\x9b", "\ud800", "", "ab", "\n", "\r", "\0", "\x1b[2J", '"']
SIGNS += [*(rf"\{sign}" for sign in '"\\/bfnrtqux0'), *(rf"\u{code}" for code in ("0000", "001b", "00E9", "d800", "12", "ude00"))]
SIGNS += [r"\ud83d\ude00", r"\ude00\ud83d", "\u200d", "\ufe0f", "x" * 4097]
BYTES = [*map(bytes, zip(b'\xff\n\r\0{}[]",:\\ 0a\x1b\x80')), b"\xed\xa0\x80", b"\xc0\x80", b"[" * 5000, b'"id":[1,2],', b'"op":"rest",']
# What members may be in what is said; JSON as Python writes it has more than JSON has.
VALUES = [None, True, 0, 1, -1, 2**70, 0.5, float("nan"), "", "x", "\ud800", "\x1b]0;x\x07", "\u202ex", "x" * 5000, "\U0001f600"]
VALUES += [[], [1, 2, 3], [2**53 - 1, 65535, 1], [2**53, 1, 1], ["x"], [[1]], {}, {"op": "x"}, [True, 1, 1], [1.0, 1, 1], VERSION]
OPS = "hello claims place alive leave refused conflict behind bye lines entry rest paste x".split()
MEMBERS = "version replica name token place digest why text more by lines op".split()


def setUpModule() -> None:
    print(f"SEED={SEED}: ", end="", file=sys.stderr, flush=True)


class Hostile(random.Random):
    """What others may write."""

    def lines(self, count: int) -> Iterator[bytes]:
        """Yields so many lines."""
        for _ in range(count):
            made = self.said() if self.random() < 0.3 else self.operation()
            for _ in range(self.choice((0, 0, 1, 1, 2, 5))):
                made = self.broken(made)
            yield made[: 2 * LONGEST]

    def block(self, count: int) -> bytes:
        """Returns so many lines as a file may have them."""
        return b"\n".join([*self.lines(count), b"" if self.random() < 0.8 else b"\0\0"])

    def operation(self) -> bytes:
        counter, replica = self.choice((self.randint(1, 50), 2**53 - 1 - self.randint(0, 5))), self.choice((1, 2, REPLICA, 65535))
        told: dict[str, object] = {"id": [counter, replica]}
        parent = [self.randint(1, counter), self.randint(1, 9)] if self.random() < 0.5 else [0, 0]
        sign = self.choice(("a", "\u6f22", "\t", "\n", '"', "\\", "\x00", "\u202e", "\U0001f600"))
        told |= self.choice(
            (
                {"char": sign, "op": "ins", "parent": parent},
                {"op": "del"},
                {"op": "run", "parent": parent, "text": sign * self.choice((1, 3, 4096))},
                {"count": self.choice((1, 2, 4096)), "op": "dels"},
            )
        )
        return json.dumps(told, sort_keys=True, separators=(",", ":"), ensure_ascii=self.random() < 0.5).encode()

    def said(self) -> bytes:
        """Returns something that is said, with members of any kind."""
        members = {name: self.choice(VALUES) for name in self.sample(MEMBERS, self.randint(0, 5))}
        if self.random() < 0.5:
            members |= {"replica": self.randint(1, 9), "name": self.choice(SIGNS), "place": [self.randint(0, 9), 1, 1]}
        if self.random() < 0.5:
            members["lines"] = self.choice(SIGNS) + self.operation().decode() + "\n"
        return json.dumps({"op": self.choice(OPS)} | members, separators=(",", ":")).encode()

    def broken(self, line: bytes) -> bytes:
        """Returns a line with one thing changed."""
        place = self.randint(0, len(line))
        how = self.randint(0, 6)
        numbers, texts = (list(re.finditer(of, line)) for of in (rb"\d+", rb'(?<=:")[^"]*'))
        if how < 2 and numbers:
            found = self.choice(numbers)
            return line[: found.start()] + self.choice(NUMBERS).encode() + line[found.end() :]
        if how == 2 and texts:
            found = self.choice(texts)
            return line[: found.start()] + self.choice(SIGNS).encode("utf-8", "surrogatepass") + line[found.end() :]
        if how == 3:
            return line[:place] + line[place + self.randint(1, 3) :]
        if how == 4 and line.startswith(b"{") and b"," in line:
            members = line[1:-1].split(b",", 1)
            return b"{" + members[1] + b"," + members[0] + b"}"
        return line[:place] + self.choice(BYTES) + line[place:]


class Taker(SharedNote):
    """A note that takes all that others give, as if mgr had said that it lacks that."""

    def claims(self) -> bytes:
        return b""

    def missing(self, claims: bytes) -> list[bytes]:
        return []

    def others(self, log: bytes, mends: bool) -> tuple[list[bytes], bytes, str]:
        return log.splitlines(), b"", ""

    def given(self, lines: list[bytes], claims: bytes, asks: bool) -> list[bytes]:
        return []


class WithHostile(InFolder):
    def setUp(self) -> None:
        super().setUp()
        self.hostile = Hostile(f"{SEED} {self.id()}")
        state = mock.patch.dict(os.environ, XDG_STATE_HOME=str(self.folder / "state"))
        state.start()
        self.addCleanup(state.stop)
        self.note = Taker("mgr", Note(str(self.folder / "note")), REPLICA)


class TestReading(WithHostile):
    def test_what_is_an_operation(self) -> None:
        taken = 0
        for line in self.hostile.lines(ENTRIES):
            with self.subTest(line=line):
                told = operation(line)
                if told:
                    taken += 1
                    self.check(line, told)
                try:
                    members = saying(line)
                    self.assertTrue(isinstance(members["op"], str) and not told)
                except Broken:
                    pass
        self.assertTrue(ENTRIES // 10 < taken < ENTRIES // 2, taken)

    def check(self, line: bytes, told: Operation) -> None:
        """Whether an operation is as it has to be, and nothing more than a line."""
        members = json.loads(line)
        text = members.get("char", members.get("text", ""))
        self.assertEqual(told, (*members["id"], members.get("count", len(text) or 1), text))
        self.assertTrue(0 < told.counter <= told.counter + told.size - 1 < 1 << 53 and 0 < told.replica < 1 << 16)
        self.assertEqual(list(members), sorted(members))
        self.assertFalse(any(byte < 0x20 or byte == 0xFF for byte in line))
        text.encode()

    @unittest.skipUnless(BUILT, "no built mgr is given")
    def test_mgr_takes_the_same(self) -> None:
        lines = [line for line in self.hostile.lines(ENTRIES) if b"\n" not in line]
        command = [str(BUILT), "edit", "--live", "--replica", str(REPLICA), "--rows", "3", "--", str(self.folder / "note")]
        given = b"".join(REPORT + line + b"\n" for line in lines)
        done = subprocess.run(command, input=given, capture_output=True, check=True)
        statuses = Statuses().take(done.stdout)
        self.assertEqual(statuses[-1].reports, len(lines))
        refused = {number: fault for status in statuses for number, fault in status.refused.items()}
        for number, line in enumerate(lines, 1):
            with self.subTest(line=line, fault=refused.get(number)):
                if operation(line):
                    self.assertIn(refused.get(number, "Full"), OF_THE_TEXT)
                elif refused.get(number, "Full") in OF_THE_TEXT and json.loads(line)["op"] in ("ins", "del", "run", "dels"):
                    # It is spelled otherwise than mgr does it.
                    spelled = json.dumps(json.loads(line), sort_keys=True, separators=(",", ":"), ensure_ascii=False)
                    self.assertIsNotNone(operation(spelled.encode()))
                    self.assertNotEqual(spelled.encode(), line)


class Link:
    """A server of Redis in which somebody else writes, by the calls that a stream makes."""

    def __init__(self) -> None:
        self.entries: list[tuple[Any, Any]] = []
        self.heard: list[dict[str, Any]] = []
        self.last, self.connection_pool = b"0-0", mock.Mock()

    def __getattr__(self, _: str) -> Callable[..., "Link"]:
        return lambda *words, **more: self

    def __enter__(self) -> "Link":
        return self

    def __exit__(self, *_: object) -> None:
        pass

    def get(self, _: str) -> bytes | None:
        return None

    def get_message(self, timeout: float = 0.0) -> dict[str, Any] | None:
        return self.heard.pop(0) if self.heard else None

    def xread(self, streams: dict[str, bytes]) -> "Link":
        (self.last,) = streams.values()
        return self

    def execute(self) -> tuple[int, list[Any]]:
        place = int(self.last.partition(b"-")[0])
        return len(self.entries), [[b"key", self.entries[place:]]] * (place < len(self.entries))


class TestEngines(WithHostile):
    """What comes of others by an engine, and what of that reaches mgr and the terminal."""

    def begin(self, make: Callable[[Callable[[Event], None]], Worker]) -> None:
        self.company = Company(self.note, make)
        self.talk = Talk(3)
        self.channel: Any = self.company.channel
        self.reports: set[bytes] = set()

    def hear(self) -> None:
        """Has mgr be given what came, and shows what is shown of others."""
        self.company.hear()
        while self.company.lines or not self.talk.is_answered:
            self.talk.note(Status(reports=self.talk.reports))
            self.company.feed(self.talk)
        for report in self.talk.waiting.split(REPORT)[1:]:
            self.reports.add(bytes(report))
            line = bytes(report[:-1])
            self.assertTrue(report.endswith(b"\n") and (operation(line) or line.startswith(PLACES)), report)
        self.talk.waiting.clear()
        status = Status(("text", "----Mg: note", ""), heights=(1,), places=tuple((*place, 0, 1) for place in self.company.known))
        rows = picture(status, echo_line(status, None, [self.company.said]), 3, 80, self.company.shown(), self.company.marks(status, True)).rows
        sent = re.sub("\x1b\\[[0-9;]*m|\x1b\\[K", "", "".join(rows))
        self.assertEqual(sent, clean(sent))

    def entries(self) -> Iterator[list[bytes]]:
        """Yields lines, some at once."""
        count = 0
        while count < ENTRIES:
            lines = list(self.hostile.lines(self.hostile.randint(1, 20)))
            count += len(lines)
            yield lines

    def test_a_folder(self) -> None:
        shared = self.folder / "shared"
        shared.mkdir()
        self.begin(lambda post: Folder(self.note, post, str(shared)))
        names = [sign * 32 + end for sign, end in zip("012345", (".ops", ".sync-conflict.ops", " \x1b[2J\u202e.ops", ".ops", ".ops", ".ops"))]
        self.channel.join()
        for lines in self.entries():
            path = shared / self.hostile.choice(names)
            if self.hostile.random() < 0.1:
                path.unlink(missing_ok=True)
            with open(path, self.hostile.choice(("ab", "ab", "ab", "wb"))) as file:
                file.write(b"\n".join([*lines, self.hostile.choice((b"", b"", b"half", b"\0"))]))
            self.channel.turn()
            self.hear()
        self.channel.join_all()
        self.hear()
        self.assertTrue(len(self.reports) > ENTRIES // 20 and any(self.channel.left_out.values()))

    def test_a_stream_of_redis(self) -> None:
        link = Link()
        with mock.patch.object(stream, "library", return_value=mock.Mock(Redis=lambda **_: link)):
            self.begin(lambda post: RedisStream(self.note, post, "redis://host/key"))
        with self.channel.connected():
            self.channel.join()
            for lines in self.entries():
                odd = {b"lines": b"\n".join(lines)}, {b"lines": None}, {b"by": b"x"}, {}, None, {b"lines": b"\n".join(lines) + b"\n", b"by": b"\xff"}
                link.entries.append((b"%d-0" % (len(link.entries) + 1), self.hostile.choice(odd)))
                data = [*lines, *[said("lines", by="x", lines=line.decode("utf-8", "surrogateescape")).strip() for line in lines]]
                link.heard += [{"type": "message", "data": each} for each in [*data, 1, None, "text", b'{"op":"entry"}']]
                self.channel.turn()
                self.hear()
            self.channel.join_all()
            self.hear()
        self.assertTrue(len(self.reports) > ENTRIES // 20 and any(self.channel.left_out.values()))

    def test_a_branch_of_git(self) -> None:
        note = SharedNote(program(self.folder), Note(str(self.folder / "note")), REPLICA)
        with mock.patch.dict(os.environ, XDG_CACHE_HOME=str(self.folder)):
            self.begin(lambda post: GitBranch(note, post, str(self.folder)))
        for at, count in enumerate([1] * 4 + [max(1, ENTRIES // 16)] * 16):
            try:
                self.channel.compare(self.hostile.block(count), mends=bool(at % 2))
            except Apart as apart:
                self.assertEqual(clean(apart.state.why), apart.state.why)
            self.hear()
        # What is mended has lines that are taken.
        self.assertTrue(self.reports and any(self.channel.left_out.values()))

    def test_what_a_hub_says(self) -> None:
        self.begin(lambda post: Hub(self.note, post, mock.Mock()))
        cut = 0
        for line in self.hostile.lines(ENTRIES):
            if not self.channel.wire:
                near, far = socket.socketpair()
                for link in (near, far):
                    self.addCleanup(link.close)
                self.channel.wire, self.channel.is_joined = Wire(near), self.hostile.random() < 0.8
            far.sendall(line + b"\n")
            try:
                for _ in range(len(line) // 16384 + 1):
                    self.channel._talk()
            except (Broken, Apart) as fault:
                cut += 1
                self.channel.wire = None
                self.channel.say(fault.state if isinstance(fault, Apart) else Apart(str(fault)).state)
                near.close()
                far.close()
            self.channel.presence.turn(lambda op, **members: None, self.note.claims)
            self.company.state = type(self.company.state)("live")
            self.hear()
        self.assertTrue(len(self.reports) > ENTRIES // 20 and ENTRIES // 10 < cut < ENTRIES)


class TestHubs(Hubs):
    def test_what_a_peer_says(self) -> None:
        hostile = Hostile(f"{SEED} {self.id()}")
        for number in range(ENTRIES // 4):
            hello = said("hello", version=VERSION, replica=number % 60000 + 1000, name="eve", token="t")
            # What takes the place of mgr has no lines in its text.
            lines = [line for line in hostile.lines(4) if b"\\n" not in line and b"u000" not in line]
            self.peer(hello * (hostile.random() < 0.9), *[line + b"\n" for line in lines])
        last = b'{"char":"z","id":[1,5],"op":"ins","parent":[0,0]}'
        self.peer(said("hello", version=VERSION, replica=5, name="alice", token="t"), last + b"\n")
        self.expect(lambda: last in self.log(), True)
        self.assertTrue(len(self.log()) > ENTRIES // 20 and all(map(operation, self.log())))

    def peer(self, *lines: bytes) -> None:
        """One who says this, and goes."""
        self.assertTrue(self.thread.is_alive())
        with socket.create_connection((meeting.HOST, self.port), 60) as link:
            try:
                link.sendall(b"".join(lines))
                link.shutdown(socket.SHUT_WR)
                while link.recv(65536):
                    pass
            except OSError:
                pass  # It was cut.


if __name__ == "__main__":
    unittest.main()
