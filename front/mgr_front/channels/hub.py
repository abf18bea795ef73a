"""The way to a hub: by its note's socket, by a port of this machine, or by ssh to another one."""

import fcntl
import json
import os
import secrets
import shlex
import socket
import subprocess
import tempfile
import time
from collections.abc import Callable, Iterator
from contextlib import AbstractContextManager, contextmanager, suppress
from typing import Any

from mgr_front import meeting
from mgr_front.channels import Apart, Post, State
from mgr_front.channels.presence import Presence
from mgr_front.channels.worker import Descriptors, Worker
from mgr_front.copies import digest, machine, own_folder, user
from mgr_front.notes import Refused
from mgr_front.shared import SharedNote, text_of
from mgr_front.signals import held_back
from mgr_front.wire import VERSION, Broken, Wire, claims_said

# Seconds that the other end has for its first word, and between two looks whether it is still there.
FIRST, LOOK = 60.0, 10.0
# So that a machine that is away is noticed, and nobody is asked for a word while the terminal shows a note.
SETTINGS = ("ConnectTimeout=5", "ServerAliveInterval=5", "ServerAliveCountMax=2", "ControlPath=none")
SILENT = "BatchMode=yes"
# What a hub says of a number that is that of somebody else, be it a link of this copy that it has not left yet.
IN_USE = "is in use by somebody"

# Opens a connection; the first one may ask the person for a word.
Way = Callable[[bool], AbstractContextManager[socket.socket]]


def by_note(path: str) -> Way:
    """The way to the hub that has this note on this machine."""
    return lambda _: meeting.connect(path)


def by_port(port: int) -> Way:
    """The way to a port of this machine."""
    return lambda _: socket.create_connection((meeting.HOST, port), meeting.SECONDS)


def by_ssh(host: str, path: str) -> Way:
    """The way to the hub that has this note on another machine."""

    @contextmanager
    def way(is_first: bool) -> Iterator[socket.socket]:
        settings = [*SETTINGS, *[SILENT] * (not is_first)]
        words = [word for setting in settings for word in ("-o", setting)]
        command = ["ssh", "-T", *words, "--", host, f"mgr-hub --join {shlex.quote(path)}"]
        near, far = socket.socketpair()
        with near, tempfile.TemporaryFile() as told:
            with far, held_back():
                end = far.fileno()
                process = subprocess.Popen(command, stdin=end, stdout=end, stderr=told, start_new_session=not is_first)
            try:
                yield near
            except OSError as error:
                told.seek(0)
                lines = told.read().decode("utf-8", "replace").strip().splitlines()
                raise Broken(lines[-1] if lines else str(error)) from None
            finally:
                process.kill()
                process.wait()

    return way


def token_of(log: str) -> str:
    """Returns by what a hub knows a copy of a note again that was killed; of two that run at once each has its own."""
    token, owner = secrets.token_hex(8), [machine(), user(), os.path.realpath(log)]
    with suppress(OSError, Refused):
        place = os.path.join(own_folder("tokens"), digest(json.dumps(owner).encode()))
        held = os.open(place, os.O_RDWR | os.O_CREAT, 0o600)
        # It is this program's up to its end, and whoever takes it finds what is written there.
        fcntl.lockf(held, fcntl.LOCK_EX | fcntl.LOCK_NB)
        token = os.pread(held, len(token), 0).decode("ascii", "replace") or token
        os.pwrite(held, token.encode(), 0)
    return token


class Hub(Worker):
    """What is written at a hub, which passes it on to all others."""

    def __init__(self, note: SharedNote, post: Post, way: Way, person: str = "") -> None:
        super().__init__(note, post)
        self.way = way
        self.presence: Presence = Presence(note.replica, person, post)
        self.wire: Wire | None = None
        # By this the hub knows it again, if it has not noticed a break yet.
        self.token = token_of(note.log)
        self.is_first, self.is_joined = True, False
        # What came of this connection and was not taken.
        self.came: list[bytes] = []
        # Whether the hub has taken all that it was told, of which it says at the end alone.
        self.is_taken = True

    @contextmanager
    def connected(self) -> Iterator[None]:
        is_first, self.is_first = self.is_first, False
        with self.way(is_first) as link:
            self.wire, self.is_joined, self.came = Wire(link), False, []
            try:
                yield
            finally:
                self.wire = None

    def descriptors(self) -> Descriptors:
        return ([self.wire], [self.wire] * bool(self.wire.waiting)) if self.wire else ([], [])

    def close(self, seconds: float) -> bool:
        return super().close(seconds) and self.is_taken

    def join(self) -> None:
        """Says hello and what the note has; what it lacks comes, and then what the hub has, in short."""
        self._say("hello", version=VERSION, replica=self.note.replica, name=self.presence.name, token=self.token)
        until = time.monotonic() + FIRST
        while not self.is_joined:
            if self.is_leaving or time.monotonic() > until:
                raise Broken("no answer")
            self._talk()
            self.wait(0.0 if self.is_joined else 1.0)

    def turn(self) -> float:
        assert self.wire
        self._talk()
        if self.told:
            self.is_taken = False
            self.wire.pass_on(text_of(self.told))
            self.passed(len(self.told))
        return min(self.presence.turn(self._say, self.note.claims), LOOK)

    def leave(self) -> None:
        self.is_taken = False
        self._say("bye")
        while not self.is_taken:
            self._talk()
            self.wait(0.0 if self.is_taken else 1.0)

    def _say(self, op: str, **members: object) -> None:
        assert self.wire
        self.wire.say(op, **members)

    def _talk(self) -> None:
        """Writes and reads what can be now. Operations are taken once it is clear that they are of this note."""
        assert self.wire
        if self.wire.waiting:
            self.wire.write()
        for told in self.wire.take():
            if isinstance(told, bytes):
                self.came.append(told)
            else:
                self._hear(self.wire, told)
        self.wire.check(time.monotonic())
        if self.is_joined:
            self.take(self.came)
            self.came = []

    def _hear(self, wire: Wire, told: dict[str, Any]) -> None:
        """Takes what the hub says."""
        op = told["op"]
        if op == "hello" and told.get("version") != VERSION:
            raise Apart(f"the hub speaks version {told.get('version')}, and this is {VERSION}", "refused")
        if op == "hello":
            self.post(State("joining", "the hub is there"))
        if op in ("hello", "behind") or op == "alive" and told.get("digest") not in (None, digest(self.note.claims())):
            wire.answer(claims_said(self.note.claims()))
        elif op == "claims":
            wire.answer(text_of(self._lacked(wire, told["claims"])))
        elif op in ("refused", "conflict"):
            why = str(told.get("why"))
            # It is tried again until the hub has left whoever has the number.
            raise Apart(why, "alone" if IN_USE in why else op)
        elif op == "bye":
            self.is_taken = True
        elif op in ("place", "leave"):
            self.presence.take(told)

    def _lacked(self, wire: Wire, claims: bytes) -> list[bytes]:
        """Returns what the hub, which has this, lacks. At first all that the note lacked has come before."""
        if self.is_joined:
            return self.note.missing(claims)
        try:
            lacked = self.accept(self.came, claims)
        except Apart as apart:
            wire.say("refused", why=apart.state.why)
            wire.write()
            raise
        self.is_joined, self.came = True, []
        return lacked
