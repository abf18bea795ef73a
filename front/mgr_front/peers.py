"""Who writes at a hub: connections, each with what came of it and waits for mgr."""

import socket
import time
from typing import Any

from mgr_front.channels import MOST_NAME, shown
from mgr_front.wire import MOST_WAITING, VERSION, Broken, Wire

# So many bytes may be on their way to a peer beside what waits here.
SENT = 65536
# So many bytes in all, and so many more for each second, are a flood.
FLOOD, RATE = 1 << 27, 1 << 18
# As how many characters one is heard a second, be it that others say much; all together beyond that; and at once.
OWN, ALL, AT_ONCE = 4096, 65536, 16384
# Seconds for the first word, and for the last line to one that is cut off.
FIRST, LAST = 10.0, 2.0
MOST_NUMBER = 65535


class Credit:
    """How many characters more may be heard now: so many at once at most."""

    def __init__(self, rate: int) -> None:
        self.rate, self.left, self.renewed = rate, float(AT_ONCE), time.monotonic()

    def renew(self, now: float) -> bool:
        """Takes note of the time, and answers whether there is some."""
        self.left, self.renewed = min(AT_ONCE, self.left + self.rate * (now - self.renewed)), now
        return self.left > 0


class Peer(Wire):
    """One who writes at a hub, or says that it will."""

    def __init__(self, link: socket.socket) -> None:
        super().__init__(link)
        link.setsockopt(socket.SOL_SOCKET, socket.SO_SNDBUF, SENT)
        # It is known once it has a number.
        self.name, self.replica, self.token = "", 0, ""
        # Whether it goes, or is cut off once it has read why; and when.
        self.is_leaving = self.is_cut = False
        self.end = self.begun_at + FIRST
        # When it said last where it is, and when it was answered last; how much it said, in turns with others.
        self.moved = self.answered = 0.0
        self.said = 0
        self.credit = Credit(OWN)
        # Claims that it wants an answer to.
        self.request = b""

    @property
    def is_heard(self) -> bool:
        """Whether more is taken of it."""
        return not (self.is_cut or self.is_leaving)

    @property
    def held(self) -> int:
        """How many bytes are held of it and for it."""
        return len(self.waiting) + len(self.claims) + len(self.request)

    @property
    def title(self) -> str:
        return f"{self.name or 'somebody'} ({self.replica})"

    def greet(self, told: dict[str, Any] | bytes) -> None:
        """Takes note of what a peer says first."""
        if isinstance(told, bytes) or told["op"] != "hello":
            raise Broken("no hello")
        name, replica, token = told.get("name"), told.get("replica"), told.get("token")
        if told.get("version") != VERSION:
            raise Broken(f"this hub speaks version {VERSION}, not {told.get('version')}")
        if not (isinstance(name, str) and isinstance(token, str) and type(replica) is int):
            raise Broken("a hello that is none")
        if not 0 < replica <= MOST_NUMBER:
            raise Broken("a number that is none")
        self.name, self.replica, self.token = shown(name, MOST_NAME), replica, token[:MOST_NAME]

    def cut(self, op: str, why: str = "") -> None:
        """Says why nothing more is taken of it."""
        if not self.is_cut:
            self.is_cut, self.request, self.end = True, b"", time.monotonic() + LAST
            self.say(op, why=why)

    def check(self, now: float) -> None:
        """Leaves one that says too much or nothing; what it takes too slowly is dropped, and it asks for that again."""
        super().check(now)
        if len(self.waiting) - self.asked > MOST_WAITING:
            del self.waiting[self.waiting.find(b"\n") + 1 :]
            self.asked = 0
            self.say("behind")
        if self.total > FLOOD + RATE * (now - self.begun_at):
            raise Broken("it says too much")
        if self.is_cut and not self.waiting:
            raise Broken("")
        if now > self.end and (self.is_cut or not self.replica):
            raise Broken("" if self.is_cut else "no hello")
