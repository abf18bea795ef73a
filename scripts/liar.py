"""What stands between those who write and what carries their note, and lies."""

import multiprocessing
import select
import signal
import socket
import sys
import threading
import time
from contextlib import suppress

from foreign_lines import RAW, foreign
from play.peers import HOST, free_port
from terminal import ROOT

sys.path.insert(0, str(ROOT / "front"))

from mgr_front.wire import said  # noqa: E402

BLOCK = 65536
# Seconds between two looks, and between two lies.
SOON, PAUSE = 0.05, 2.0


class Liar:
    """A port that leads to another one, by a process of its own. Once it `lies` it says more, or something else.

    `beside` gives what it says after a line, and `instead` what it answers in place of the other end, each by chance.
    """

    def __init__(self, target, chance, beside=None, instead=None):
        self.target, self.chance, self.beside, self.instead = target, chance, beside, instead
        self.port, self.lies = free_port(), multiprocessing.Event()
        self.process = multiprocessing.Process(target=self._serve, daemon=True)
        self.process.start()

    def _serve(self):
        signal.signal(signal.SIGTERM, signal.SIG_DFL)
        server = socket.create_server((HOST, self.port))
        while True:
            threading.Thread(target=self._meet, args=server.accept()[:1], daemon=True).start()

    def _meet(self, link):
        with suppress(OSError), link, socket.create_connection((HOST, self.target)) as far:
            if self.instead and self.lies.is_set():
                self._answer(link)
            else:
                self._pass(link, far)

    def _answer(self, link):
        """Answers whatever comes, until it lies no more."""
        while self.lies.is_set():
            if select.select([link], [], [], SOON)[0]:
                if not link.recv(BLOCK):
                    return
                link.sendall(self.instead(self.chance))

    def _pass(self, link, far):
        """Passes on what comes, until it has other answers; what comes of the other end in whole lines."""
        rest, last = b"", time.monotonic()
        while not (self.instead and self.lies.is_set()):
            for source in select.select([link, far], [], [], SOON)[0]:
                if not (block := source.recv(BLOCK)):
                    return
                if source is link:
                    far.sendall(block)
                else:
                    whole, newline, rest = (rest + block).rpartition(b"\n")
                    link.sendall(whole + newline)
            if self.beside and self.lies.is_set() and time.monotonic() > last + PAUSE:
                last = time.monotonic()
                link.sendall(self.beside(self.chance) + b"\n")


def foreign_line(chance):
    return foreign(chance, chance.randrange(1000, 1 << 31))


def refusal(chance):
    """Returns a hub's refusal, or its version, which no terminal should get as it is."""
    raw = "".join(chance.sample(RAW, 3))
    return chance.choice((said("refused", why=f"go away {raw}"), said("hello", version=f"2{raw}")))


def fault(chance):
    """Returns an error of Redis, which no terminal should get as it is."""
    return "-ERR {}{}\r\n".format(*chance.sample(RAW, 2)).encode()
