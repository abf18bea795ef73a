"""Peers with a script: what one says to a mgr that exchanges a note, and what it hears."""

import errno
import fcntl
import pathlib
import random
import select
import signal
import socket
import struct
import termios
import threading
import time
from contextlib import contextmanager, suppress

HOST = "127.0.0.1"
SECONDS = 60
LISTENING = "0A"

# How long one that breaks off waits for what it does not hear, which is sent at once or not at all.
MOMENT = 2

# The file of a socket that no program has.
CLOSED = "0"

# Below those that the system gives to whoever connects: a client could else get the very number that
# it asks for, and meet itself. Each is given to one scene alone.
PORTS = iter(random.sample(range(20000, 32000), 12000))

# A connection that is closed so breaks off.
BREAK = b"\1\0\0\0\0\0\0\0"


def free_port():
    """Returns a port that nobody uses."""
    for number in PORTS:
        with socket.socket() as probe:
            try:
                probe.bind((HOST, number))
            except OSError:
                continue
        return number


def listens(port):
    """Whether somebody listens at a port: the system's table says, since a connection would be taken."""
    return any(ends[0] == port and state == LISTENING for ends, state, _ in sockets())


def addresses(port):
    """Returns at which addresses somebody listens at a port."""
    found = set()
    for row in pathlib.Path("/proc/net/tcp").read_text().split("\n")[1:]:
        words = row.split()
        if words and words[1].endswith(f":{port:04X}") and words[3] == LISTENING:
            found.add(socket.inet_ntoa(bytes.fromhex(words[1][:8])[::-1]))
    return found


def sockets():
    """Returns of each socket that is open the ports of its ends, its state, and how many bytes came and were not read."""
    for row in pathlib.Path("/proc/net/tcp").read_text().split("\n")[1:]:
        words = row.split()
        if words and words[9] != CLOSED:
            ends = tuple(int(it.rpartition(":")[2], 16) for it in words[1:3])
            yield ends, words[3], int(words[4].rpartition(":")[2], 16)


def await_listener(port, is_left=lambda: False):
    """Waits until somebody listens at a port, or it is left; returns whether somebody does."""
    end = time.monotonic() + SECONDS
    while not listens(port):
        if is_left() or time.monotonic() > end:
            return False
        time.sleep(0.002)
    return True


def await_reading(link):
    """Waits until the other has read all that was said on a link, or reads no more."""
    of_the_other = link.getpeername()[1], link.getsockname()[1]
    end = time.monotonic() + SECONDS
    while is_unread(link, of_the_other) and time.monotonic() < end:
        time.sleep(0.0005)


def is_unread(link, of_the_other):
    """Whether something of what was said is on its way, or has come to the other's end and was not read."""
    comes = on_its_way(link)
    return any(comes or unread for ends, _, unread in sockets() if ends == of_the_other)


def listener(port):
    """Listens at a port, once nobody else does: a program that is just begun has all that is open here, for a moment."""
    end = time.monotonic() + SECONDS
    while True:
        try:
            return socket.create_server((HOST, port))
        except OSError as fault:
            if fault.errno != errno.EADDRINUSE or time.monotonic() > end:
                raise
        time.sleep(0.002)


def close_broken(link):
    """Closes a link that then breaks off, and waits until it has: a program that is just begun has it for a moment."""
    ends = link.getsockname()[1], link.getpeername()[1]
    link.close()
    end = time.monotonic() + SECONDS
    while any(it == ends for it, _, _ in sockets()) and time.monotonic() < end:
        time.sleep(0.0005)


def on_its_way(link):
    """How many bytes of what was said have not come to the other's end."""
    return struct.unpack("i", fcntl.ioctl(link, termios.TIOCOUTQ, b"\0" * 4))[0]


@contextmanager
def stopped(session):
    """Stops a session meanwhile: it hears of all that was done at once."""
    if not session:
        yield
        return
    session.process.send_signal(signal.SIGSTOP)
    session.await_stop()
    try:
        yield
    finally:
        session.process.send_signal(signal.SIGCONT)


class Peer:
    """One that says a stream, breaks off after it or does not, and hears to the end.

    It says all at once, or so many bytes at a time: these are read before it says more.

    One that waits hears first, and then says; one that connects says first. One that hears so many
    bytes hears no more, and breaks off.
    """

    def __init__(self, port, says, breaks, person, hears=None, most=None):
        self.port, self.says, self.breaks, self.person, self.hears = port, says, breaks, person, hears
        self.most = most
        self.heard = b""
        # Whether somebody met it, and whether it is there no more.
        self.is_met = self.has_left = False
        # The files of the other as they stood when its first byte was heard.
        self.seen = {}
        self.fault = None
        self.server = None
        self.thread = None

    def wait(self):
        """Is there for one connection."""
        self.server = listener(self.port)
        self._take_little(self.server)
        self.server.settimeout(SECONDS)
        self._begin(self._accepted)

    def connect(self):
        """Connects once the other waits."""
        self._begin(self._connected)

    def leave(self):
        """Is there no more, if nobody has met it."""
        self.has_left = True
        if self.server and not self.is_met:
            self.server.shutdown(socket.SHUT_RDWR)
        self.end()

    def end(self):
        """Waits until all was said and heard."""
        if self.thread:
            self.thread.join(SECONDS)
        if self.server:
            # A program that is just begun has what is open here, for a moment: closing alone would leave it the port.
            with suppress(OSError):
                self.server.shutdown(socket.SHUT_RDWR)
            self.server.close()

    def _begin(self, meets):
        self.thread = threading.Thread(target=self._hold, args=(meets,), daemon=True)
        self.thread.start()

    def _hold(self, meets):
        try:
            meets()
        except OSError as fault:
            self.fault = fault

    def _accepted(self):
        link, _ = self.server.accept()
        self.is_met = True
        with link:
            self._hear(link)
            self._say(link)

    def _connected(self):
        if not await_listener(self.port, lambda: self.has_left):
            return
        self.is_met = True
        with socket.socket() as link:
            self._take_little(link)
            link.connect((HOST, self.port))
            if self.breaks:
                with stopped(None if self.most else self.person.session):
                    self._say(link)
                    close_broken(link)
                return
            self._say(link)
            if self.hears is None:
                link.shutdown(socket.SHUT_WR)
            self._hear(link)

    def _take_little(self, link):
        """Has the system keep little of what is not heard."""
        if self.hears is not None:
            link.setsockopt(socket.SOL_SOCKET, socket.SO_RCVBUF, 4096)

    def _say(self, link):
        self._say_pieces(link) if self.most else link.sendall(self.says)
        if self.breaks:
            link.setsockopt(socket.SOL_SOCKET, socket.SO_LINGER, BREAK)

    def _say_pieces(self, link):
        link.setsockopt(socket.IPPROTO_TCP, socket.TCP_NODELAY, 1)
        for begin in range(0, len(self.says), self.most):
            link.sendall(self.says[begin : begin + self.most])
            await_reading(link)

    def _hear(self, link):
        link.settimeout(SECONDS)
        while len(self.heard) != self.hears:
            taken = link.recv(65536 if self.hears is None else self.hears - len(self.heard))
            if not taken:
                break
            if not self.heard:
                self._look()
            self.heard += taken
        if self.hears is not None:
            # What is not heard has to be there before.
            select.select([link], [], [], MOMENT)
            link.setsockopt(socket.SOL_SOCKET, socket.SO_LINGER, BREAK)

    def _look(self):
        files = pathlib.Path(self.person.folder).iterdir()
        self.seen = {it.name: it.read_bytes() for it in files if it.is_file()}
