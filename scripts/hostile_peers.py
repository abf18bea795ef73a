#!/usr/bin/env python3
"""Exchanges with peers that break off, lie, flood or are deaf.

The argument is a built mgr. Each peer is met over a socket of this machine, once by a `mgr edit`
that connects to it (`M-x replica-exchange`) and once by one that waits for it (`M-x
replica-serve`). After each the echo line has to say what happened; the log has to have what was
typed and what was taken before the fault, byte for byte and nothing else; the text has to be that of
the log; one that waited and did not hear its peer to the end has to have replied nothing; and the
editor has to go on: a key is typed, and saved. `make hostile` calls it. It prints a row a peer, and
ends with an error where one is not as it has to be.
"""

import collections
import os
import pathlib
import re
import select
import shutil
import socket
import struct
import sys
import time

import plain_ends  # noqa: F401
from session import COLUMNS, EXCHANGE, HOST, SAVE, SECONDS, SERVE
from session import Session, Unexpected, await_listener, end_all, free_port, show

FOLDER = pathlib.Path(__file__).resolve().parent.parent / "build" / "hostile"
LIMIT = 1_000_000
MAX_LINE = 65536
LARGE = 150_000  # the lines of so many operations fit into no buffer of the system
MOST_SAID = 1 << 31
DELETE = b"\x7f"

CONNECTS, WAITS = "connects", "waits"
ROLES = (CONNECTS, WAITS)
ALL = None

HEAD = b'{"op":"head","version":2}\n'


def inserted(counter, replica, char, behind=(0, 0)):
    """Returns the line of an insertion."""
    return b'{"char":"%s","id":[%d,%d],"op":"ins","parent":[%d,%d]}\n' % (char.encode(), counter, replica, *behind)


def end(count):
    return b'{"count":%d,"op":"end"}\n' % count


def padded(line, length):
    """Returns the line with blanks, so that it has this many bytes before its newline."""
    return b"{" + b" " * (length + 1 - len(line)) + line[1:]


# What mgr's user typed; what a peer says, which stands in front of that in the text; and what
# contradicts what was typed.
A = inserted(1, 1, "a")
X = inserted(1, 2, "x")
Y = inserted(2, 2, "y", (1, 2))
XY = X + Y + end(2)
OTHER_A = inserted(1, 1, "z")


def large():
    """Returns the lines of a large text."""
    return A + b"".join(inserted(i, 1, "a", (i - 1, 1)) for i in range(2, LARGE + 1))


def chain(first, behind):
    """Returns the lines of insertions, each after the one before it."""
    return b"".join(inserted(i, 9, "o", (i - 1, 9 if i > 1 else 0)) for i in range(first, behind))


def endless_chain():
    for first in range(1, MOST_SAID, 10_000):
        yield chain(first, first + 10_000)


def endless_blanks():
    while True:
        yield b" " * MAX_LINE


def often(line, times):
    for _ in range(times // 10_000):
        yield line * 10_000


def slowly(said):
    for i in range(len(said)):
        yield said[i : i + 1]
        time.sleep(0.001)


def silence():
    time.sleep(1)
    yield b""


# A peer: what it says; mgr's message, if that does not count operations; the lines that mgr takes,
# and how many it counts; how many bytes the peer reads of what it is told; whether it resets its link
# at the end; whether mgr's user has a large text; and who meets it.
Peer = collections.namedtuple(
    "Peer", "name says message taken count reads resets large roles", defaults=(b"", 0, ALL, False, False, ROLES)
)
PEERS = [
    Peer("says nothing", b"", "Cut"),
    Peer("says nothing for a second", silence, "Cut"),
    Peer("half a line", X[:25], "Cut"),
    Peer("an operation without its newline", X[:-1], "Cut"),
    Peer("no end line", X, "Cut", X),
    Peer("an end line without its newline", X + end(1)[:-1], "Cut", X),
    Peer("an end line that names too many", X + end(2), "Wrong count", X),
    Peer("an end line that names too few", X + Y + end(1), "Wrong count", X + Y),
    Peer("another insertion of an identifier", X + OTHER_A + Y + end(3), "line 2: Conflict", X),
    Peer("a line that is no JSON", X + b"hello\n" + Y + end(3), "line 2: Json", X),
    Peer("an empty line", X + b"\n" + Y + end(3), "line 2: Json", X),
    Peer("an operation that is not known", X + b'{"id":[1,2],"op":"mov"}\n' + Y + end(3), "line 2: Kind", X),
    Peer("an identifier out of its range", X + b'{"id":[0,2],"op":"del"}\n' + Y + end(3), "line 2: Id", X),
    Peer("a counter not above its parent's", X + inserted(2, 2, "y", (2, 1)) + end(2), "line 2: Order", X),
    Peer("a head", HEAD + XY, None, X + Y, 2),
    Peer("a head alone", HEAD, "Cut"),
    Peer("a head twice", HEAD + HEAD + XY, "line 2: Kind"),
    Peer("a head behind an operation", X + HEAD + end(1), "line 2: Kind", X),
    Peer("a head of another version", HEAD.replace(b"2", b"3") + XY, "line 1: Kind"),
    Peer("a line of 65,536 bytes", padded(X, MAX_LINE) + end(1), None, X, 1),
    Peer("a line of 65,537 bytes", X + padded(Y, MAX_LINE + 1) + end(2), "line 2: Long", X),
    Peer("65,536 bytes and no newline", b" " * MAX_LINE, "Cut"),
    Peer("65,537 bytes and no newline", b" " * (MAX_LINE + 1), "line 1: Long"),
    Peer("bytes without a newline and without an end", endless_blanks, "line 1: Long"),
    Peer("one operation a million times", lambda: often(X, 1_000_000), "Cut", X),
    Peer("operations without an end, beyond the limit", endless_chain, f"line {LIMIT}: Full", lambda: chain(1, LIMIT)),
    Peer("more behind the end line", X + end(1) + OTHER_A + b"hello", None, X, 1),
    Peer("a byte at a time", lambda: slowly(XY), None, X + Y, 2),
    Peer("reads nothing, and says nothing", b"", "Socket fault", reads=0, roles=(CONNECTS,)),
    Peer("reads nothing, and says all", XY, None, X + Y, 2, reads=0),
    Peer("reads nothing of a large text", XY, "Socket fault", reads=0, large=True, roles=(CONNECTS,)),
    Peer("reads nothing of a large reply", XY, "Socket fault", X + Y, reads=0, large=True, roles=(WAITS,)),
    Peer("resets", b"", "Socket fault", reads=0, resets=True),
    Peer("reads all, and resets", b"", "Socket fault", resets=True, roles=(CONNECTS,)),
    Peer("says an operation, and resets", X, "Socket fault", X, resets=True),
    Peer("says all, and resets in a large reply", XY, "Socket fault", X + Y, reads=1, resets=True, large=True, roles=(WAITS,)),
]


def breaking_off(length):
    """Returns a peer that closes after so many bytes of what it has to say."""
    said = XY[:length]
    lines = said[: said.rfind(b"\n") + 1]
    return Peer(f"closes behind {length} bytes", said, None if said == XY else "Cut", lines.replace(end(2), b""), 2)


def inattentive(length):
    """Returns a peer that says nothing, and closes after so many bytes of what it is told."""
    told = len(HEAD + A + end(1))
    return Peer(f"reads {length} bytes", b"", "Socket fault" if length < told else "Cut", reads=length, roles=(CONNECTS,))


def ungrateful(length):
    """Returns a peer that says all, and closes after so many bytes of the reply."""
    return Peer(f"reads {length} bytes of the reply", XY, None, X + Y, 2, reads=length, roles=(WAITS,))


# Peers that close at each byte: what they do, and one for each length.
CLOSING = {
    "closes behind each byte that it says": [breaking_off(length) for length in range(len(XY) + 1)],
    "closes behind each byte that it is told": [inattentive(length) for length in range(len(HEAD + A + end(1)) + 1)],
    "closes behind each byte of the reply": [ungrateful(length) for length in range(len(HEAD + A + X + Y + end(3)) + 1)],
}


def expect(what, wanted, seen):
    if seen != wanted:
        raise Unexpected(f"{what} is {brief(seen)}, and not {brief(wanted)}")


def brief(value):
    told = repr(value)
    return told if len(told) <= 200 else f"{told[:200]}.. ({len(value)})"


# ---- what a peer does


def peers_socket():
    """Returns a socket that takes little of what is not read."""
    made = socket.socket()
    made.setsockopt(socket.SOL_SOCKET, socket.SO_RCVBUF, 4096)
    made.setsockopt(socket.SOL_SOCKET, socket.SO_REUSEADDR, 1)
    made.settimeout(SECONDS)
    return made


def link_to(editor, role, port):
    """Has mgr ask for a link, and returns the peer's end of it."""
    if role == WAITS:
        editor.send(SERVE)
        await_listener(port)
        link = peers_socket()
        link.connect((HOST, port))
        return link
    with peers_socket() as listener:
        listener.bind((HOST, port))
        listener.listen()
        editor.send(EXCHANGE)
        link, _ = listener.accept()
    link.settimeout(SECONDS)
    return link


def say(link, said):
    """Says it all, or as much as mgr takes."""
    try:
        for block in [said] if isinstance(said, bytes) else said():
            link.sendall(block)
    except (BrokenPipeError, ConnectionResetError):
        pass


def hear(link, count):
    """Reads so many bytes, or all up to the end; returns them."""
    heard = b""
    try:
        while count is ALL or len(heard) < count:
            block = link.recv(MAX_LINE if count is ALL else count - len(heard))
            if not block:
                break
            heard += block
    except ConnectionResetError:
        pass
    return heard


def finish(link):
    try:
        link.shutdown(socket.SHUT_WR)
    except OSError:
        pass  # mgr has reset the link.


def act(link, editor, peer, role):
    """Does what the peer does; returns what it heard."""
    heard = hear(link, peer.reads) if role == CONNECTS else b""
    say(link, peer.says)
    if role == WAITS and peer.reads is ALL and not peer.resets:
        finish(link)
    if role == WAITS and not (peer.reads is ALL and peer.resets):
        heard = hear(link, peer.reads)
    if peer.reads == 0 and not peer.message:
        editor.settle()
    elif peer.reads is not ALL and not peer.resets:
        # What is not read has to be there, for the system tells mgr so once the link is closed.
        select.select([link], [], [], SECONDS)
    if peer.resets:
        link.setsockopt(socket.SOL_SOCKET, socket.SO_LINGER, struct.pack("ii", 1, 0))
    link.close()
    return heard


# ---- what mgr has to do

# The most memory of each mgr, in MiB.
peaks = []


class Case:
    """An mgr that meets a peer, on files of its own, and what has to be there after it."""

    def __init__(self, mgr, peer, role):
        self.mgr, self.peer, self.role = mgr, peer, role
        self.taken = peer.taken() if callable(peer.taken) else peer.taken
        self.own = large() if peer.large else A
        self.text = letters(self.taken + self.own)

    def run(self):
        shutil.rmtree(FOLDER, ignore_errors=True)
        FOLDER.mkdir(parents=True)
        if self.peer.large:
            (FOLDER / "note").write_text(letters(self.own))
        port = free_port()
        editor = Session(self.mgr, FOLDER, 1, "--port", str(port))
        editor.settle()
        if not self.peer.large:
            editor.press(b"a")
        heard = act(link_to(editor, self.role, port), editor, self.peer, self.role)
        expect("the message", self.message(), editor.settle())
        expect("the log", self.own + self.taken, log())
        self.expect_text(editor)
        self.expect_heard(heard)
        self.go_on(editor)
        peaks.append(editor.peak())
        editor.end()

    def message(self):
        if self.peer.message:
            return self.peer.message
        own, new = self.own.count(b"\n"), self.taken.count(b"\n")
        return f"Sent {own if self.role == CONNECTS else own + new}, received {self.peer.count}"

    def expect_text(self, editor):
        expect("the text", self.text, (FOLDER / "note").read_text())
        expect("the text of the log", self.text.encode(), show(self.mgr, FOLDER / "note.ops"))
        row = self.text if len(self.text) <= COLUMNS else self.text[: COLUMNS - 1] + "$"
        expect("the window", row, editor.text())

    def expect_heard(self, heard):
        """One that connects sends what it has before it hears; one that waits, nothing after a fault."""
        told = self.own
        if self.role == WAITS:
            told = b"" if self.peer.message else self.own + self.taken
        told = HEAD + told + end(told.count(b"\n")) if told else b""
        if self.peer.resets or self.peer.large:
            return
        expect("what the peer heard", told if self.peer.reads is ALL else told[: self.peer.reads], heard)

    def go_on(self, editor):
        """A key is typed at point, and saved. If there is no room for one, one is taken back."""
        kept = log()
        if self.taken.count(b"\n") + 1 == LIMIT:
            expect("what a key says", "Buffer full", editor.press(b"k"))
            expect("what DEL says", "", editor.press(DELETE))
            self.text = self.text[:-1]
        else:
            expect("what a key says", "", editor.press(b"k"))
            self.text = "k" + self.text if self.peer.large else self.text + "k"
        expect("what a save says", "Wrote note", editor.press(SAVE))
        expect("the log of old", kept, log()[: len(kept)])
        expect("the lines behind it", 1, log()[len(kept) :].count(b"\n"))
        self.expect_text(editor)


def letters(lines):
    """Returns the characters of insertions."""
    return b"".join(re.findall(rb'^{"char":"(.)"', lines, re.MULTILINE)).decode()


def log():
    return (FOLDER / "note.ops").read_bytes()


def fault_of(case):
    """Has mgr meet the peer; returns what was wrong, or None."""
    try:
        case.run()
    except (Unexpected, OSError) as what:
        return str(what)
    finally:
        end_all()
    return None


def print_row(name, role, said, fault):
    print(f"{name:<44} {role:<9} {said:<21} {fault or 'well'}", flush=True)


def meet(mgr, peer):
    """Has mgr meet the peer in each role; returns how many were not as they have to be."""
    bad = 0
    for role in peer.roles:
        case = Case(mgr, peer, role)
        fault = fault_of(case)
        print_row(peer.name, role, case.message(), fault)
        bad += fault is not None
    return bad


def meet_all(mgr, name, peers):
    """Has mgr meet peers that close at each byte; returns how many were not as they have to be."""
    bad = 0
    for role in peers[0].roles:
        faults = [f"{peer.name}: {fault}" for peer in peers if (fault := fault_of(Case(mgr, peer, role)))]
        print_row(name, role, f"{len(peers)} times", "; ".join(faults))
        bad += len(faults)
    return bad


def main():
    if len(sys.argv) != 2:
        sys.exit("usage: hostile_peers.py MGR")
    mgr = os.path.abspath(sys.argv[1])
    print(f"{'the peer':<44} {'mgr':<9} {'says':<21}")
    bad = sum(meet(mgr, peer) for peer in PEERS)
    bad += sum(meet_all(mgr, name, peers) for name, peers in CLOSING.items())
    print(f"\nNo mgr took more than {max(peaks, default=0):.0f} MiB.")
    if bad:
        sys.exit(f"{bad} are not as they have to be")
    print("Each ended with its message, kept what it took, and the editor went on.")


if __name__ == "__main__":
    main()
