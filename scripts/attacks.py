"""What attackers do to those who write in one note. Each is a function that goes on until its process is ended."""

import itertools
import json
import os
import pathlib
import select
import signal
import socket
import subprocess
import sys
import threading
import time
from contextlib import suppress
from dataclasses import dataclass
from functools import partial

from foreign_lines import EVE, RAW, RUN, flood, foreign_lines, insertion, messages
from liar import fault, foreign_line, refusal
from play.peers import HOST
from terminal import ROOT

sys.path.insert(0, str(ROOT / "front"))

from mgr_front.channels.stream import library  # noqa: E402
from mgr_front.wire import claims_said, said  # noqa: E402

BLOCK = 65536
# So many identifiers are given at most: a note that is full takes no word of anybody.
IDENTIFIERS = 200_000
CLAIMS, LARGE_LOG, LARGE_ENTRY, SPARSE = 8 << 20, 20 << 20, 10 << 20, 6 << 30
SILENT, MANY = 198, 30
# Messages to all who hear a channel, in a second.
MESSAGES = 2000
# Bytes of the stack of a thread: an attacker may take little memory.
SMALL_STACK = 1 << 18
# Seconds between two things that are done.
SOON, LATER = 0.05, 2.0


def at_once(*works):
    """Does all of these at once."""
    threading.stack_size(SMALL_STACK)
    threads = [threading.Thread(target=work, daemon=True) for work in works]
    for thread in threads:
        thread.start()
    for thread in threads:
        thread.join()


# ---- a hub


def greeted(engine, replica=EVE, name="eve"):
    """Returns a connection to a hub that was greeted."""
    link = socket.create_connection((HOST, engine.hub.port), 5)
    link.sendall(said("hello", version=1, replica=replica, name=name, token=str(time.monotonic())))
    return link


def pour(link, data):
    """Says all of this as fast as it is taken, and hears meanwhile."""
    given = memoryview(data)
    while given:
        ready, free, _ = select.select([link], [link], [])
        if ready and not link.recv(BLOCK):
            raise OSError
        if free:
            given = given[link.send(given[:BLOCK], socket.MSG_DONTWAIT) :]


def again_and_again(work, pause=SOON):
    """Does something over and over, also if it breaks off."""
    while True:
        with suppress(OSError):
            work()
        time.sleep(pause)


def pour_for_ever(engine, data, replica=EVE):
    """Floods a hub by one peer."""

    def work():
        with greeted(engine, replica) as link:
            while True:
                pour(link, data)

    again_and_again(work, 1)


def foreign_peer(engine, chance):
    """a peer says foreign lines"""
    lines = foreign_lines(chance)

    def work():
        with greeted(engine) as link:
            link.settimeout(0.2)
            link.recv(BLOCK)
            link.sendall(next(lines) + b"\n")
            while link.recv(BLOCK):
                pass

    again_and_again(work)


def _claim(engine, replica):
    def work():
        with greeted(engine, replica) as link:
            link.settimeout(30)
            claim = said("claims", text="")
            link.sendall(claim * (CLAIMS // len(claim)))

    again_and_again(work, 1)


def claims(engine, _):
    """a peer sends 8 MB of claims, goes, and comes again"""
    _claim(engine, EVE)


def claims_of_two(engine, _):
    """two do so at once"""
    at_once(partial(_claim, engine, EVE), partial(_claim, engine, EVE + 1))


def insertions(engine, _):
    """a flood of insertions"""
    pour_for_ever(engine, flood(IDENTIFIERS))


def runs(engine, _):
    """a flood of runs"""
    pour_for_ever(engine, flood(IDENTIFIERS, size=RUN))


def thirty_floods(engine, _):
    """thirty peers that flood"""
    each = IDENTIFIERS // MANY
    floods = {number: flood(each, number, (1, 64)[number % 2]) for number in range(100, 100 + MANY)}
    at_once(*[partial(pour_for_ever, engine, data, number) for number, data in floods.items()])


def silence(engine, _):
    """198 peers that say nothing, and come again if they are cut"""
    links = []
    while True:
        with suppress(OSError):
            while len(links) < SILENT:
                links.append(socket.create_connection((HOST, engine.hub.port), 1))
        poll = select.poll()
        for link in links:
            poll.register(link, select.POLLIN)
        gone = {descriptor for descriptor, _ in poll.poll(100)}
        for link in links:
            if link.fileno() in gone:
                link.close()
        links = [link for link in links if link.fileno() >= 0]


def deaf(engine, _):
    """a peer asks for all, again and again, and reads nothing"""
    nothing = subprocess.run([engine.mgr, "claims", "-"], input=b"", capture_output=True).stdout

    def work():
        with greeted(engine) as link:
            while True:
                link.sendall(20 * claims_said(nothing))
                time.sleep(SOON)

    again_and_again(work)


def names(engine, chance):
    """peers whose names are no names for a terminal"""

    def work():
        name = f"{chance.choice(RAW)}{chance.choice(RAW)}eve"
        with greeted(engine, name=name) as link:
            link.sendall(said("place", replica=EVE, name=name, place=[0, 0, 1]) + said("refused", why=name))
            time.sleep(0.5)
            link.sendall(said("bye"))

    again_and_again(work)


# ---- what stands between


def lie(engine, _):
    """what stands between lies all the time"""
    engine.liar.lies.set()
    signal.pause()


def lie_at_times(engine, _):
    """what stands between lies for three of six seconds"""
    while True:
        engine.liar.lies.set()
        time.sleep(3)
        engine.liar.lies.clear()
        time.sleep(3)


# ---- a folder


def named(engine, number, more=""):
    """Returns the path of a log in the folder."""
    return engine.path / f"{number:032x}{more}.ops"


def foreign_files(engine, chance):
    """foreign lines in files that are known, and in new ones"""
    for number, line in enumerate(foreign_lines(chance)):
        with open(named(engine, number % 5), "ab") as file:
            file.write(line + b"\n")
        time.sleep(SOON)


def sparse(engine, _):
    """6 GB with nothing in them, and another date each second"""
    named(engine, 1).write_bytes(insertion(1000) + b"\n")
    os.truncate(named(engine, 1), SPARSE)
    while True:
        os.utime(named(engine, 1))
        time.sleep(1)


def unreadable(engine, chance):
    """a file that nobody may read, a folder, a pipe and links to nothing, with such names"""
    kinds = partial(pathlib.Path.touch, mode=0), os.mkdir, os.mkfifo, partial(os.symlink, "nothing")
    for number, make in enumerate(itertools.cycle(kinds)):
        make(named(engine, number, f"{chance.choice(RAW)}owned"))
        if number >= len(kinds):
            time.sleep(LATER)


def growing(engine, chance):
    """files that grow, shrink, are others and go"""
    lines = flood(1000)
    while True:
        path, end = named(engine, chance.randrange(3)), chance.randrange(len(lines))
        change = chance.choice((partial(path.write_bytes, lines[:end]), partial(os.truncate, path, end), path.unlink))
        with suppress(OSError):
            change()
        time.sleep(2 * SOON)


# ---- a stream of Redis


def stream_of(engine):
    return library().Redis(HOST, engine.port)


def foreign_entries(engine, chance):
    """entries with foreign lines"""
    client = stream_of(engine)
    for line in foreign_lines(chance):
        client.xadd("note", {"by": "eve", "lines": line + b"\n" * chance.randrange(2)})
        client.publish("note:live", json.dumps({"op": "entry", "by": "eve"}))
        time.sleep(SOON)


def foreign_messages(engine, chance):
    """foreign messages on the channel"""
    client = stream_of(engine)
    for message in messages(chance):
        client.publish("note:live", message)
        time.sleep(SOON)


def many_messages(engine, chance):
    """2,000 messages a second on the channel"""
    client, each = stream_of(engine), MESSAGES // 20
    known = [message for message in itertools.islice(messages(chance), 4000) if len(message) < 1000]
    while True:
        pipeline, begun = client.pipeline(transaction=False), time.monotonic()
        for message in chance.choices(known, k=each):
            pipeline.publish("note:live", message)
        pipeline.execute()
        time.sleep(max(0.0, begun + SOON - time.monotonic()))


def odd_entries(engine, chance):
    """entries without members, and some of 10 MB"""
    client = stream_of(engine)
    large = [sign * (LARGE_ENTRY // len(sign)) for sign in (b"x", b"\n", b"\xff\n")]
    odd = {"x": "y"}, {"by": "eve"}, {"lines": ""}, {"by": b"\xff", "lines": b"\xff"}, {"": ""}
    for number in itertools.count():
        if number % 100 == 0 and large:
            client.xadd("note", {"by": "eve", "lines": large.pop()})
        client.xadd("note", chance.choice(odd))
        client.publish("note:live", json.dumps({"op": "entry", "by": "eve"}))
        time.sleep(2 * SOON)


def wrong_types(engine, _):
    """lists in place of the keys beside the stream, for three of six seconds"""
    client = stream_of(engine)
    while True:
        for key in ("note:generation", "note:giver"):
            client.delete(key)
            client.rpush(key, "eve")
        time.sleep(3)
        client.delete("note:generation", "note:giver")
        time.sleep(3)


# ---- a branch of git


def _commit(engine, log):
    """Commits a log on the branch."""
    path = engine.folder / "eve"
    path.write_bytes(log)
    blob = engine.git("hash-object", "-w", str(path))
    tree, tip = engine.git("mktree", given=f"100644 blob {blob}\tnote.ops\n"), engine.git("rev-parse", "notes")
    engine.git("update-ref", "refs/heads/notes", engine.git("commit-tree", tree, "-p", tip, "-m", "eve"), tip)


def _log(engine):
    """Returns the log at the tip."""
    return subprocess.run(["git", "-C", engine.path, "cat-file", "blob", "notes:note.ops"], capture_output=True).stdout


def damaged(engine, chance):
    """commits with a damaged log, each of which is taken back after two seconds"""
    lines = foreign_lines(chance)
    for number in itertools.count():
        good, log = engine.git("rev-parse", "notes"), _log(engine)
        end = chance.randrange(len(log))
        worse = (log + next(lines) + b"\n", log[:end], log[:end] + bytes(len(log) - end), b"\xff" * 9, b"")[number % 5]
        try:
            _commit(engine, worse)
            time.sleep(LATER)
        finally:
            engine.git("update-ref", "refs/heads/notes", good)
        time.sleep(2 * LATER)


def large(engine, _):
    """a log of 20 MB"""
    size = len(insertion(1000)) + 1
    _commit(engine, _log(engine) + flood(LARGE_LOG // size))
    signal.pause()


def forced_back(engine, _):
    """the branch is forced back, each two seconds"""
    while True:
        engine.force_back()
        time.sleep(LATER)


def nobody(*_):
    """nobody attacks"""
    signal.pause()


@dataclass(frozen=True)
class Attacker:
    """Who attacks at an engine, and how; a liar has something stand between that one and those who write."""

    engine: str
    act: object
    # What stands between says this beside, or this instead.
    beside: object = None
    instead: object = None
    # Whether others' words are timed, and whether honest ones are sent away by right.
    is_timed: bool = True
    is_apart: bool = False
    # What it is called, if not like what it does.
    said: str = ""

    @property
    def name(self):
        return f"{self.engine}-{self.said or self.act.__name__.replace('_', '-')}"


HUB = [nobody, foreign_peer, claims, claims_of_two, insertions, runs, thirty_floods, silence, deaf, names]
REDIS = [nobody, foreign_entries, foreign_messages, many_messages, odd_entries, wrong_types]
ATTACKERS = [
    *[Attacker("hub", act) for act in HUB],
    Attacker("hub", lie, beside=foreign_line, is_timed=False, said="lies"),
    Attacker("hub", lie, instead=refusal, is_timed=False, is_apart=True, said="refuses"),
    *[Attacker("dir", act, is_timed=False) for act in (nobody, foreign_files, sparse, unreadable, growing)],
    *[Attacker("redis", act) for act in REDIS],
    Attacker("redis", lie_at_times, instead=fault, is_timed=False, said="errors"),
    *[Attacker("git", act, is_timed=False) for act in (nobody, damaged, large, forced_back)],
]
