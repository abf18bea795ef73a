#!/usr/bin/env python3
"""Measures an exchange between two `mgr edit` on this machine, both saves of each side included.

Prints a row a case: who made the operations that are exchanged; the seconds by the clock, from the
command of the one that waits to the message of the one that connects; the seconds of user time and
of the system's of both together; how many operations a second that is by the clock; and what is
wanted of both times. Both hold the text as a file without a log, so nothing of it is saved when they
begin. Each sends all that it holds, also if the other knows it: the last row is an exchange after
another one, with nothing new. From the time of both processes that of the same ones without it is
taken off, and the least of the measurements counts. That both end with one text is tested. A call by
hand may name another mgr, and fewer operations.

A second table is of brief exchanges of two notes that differ in 100 operations, 50 of each; the rest
is on the disk before they begin: the milliseconds by the clock, saves included, and, of another
exchange through a relay that counts them, the bytes of both ways. Each typed its 50 in a row after
one log, which is as it was typed, or of which a tenth was deleted; or the 50 are spread over the log.
"""

import argparse
import json
import os
import pathlib
import resource
import shutil
import socket
import sys
import threading
import time

from measure import BUILD

sys.path.append(str(pathlib.Path(__file__).resolve().parent.parent / "scripts"))
from session import EXCHANGE, SERVE, Session, await_listener, free_port

FOLDER = BUILD / "bench" / "exchange"
MEASUREMENTS = 3
WANTED = 1.0
LINE = "written by one\n"

# Who made the operations: what part of them the one that waits has, and the one that connects.
CASES = {
    "the one that connects": (0, 1),
    "the one that waits": (1, 0),
    "each a half": (0.5, 0.5),
}


# How many characters are typed for one that is deleted, if any is.
TYPED_CASES = {"typed in a row": None, "a tenth deleted": 10}
DIFFERENT = 100
BRIEF_SECONDS, BRIEF_BYTES = 0.02, 50_000
PAUSE = 0.0002


def processor_time():
    usage = resource.getrusage(resource.RUSAGE_CHILDREN)
    return usage.ru_utime + usage.ru_stime


class Pair:
    """Two that hold so many operations, in folders of their own."""

    def __init__(self, mgr, sizes):
        self.port, self.total = free_port(), sum(sizes)
        shutil.rmtree(FOLDER, ignore_errors=True)
        self.sides = []
        for replica, size in enumerate(sizes, start=1):
            folder = FOLDER / str(replica)
            folder.mkdir(parents=True)
            if size:
                (folder / "note").write_text((LINE * size)[:size])
            self.sides.append(Session(mgr, folder, replica, "--port", str(self.port)))
        for side in self.sides:
            side.settle()

    def exchange(self):
        """Returns the seconds by the clock."""
        server, client = self.sides
        begin = time.monotonic()
        server.send(SERVE)
        await_listener(self.port)
        client.send(EXCHANGE)
        said = [side.settle() for side in (client, server)]
        seconds = time.monotonic() - begin
        if not all(message.startswith("Sent ") for message in said):
            sys.exit(f"no exchange: {said}")
        return seconds

    def end(self):
        for side in self.sides:
            side.end()

    def compare(self):
        """Ends the measuring where the two did not end with the same."""
        texts = [(FOLDER / str(replica) / "note").read_bytes() for replica in (1, 2)]
        counts = [(FOLDER / str(replica) / "note.ops").read_bytes().count(b"\n") for replica in (1, 2)]
        if texts[0] != texts[1] or counts != [self.total] * 2:
            sys.exit("the two did not end with one text")


def run(mgr, sizes, rounds):
    """Returns the seconds by the clock of the last of so many exchanges, and of all those of both processes."""
    before = processor_time()
    pair = Pair(mgr, sizes)
    seconds = 0.0
    for _ in range(rounds):
        seconds = pair.exchange()
    pair.end()
    if rounds:
        pair.compare()
    return seconds, processor_time() - before


def least(mgr, sizes, rounds):
    return [min(figures) for figures in zip(*(run(mgr, sizes, rounds) for _ in range(MEASUREMENTS)))]


def print_row(who, seconds, used, count):
    told = "well" if max(seconds, used) <= WANTED else "MORE"
    print(f"{who:<24} {seconds:>13.2f} {used:>15.2f} {count / seconds:>14,.0f} {WANTED:>9.2f}  {told}", flush=True)


def insertion(counter, parent):
    identifiers = {"id": [counter, 9], "op": "ins", "parent": [parent, 9 if parent else 0]}
    return json.dumps({"char": LINE[(counter - 1) % len(LINE)], **identifiers}, separators=(",", ":")) + "\n"


def typed_logs(count, one_in):
    """Returns a log for each: so many operations of replica 9, a chain, of which one character in so many is deleted."""
    typed = count if one_in is None else count * one_in // (one_in + 1)
    lines = [insertion(counter, counter - 1) for counter in range(1, typed + 1)]
    lines += ['{"id":[%d,9],"op":"del"}\n' % (number * one_in + 1) for number in range(count - typed)]
    return ["".join(lines)] * 2


def scattered_logs(count):
    """Returns a log for each: a chain of replica 9, and characters beside it, each of which one alone has."""
    logs, parent, apart = ([], []), 0, count // DIFFERENT
    for counter in range(1, count + 1):
        number, left = divmod(counter, apart)
        line = insertion(counter, parent)
        if left == apart // 2:
            logs[number % 2].append(line)
            continue
        parent = counter
        for log in logs:
            log.append(line)
    return ["".join(log) for log in logs]


def write_to_disk(path, text):
    with open(path, "w") as file:
        file.write(text)
        file.flush()
        os.fsync(file.fileno())


class Relay(threading.Thread):
    """Hands on what one connection says to another port, both ways, and counts its bytes."""

    def __init__(self, to):
        super().__init__(daemon=True)
        self.to, self.count = to, 0
        self.listener = socket.create_server(("127.0.0.1", 0))
        self.port = self.listener.getsockname()[1]
        self.start()

    def run(self):
        near, _ = self.listener.accept()
        far = socket.create_connection(("127.0.0.1", self.to))
        ways = [threading.Thread(target=self._hand_on, args=way) for way in ((near, far), (far, near))]
        for way in ways:
            way.start()
        for way in ways:
            way.join()
        near.close()
        far.close()

    def _hand_on(self, one, other):
        while block := one.recv(65536):
            self.count += len(block)
            other.sendall(block)
        other.shutdown(socket.SHUT_WR)


def brief(mgr, logs, keys, counts_bytes):
    """Returns the seconds by the clock of a brief exchange after these keys, or its bytes."""
    shutil.rmtree(FOLDER, ignore_errors=True)
    port = free_port()
    relay = Relay(port) if counts_bytes else None
    sides = []
    for replica, asked, log in ((1, port, logs[0]), (2, relay.port if relay else port, logs[1])):
        folder = FOLDER / str(replica)
        folder.mkdir(parents=True)
        write_to_disk(folder / "note.ops", log)
        side = Session(mgr, folder, replica, "--port", str(asked), "--brief")
        side.settle()
        if keys:
            side.press(keys)
        sides.append(side)
    server, client = sides
    begin = time.monotonic()
    server.send(SERVE)
    await_listener(port, PAUSE)
    client.send(EXCHANGE)
    said = [side.settle() for side in (client, server)]
    seconds = time.monotonic() - begin
    for side in sides:
        side.end()
    if not all(message.startswith("Sent ") for message in said):
        sys.exit(f"no brief exchange: {said}")
    ended = [set((FOLDER / str(replica) / "note.ops").read_text().splitlines()) for replica in (1, 2)]
    if ended[0] != ended[1]:
        sys.exit("the two did not end with the same operations")
    if relay:
        relay.join()
        return relay.count
    return seconds


def print_brief(mgr, count):
    print(f"A brief exchange of two notes of {count:,} operations that differ in {DIFFERENT}:")
    print(f"{'':<24} {'by clock, ms':>13} {'bytes':>15} {'wanted, ms':>14} {'bytes':>9}")
    for what, one_in in TYPED_CASES.items():
        print_brief_row(mgr, what, typed_logs(count - DIFFERENT // 2, one_in), b"x" * (DIFFERENT // 2))
    print_brief_row(mgr, "spread over the log", scattered_logs(count), b"")


def print_brief_row(mgr, what, logs, keys):
    seconds = min(brief(mgr, logs, keys, False) for _ in range(MEASUREMENTS))
    size = brief(mgr, logs, keys, True)
    told = "well" if seconds <= BRIEF_SECONDS and size <= BRIEF_BYTES else "MORE"
    print(f"{what:<24} {seconds * 1000:>13.0f} {size:>15,} {BRIEF_SECONDS * 1000:>14.0f} {BRIEF_BYTES:>9,}  {told}", flush=True)


def main():
    parser = argparse.ArgumentParser(description=__doc__)
    parser.add_argument("--mgr", metavar="PATH", default=BUILD / "mgr", help="another mgr")
    parser.add_argument("--part", metavar="N", type=int, default=1, help="an Nth of all operations")
    given = parser.parse_args()
    mgr, count = os.path.abspath(given.mgr), 100_000 // given.part
    print(f"An exchange of {count:,} operations, made by:")
    print(f"{'':<24} {'by clock, s':>13} {'both sides, s':>15} {'operations/s':>14} {'wanted, s':>9}")
    for who, parts in CASES.items():
        sizes = [int(count * part) for part in parts]
        none, once = least(mgr, sizes, 0), least(mgr, sizes, 1)
        print_row(who, once[0], once[1] - none[1], count)
    again = least(mgr, sizes, 2)
    print_row("each a half, once more", again[0], again[1] - once[1], count)
    print_brief(mgr, count)


if __name__ == "__main__":
    main()
