#!/usr/bin/env python3
"""Exchanges a note between two `mgr edit` on this machine, and gives it to a third by its log.

The argument is a built mgr. Alice is replica 1 and Bob replica 2, each in a folder of their own
under build/try-exchange. One waits (`M-x replica-serve`) and the other connects (`M-x
replica-exchange`), at a free port of 127.0.0.1; after it both frames, both texts and the texts of
both logs have to be one. Then both edit on and exchange again, the other one waiting. Carol copies
a log. It ends with what there is without a port, and with nobody waiting. Each step is said, with
what was seen; the first one that shows something else ends it. `make try-exchange` calls it, and no
test waits for it.
"""

import os
import pathlib
import shutil
import sys

import plain_ends  # noqa: F401
from session import EXCHANGE, SAVE, SERVE, Session, Unexpected, await_listener, end_all, free_port, show

FOLDER = pathlib.Path(__file__).resolve().parent.parent / "build" / "try-exchange"
REPLICAS = {"Alice": 1, "Bob": 2, "Carol": 3}

# What each writes first. Both stand at the front of nothing, and the larger replica's comes first.
FIRST = {"Alice": "Buy oat milk", "Bob": "Call the baker\r"}
BOTH_FIRST = "Call the baker\nBuy oat milk"

# What each does then, from the place where point is: after what they wrote. DEL deletes before it.
THEN = {"Alice": " and rye bread", "Bob": "\x7f today\r"}
BOTH_THEN = "Call the baker today\nBuy oat milk and rye bread"


class Desk:
    """Somebody with a folder and an editor."""

    def __init__(self, mgr, name, port=None):
        self.mgr, self.name, self.folder = mgr, name, FOLDER / name.lower()
        self.folder.mkdir(exist_ok=True)
        words = [] if port is None else ["--port", str(port)]
        self.editor = Session(mgr, self.folder, REPLICAS[name], *words)
        self.editor.settle()

    def press(self, keys, wanted):
        """Presses keys, after which the echo line has to say this."""
        self.editor.send(keys)
        self.settle(wanted)

    def settle(self, wanted):
        """Waits for the frames of all keys, after which the echo line has to say this."""
        expect(f"what {self.name}'s editor says", wanted, self.editor.settle())

    def write(self, text):
        self.press(text.encode(), "")

    def expect_text(self, text):
        """The window, the text and the log have to show this."""
        expect(f"{self.name}'s window", text, self.editor.text())
        expect(f"{self.name}'s text", text, (self.folder / "note").read_text())
        expect(f"the text of {self.name}'s log", text, show(self.mgr, self.folder / "note.ops").decode())

    def operations(self):
        """Returns the operations of the log."""
        lines = (self.folder / "note.ops").read_text().splitlines()
        expect(f"operations that {self.name}'s log has twice", 0, len(lines) - len(set(lines)))
        return set(lines)


def expect(what, wanted, seen):
    if seen != wanted:
        raise Unexpected(f"{what}\nwanted: {wanted!r}\nseen:   {seen!r}")


def clear():
    shutil.rmtree(FOLDER, ignore_errors=True)
    FOLDER.mkdir(parents=True)


def exchange(server, client, port, known, made):
    """One waits, and the other connects.

    So many operations were known to both before, and each made so many since.
    """
    server.editor.send(SERVE)
    await_listener(port)
    client.editor.send(EXCHANGE)
    sent, all_of_them = known + made[client.name], known + sum(made.values())
    client.settle(f"Sent {sent}, received {all_of_them}")
    server.settle(f"Sent {all_of_them}, received {sent}")
    print(f"    {server.name} waits: {server.editor.message()}")
    print(f"    {client.name} connects: {client.editor.message()}")


def expect_same(desks, text, count):
    for desk in desks:
        desk.expect_text(text)
    logs = [desk.operations() for desk in desks]
    expect("operations in one log alone", set(), logs[0] ^ logs[1])
    expect("operations in each log", count, len(logs[0]))
    print(f"    both windows, texts and logs show {text!r}; both logs have the same {count} operations")


def meet(mgr, server, client):
    """Two write apart and exchange, and again with the other one waiting."""
    clear()
    port = free_port()
    desks = {name: Desk(mgr, name, port) for name in (server, client)}
    for name, desk in desks.items():
        desk.write(FIRST[name])
    print(f"\n{server} waits and {client} connects, at port {port}")
    made = {name: len(text) for name, text in FIRST.items()}
    exchange(desks[server], desks[client], port, 0, made)
    count = sum(made.values())
    expect_same(desks.values(), BOTH_FIRST, count)
    for name, desk in desks.items():
        desk.write(THEN[name])
    print(f"both write on; {client} waits and {server} connects")
    made = {name: len(text) for name, text in THEN.items()}
    exchange(desks[client], desks[server], port, count, made)
    expect_same(desks.values(), BOTH_THEN, count + sum(made.values()))
    for desk in desks.values():
        desk.editor.end()


def take_over(mgr):
    """A third has the log alone."""
    (FOLDER / "carol").mkdir()
    shutil.copy(FOLDER / "alice" / "note.ops", FOLDER / "carol" / "note.ops")
    carol = Desk(mgr, "Carol")
    expect("Carol's window", BOTH_THEN, carol.editor.text())
    carol.write("!")
    carol.press(SAVE, "Wrote note")
    carol.expect_text("!" + BOTH_THEN)
    carol.editor.end()
    print(f"\nCarol copies Alice's log, and her window shows the same; she writes on, and saves {'!' + BOTH_THEN!r}")


def fail(mgr, what, keys, said, port=None):
    """Writes, asks for an exchange that can't be, and writes on."""
    clear()
    alice = Desk(mgr, "Alice", port)
    alice.write("milk")
    alice.press(keys, said)
    expect("Alice's text, saved before", "milk", (alice.folder / "note").read_text())
    alice.write("!")
    alice.press(SAVE, "Wrote note")
    alice.expect_text("milk!")
    alice.editor.end()
    print(f"{what}: {said}; saved before it, and the editor goes on")


def main():
    if len(sys.argv) != 2:
        sys.exit("usage: try_exchange.py MGR")
    mgr = os.path.abspath(sys.argv[1])
    try:
        meet(mgr, "Alice", "Bob")
        meet(mgr, "Bob", "Alice")
        take_over(mgr)
        print()
        fail(mgr, "replica-exchange without --port", EXCHANGE, "No port")
        fail(mgr, "replica-serve without --port", SERVE, "No port")
        fail(mgr, "replica-exchange where nobody waits", EXCHANGE, "Socket fault", free_port())
    except Unexpected as what:
        sys.exit(f"NOT AS IT SHOULD BE: {what}")
    finally:
        end_all()
    print("All was seen as it should be.")


if __name__ == "__main__":
    main()
