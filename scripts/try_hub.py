#!/usr/bin/env python3
"""Tries what `try_engines.py` does not: one who is alone at first, other notes, copies under one number, mended notes.

The argument is a built mgr. A writer types in a terminal of tmux, at a hub that has a note, or by a stream of Redis. At
the end the notes are compared: one text, with every word. Further words name the parts that are tried; without them all
are. `make try-hub` calls it, and no test waits for it.
"""

import concurrent.futures
import os
import random
import re
import shutil
import signal
import subprocess
import sys
import time

import plain_ends  # noqa: F401
from engines import HUB, SharedHub, SharedStream, await_that, fail, stop_all
from terminal import ROOT, Server, text_of
from try_engines import Trial, state_of

FOLDER = ROOT / "build" / "try-hub"
TEXT = "the text of the hub\n"
MINE, THEIRS = "mine, of Bob", "theirs, of the hub\n"
LOCAL, BY_PORT, OTHER = 1, 2, 5
SAVE = b"\x18\x13"
COLOUR, REVERSE = re.compile(r"\x1b\[[0-9;]*[34][0-7]m"), re.compile(r"\x1b\[7m\S")
# A thousand times this line make a log of more than 1 MB, which is soon read.
LINE = '{"char":"x","id":[1,7],"op":"ins","parent":[0,0]' + " " * 1000 + "}\n"


def begin(server, mgr, part, text=TEXT, engine=SharedHub):
    """Returns a trial at a hub whose note has this text, without a writer; by another engine nothing is there."""
    return Trial(server, engine(mgr, FOLDER / part, random.Random(part), 0.5, text))


def at_each(server, mgr, part, text=TEXT):
    """Yields a trial at a hub and one by Redis; what each carries has this text."""
    yield begin(server, mgr, f"{part}-hub", text)
    if lacks := SharedStream.lacks():
        print(f"    left out: {lacks}")
        return
    trial = begin(server, mgr, f"{part}-redis", engine=SharedStream)
    alice = trial.writer(LOCAL)
    (alice.folder / "note").write_text(text)
    alice.begin()
    alice.live()
    yield trial


def alone(person):
    person.terminal.expect("alone", lambda: state_of(person.terminal).startswith("alone since"), True, seconds=30)


def await_passed_on(trial, word):
    await_that("it is passed on", lambda: word in (trial.engine.hub.folder / "note").read_text())


def edited(trial, folder, number, text):
    """Writes a text in front of the note of a folder, without others."""
    command = [trial.mgr, "edit", "note", "--replica", str(number)]
    subprocess.run(command, input=text.encode() + SAVE, cwd=folder, check=True, capture_output=True)


def away_at_the_start(server, mgr):
    """one begins while there is no hub, and joins later"""
    trial = begin(server, mgr, "away")
    trial.engine.hub.end()
    bob = trial.person(BY_PORT)
    alone(bob)
    bob.write("typed alone ")
    trial.engine.hub.begin()
    bob.live()
    print(f"joined later: {trial.settle()!r}")


def taken_back(server, mgr):
    """what was written on the hub's machine after the hub was killed is in the note at its next start"""
    trial = begin(server, mgr, "back")
    hub = trial.engine.hub
    again = subprocess.run([HUB, "note"], cwd=hub.folder, env=hub.words, capture_output=True, text=True)
    print(f"a second hub: status {again.returncode}, {again.stderr.strip()}")
    if again.returncode != 1:
        fail("two hubs have one note")
    alice = trial.person(LOCAL)
    alice.live()
    hub.kill()
    alone(alice)
    alice.write("never passed on ")
    alice.leave()
    if "never" in (hub.folder / "note").read_text():
        fail("it was passed on")
    alice.begin()
    alice.terminal.expect("all", lambda: alice.terminal.shown()[0], "never passed on the text of the hub")
    alice.leave()
    print(f"the note: {(hub.folder / 'note').read_text()!r}")


def a_plain_text(server, mgr):
    """who joins with a plain text is asked, too, at a hub and by Redis"""
    for trial in at_each(server, mgr, "plain", "theirs\n"):
        bob = trial.writer(BY_PORT)
        (bob.folder / "note").write_text("mine\n")
        asked(bob, "t, f or q?")
        answer(bob, "f")
        bob.write("x")
        # Their numbers say which of the texts is the first.
        rows = lambda: sorted(row.removeprefix("x") for row in bob.terminal.shown()[:-2] if row)  # noqa: E731
        bob.terminal.expect("both", rows, ["mine", "theirs"])
        print(f"fused: {trial.settle()!r}")


def mended(server, mgr):
    """a log gets a line that is none, and then another program rewrites the text, at a hub and by Redis"""
    for trial in at_each(server, mgr, "mended"):
        bob = trial.person(BY_PORT)
        bob.live()
        bob.write("one ")
        bob.leave()
        with open(bob.folder / "note.ops", "a") as log:
            log.write("no operation\n")
        asked(bob, "m or q?")
        answer(bob, "m")
        bob.write("two ")
        bob.leave()
        with open(bob.folder / "note", "a") as note:
            note.write("three\n")
        asked(bob, "f or l?")
        answer(bob, "f")
        bob.words.append("three")
        print(f"mended: {trial.settle()!r}")


def rewritten(server, mgr):
    """another program rewrites the text of a hub's note, while the hub is away"""
    trial = begin(server, mgr, "rewritten")
    hub, bob = trial.engine.hub, trial.person(BY_PORT)
    bob.write("one ")
    await_passed_on(trial, "one")
    hub.end()
    (hub.folder / "note").write_text("rewritten\n")
    bob.write("two ")
    hub.begin()
    print("\n".join(f"    | {line}" for line in hub.lines() if "note~" in line))
    bob.live()
    if (hub.folder / "note~").read_text() != "rewritten\n":
        fail("what another program wrote is in no file")
    (hub.folder / "note~").unlink()
    print(f"the log's text: {trial.settle()!r}")


def compacted(server, mgr):
    """a log of more than 1 MB is compacted as one leaves, while another one writes"""
    trial = begin(server, mgr, "compacted")
    alice, bob = trial.person(LOCAL), trial.person(BY_PORT)
    bob.write("one ")
    bob.leave()
    log, kept = bob.folder / "note.ops", bob.folder / "note.ops~"
    with open(log, "a") as lines:
        lines.write(LINE * 1000)
    size = log.stat().st_size
    bob.begin()
    bob.live()
    bob.write("two ")
    with concurrent.futures.ThreadPoolExecutor(1) as pool:
        leaving = pool.submit(bob.leave)
        while not leaving.done():
            alice.type()
            time.sleep(0.5)
    leaving.result()
    print(f"a log of {size:,} bytes has {log.stat().st_size:,}")
    if not kept.exists() or log.stat().st_size > size // 10:
        fail("it is not compacted")
    # The text as well: its log grew by another program.
    for path in bob.folder.glob("note*~"):
        path.unlink()
    bob.begin()
    bob.type()
    print(f"the note: {trial.settle()!r}")


def colours(server, mgr):
    """others are shown in colours, and by NO_COLOR in reverse"""
    trial = begin(server, mgr, "colours")
    alice, bob = trial.person(LOCAL), trial.writer(BY_PORT)
    bob.before = "NO_COLOR=1"
    bob.begin()
    alice.write("a ")
    for person, wanted in ((alice, (True, False)), (bob, (False, True))):
        look = _looks(person.terminal)
        person.terminal.expect("colour, and reverse", look, wanted)
        print(f"{person.number}: colour {wanted[0]}, reverse {wanted[1]}")
    trial.settle()


def _looks(terminal):
    """Returns what looks whether a colour stands in the text, and whether something stands there in reverse."""

    def look():
        text = "\n".join(terminal.tmux("capture-pane", "-p", "-e").split("\n")[: terminal.rows - 2])
        return bool(COLOUR.search(text)), bool(REVERSE.search(text))

    return look


def asked(person, question):
    """Has one begin who is asked something, so that something may be put aside."""
    person.counts["asked"] += 1
    person.start()
    person.terminal.expect("the question", lambda: question in person.terminal.shown(), True, seconds=60)


def answer(person, letter):
    person.terminal.write(letter)
    person.terminal.press("Enter")
    if letter != "q":
        person.live()


def another_note(server, mgr):
    """a wrong port: one is asked, and nothing is fused"""
    trial = begin(server, mgr, "another", THEIRS)
    bob = trial.writer(BY_PORT)
    home = bob.folder
    edited(trial, home, 7, MINE)
    for letter, texts in (("q", {"note": MINE}), ("t", {"note": THEIRS, "note~": MINE})):
        asked(bob, "t, f or q?")
        print("\n".join("    | " + row for row in bob.terminal.shown()[:8] if row))
        answer(bob, letter)
        if letter == "t":
            bob.terminal.leave()
        bob.left()
        seen = {name: (home / name).read_text() for name in texts}
        if seen != texts or "mine" in text_of(mgr, trial.engine.hub.folder / "note.ops"):
            fail(f"{seen}")
        print(f"{letter}: {seen}")


def restored(server, mgr):
    """one is killed, and the own log is put back to an older state: while the hub is there, and while it is not"""
    for is_away in (False, True):
        trial = begin(server, mgr, f"restored-{is_away}")
        hub, bob = trial.engine.hub, trial.person(BY_PORT)
        bob.live()
        bob.write("one ")
        await_passed_on(trial, "one")
        shutil.copy(bob.folder / "note.ops", bob.folder / "older")
        bob.write("two ")
        await_passed_on(trial, "two")
        bob.kill()
        if is_away:
            hub.end()
        shutil.copy(bob.folder / "older", bob.folder / "note.ops")
        bob.begin()
        bob.write("three ")
        if is_away:
            alone(bob)
            time.sleep(1)
            hub.begin()
        bob.live()
        print(f"with the hub {'away' if is_away else 'there'}: {trial.settle()!r}")


def conflict(server, mgr):
    """two copies that were written in under one number"""
    trial = begin(server, mgr, "conflict")
    bob, other = trial.person(BY_PORT), trial.engine.home(OTHER)
    bob.write("both ")
    bob.live()
    await_passed_on(trial, "both")
    number = [line.split()[-2].strip("()") for line in trial.engine.hub.lines() if "joined" in line][0]
    bob.leave()
    other.mkdir()
    shutil.copy(bob.folder / "note.ops", other / "note.ops")
    for folder, text in ((other, "one "), (bob.folder, "two ")):
        edited(trial, folder, number, text)
    first = trial.writer(OTHER)
    words = f"--replica {number} {trial.engine.address(BY_PORT)}"
    first.begin(words)
    first.live()
    await_passed_on(trial, "one")
    first.leave()
    bob.begin(words)
    bob.terminal.expect("a conflict", lambda: state_of(bob.terminal), "conflict", seconds=60)
    print(f"a conflict: {bob.terminal.shown()[-1]}")
    print(f"the hub printed: {[line for line in trial.engine.hub.lines() if 'onflict' in line]}")
    bob.terminal.write("typed on")
    bob.terminal.expect("typed on", lambda: "typed on" in " ".join(bob.terminal.shown()), True)
    bob.leave()
    if "typed on" not in (bob.folder / "note").read_text():
        fail("what was typed after the conflict is not in the note")


PARTS = {
    part.__name__: part
    for part in (
        away_at_the_start,
        taken_back,
        a_plain_text,
        mended,
        rewritten,
        compacted,
        colours,
        another_note,
        restored,
        conflict,
    )
}


def main():
    if len(sys.argv) < 2 or not set(sys.argv[2:]) <= set(PARTS):
        sys.exit(f"usage: try_hub.py MGR [PART..], where PART is one of {', '.join(PARTS)}")
    shutil.rmtree(FOLDER, ignore_errors=True)
    server = Server()
    signal.signal(signal.SIGTERM, lambda *_: sys.exit("ended"))
    try:
        for name in sys.argv[2:] or PARTS:
            print(f"\n{name}: {PARTS[name].__doc__}", flush=True)
            PARTS[name](server, os.path.abspath(sys.argv[1]))
    finally:
        server.end()
        stop_all()
    print("\nAll was seen as it should be.")


if __name__ == "__main__":
    main()
