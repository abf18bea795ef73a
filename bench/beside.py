#!/usr/bin/env python3
"""Measures mgr beside other programs, in one run: editors on a terminal, Yjs, and Emacs with crdt.el.

usage: beside.py [--mgr MGR] [--keys N] [--edits N] [--size N] [PART..]. What is not installed is said, and left out.

`editors` has mgr-live, mg and `emacs -nw -Q` in pseudo terminals, with a text of some size: a key, all of it filled as
one paragraph, that undone, and a short word replaced in all of it. A row has for each editor the median milliseconds by
the clock, from the keys until the screen is sent the next character that is typed after them, and in brackets those of
processor of its programs. What took an editor long is not done by it in a greater text (-).

`yjs` is one author's edits, a quarter of them deletions, in Yjs of Debian's node-yjs and in mgr. They are written, by
`mgr edit --live` as splices in one stream; the text is loaded; two who share the first half, of which one wrote the
second half and the other one the same at mirrored places, are merged. Times are seconds of user and system time of a
process, less those of one that only begins, the least of three; beside them is its peak memory. Then come the bytes
that each keeps. Both have to make one text.

`crdt` and `hub` are those of bench/live.py: four Emacs with crdt.el, and four mgr-live at a hub.
"""

import argparse
import json
import os
import pathlib
import shutil
import statistics
import subprocess
import sys
import time

import live
from keys import MEASUREMENTS, Editor, text_of
from live import LIVE, QUIET, Screen, await_all, lacks, own_keys, rest
from measure import BUILD, generated
from terminal import children

FOLDER = BUILD / "bench" / "beside"
SIZES = (1_000, 100_000, 900_000)
# How often a command is measured; at the greatest size a note has room for one.
ROUNDS = {1_000: 3, 100_000: 3, 900_000: 1}
EDITORS = {
    "mgr-live": [*LIVE, "note", "--replica", "1"],
    "mg": ["mg", "-n", "note"],
    "emacs": ["emacs", "-nw", "-Q", "--eval", f"(progn {QUIET})", "note"],
}
# Milliseconds: what took longer is not done in a greater text.
LONG = 500
# Characters that stand in no text and on no screen of an editor.
SIGNS = [sign.encode() for sign in "@#=+|<>{}~`"]
FILL, UNDO, REPLACE = b"\x1bq", b"\x1f", b"\x1b%be\ris\r!"
WORKS = "a key", "a fill", "its undo", "a replace"

YJS = pathlib.Path(__file__).resolve().parent / "yjs.js"
MODULES = "/usr/share/nodejs"
EDITS = 259_778
HEAD = f"{'':<34}{'Yjs, s':>10}{'MiB':>8}{'mgr, s':>10}{'MiB':>8}{'mgr over Yjs':>15}"


# ---- editors on a terminal


def nanoseconds(pid):
    """Returns the nanoseconds of processor that a process took so far."""
    tasks = pathlib.Path(f"/proc/{pid}/task").glob("*/schedstat")
    return sum(int(task.read_text().split()[0]) for task in tasks)


class Edited:
    """An editor with a text of some size, and what its keys took by the clock and of processor, in milliseconds."""

    def __init__(self, mgr, name, size):
        shutil.rmtree(FOLDER, ignore_errors=True)
        FOLDER.mkdir(parents=True)
        self.note, self.text = FOLDER / "note", f"{live.FIRST_LINE.decode()}\n{text_of(size)}"
        self.note.write_text(self.text)
        self.screen = Screen(EDITORS[name], FOLDER, MGR=mgr)
        await_all([self.screen], live.FIRST_LINE)
        self.signs, self.has_wide = iter(SIGNS), name != "mg"
        rest([self.screen], 1)

    def processor(self):
        return sum(map(nanoseconds, (self.screen.pid, *children(self.screen.pid)))) / 1e6

    def measured(self, act, count=1):
        """Returns the median of the milliseconds that something answers, and those of processor for each of so many."""
        before = self.processor()
        took = act()
        cost = statistics.median(took), (self.processor() - before) / count
        rest([self.screen], 0.5)
        return cost

    def keys(self, count):
        signs = live.WIDE if self.has_wide else live.NARROW
        cost = self.measured(lambda: own_keys(self.screen, signs, count), count)
        self.take_back(count + count // 40)
        return cost

    def take_back(self, count):
        self.screen.press(b"\x7f" * count)
        rest([self.screen], 1)

    def work(self, keys):
        """Returns what keys cost, with a character after them, which is undone then."""

        def act():
            sign = next(self.signs)
            self.screen.shown, begun = b"", time.monotonic()
            self.screen.press(keys + sign)
            await_all([self.screen], sign, 600)
            return [1000 * (time.monotonic() - begun)]

        cost = self.measured(act)
        self.screen.press(UNDO)
        rest([self.screen], 0.5)
        return cost

    def end(self):
        """Saves and leaves; the text has to be as it was."""
        self.screen.press(b"\x18\x13")
        rest([self.screen], 2)
        self.screen.kill()
        if self.note.read_text() != self.text:
            sys.exit("undo did not take all back")


def works(mgr, name, size, keys, left_out):
    """Returns what each work costs an editor, if it is done."""
    costs = {what: [] for what in WORKS if what not in left_out}
    edited = Edited(mgr, name, size)
    costs["a key"].append(edited.keys(keys))
    if "a fill" in costs:
        for _ in range(ROUNDS[size]):
            costs["a fill"].append(edited.work(FILL))
            costs["its undo"].append(edited.work(UNDO))
    edited.end()
    for _ in range(ROUNDS[size] if "a replace" in costs else 0):
        # The undo of the character after it may take a replace back too.
        edited = Edited(mgr, name, size)
        costs["a replace"].append(edited.work(REPLACE))
        edited.screen.kill()
    return {what: tuple(map(statistics.median, zip(*each))) for what, each in costs.items() if each}


def editors(asked):
    """a key, a fill, its undo and a replace: milliseconds by the clock (and of processor)"""
    there = [name for name, command in EDITORS.items() if not lacks(str(command[0]))]
    print(f"    {'characters':>10}  {'':<10}" + "".join(f"{name:>22}" for name in there))
    left_out = {name: set() for name in there}
    for size in SIZES:
        if asked.size not in (None, size):
            continue
        costs = {name: works(asked.mgr, name, size, asked.keys, left_out[name]) for name in there}
        for what in WORKS:
            cells = [f"{costs[name][what][0]:.1f} ({costs[name][what][1]:.1f})" if what in costs[name] else "-" for name in there]
            print(f"    {size:>10,}  {what:<10}" + "".join(f"{cell:>22}" for cell in cells), flush=True)
        for name in there:
            left_out[name] |= {what for what, (clock, _) in costs[name].items() if clock > LONG}


# ---- one author's edits


def put_edits(count):
    """Writes the edits of an author: all, both halves, and the second one at mirrored places. Returns their files."""
    # Yjs counts a character beyond the first 65,536 as two.
    text = generated("author", count, "edits").read_bytes().replace("🙂".encode(), "☺".encode())
    lines = text.splitlines(keepends=True)
    half, size = lines[: count // 2], 0
    mirrored = []
    for number, line in enumerate(lines):
        place, deleted, text = json.loads(line)
        if number >= len(half):
            mirrored.append(edit_line(size - place - deleted, deleted, text))
        size += len(text) - deleted
    files = {"all": lines, "common": half, "mine": lines[len(half) :], "theirs": mirrored}
    for name, each in files.items():
        (FOLDER / name).write_bytes(b"".join(each))
    return {name: FOLDER / name for name in files}


def edit_line(place, deleted, text):
    return json.dumps([place, deleted, text], ensure_ascii=False, separators=(",", ":")).encode() + b"\n"


def splices(edits, base):
    """Returns the reports of edits, on a text that so many changes made."""
    reports = []
    for at, line in enumerate(edits.read_bytes().splitlines(), base):
        place, deleted, text = json.loads(line)
        told = {"base": at, "hi": place + deleted, "lo": place, "op": "splice", "text": text}
        reports.append(b"\xff" + json.dumps(told, ensure_ascii=False, separators=(",", ":")).encode() + b"\n")
    return b"".join(reports)


class Yjs:
    """Yjs, in programs of node."""

    def __init__(self):
        os.environ["NODE_PATH"] = MODULES
        self.runner = Editor("node", FOLDER / "yjs")
        self.begin = self.run("nothing")

    def run(self, *words, times=MEASUREMENTS):
        return self.runner.cost([str(YJS), *map(str, words)], b"", {}, times)

    def cost(self, *words, times=MEASUREMENTS):
        """Returns the seconds of a work, and its peak."""
        cost = self.run(*words, times=times)
        return cost.processor - self.begin.processor, cost.kilobytes

    def write(self, edits, made, *begun, times=1):
        return self.cost("write", edits, made, *begun, times=times)

    def merge(self, one, other, made):
        return self.cost("merge", one, other, made)

    def show(self, state, text):
        return self.cost("show", state, text)

    def kept(self, state):
        """Returns the bytes of a state, and of all updates as they came."""
        return state.stat().st_size, state.with_suffix(state.suffix + ".updates").stat().st_size


class Mgr:
    """mgr, whose states are logs."""

    def __init__(self, mgr):
        self.runner = Editor(mgr, FOLDER / "mgr")
        self.replica = 0

    def cost(self, words, given, files, times=MEASUREMENTS):
        cost = self.runner.cost(words, given, files, times)
        return cost.processor, cost.kilobytes

    def write(self, edits, made, *begun, times=1):
        self.replica += 1
        words = ["edit", "text", "--replica", str(self.replica), "--live", "--changes"]
        files = {"text.ops": begun[0]} if begun else {}
        cost = self.cost(words, splices(edits, len(begun)), files, times)
        shutil.move(self.runner.folder / "text.ops", made)
        return cost

    def merge(self, one, other, made):
        cost = self.cost(["merge", "text", "text.other"], b"", {"text.ops": one, "text.other": other})
        shutil.move(self.runner.folder / "text.ops", made)
        return cost

    def show(self, state, text):
        with open(state, "rb") as log, open(text, "wb") as output:
            subprocess.run([self.runner.program, "show"], stdin=log, stdout=output, check=True)
        return self.cost(["show"], state, {})

    def kept(self, state):
        """Returns the bytes of a compacted log, and of it as it was written."""
        folder = self.runner.folder
        shutil.copy(state, folder / "text.ops")
        subprocess.run([self.runner.program, "compact", "--dels", "text"], cwd=folder, check=True, capture_output=True)
        return (folder / "text.ops").stat().st_size, state.stat().st_size


def done(program, name, edits):
    """Returns what each work costs a program, and the bytes that it keeps; the text is left in a file."""
    states = {of: FOLDER / f"{name}.{of}" for of in ("all", "common", "mine", "theirs", "merged")}
    costs = {"the edits written": program.write(edits["all"], states["all"], times=MEASUREMENTS)}
    program.write(edits["common"], states["common"])
    for whose in ("mine", "theirs"):
        program.write(edits[whose], states[whose], states["common"])
    costs["loaded, and the text written"] = program.show(states["all"], FOLDER / f"{name}.text")
    costs["two halves merged"] = program.merge(states["mine"], states["theirs"], states["merged"])
    return costs, program.kept(states["all"])


def yjs(asked):
    """one author's edits: seconds of user and system time, and peak memory"""
    there = pathlib.Path(MODULES, "yjs").exists()
    if lacks("node") or not there:
        print("    left out: node-yjs is not installed" * (not there))
        return
    shutil.rmtree(FOLDER, ignore_errors=True)
    FOLDER.mkdir(parents=True)
    edits = put_edits(asked.edits)
    print(f"    {HEAD}")
    (theirs, their_bytes), (ours, our_bytes) = done(Yjs(), "yjs", edits), done(Mgr(asked.mgr), "mgr", edits)
    if (FOLDER / "yjs.text").read_bytes() != (FOLDER / "mgr.text").read_bytes():
        sys.exit("the two made different texts")
    for what, (seconds, kilobytes) in theirs.items():
        own_seconds, own_kilobytes = ours[what]
        cells = f"{seconds:>10.3f}{kilobytes / 1024:>8.0f}{own_seconds:>10.3f}{own_kilobytes / 1024:>8.0f}"
        print(f"    {what:<34}{cells}{own_seconds / seconds:>15.2f}", flush=True)
    for what, their, own in zip(("a state; a log, compacted", "all updates; the log as written"), their_bytes, our_bytes):
        print(f"    bytes of {what:<33} Yjs {their:>10,}   mgr {own:>10,}   {own / their:>6.2f}")


PARTS = {"editors": editors, "yjs": yjs, "crdt": live.crdt, "hub": live.hub}


def main():
    parser = argparse.ArgumentParser(description=__doc__, formatter_class=argparse.RawDescriptionHelpFormatter)
    parser.add_argument("--keys", metavar="N", type=int, default=200, help="how many keys are measured")
    parser.add_argument("--edits", metavar="N", type=int, default=EDITS, help="how many edits the author makes")
    parser.add_argument("--size", metavar="N", type=int, choices=SIZES, help="only texts of so many characters")
    live.measure(parser, PARTS)


if __name__ == "__main__":
    main()
