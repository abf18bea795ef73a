#!/usr/bin/env python3
"""Measures what mgr's store, and the records it reads logs into, are good or bad at: undo, what waits,
identifiers that collide, and memory.

Prints a row a figure: the milliseconds of user time of 10,000 characters killed in a text of 100,000, and
that undone; the microseconds of a motion with its frame, without and with an insertion that waits in the
log; the seconds of `mgr show` of a log whose identifiers collide in the hash of a map, and the exponent of
its growth by their number; and the peak memory of a loaded log of a million operations. With `--other PATH`
also the times of `mgr show` over those of another mgr, say of one from before a change. The time of the
same run with nothing of it done is taken off, and the least of the measurements counts.
"""

import argparse
import math
import os
import pathlib
import random
import sys

from keys import Editor, text_of
from measure import BUILD, generated

sys.path.append(str(pathlib.Path(__file__).resolve().parent.parent / "scripts"))

from shapes import colliding

FOLDER = BUILD / "bench" / "stores"
ROUNDS, KILLED = 20, 10_000
MOTIONS, MEASUREMENTS = 60_000, 5
COLLIDING = (110_000, 440_000)
OPERATIONS = 1_000_000
KILL, UNDO = b"\x00" + b"\x0e" * (KILLED // 60) + b"\x17", b"\x1f"
WAITING = b'{"char":"a","id":[9000001,7],"op":"ins","parent":[9000000,7]}\n'


def print_row(what, figure, unit):
    print(f"{what:<72} {figure:>9.2f} {unit}", flush=True)


def measure_undo(editor):
    files = {"text": text_of(100_000).encode()}
    idle = editor.edit(b"", files, times=MEASUREMENTS).user
    user = editor.edit((KILL + UNDO) * ROUNDS, files, times=MEASUREMENTS).user
    print_row(f"some {KILLED:,} characters killed in 100,000, and that undone", (user - idle) / ROUNDS * 1e3, "ms")


def measure_waiting(editor):
    log = generated("typing", 900_000).read_bytes()
    for what, more in (("nothing", b""), ("an insertion", WAITING)):
        files = {"text.ops": log + more}
        costs = [
            editor.edit(b"\x02\x06" * (count // 2), files, "--trace", times=MEASUREMENTS).user for count in (0, MOTIONS)
        ]
        print_row(f"a motion with its frame at 900,000, while {what} waits", (costs[1] - costs[0]) / MOTIONS * 1e6, "us")


def measure_colliding(editor):
    times = []
    for size in COLLIDING:
        times.append(editor.cost(["show"], b"".join(colliding(size)), {}, MEASUREMENTS).user)
        print_row(f"mgr show of {size:,} identifiers that collide", times[-1], "s")
    grows = math.log(times[1] / times[0]) / math.log(COLLIDING[1] / COLLIDING[0])
    print_row("the exponent of that", grows, "")


def measure_memory(editor):
    peak = editor.edit(b"", {"text.ops": generated("typing", OPERATIONS)}).kilobytes / 1024
    print_row(f"peak memory of a log of {OPERATIONS:,} operations, loaded", peak, "MiB")


def measure_other(editor, other):
    typing = generated("typing", OPERATIONS).read_bytes()
    lines = typing.splitlines(keepends=True)
    random.Random(1).shuffle(lines)
    logs = {
        "typing": typing,
        "a chain": generated("chain", OPERATIONS).read_bytes(),
        "typing, its lines shuffled": b"".join(lines),
    }
    for what, log in logs.items():
        ours, its = (it.cost(["show"], log, {}, MEASUREMENTS).user for it in (editor, other))
        print_row(f"mgr show of {OPERATIONS:,}, {what}, over the other's {its:.2f} s", ours / its, "times")


def main():
    parser = argparse.ArgumentParser(description=__doc__)
    parser.add_argument("--mgr", metavar="PATH", default=BUILD / "mgr", help="another mgr to measure")
    parser.add_argument("--other", metavar="PATH", help="an mgr to compare with")
    given = parser.parse_args()
    editor = Editor(os.path.abspath(given.mgr), FOLDER)
    measure_undo(editor)
    measure_waiting(editor)
    measure_colliding(editor)
    measure_memory(editor)
    if given.other:
        measure_other(editor, Editor(os.path.abspath(given.other), FOLDER.with_name("other")))


if __name__ == "__main__":
    main()
