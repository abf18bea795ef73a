#!/usr/bin/env python3
"""Measures how what works cost grows with their size: each is done at three sizes.

Prints a row a work: its sizes; the seconds of user and system time that each took, the same run without
the work taken off; and the exponent, the slope of the logarithm of the time over that of the size. Where
the whole run is the work, its peak memory at the greatest size follows. An exchange counts both
sides. Of several measurements the least counts. The last line names the works whose exponent is above
what is wanted. A call by hand may name another mgr, smaller sizes, and the works that it is about.
"""

import argparse
import collections
import math
import os
import random

import exchange
from keys import SAVE, Editor, editing, text_of
from live_sessions import OTHER, WRITER, insertion, log_of
from measure import BUILD, generated
from notes import damaged

FOLDER = BUILD / "bench" / "growth"
WANTED = 1.2
MEASUREMENTS = 5

LINE = b"some words\n"
UNDO, YANK, KILL_LINE, KILL_REST = b"\x1f", b"\x19", b"\x0b\x0b", b"\x0b\x06"
KILL_ALL, END = b"\x18h\x17", b"\x1b>"
BUFFERS = 64
# What takes fewer seconds at its greatest size says nothing of its growth.
SHORT = 0.01

# What a work is called, what its sizes count, and what it costs at one of them.
Work = collections.namedtuple("Work", "what sizes cost")


def lines(n):
    return LINE * n


def words(n):
    return b"words " * n


def letters(n):
    return text_of(n).encode()


def over(editor, files, start, pressed, options=()):
    """Returns what the keys cost, over the keys before them alone. The runs are done in turn."""
    runs = [
        [editor.edit(given, files, *options, times=1).processor for given in (start, start + pressed)]
        for _ in range(MEASUREMENTS)
    ]
    none, all_keys = map(min, zip(*runs))
    return all_keys - none, None


def keys(text, pressed, before=lambda n: b"", options=()):
    """Returns what the keys cost in such a text, after others that are no part of the work."""
    return lambda editor, n: over(editor, {"text": text(n)}, before(n), pressed(n), options)


def logged(pressed):
    """Returns what the keys cost after a log of so many operations."""
    return lambda editor, n: over(editor, {"text.ops": generated("typing", n)}, b"", pressed)


def loaded_and_saved(editor, n):
    # One is deleted, so that there is a change to be saved.
    saved = editor.edit(b"\x04" + SAVE, {"text": letters(n)})
    return saved.processor - editor.edit(b"", {}).processor, saved.kilobytes


def shown(editor, n):
    cost = editor.cost(["show"], generated("typing", n), {})
    return cost.processor, cost.kilobytes


def commanded(*words, log=lambda n: generated("typing", n)):
    """Returns what a command of mgr costs, on a note with a log of so many operations."""

    def cost(editor, n):
        took = editor.cost([*words, "text"], b"", {"text.ops": log(n)})
        return took.processor, took.kilobytes

    return cost


def merged(editor, n):
    """Returns what a merge costs of two logs, each of a common half and a half that one replica typed after it."""
    half, common = n // 2, generated("typing", n // 2).read_bytes()
    logs = [common + b"".join(typed(half, half, replica)) for replica in (8, 9)]
    cost = editor.cost(["merge", "text", "text.other"], b"", dict(zip(("text.ops", "text.other"), logs)))
    return cost.processor, cost.kilobytes


def typed(clock, count, replica):
    """Returns the lines of so many characters that a replica types at the front, one after the other."""
    ids = [[clock + at, replica] for at in range(count + 1)]
    return [insertion("a", *each, before if at else [0, 0]) for at, (before, each) in enumerate(zip(ids, ids[1:]))]


def reported(editor, n):
    """Returns what so many reports cost a live session, each of an insertion anywhere in its text."""
    rng, size = random.Random(n), 100_000
    reports = (b"\xff" + insertion("x", size + at, OTHER, [rng.randint(1, size), WRITER]) for at in range(1, n + 1))
    return over(editor, {"text.ops": log_of(size)}, b"", b"".join(reports), ("--live",))


def exchanged(parts, rounds):
    """Returns what the last of so many exchanges costs, if each side has that part of the operations."""

    def cost(editor, n):
        sizes = [n * part // 2 for part in parts]
        before, behind = (exchange.least(editor.program, sizes, times)[1] for times in (rounds - 1, rounds))
        return behind - before, None

    return cost


def find(number):
    return b"\x18\x06text%d\r" % number


def found(n):
    return b"".join(find(i % BUFFERS) for i in range(n))


WORKS = [
    Work("lines of 10 killed by C-k C-k, then undone", (1_000, 2_000, 4_000), keys(lines, lambda n: KILL_LINE * n + UNDO * 2 * n)),
    Work("rests of lines killed one by one, then undone", (2_000, 4_000, 8_000), keys(lines, lambda n: KILL_REST * n + UNDO * n)),
    Work(
        "characters deleted by DEL, then undone",
        (10_000, 20_000, 40_000),
        keys(letters, lambda n: b"\x7f" * n + UNDO * n, lambda n: END),
    ),
    Work("lines of 10 killed in a row", (4_000, 8_000, 16_000), keys(lines, lambda n: KILL_LINE * n)),
    Work("M-u in a row", (4_000, 8_000, 16_000), keys(words, lambda n: b"\x1bu" * n)),
    Work("operations of a log, 20 keys behind it, each saved", (100_000, 300_000, 900_000), logged((b"x" + SAVE) * 20)),
    Work("operations saved at once", (100_000, 300_000, 900_000), keys(letters, lambda n: SAVE, lambda n: b"\x04")),
    Work("characters without a log, loaded and saved", (100_000, 300_000, 900_000), loaded_and_saved),
    Work("characters yanked at once", (50_000, 150_000, 450_000), keys(letters, lambda n: YANK, lambda n: KILL_ALL)),
    Work("characters killed at once", (50_000, 150_000, 450_000), keys(letters, lambda n: KILL_ALL)),
    Work(
        "keys, each with a frame",
        (2_000, 6_000, 18_000),
        keys(lambda n: letters(100_000), editing, options=("--trace",)),
    ),
    Work("operations exchanged, nothing new", (25_000, 50_000, 100_000), exchanged((1, 1), 2)),
    Work("characters searched, 200 times in vain", (100_000, 300_000, 900_000), keys(letters, lambda n: b"\x13" + b"z" * 200)),
    Work("matches replaced at once", (4_000, 12_000, 36_000), keys(lines, lambda n: b"\x1b%some\rno\r!")),
    Work("words filled", (40_000, 80_000, 160_000), keys(words, lambda n: b"\x1bq")),
    Work("lines of 10 yanked one by one", (4_000, 8_000, 16_000), keys(lambda n: LINE, lambda n: YANK * n, lambda n: KILL_LINE)),
    Work(
        f"buffers gone to, among {BUFFERS}",
        (20_000, 40_000, 80_000),
        keys(lambda n: b"", found, lambda n: found(BUFFERS)),
    ),
    Work("operations received, none of them known", (25_000, 50_000, 100_000), exchanged((0, 2), 1)),
    Work("operations compacted", (100_000, 300_000, 900_000), commanded("compact")),
    Work(
        "characters of one line, 100 frames of its end",
        (50_000, 150_000, 450_000),
        keys(lambda n: words(n // 6), lambda n: b"\x02\x06" * 50, lambda n: END, ("--trace",)),
    ),
    Work("M-f in a row, five times over", (20_000, 40_000, 80_000), keys(lambda n: b"a " * n, lambda n: (b"\x1bf" * n + b"\x1b<") * 5)),
    Work("operations of mgr show", (100_000, 300_000, 900_000), shown),
    Work("reports taken, in one stream", (25_000, 50_000, 100_000), reported),
    Work("operations of each of two logs merged, half of them in both", (60_000, 180_000, 540_000), merged),
    Work("operations of mgr who", (100_000, 300_000, 900_000), commanded("who")),
    Work(
        "operations of mgr mend, of a damaged log",
        (100_000, 300_000, 900_000),
        commanded("mend", log=lambda n: damaged(generated("typing", n).read_bytes())),
    ),
    Work("operations of mgr claims", (100_000, 300_000, 900_000), commanded("claims")),
]


def exponent(sizes, times):
    """Returns the slope of the line through the logarithms that is nearest to all."""
    xs, ys = [math.log(size) for size in sizes], [math.log(time) for time in times]
    x, y = sum(xs) / len(xs), sum(ys) / len(ys)
    return sum((a - x) * (b - y) for a, b in zip(xs, ys)) / sum((a - x) ** 2 for a in xs)


def measure(editor, work, part):
    """Prints the row of a work, and returns what it is and its exponent, if that is above what is wanted."""
    sizes = [size // part for size in work.sizes]
    costs = [work.cost(editor, size) for size in sizes]
    # A difference of two runs may be below what the clock says.
    times = [max(seconds, 1e-4) for seconds, _ in costs]
    slope, peak = exponent(sizes, times), costs[-1][1]
    row = f"{work.what:<54}" + "".join(f"{size:>9,} {time:>7.3f}" for size, time in zip(sizes, times))
    told = "short" if times[-1] < SHORT else "well" if slope <= WANTED else "MORE"
    print(f"{row} {slope:>9.2f}  {told:<5}" + (f" {peak / 1024:>5.0f} MiB" if peak else ""), flush=True)
    return [f"{work.what} ({slope:.2f})"] if told == "MORE" else []


def main():
    parser = argparse.ArgumentParser(description=__doc__)
    parser.add_argument("--mgr", metavar="PATH", default=BUILD / "mgr", help="another mgr")
    parser.add_argument("--part", metavar="N", type=int, default=1, help="an Nth of all sizes")
    parser.add_argument("--work", metavar="WORDS", default="", help="the works with these words in their names alone")
    given = parser.parse_args()
    editor = Editor(os.path.abspath(given.mgr), FOLDER)
    chosen = [work for work in WORKS if given.work in work.what]
    print(f"{'':<54}" + f"{'n':>9} {'s':>7}" * 3 + "  exponent")
    above = [told for work in chosen for told in measure(editor, work, given.part)]
    print(f"\nof {len(chosen)} works {len(above)} are above {WANTED}" + ": " * bool(above) + "; ".join(above))


if __name__ == "__main__":
    main()
