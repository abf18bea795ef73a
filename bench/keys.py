#!/usr/bin/env python3
"""Measures the editor under keys: `mgr edit` from its keys to its frames and files.

Prints a row a figure, with what is wanted of it: the microseconds of user time of a key, where text
is typed with motions, kills, yanks and undos in a text of 100,000 characters, without frames and
with one a key; the milliseconds of user and system time of a yank of a tenth of such a text; the
microseconds of a character that is typed in the middle of 900,000, and of one that is typed there and
undone, and the milliseconds of user and system time of one that is saved; the seconds of 260,000 keys that write a text of 100,000 characters; the loading of a log of a
million operations, over `mgr show` of it, and its peak memory; that of a text of a million characters
without a log; a save of that, over the writing and syncing of the same bytes; and the peak memory of
it. The time of the same run without keys is taken off where a key is told, and the least of the
measurements counts. A call by hand may name another mgr, and fewer characters and keys.
"""

import argparse
import collections
import os
import random
import shutil
import subprocess
import sys
import time

from measure import BUILD, generated

FOLDER = BUILD / "bench" / "keys"
MEASUREMENTS = 3
LINE = 60
TRACED = 20  # of so many keys one is measured with frames
YANKS = 20
TYPED, UNDONE, SAVED = 20_000, 5_000, 100
SAVE = b"\x18\x13"

# The program is the shell's only child, so the peak is its own; the times are of one run.
USAGE = """
import resource, subprocess, sys, time
begin = time.monotonic()
status = subprocess.call(sys.argv[1:], stdout=subprocess.DEVNULL)
wall = time.monotonic() - begin
usage = resource.getrusage(resource.RUSAGE_CHILDREN)
print(status, usage.ru_utime, usage.ru_utime + usage.ru_stime, wall, usage.ru_maxrss)
"""

# The least user time, the least of user and system, the least by the clock, and the peak.
Cost = collections.namedtuple("Cost", "user processor wall kilobytes")

WORDS = "a be can down ever from green house island jumps kindly letters moments nowhere".split()
MOTIONS = [b"\x02", b"\x06", b"\x0e", b"\x10", b"\x01", b"\x05", b"\x1bf", b"\x1bb"]


def text_of(size):
    """Returns a text of so many characters, in lines of words."""
    rng, text, column = random.Random(1), [], 0
    while len(text) < size:
        word = rng.choice(WORDS)
        column = 0 if column > LINE else column + len(word) + 1
        text += word + (" " if column else "\n")
    return "".join(text[:size])


def editing(count):
    """Returns so many bytes of keys: words that are typed, and after each run something else."""
    rng, keys, pressed = random.Random(2), [], 0
    while pressed < count:
        typed = [rng.choice(WORDS).encode() + b" " for _ in range(rng.randint(1, 5))]
        part = rng.randrange(10)
        if part < 6:
            more = [rng.choice(MOTIONS) for _ in range(rng.randint(1, 12))]
        elif part < 7:
            more = [b"\x0b", rng.choice([b"\x19", b"\x1f"])]
        elif part < 8:
            more = [b"\x1f"] * rng.randint(1, 4)
        else:
            more = [b"\x7f"] * rng.randint(1, 8)
        keys += typed + more
        pressed += sum(map(len, typed + more))
    return b"".join(keys)[:count]


def writing(size, count):
    """Returns so many keys that write a text of so many characters.

    The rest are characters that are taken back, each with two keys, and motions. Lines end as in a
    text, so motions of a line are as long.
    """
    rng, text, back = random.Random(3), text_of(size).replace("\n", "\r").encode(), (count - size) // 3
    moves = count - size - 2 * back
    keys, each = [], max(1, size // max(back, 1))
    for i in range(0, size, each):
        run = text[i : i + each]
        if back:
            run, back = run + b"x\x7f", back - 1
        # A step back and on, so that the text is written at its end.
        if moves >= 2:
            run, moves = run + rng.choice([b"\x02\x06", b"\x01\x05"]), moves - 2
        keys.append(run)
    return b"".join(keys + [b"x\x7f"] * back + [b"\x05"] * moves)


class Editor:
    """An mgr, which is run on files of its own, in a new folder."""

    def __init__(self, program, folder):
        self.program, self.folder = program, folder
        shutil.rmtree(folder, ignore_errors=True)
        folder.mkdir(parents=True)

    def cost(self, words, given, files, times=MEASUREMENTS):
        """Returns the least that the program takes, of so many runs with these words, input and files."""
        self.put("given", given)
        runs = []
        for _ in range(times):
            for path in self.folder.glob("text*"):
                path.unlink()
            for name, data in files.items():
                self.put(name, data)
            with open(self.folder / "given", "rb") as given_file:
                said = subprocess.check_output(
                    [sys.executable, "-c", USAGE, self.program, *words], stdin=given_file, cwd=self.folder
                ).split()
            if said[0] != b"0":
                sys.exit(f"mgr ended with status {said[0].decode()}: {' '.join(words)}")
            runs.append([float(word) for word in said[1:]])
        return Cost(*map(min, zip(*runs)))

    def put(self, name, data):
        """Writes a file, of these bytes or as that other file."""
        path = self.folder / name
        path.write_bytes(data) if isinstance(data, bytes) else shutil.copy(data, path)

    def edit(self, keys, files, *words, times=MEASUREMENTS):
        return self.cost(["edit", "text", "--replica", "1", *words], keys, files, times)


def print_row(what, figure, unit, wanted):
    told = "well" if figure <= wanted else "MORE"
    print(f"{what:<62} {figure:>9.2f} {unit:<6} {wanted:>7.2f}  {told}", flush=True)


def measure_keys(editor, size, count):
    files = {"text": text_of(size).encode()}
    keys = editing(count)
    idle = editor.edit(b"", files).user
    plain = (editor.edit(keys, files).user - idle) / len(keys)
    print_row(f"a key in {size:,} characters, of {len(keys):,}", plain * 1e6, "us", 60)
    keys = keys[: max(1, count // TRACED)]
    traced = (editor.edit(keys, files, "--trace").user - idle) / len(keys)
    print_row(f"the same with a frame each, of {len(keys):,}", traced * 1e3, "ms", 1.2)


def measure_yanks(editor, size):
    """A tenth of the characters is copied, and then put at their begin many times."""
    # No argument is above 9999.
    files, tenth = {"text": text_of(size).encode()}, size // 10 - 1
    copy = b"\x00\x15%d\x06\x1bw\x1b<" % tenth
    none, yanked = (editor.edit(copy + b"\x19" * count, files).processor for count in (0, YANKS))
    print_row(f"{tenth:,} characters yanked in {size:,}, of {YANKS}", (yanked - none) / YANKS * 1e3, "ms", 1.0)


def measure_middle(editor, size):
    """Characters are typed in the middle of a large text, and each of some is undone."""
    files, go = {"text": text_of(size).encode()}, down(size // LINE // 2)
    none = editor.edit(go, files).user
    typed = (editor.edit(go + b"x" * TYPED, files).user - none) / TYPED
    print_row(f"a character typed in the middle of {size:,}, of {TYPED:,}", typed * 1e6, "us", 50)
    undone = (editor.edit(go + b"x\x1f" * UNDONE, files).user - none) / UNDONE
    print_row(f"one typed there and undone, of {UNDONE:,}", undone * 1e6, "us", 150)
    none, saved = (editor.edit(go + b"x" + SAVE + (b"x" + SAVE) * count, files).processor for count in (0, SAVED))
    print_row(f"one typed there and saved, of {SAVED}, but for the sync", (saved - none) / SAVED * 1e3, "ms", 1.0)


def down(lines):
    """Returns the keys that go down so many lines; no argument is above 9999."""
    return b"\x159999\x0e" * (lines // 9999) + b"\x15%d\x0e" % (lines % 9999)


def measure_writing(editor, size, count):
    keys = writing(size, count)
    user = editor.edit(keys, {}).user
    print_row(f"{len(keys):,} keys that write {size:,} characters", user, "s", 10)


def measure_loading(editor, size):
    log = generated("typing", size)
    loads = editor.edit(b"", {"text.ops": log})
    shows = editor.cost(["show"], log, {}).user
    print_row(f"a log of {size:,} operations, over mgr show", loads.user / shows, "times", 1.3)
    print_row("peak memory of it", loads.kilobytes / 1024, "MiB", 100)


def measure_text(editor, size):
    """A text of so many characters, of which one is then deleted, so that all fit in a store."""
    files, keys = {"text": text_of(size).encode()}, b"\x04"
    loaded = editor.edit(keys, files)
    print_row(f"a text of {size:,} characters without a log", loaded.user, "s", 0.05)
    saved = editor.edit(keys + SAVE, files)
    written = b"".join((FOLDER / name).read_bytes() for name in ("text.ops", "text"))
    seconds, alone = saved.wall - loaded.wall, time_of_writing(written)
    print_row(f"a save of it, over the {alone:.2f} s of writing its {len(written):,} bytes", seconds / alone, "times", 1.2)
    print_row("peak memory of it, unsaved and saved", max(loaded.kilobytes, saved.kilobytes) / 1024, "MiB", 100)


def time_of_writing(data):
    """Returns the least time by the clock of writing and syncing these bytes."""
    least = float("inf")
    for _ in range(MEASUREMENTS):
        begin = time.monotonic()
        with open(FOLDER / "bytes", "wb", buffering=0) as output:
            left = memoryview(data)
            while left:
                left = left[output.write(left) :]
            os.fsync(output.fileno())
        least = min(least, time.monotonic() - begin)
        (FOLDER / "bytes").unlink()
    return least


def main():
    parser = argparse.ArgumentParser(description=__doc__)
    parser.add_argument("--mgr", metavar="PATH", default=BUILD / "mgr", help="another mgr")
    parser.add_argument("--part", metavar="N", type=int, default=1, help="an Nth of all characters and keys")
    given = parser.parse_args()
    editor, part = Editor(os.path.abspath(given.mgr), FOLDER), given.part
    print(f"{'':<62} {'figure':>9} {'':<6} {'wanted':>7}")
    measure_keys(editor, 100_000 // part, 100_000 // part)
    measure_yanks(editor, 100_000 // part)
    measure_middle(editor, 900_000 // part)
    measure_writing(editor, 100_000 // part, 260_000 // part)
    measure_loading(editor, 1_000_000 // part)
    measure_text(editor, 1_000_000 // part)


if __name__ == "__main__":
    main()
