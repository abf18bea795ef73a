#!/usr/bin/env python3
"""Measures commands on a buffer, each with the view after it.

Prints a row a size: the microseconds of user time of a character put in, of a motion, of a line
killed, in front, of the rest of a line killed and yanked back (both together), of a character put in
and a line killed that are undone (both together), point being in the middle of the text; the
milliseconds of the undo of a kill of all of it; and the microseconds of an operation of another
replica, taken by the buffer and by a store alone. The time of the same run with nothing of it done,
which makes the buffer, is taken off; from an undo also the kill. Of several measurements the least counts.
"""

import timing

# So many lines are killed in a buffer.
KILLS = 60

# How often each is repeated in a run. No store may know more than a million identifiers.
TIMES = {
    10_000: {"insert": 2_000, "motion": 50_000, "kill": 100, "kill-line": 2_000, "undo-insert": 2_000, "undo-all": 1, "take": 100_000},
    100_000: {"insert": 5_000, "motion": 50_000, "kill": 10, "kill-line": 1_000, "undo-insert": 2_000, "undo-line": 1_000, "undo-all": 1, "take": 100_000},
    900_000: {"insert": 5_000, "motion": 50_000, "kill": 2, "kill-line": 1_300, "undo-insert": 2_000, "undo-line": 1_000},
}


def seconds(work, size, times):
    """Returns the least user time of such a run."""
    return timing.seconds("buffers", work, size, times)


def cost(work, size, times, without=None):
    """Returns the seconds of one of so many, over the run of `without`, or of none."""
    base = seconds(without, size, times) if without else seconds(work, size, 0)
    return (seconds(work, size, times) - base) / times


# What is measured: its title, how many of its unit a second has, and which run is taken off.
COLUMNS = {
    "insert": ("insert, us", 1e6, None),
    "motion": ("motion, us", 1e6 / 2, None),
    "kill": ("kill, us", 1e6 / KILLS, "make"),
    "kill-line": ("kill+yank, us", 1e6, None),
    "undo-insert": ("insert+undo, us", 1e6, None),
    "undo-line": ("kill+undo, us", 1e6, None),
    "undo-all": ("undo of all, ms", 1e3, "kill-all"),
    "take": ("take, us", 1e6, None),
    "store": ("store, us", 1e6, None),
}


def main():
    print("characters" + "".join(f"{title:>17}" for title, _, _ in COLUMNS.values()))
    for size, times in TIMES.items():
        times["store"] = times.get("take")
        row = f"{size:>10,}"
        for work, (_, unit, without) in COLUMNS.items():
            figure = f"{cost(work, size, times[work], without) * unit:.2f}" if times.get(work) else ""
            row += f"{figure:>17}"
        print(row, flush=True)


if __name__ == "__main__":
    main()
