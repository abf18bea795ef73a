#!/usr/bin/env python3
"""Measures frames of a screen of 24 rows and 80 columns, with point at the end of a text.

Prints a row a text: the microseconds of user time that it takes to place the window, to make the
rows, to find the cursor, and to do the three for one frame. Lines have 60 letters; in the last row
the text is one line. Then the nanoseconds of a split of a window and the removal of one half, which
know no text. The time of the same run with no frame in it, which makes the text, is taken off. Of
several measurements the least counts.
"""

import timing

# Letters of a line, characters of the text, and how often a work is repeated in a run.
TEXTS = [
    (60, 1_000, 20_000),
    (60, 100_000, 5_000),
    (60, 1_000_000, 500),
    (1_000_000, 1_000_000, 100),
]
WORKS = ["first-line", "frame", "cursor", "all"]
SPLITS = 10_000_000


def seconds(work, line, size, times):
    """Returns the least user time of such a run."""
    return timing.seconds("frames", work, line, size, times)


def main():
    print("characters       line" + "".join(f"{work + ', us':>15}" for work in WORKS))
    for line, size, times in TEXTS:
        made = seconds("all", line, size, 0)
        costs = [(seconds(work, line, size, times) - made) / times * 1e6 for work in WORKS]
        print(f"{size:>10,} {line:>10,}" + "".join(f"{cost:>15.1f}" for cost in costs), flush=True)
    split = (seconds("split", 60, 0, SPLITS) - seconds("split", 60, 0, 0)) / SPLITS
    print(f"a split and a removal: {split * 1e9:.0f} ns")


if __name__ == "__main__":
    main()
