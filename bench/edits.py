#!/usr/bin/env python3
"""Measures edits of a document beside one order of its store.

Prints a row a size: the milliseconds of user time of an order; of a character typed in the middle,
with the anchor after it and the text; of the same after an insertion of another replica; of an
edit of a thousand changes; and of a deletion of all of the text with its revert. The time of the
same run with nothing of it done, which makes the document, is taken off. Of several measurements
the least counts.
"""

import timing

# How often each is repeated in a run. No document may know more than a million elements.
TIMES = {
    10_000: {"order": 500, "type": 2_000, "remote": 2_000, "change": 100, "revert": 2},
    100_000: {"order": 50, "type": 5_000, "remote": 2_000, "change": 50, "revert": 2},
    300_000: {"revert": 2},
    990_000: {"order": 5, "type": 1_000, "remote": 500, "change": 5},
}
WORKS = ("order", "type", "remote", "change", "revert")


def seconds(work, size, times):
    """Returns the least user time of such a run."""
    return timing.seconds("edits", work, size, times)


def main():
    print("characters" + "".join(f"{work + ', ms':>13}" for work in WORKS))
    for size, times in TIMES.items():
        made = seconds("order", size, 0)
        row = f"{size:>10,}"
        for work in WORKS:
            cost = f"{(seconds(work, size, times[work]) - made) / times[work] * 1e3:.4f}" if work in times else ""
            row += f"{cost:>13}"
        print(row, flush=True)


if __name__ == "__main__":
    main()
