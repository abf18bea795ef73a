#!/usr/bin/env python3
"""Measures the editor's commands on a text of 100,000 characters: one plan of each.

Prints a row a command: the microseconds of user time of one plan. The words of the text have five
letters, its lines 72 characters, and none is empty, so that all of it is one paragraph; point
stands in the middle. The search finds nothing, the paragraph is filled to 70 columns, and some
8,300 matches are replaced. The time of the same run with no plan in it, which makes the text, is
taken off. Of several measurements the least counts.
"""

import timing

SIZE = 100_000
# How often a command is repeated in a run.
TIMES = {
    "forward-char": 10_000_000,
    "insert": 3_000_000,
    "forward-word": 10_000_000,
    "next-line": 2_000_000,
    "kill-line": 3_000_000,
    "capitalize-word": 2_000_000,
    "search-forward": 3_000,
    "fill-paragraph": 1_000,
    "replace-all": 1_000,
}


def seconds(command, times):
    """Returns the least user time of such a run."""
    return timing.seconds("commands", command, SIZE, times)


def main():
    print("command            us a plan")
    for command, times in TIMES.items():
        cost = (seconds(command, times) - seconds(command, 0)) / times
        print(f"{command:<16} {cost * 1e6:>11.3f}", flush=True)


if __name__ == "__main__":
    main()
