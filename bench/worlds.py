#!/usr/bin/env python3
"""Measures random events in a world of eight sites: edits, saves, deliveries and restarts.

Prints a row a number of events: how many there were in a second of user time, with what is looked at
every thousand events. Of several measurements the least counts.
"""

import timing

EVENTS = (5_000, 20_000, 40_000)


def main():
    print("events    events/s")
    for count in EVENTS:
        seconds = timing.seconds("worlds", 1, count)
        print(f"{count:>6,} {count / seconds:>11,.0f}", flush=True)


if __name__ == "__main__":
    main()
