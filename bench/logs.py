#!/usr/bin/env python3
"""Measures logs and exchanges: what reading and writing them costs, beside reading the bytes alone.

Prints a row for each size and work: the microseconds that an operation takes, of user time and of
the system's, and by their sum the operations and the megabytes of lines in a second. The log is a
chain that one replica typed. `bytes` reads it in blocks of 64 KiB and only counts; `paged` is the
program beside which `mgr show` is measured, which also walks the text. What is written goes to the null
device, and the time of the same run with nothing written is taken off. Then it prints how many times
paged's user time on the log `append_log` takes, and `mgr show` on a typed log in two other spellings, of
which paged reads the usual one. The work is done in turn, and the least of the times counts. That the log
is written as it was read is tested first, and that the other spellings have the same text.
"""

import filecmp
import subprocess
import sys

from measure import BUILD, LOGS, PROGRAMS, REPEATS, generated, least, measured

PROGRAM = [BUILD / "bench_tasks", "logs"]

# How often a log is written in one run. It is read so often in a row as measure.py has it.
TIMES = {10_000: 200, 100_000: 20, 1_000_000: 4}
MEASUREMENTS = 3

# The spellings of a log other than the usual one.
SPELLINGS = ("loose", "numbered")

# The calls that write, and the word of the program for each.
WRITES = {"append_log": "write", "send": "send"}


def output_of(words, given, name):
    """Returns the file of what the program writes."""
    path = LOGS / name
    with open(given, "rb") as log, open(path, "wb") as output:
        subprocess.run(words, stdin=log, stdout=output, check=True)
    return path


def compare(one, other):
    """Ends the measuring where two files differ."""
    if not filecmp.cmp(one, other, shallow=False):
        sys.exit(f"{one} and {other} differ")


def least_costs(runs):
    """Returns the least cost of each run, of which the arguments of `measured` are given."""
    costs = {name: [] for name in runs}
    for _ in range(MEASUREMENTS):
        for name, run in runs.items():
            costs[name].append(measured(*run))
    return {name: least(each) for name, each in costs.items()}


def costs_of(log, count):
    """Returns for each work what it costs: seconds of user time and of the system's."""
    compare(log, output_of([*PROGRAM, "write", "1"], log, "written.ops"))
    exchange = output_of([*PROGRAM, "send", "1"], log, "sent.ops")
    repeats, times = REPEATS[count], TIMES[count]
    runs = {
        "bytes": ([*PROGRAM, "bytes"], log, repeats),
        "read_log": ([*PROGRAM, "read"], log, repeats),
        "receive": ([*PROGRAM, "receive"], exchange, repeats),
        "paged": (PROGRAMS["paged"], log, repeats),
    }
    for name, word in WRITES.items():
        runs[name] = ([*PROGRAM, word, str(times)], log, 1)
        runs["no " + name] = ([*PROGRAM, word, "0"], log, 1)
    costs = {name: (cost.seconds, cost.system) for name, cost in least_costs(runs).items()}
    for name in WRITES:
        pairs = zip(costs[name], costs.pop("no " + name))
        costs[name] = tuple(max(0, some - none) / times for some, none in pairs)
    return costs


def print_costs(count, size, costs):
    for name, (user, system) in costs.items():
        row = f"{count:>10,}  {name:<10} {user * 1e6 / count:>9.3f} {system * 1e6 / count:>9.3f}"
        seconds = user + system
        # The clock may be too coarse to see a short one.
        rates = (f"{count / seconds:,.0f}", f"{size / seconds / 1e6:,.0f}") if seconds else ("-", "-")
        print(f"{row} {rates[0]:>14} {rates[1]:>9}", flush=True)


def spelling_ratio(count, spelling):
    """Returns how many times paged's time on a log mgr takes if it is spelled otherwise."""
    logs = {"paged": generated("typing", count), "mgr": generated("typing", count, spelling)}
    runs = {name: (PROGRAMS[name], log, REPEATS[count]) for name, log in logs.items()}
    texts = [output_of(words, log, f"{name}.text") for name, (words, log, _) in runs.items()]
    compare(*texts)
    costs = least_costs(runs)
    return costs["mgr"].seconds / costs["paged"].seconds


def main():
    LOGS.mkdir(parents=True, exist_ok=True)
    print("                            us/op of:           by their sum:")
    print("operations  work            user    system        ops/s      MB/s")
    ratios = []
    for count in TIMES:
        log = generated("chain", count)
        costs = costs_of(log, count)
        print_costs(count, log.stat().st_size, costs)
        writing, reading = costs["append_log"][0], costs["paged"][0]
        spelled = [spelling_ratio(count, spelling) for spelling in SPELLINGS]
        ratios.append((count, writing / reading, *spelled))
    print("\nuser time over that of paged, which reads the log in the usual spelling:")
    print("                          mgr show, where the members and blanks, or the characters,")
    print("operations   append_log   are spelled otherwise")
    for count, writing, loose, numbered in ratios:
        print(f"{count:>10,} {writing:>12.2f} {loose:>23.2f} {numbered:>13.2f}")


if __name__ == "__main__":
    main()
