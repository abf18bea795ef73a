#!/usr/bin/env python3
"""Measures `mgr show` against a program that does its job in plain Rust, on logs of each shape and size.

Prints a row a log: the microseconds of user time that each program takes an operation, how many times the other
program's user time mgr takes, the peak memory of both and how many times it, and what is wanted of the times and of
mgr's peak. Then a row a shape: how many times the cost of an operation at 10,000 operations it is at the greatest
size, for each program. Both programs are run in turn, and the least of the times counts. That both write the same
bytes is tested first.

With --counts it prints instead what a busy machine does not change: the instructions an operation, by valgrind, and
the page faults of each program.
"""

import argparse
import collections
import filecmp
import pathlib
import re
import shutil
import subprocess
import sys

sys.path.append(str(pathlib.Path(__file__).resolve().parent.parent / "scripts"))

import plain_ends  # noqa: E402, F401

SIZES = (1_000, 10_000, 100_000, 1_000_000)
GREATEST = {
    "typing": 1_000_000,
    "chain": 1_000_000,
    "shuffled": 1_000_000,
    "waiting": 1_000_000,
    "siblings-rising": 100_000,
    "siblings-falling": 100_000,
}
GROWS_FROM = 10_000
# At the greatest size: how many times the other program's user time, and how many MB.
WANTED, WANTED_PEAK = {"typing": 1.25, "chain": 1.5, "shuffled": 2.0}, 36

BUILD = pathlib.Path(__file__).parent.parent / "build"
LOGS = BUILD / "bench"
PROGRAMS = {"mgr": [BUILD / "mgr", "show"], "paged": [BUILD / "paged"]}

# The runs in a row that make one measurement, since a short run's time is coarse; and the
# measurements, of which the least counts.
REPEATS = {1_000: 100, 10_000: 50, 100_000: 10, 1_000_000: 1}
MEASUREMENTS = {1_000: 5, 10_000: 5, 100_000: 3, 1_000_000: 3}

# Python takes the shell's place once the runs are over, so the shell's children are the program
# alone. Were it started from here, its peak would be at least this program's.
RUNS = """
log=$1 repeats=$2 python=$3 usage=$4
shift 4
while [ "$repeats" -gt 0 ]; do
    "$@" <"$log" >/dev/null || exit
    repeats=$((repeats - 1))
done
exec "$python" -c "$usage"
"""
USAGE = """
import resource
usage = resource.getrusage(resource.RUSAGE_CHILDREN)
print(usage.ru_utime, usage.ru_stime, usage.ru_maxrss, usage.ru_minflt)
"""

# The seconds of user time and of the system's, the peak memory, and the page faults.
Cost = collections.namedtuple("Cost", "seconds system kilobytes faults")


def generated(shape, count, *spelling):
    """Returns a log of that many operations."""
    log = LOGS / ("-".join([shape, str(count), *spelling]) + ".ops")
    LOGS.mkdir(parents=True, exist_ok=True)
    with open(log, "wb") as output:
        subprocess.run([BUILD / "generate", shape, str(count), *spelling], stdout=output, check=True)
    return log


def compare(log):
    """Ends the measuring where the programs write different bytes."""
    texts = []
    for name, words in PROGRAMS.items():
        texts.append(log.with_suffix("." + name))
        with open(log, "rb") as given, open(texts[-1], "wb") as output:
            subprocess.run(words, stdin=given, stdout=output, check=True)
    if not filecmp.cmp(*texts, shallow=False):
        sys.exit(f"{texts[0]} and {texts[1]} differ")


def measured(words, log, repeats):
    """Returns what one run costs, by so many in a row."""
    shell = ["sh", "-c", RUNS, "sh", log, str(repeats), sys.executable, USAGE, *words]
    seconds, system, kilobytes, faults = subprocess.check_output(shell).split()
    return Cost(float(seconds) / repeats, float(system) / repeats, int(kilobytes), int(faults) / repeats)


def least(costs):
    """Returns the least of each figure."""
    return Cost(*map(min, zip(*costs)))


def least_costs(log, count):
    """Returns for each program the least of each figure."""
    costs = {name: [] for name in PROGRAMS}
    for _ in range(MEASUREMENTS[count]):
        for name, words in PROGRAMS.items():
            costs[name].append(measured(words, log, REPEATS[count]))
    return {name: least(each) for name, each in costs.items()}


def instructions(words, log):
    """Returns how many instructions a program takes."""
    with open(log, "rb") as given:
        command = ["valgrind", "--tool=callgrind", "--callgrind-out-file=/dev/null", *words]
        done = subprocess.run(command, stdin=given, stdout=subprocess.DEVNULL, stderr=subprocess.PIPE, check=True, text=True)
    return int(re.search(r"refs:\s+([\d,]+)", done.stderr)[1].replace(",", ""))


def times(costs, figure):
    """Returns how many times the other program's figure mgr has."""
    mgr, other = (getattr(costs[name], figure) for name in PROGRAMS)
    return mgr / other


def wanted(shape, count, costs):
    """Returns what is wanted of a log, and whether it is met."""
    if count < max(SIZES) or shape not in WANTED:
        return ""
    is_met = times(costs, "seconds") <= WANTED[shape] and costs["mgr"].kilobytes / 1024 <= WANTED_PEAK
    return f"{WANTED[shape]:>9.2f}, {WANTED_PEAK} MB  {'well' if is_met else 'MORE'}"


def print_row(shape, count, costs):
    row = f"{shape:<16} {count:>10,}" + "".join(f"{each.seconds * 1e6 / count:>9.3f}" for each in costs.values())
    row += f"{times(costs, 'seconds'):>8.2f}" + "".join(f"{each.kilobytes / 1024:>8.1f}" for each in costs.values())
    print(f"{row}{times(costs, 'kilobytes'):>8.2f} {wanted(shape, count, costs)}", flush=True)


def print_growth(costs):
    """Prints a row for each shape that was measured beyond where the growth begins."""
    grown = {shape: by_count for shape, by_count in costs.items() if max(by_count, default=0) > GROWS_FROM}
    if not grown:
        return
    print(f"\nus/op at the greatest size, over us/op at {GROWS_FROM:,} operations:")
    print("shape              greatest       mgr      paged")
    for shape, by_count in grown.items():
        greatest = max(by_count)
        growths = []
        for name in PROGRAMS:
            first, last = by_count[GROWS_FROM][name], by_count[greatest][name]
            growths.append(last.seconds / greatest / (first.seconds / GROWS_FROM))
        print(f"{shape:<16} {greatest:>10,} {growths[0]:>9.2f} {growths[1]:>10.2f}")


def logs_of(shapes, largest):
    """Yields the shape, the count and the path of each log, of which both programs make the same text."""
    for shape in shapes:
        for count in SIZES:
            if count <= min(largest, GREATEST[shape]):
                log = generated(shape, count)
                compare(log)
                yield shape, count, log


def measure_all(shapes, largest):
    """Prints a row for each log, and returns the costs by shape and count."""
    print("                            us/op of:         times    peak MB of:     times  wanted")
    print("shape            operations      mgr    paged             mgr   paged")
    costs = {shape: {} for shape in shapes}
    for shape, count, log in logs_of(shapes, largest):
        costs[shape][count] = least_costs(log, count)
        print_row(shape, count, costs[shape][count])
    return costs


def count_all(shapes, largest):
    """Prints a row for each shape, of its largest log."""
    if shutil.which("valgrind") is None:
        sys.exit("valgrind is not installed, and it counts the instructions")
    print("                            instructions/op of:  times   page faults of:  times")
    print("shape            operations       mgr     paged               mgr   paged")
    for shape in shapes:
        *_, (_, count, log) = logs_of([shape], largest)
        each = [instructions(words, log) / count for words in PROGRAMS.values()]
        costs = {name: measured(words, log, 1) for name, words in PROGRAMS.items()}
        row = f"{shape:<16} {count:>10,} {each[0]:>9.0f} {each[1]:>9.0f} {each[0] / each[1]:>8.2f} "
        faults = "".join(f"{cost.faults:>8,.0f}" for cost in costs.values())
        print(f"{row}{faults} {times(costs, 'faults'):>7.2f}", flush=True)


def main():
    parser = argparse.ArgumentParser(description=__doc__, formatter_class=argparse.RawDescriptionHelpFormatter)
    parser.add_argument("--largest", metavar="N", type=int, default=max(SIZES), help="leave out logs of more operations")
    parser.add_argument("--shape", metavar="SHAPE", choices=GREATEST, action="append", help=", ".join(GREATEST))
    parser.add_argument("--counts", action="store_true", help="count instructions and page faults, of the largest logs")
    given = parser.parse_args()
    shapes = given.shape or list(GREATEST)
    if given.counts:
        count_all(shapes, given.largest)
    else:
        print_growth(measure_all(shapes, given.largest))


if __name__ == "__main__":
    main()
