#!/usr/bin/env python3
"""Gives mgr logs whose shape is chosen to cost time, and looks how the time grows with their size.

The argument is a built mgr. Each shape is a log of so many lines: its identifiers, counters, parents, chains
or spellings are such as a store, a map or a reader may be slow with. Each size is shown by `mgr show` and
loaded by `mgr edit`, and its processor time is taken, the least of 3 runs. A row has these times and the
exponent log2(t(2n) / t(n)) of each doubling; n log n has 1.1 here. A shape grows too fast where the mean of
its exponents is above 1.2, or above what KNOWN says of it, each time of six that it is measured so: times
scatter where others use the machine. `make hostile` calls it. It ends with an error where one grows too fast.
"""

import itertools
import math
import os
import pathlib
import random
import resource
import subprocess
import sys
import tempfile

import plain_ends  # noqa: F401

SIZES = (50_000, 100_000, 200_000)
RUNS, ROUNDS = 3, 6
TOO_FAST = 1.2

# Seconds: after which a run is not repeated, and is ended.
LONG, SECONDS = 2, 120

# Shapes that are known to grow too fast: the exponent that each may have, and the reason.
CHAIN, SIBLINGS = "a chain in no order", "siblings in no order"
FAR = "what an operation touches lies anywhere in memory, and with the size ever less of it in the caches"
KNOWN = {
    CHAIN: (1.6, FAR),
    SIBLINGS: (1.6, FAR),
}

# The hash of the map of a `TreeStore`, which has a fixed seed, and how many entries a group of the map has at most on average.
SEED, MULTIPLIER, WORD = 0x243F6A8885A308D3, 0x9E3779B97F4A7C15, 1 << 64
GROUP_LOAD = 9


def inserted(counter, parent, replica=1, of=1):
    """Returns the line of an insertion."""
    return b'{"char":"a","id":[%d,%d],"op":"ins","parent":[%d,%d]}\n' % (counter, replica, parent, of if parent else 0)


def deleted(counter):
    return b'{"id":[%d,1],"op":"del"}\n' % counter


def chain(size):
    return [inserted(i, i - 1) for i in range(1, size + 1)]


def siblings(size):
    return [inserted(i, 0) for i in range(1, size + 1)]


def from_both_ends(size):
    """Siblings: the least, the greatest, the next to the least, and so on inwards."""
    lines = siblings(size)
    return [lines[i // 2 if i % 2 == 0 else -1 - i // 2] for i in range(size)]


def shuffled(lines):
    random.Random(1).shuffle(lines)
    return lines


def deletions_first(size):
    """All of a chain is deleted before it comes."""
    half = size // 2
    return [deleted(i) for i in range(1, half + 1)] + chain(half)


def powers(size):
    """A chain whose counters are multiples of a power of two, so that they end in as many zeros."""
    return [inserted(i << 34, i - 1 << 34) for i in range(1, size + 1)]


def replicas(size):
    """Siblings that differ in their replicas, and hardly in their counters."""
    return [inserted(i // 65535 + 1, 0, replica=i % 65535 + 1) for i in range(size)]


def spelled(size):
    """A chain in no usual spelling: members in another order, blanks, and escapes in each text."""
    line = '{ "parent" : [ %d , %d ] , "\\u006fp" : "\\u0069ns" ,\t"id" : [ %d , 1 ] , "char" : "\\u0061" } \r\n'
    return [(line % (i - 1, i > 1, i)).encode() for i in range(1, size + 1)]


def two_parents(size):
    """Siblings below one of two in turn."""
    return [inserted(1, 0), inserted(2, 0), *(inserted(i, 1 + i % 2) for i in range(3, size + 1))]


def comb(size):
    """A chain, and below each of its elements another one that comes after all of the chain."""
    half = size // 2
    return chain(half) + [inserted(half + i, i) for i in range(1, half + 1)]


def families(size):
    """Families of 65, one more than stand in one piece."""
    return [inserted(i, i // 65 * 65 if i % 65 else max(0, i - 65)) for i in range(1, size + 1)]


def waiting(size):
    """Families whose parents come last, each below the one that comes next."""
    return [inserted(i, i - 1 - (i - 1) % 2) for i in range(size, 0, -1)]


def folded(state, number, length):
    """Returns the state of the map's hasher after a number of so many bytes."""
    product = (state ^ number) * (MULTIPLIER ^ 2 * length)
    return product % WORD ^ product // WORD


def group_of(counter, groups):
    """Returns in which of so many groups the map looks first for an identifier of replica 1."""
    state = folded(folded(SEED, counter, 8), 1, 2)
    return (state ^ state >> 32) % groups


def colliding(size):
    """Siblings that the map looks for in the first quarter of its groups."""
    groups = 1
    while GROUP_LOAD * groups < size:
        groups *= 2
    counters = (i for i in itertools.count(1) if group_of(i, groups) < groups // 4)
    return [inserted(counter, 0) for counter in itertools.islice(counters, size)]


SHAPES = {
    "a chain": chain,
    "a chain that comes last first": lambda size: chain(size)[::-1],
    CHAIN: lambda size: shuffled(chain(size)),
    "siblings, rising": siblings,
    "siblings, falling": lambda size: siblings(size)[::-1],
    "siblings, from both ends": from_both_ends,
    SIBLINGS: lambda size: shuffled(siblings(size)),
    "siblings below two in turn": two_parents,
    "siblings that differ in their replicas": replicas,
    "families of 65": families,
    "a comb": comb,
    "twins that come before their parents": waiting,
    "deletions before their insertions": deletions_first,
    "deletions alone": lambda size: [deleted(i) for i in range(1, size + 1)],
    "counters that end in zeros": powers,
    "identifiers that collide in a hash": colliding,
    "one line again and again": lambda size: [inserted(1, 0)] * size,
    "blanks, escapes and other orders": spelled,
}


def processor_time():
    """Returns the processor time of all jobs so far: which part of it is the system's is only sampled, by ticks."""
    used = resource.getrusage(resource.RUSAGE_CHILDREN)
    return used.ru_utime + used.ru_stime


def seconds_of(words, folder, given):
    """Runs a job; returns the seconds of processor time that it took."""
    before = processor_time()
    with open(given, "rb") as keys:
        ran = subprocess.run(words, cwd=folder, stdin=keys, capture_output=True, timeout=SECONDS)
    if ran.returncode:
        sys.exit(f"{' '.join(words)} ends with {ran.returncode}, and says {ran.stderr.decode()!r}")
    return processor_time() - before


class Shape:
    """Logs of a shape, in a folder for each size, and the least times of jobs on them."""

    def __init__(self, mgr, folder, make):
        self.folders = [folder / str(size) for size in SIZES]
        for size, place in zip(SIZES, self.folders):
            place.mkdir(parents=True, exist_ok=True)
            (place / "note.ops").write_bytes(b"".join(make(size)))
        edit = [mgr, "edit", "note", "--replica", "9", "--rows", "3", "--cols", "20"]
        self.jobs = {"show": ([mgr, "show"], "note.ops"), "edit": (edit, os.devnull)}
        self.times = {}

    def measure(self, job, most):
        """Measures a round, and then others in its place while the job seems to grow faster than that."""
        for _ in range(ROUNDS):
            self.times[job] = [math.inf] * len(SIZES)
            for _ in range(RUNS):
                self._run(*self.jobs[job], self.times[job])
            if self.grows_by(job) <= most:
                return

    def _run(self, words, given, times):
        """Runs a job at each size, but not again at one where it takes long, which scatters little."""
        for i, folder in enumerate(self.folders):
            if not LONG < times[i] < math.inf:
                times[i] = min(times[i], seconds_of(words, folder, folder / given))

    def exponents(self, job):
        times = [max(time, 0.0001) for time in self.times[job]]
        return [math.log2(later / earlier) for earlier, later in zip(times, times[1:])]

    def grows_by(self, job):
        """Returns the mean of the exponents."""
        exponents = self.exponents(job)
        return sum(exponents) / len(exponents)

    def row(self, job):
        times = " ".join(f"{time:7.3f}" for time in self.times[job])
        return f"{job} {times}  {' '.join(f'{it:5.2f}' for it in self.exponents(job))}"


def measured(mgr, folder, name, make):
    """Measures a shape, prints its row, and returns by how much it grows at most."""
    shape, (most, why) = Shape(mgr, folder, make), KNOWN.get(name, (TOO_FAST, ""))
    for job in shape.jobs:
        shape.measure(job, most)
    grows = max(map(shape.grows_by, shape.jobs))
    verdict = "too fast" if grows > most else "well" if grows <= TOO_FAST else f"known: {why}"
    print(f"{name:<40} {'  '.join(map(shape.row, shape.jobs))}  {verdict}", flush=True)
    return grows


def main():
    if len(sys.argv) != 2:
        sys.exit("usage: shapes.py MGR")
    mgr = os.path.abspath(sys.argv[1])
    print(f"seconds for {', '.join(f'{size:,}' for size in SIZES)} lines, and the exponents of both doublings")
    with tempfile.TemporaryDirectory(prefix="mgr-shapes-") as folder:
        grows = {name: measured(mgr, pathlib.Path(folder), name, make) for name, make in SHAPES.items()}
    fast = {name for name, by in grows.items() if by > TOO_FAST}
    new = {name for name in fast if name not in KNOWN or grows[name] > KNOWN[name][0]}
    known = len(fast - new)
    print(f"\n{len(SHAPES)} shapes, of which {len(fast)} grow faster than n log n, {known} of them as is known.")
    if new:
        sys.exit(f"too fast: {', '.join(sorted(new))}")


if __name__ == "__main__":
    main()
