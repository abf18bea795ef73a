#!/usr/bin/env python3
"""Proves, tests and plays all: `rt ci` in a copy without wrong bodies, and then the scenes, and refused growths,
with the mgr that it built. With --wrong-bodies `rt ci` goes on over the tree as it stands: it takes what was proved,
and tries the named wrong bodies.

What rt says goes to build/test.log and build/gate.log; here stands how much is done and left, and what failed. The
last line counts proofs, tests, scenes, keys at which growths are refused, and wrong bodies together.
"""

import json
import pathlib
import re
import sys
import tempfile
import time

import build
import plain_ends  # noqa: F401
import refused_growths
import scenes
from progress import Progress, minutes

VERDICT = re.compile(r"(\d+) passed, (\d+) failed$")


def main():
    with tempfile.TemporaryDirectory(prefix="mgr-test-") as folder:
        tree = pathlib.Path(folder) / "tree"
        build.copy(build.listed(), tree)
        parts = [proved(tree, "test"), *played(tree / "crates/mgr/out/mgr")]
    if "--wrong-bodies" in sys.argv[1:]:
        parts.append(proved(build.TOP, "gate"))
    passed, failed = map(sum, zip(*parts))
    print(f"{passed} passed, {failed} failed")
    return 1 if failed or not passed else 0


def proved(tree, name):
    """Runs rt ci in a tree, says how far it has come, and returns what its last line counts."""
    build.BUILD.mkdir(exist_ok=True)
    progress = Progress(len(build.listed()), build.BUILD / f"{name}.log", build.BUILD / f"took-{name}.json")
    status, last = progress.run(tree)
    counts = next(filter(None, map(VERDICT.match, reversed(last))), None)
    passed, failed = map(int, counts.groups()) if counts else (0, 0)
    if status or failed or not counts:
        progress.show_faults()
        return passed, max(failed, 1)
    progress.keep()
    print(*[line for line in last if line.startswith("rt: ok")], counts[0], sep="\n", flush=True)
    return passed, failed


def played(mgr):
    """Plays what needs a built mgr; returns how much of each part passed and failed."""
    if not mgr.is_file():
        print("the scenes are not played: no mgr was built")
        return [(0, 1)]
    took = build.BUILD / "took-scenes.json"
    last = f", {minutes(json.loads(took.read_text()))} by the last time" if took.is_file() else ""
    print(f"the scenes are played, and growths of memory refused{last}", flush=True)
    begun = time.monotonic()
    parts = [scenes.played(mgr), refused_growths.short(mgr)]
    took.write_text(json.dumps(time.monotonic() - begun))
    return parts


if __name__ == "__main__":
    sys.exit(main())
