#!/usr/bin/env python3
"""Runs the tests of documents, buffers and sites over the store that the gate does not run them over.

The gate proves and runs them over a `TreeStore`, and `mgr`, which its scenes are played with, stands on
a `FlatStore`. The contracts that they rest on are proved for both. Here the tests are run, unproved, by
Rattle's interpreter, in a copy of the tree in which each names a `FlatStore`.

It ends with an error unless all pass.
"""

import pathlib
import re
import shutil
import subprocess
import sys
import tempfile

import plain_ends  # noqa: F401

TOP = pathlib.Path(__file__).resolve().parent.parent
TESTS = ("mg_buffer_test",)
LEFT_OUT = shutil.ignore_patterns("out", "must-fail", "wrong", "proofs")


def over_flat(text):
    """Returns a text that names the other store, and its crate."""
    return text.replace("rga_tree", "rga_flat").replace("TreeStore", "FlatStore")


def copy_tree(to):
    shutil.copytree(TOP / "crates", to / "crates", ignore=LEFT_OUT)
    shutil.copy(TOP / "HANDLES", to)
    rows = (TOP / "crates.txt").read_text()
    for name in TESTS:
        rows = re.sub(rf"^{name}: .*", lambda row: over_flat(row[0]), rows, flags=re.M)
        for source in (to / "crates" / name / "src").rglob("*.rt"):
            source.write_text(over_flat(source.read_text()))
    (to / "crates.txt").write_text(rows)


def passes(crate):
    print(f"== {crate.name}", flush=True)
    return subprocess.run(["rt", "try", "--test"], cwd=crate, stdin=subprocess.DEVNULL).returncode == 0


def main():
    with tempfile.TemporaryDirectory(prefix="mgr-other-store-") as folder:
        tree = pathlib.Path(folder)
        copy_tree(tree)
        failed = [name for name in TESTS if not passes(tree / "crates" / name)]
    if failed:
        sys.exit(f"over a FlatStore not all pass: {', '.join(failed)}")
    print("Over a FlatStore all pass.")


if __name__ == "__main__":
    main()
