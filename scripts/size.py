#!/usr/bin/env python3
"""Says how large the product is: lines of source, of definitions and of proofs, and functions, of each crate.

usage: size.py [TREE]. Crates of tests and of benchmarks, wrong bodies and what runs left are not counted; of each
kind each line counts, also a blank one or a comment. A law, which is a function with an empty body, is a function.
"""

import pathlib
import re
import sys

import build
import plain_ends  # noqa: F401

FUNCTION = re.compile(r"^\s*(?:pub(?:\([\w:]+\))? )?(?:(?:const|ghost|unsafe) )*fn ", re.MULTILINE)
NOT_OF_THE_PRODUCT = re.compile(r"test_|bench_|.*_test$")
FOLDERS = "src", "specs", "proofs"


def texts(crate, folder):
    """Returns the texts of the files in a folder of a crate."""
    return [path.read_text() for path in sorted((crate / folder).rglob("*")) if path.suffix in (".rt", ".antt")]


def size(crate):
    """Returns the lines of a crate's source, definitions and proofs, and its functions."""
    read = {folder: texts(crate, folder) for folder in FOLDERS}
    lines = [sum(text.count("\n") for text in read[folder]) for folder in FOLDERS]
    return *lines, sum(len(FUNCTION.findall(text)) for text in read["src"])


def main():
    top = pathlib.Path(sys.argv[1]) if sys.argv[1:] else build.TOP
    names = [line.partition(":")[0].split()[0] for line in (top / "crates.txt").read_text().splitlines()
             if line.strip() and not line.startswith("#")]
    sizes = {name: size(top / "crates" / name) for name in names if not NOT_OF_THE_PRODUCT.match(name)}
    row = "{:16}{:>8}{:>8}{:>8}{:>11}".format
    print(row("crate", "source", "specs", "proofs", "functions"))
    for name, sums in sizes.items():
        print(row(name, *sums))
    total = [sum(column) for column in zip(*sizes.values())]
    print(row(f"{len(sizes)} crates", *total))
    print(f"{sum(total[:3])} lines, {total[3]} functions")


if __name__ == "__main__":
    main()
