#!/usr/bin/env python3
"""Says which sources make a refusal of memory of their own accord.

Whoever answers that memory was refused, in whatever fault, holds what an allocator answered: an
`OutOfMemory`. So outside of tests no code names `AllocError`, `AllocFailed` or
`ErrorKind::OutOfMemory` as a value, and none gives them another name: they are types, are compared
with, are matched, and `AllocError::from` takes what was answered. Exits with 1 if another place is
found, or if one of those in `STILL` is gone.
"""

import collections
import pathlib
import re
import sys

import plain_ends  # noqa: F401

ROOT = pathlib.Path(__file__).resolve().parent.parent
TESTS = re.compile(r"test_|bench_|\w+_test$")
# How often sources make one, since what was answered is kept by nobody, or since they hide what can't happen.
STILL = {
    "crates/mg_files/src/fault.rt": 1,  # a read of bytes in memory that fails
    "crates/mg_workspace/src/fault.rt": 1,  # a buffer that refuses what no command asks of it
    "crates/mgr_args/src/job.rt": 1,  # clap says that it found no memory
    "crates/mgr_show/src/join.rt": 1,  # a read of bytes in memory that fails
    "crates/mgr_show/src/missing.rt": 1,  # the same
    "crates/mgr_show/src/note.rt": 1,  # the same
    "crates/rga_exchange/src/fault.rt": 1,  # a Vec that is written to says that it found no memory
    "crates/rga_lines/src/fault.rt": 1,  # serde_json says that it found no memory
    "crates/rga_ops/src/out_of_memory.rt": 2,  # a device says so; counts beyond the greatest number
}

NAMES = ("AllocError", "AllocFailed", "OutOfMemory")
BLANK = re.compile(r"//[^\n]*|/\*.*?\*/|b?\"(?:\\.|[^\"\\])*\"|b?'(?:\\.[^']*|[^'\\])'", re.S)
TOKEN = re.compile(r"\w+|::|->|=>|==|!=|[^\w\s]")


def tokens_of(text):
    """Returns the tokens of a text, each with its line, without comments and literals."""
    plain = BLANK.sub(lambda found: re.sub(r"[^\n]", " ", found[0]), text)
    ends = [found.start() for found in re.finditer("\n", plain)]
    tokens, line = [], 0
    for found in TOKEN.finditer(plain):
        while line < len(ends) and ends[line] < found.start():
            line += 1
        tokens.append((found[0], line + 1))
    return tokens


def after(words, start, opening="{", closing="}"):
    """Returns the place after the block that opens next."""
    at = words.index(opening, start)
    depth = 0
    for place in range(at, len(words)):
        depth += (words[place] == opening) - (words[place] == closing)
        if depth == 0:
            return place + 1
    return len(words)


def first_of(words, start, ends):
    return next((place for place in range(start, len(words)) if words[place] in ends), len(words))


def skipped(words, at):
    """Returns the place after what stands here and runs nothing: a clause, a ghost item, a test, a type, a head of an
    item; none where code stands."""
    word = words[at]
    if word in ("requires", "ensures", "decreases"):
        return after(words, at)
    if word == "ghost":
        end = first_of(words, at, "{;")
        return (after(words, at) if words[end : end + 1] == ["{"] else end) + 1
    if word == "#":
        end = after(words, at, "[", "]")
        of_test = words[at + 2 : at + 3] == ["test"] or words[at + 2 : at + 6] == ["cfg", "(", "test", ")"]
        return after(words, end) if of_test else end
    if word in ("struct", "enum", "union"):
        end = first_of(words, at, "{;")
        return after(words, at) if words[end : end + 1] == ["{"] else end + 1
    if word in ("fn", "impl", "trait"):
        return first_of(words, at, ("{", ";", "requires", "ensures", "decreases", "ghost"))
    return None


def path_start(words, at):
    while at >= 2 and words[at - 1] == "::":
        at -= 2
    return at


def is_made(words, at):
    """Whether the name at this place is a value that is made there."""
    word, following = words[at], words[at + 1 : at + 3]
    start = path_start(words, at)
    before = words[start - 1] if start else ""
    if word == "OutOfMemory":
        return words[at - 2 : at] == ["ErrorKind", "::"] and before not in ("==", "!=") and following[:1] not in (["=>"], ["|"])
    if following[:1] == [">"] or before == "<":
        return False
    return following != ["::", "from"] and not (word == "AllocFailed" and following[:1] == ["<"])


def makings(text):
    """Yields the lines of a text on which a refusal is made, or gets another name."""
    tokens = tokens_of(text)
    words = [word for word, _ in tokens]
    at = 0
    while at < len(words):
        if (end := skipped(words, at)) is not None:
            at = max(end, at + 1)
        elif words[at] in ("use", "type"):
            end = first_of(words, at, ";")
            renamed = "as" if words[at] == "use" else "="
            for place in range(at, end):
                around = (words[place + 1 : place + 2], words[place - 1 : place])
                named = words[place] in NAMES + ("ErrorKind",) and [renamed] in around
                if named or words[place : place + 2] == ["ErrorKind", "::"]:
                    yield tokens[place][1]
            at = end + 1
        else:
            if words[at] in NAMES and is_made(words, at):
                yield tokens[at][1]
            at += 1


def main():
    found = collections.defaultdict(list)
    for path in sorted(ROOT.glob("crates/*/src/**/*.rt")):
        if not TESTS.match(path.relative_to(ROOT / "crates").parts[0]):
            for line in makings(path.read_text()):
                found[str(path.relative_to(ROOT))].append(line)
    wrong = [f"{path}:{line}: a refusal of memory is made here" for path in found if path not in STILL for line in found[path]]
    for path, count in STILL.items():
        if len(found[path]) != count:
            wrong.append(f"{path}: {len(found[path])} refusals of memory are made here, on the lines {found[path]}, and not {count}")
    print(*wrong, sep="\n", end="\n" if wrong else "")
    return bool(wrong)


if __name__ == "__main__":
    sys.exit(main())
