"""A program that takes the place of mgr for what channels ask: of a log it knows the lines alone, each by its digest.

A line that is no JSON is refused, and two that differ and have one identifier are a conflict.
"""

import hashlib
import json
import os
import pathlib
import sys
from collections.abc import Callable
from typing import Any

HEAD, END = '{"op":"claims","version":1}', '"op":"end"'


def name_of(line: bytes) -> str:
    return hashlib.sha256(line).hexdigest()


def read(line: bytes) -> dict[str, Any]:
    """Returns the members of an operation; none of what is none."""
    try:
        told: dict[str, Any] = json.loads(line)
        return told if told["op"] in ("ins", "del") else {}
    except (ValueError, KeyError):
        return {}


def lines_of(path: str) -> list[bytes]:
    """Returns the lines of a log, the whole ones where it has a name; ends the program where one is refused."""
    data = sys.stdin.buffer.read() if path == "-" else pathlib.Path(path).read_bytes()
    found: dict[str, bytes] = {}
    lines = data[: data.rfind(b"\n") + 1].splitlines()
    for number, line in enumerate(lines, 1):
        told = read(line)
        if not told:
            sys.exit(f"{path}: line {number}: Json")
        if told["op"] == "ins" and found.setdefault(str(told["id"]), line) != line:
            sys.exit(f"{path}: line {number}: Conflict")
    return list(dict.fromkeys(lines))


def log(name: str) -> str:
    return name if name == "-" else name + ".ops"


def write(lines: list[bytes]) -> None:
    sys.stdout.buffer.write(b"".join(line + b"\n" for line in lines))


def claims(name: str) -> None:
    blocks = [f'{{"block":"{name_of(line)}"}}' for line in lines_of(log(name))]
    print("\n".join([HEAD, *sorted(blocks), f'{{"count":{len(blocks)},{END}}}']))


def missing(name: str) -> None:
    told = sys.stdin.read()
    if END not in told:
        sys.exit("claims: Cut")
    write([line for line in lines_of(log(name)) if name_of(line) not in told])


def join(*paths: str) -> None:
    found = dict.fromkeys(line for path in paths for line in lines_of(path))
    ids: dict[str, bytes] = {}
    for line in found:
        if ids.setdefault(str(json.loads(line)["id"]), line) != line:
            sys.exit(f"{paths[-1]}: line 1: Conflict")
    write(sorted(found))


def merge(name: str, *_: str) -> None:
    """Tries a merge: one with no tie to the log is another note's."""
    known = [read(line) for line in lines_of(log(name))]
    ids = [told["id"] for told in known]
    if not any(told["id"] in ids or told.get("parent") in ids for told in map(read, lines_of("-"))):
        sys.exit("-: a log of another note, which --adopt takes")


def mend(name: str) -> None:
    path = pathlib.Path(log(name))
    lines = path.read_bytes().splitlines()
    kept = [line for line in lines if read(line)]
    path.write_bytes(b"".join(line + b"\n" for line in kept))
    print(f"{len(lines) - len(kept)} line is no operation")


def show() -> None:
    told = [json.loads(line) for line in lines_of("-")]
    print("".join(each["char"] for each in sorted(told, key=lambda each: each["id"]) if each["op"] == "ins"))


def main() -> None:
    command, *words = sys.argv[1:]
    if command != "show" and words[-1] != "-" and not os.path.exists(log(words[-1])) and command != "join":
        sys.exit(3)
    jobs: dict[str, Callable[..., None]] = {"claims": claims, "missing": missing, "join": join, "merge": merge, "mend": mend, "show": show}
    jobs[command](*[word for word in words if word != "--"])


main()
