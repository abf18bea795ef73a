"""A program that takes the place of mgr: it knows text, saving and one buffer.

It answers each block of keys by a status, and by a second one with an operation where a text was typed
in it. A save keeps what another program has written. Of reports it knows sizes, rests, pastes, places, whose columns
are their counters, and operations, which it adds to a log at once; those of replica 13 are conflicts. The end of
the keys is a save, which takes long with `slow` for a name.

`claims`, `missing` and `merge` look at the lines of a log alone. One with replica 99 is another note's.

Of its other commands it knows what they say of a log, which has the text of the note in it, by replica
1001. One that begins with `?` is refused, and one with `!` cannot be read. If it joins logs the
second one conflicts in its last line.
"""

import json
import os
import pathlib
import re
import sys
import time
from typing import Any

from context import BUFFER, written

LABELS = {"\x1bx": "M-x ", "\x18b": "Switch to buffer: ", "\x18\x06": "Find file: ", "\x18k": "Kill buffer: "}


class Live:
    """A live session: its text and whether that is changed, and what is asked and said."""

    def __init__(self, name: str) -> None:
        self.name, self.text, self.saved, self.is_changed = name, "", "", False
        rows = sys.argv.index("--rows") if "--rows" in sys.argv else 0
        self.rows, self.keys, self.reports = int(sys.argv[rows + 1]) if rows else 3, 0, 0
        self.begun = self.answer = self.message = self.label = self.copied = ""
        self.asks = self.is_typed = self.is_quitting = False
        self.refused: list[list[object]] = []
        self.end = "none"
        self.places: list[list[int]] = []
        # What came of a report, up to its end.
        self.report: bytes | None = None

    def tell(self, operations: int = 0, more: bool = False) -> None:
        """Writes a status, and the frame, or so many operations in place of it."""
        counts = {"keys": self.keys, "reports": self.reports, "more": more, "windows": [[self.rows - 2, self.name]]}
        buffer = BUFFER | {"changed": self.is_changed, "name": self.name}
        prompt = {"mode": "prompt", "prompt": {"answer": self.answer, "label": self.label}} if self.asks else {}
        said = {"begun": bool(self.begun), "message": self.message, "cursor": [0, len(self.text)]}
        said |= {"refused": self.refused, "saved": self.end, "places": self.places}
        frame = [self.text, *[""] * (self.rows - 3), f"----Mg: {self.name} (fundamental)", self.message] if not operations else []
        os.write(1, written(frame, operations, buffer=buffer, live=buffer, **counts, **prompt, **said))

    def take(self, byte: int) -> None:
        """Takes a byte of a key or of a report."""
        if self.report is not None and byte != ord("\n"):
            self.report += bytes([byte])
        elif self.report is not None:
            self.reports += 1
            self.heed(json.loads(self.report))
            self.report = None
        elif byte == 0xFF:
            self.report = b""
        else:
            self.keys += 1
            self.press(chr(byte))

    def heed(self, told: "dict[str, Any]") -> None:
        """Does what a report asks for."""
        if told["op"] == "size":
            self.rows = told["rows"]
        elif told["op"] == "rest":
            if self.is_changed:
                self.save()
            self.message = ""
        elif told["op"] == "places":
            self.places = [[*place, 0, place[0]] for place in told["places"]]
        elif told["op"] == "paste" and self.name.endswith("full"):
            self.refused.append([self.reports, "Full"])
        elif told["op"] == "paste":
            self.text, self.is_changed = self.text + told["text"], True
        elif told["id"][1] == 13:
            self.refused.append([self.reports, "Conflict"])
        else:
            self.text, self.is_changed = self.text + told.get("char", ""), True
            with open(f"{self.name}.ops", "ab") as log:
                log.write((self.report or b"") + b"\n")

    def press(self, key: str) -> None:
        """Presses a key, or goes on with one that was begun."""
        self.begun, key = "", self.begun + key
        if key in ("\x18", "\x1b"):
            self.begun = key
            return
        self.message = ""
        if key in LABELS or key == "\x07":
            self.asks, self.answer, self.label = key in LABELS, "", LABELS.get(key, "")
        elif key == "\x1bw":
            self.copied = self.text
        elif key == "\x19":
            self.text, self.is_changed = self.copied, True
        elif key == "y" and self.is_quitting:
            sys.exit()
        elif self.asks and key == "\r":
            self.asks = False
            if self.label == "Find file: ":
                self.copied, self.name, self.text, self.saved = self.text, self.answer, "", ""
            elif self.label == "Switch to buffer: " and self.answer != self.name:
                self.name, self.text, self.is_changed = self.answer, "", False
        elif self.asks:
            self.answer += key
        elif key == "\x18\x13":
            self.save()
        elif key == "\x18\x03" and not self.is_changed:
            sys.exit()
        elif key == "\x18\x03":
            self.is_quitting = True
        elif key.isascii() and key.isprintable():
            self.text, self.is_changed, self.is_typed = self.text + key, True, True

    def save(self) -> None:
        path = pathlib.Path(self.name)
        try:
            if path.exists() and path.read_text() != self.saved:
                os.rename(path, f"{path}~")
            path.write_text(self.text)
        except OSError:
            self.end = "file"
            return
        self.saved, self.is_changed, self.message, self.end = self.text, False, f"Wrote {path}", "ok"

    def run(self) -> None:
        """Takes keys to their end, and answers each block of them."""
        self.tell()
        while block := os.read(0, 4096):
            self.is_typed, self.refused, self.end = False, [], "none"
            for byte in block:
                self.take(byte)
            self.tell(more=self.is_typed)
            if self.is_typed:
                self.tell(operations=1)
        if self.name.endswith("slow"):
            time.sleep(0.5)
        if self.is_changed:
            self.save()
        self.tell()


def numbers(log: str, text: pathlib.Path) -> str:
    """Returns what `mgr log` says of this log, and of a text."""
    is_text = "unread" if not text.exists() else "same" if text.read_text() == log else "other"
    told = {"bytes": len(log), "operations": len(log), "waiting": log.count("~"), "text": is_text}
    return json.dumps({**told, "replicas": [{"replica": 1001, "characters": len(log), "counter": len(log)}]})


def command(word: str, name: str) -> None:
    """Does a command on a log."""
    text, path = pathlib.Path(name), pathlib.Path(name if word == "join" else f"{name}.ops")
    log = path.read_text()
    if word == "join":
        sys.exit(f"{name}: line {log.count(chr(10))}: Conflict")
    if log[0] == "!":
        sys.stderr.write(f"{path}: device fault\n")
        sys.exit(3)
    if word == "mend":
        print("nothing to mend" if log[0] != "?" else "1 line is no operation")
        if text.exists() and text.read_text() != log:
            text.rename(f"{name}.~1~" if os.path.exists(f"{name}~") else f"{name}~")
        for path in (path, text):
            path.write_text(log.lstrip("?"))
    elif log[0] == "?":
        sys.exit(f"{path}: line 1: Json")
    elif word == "show":
        count = int(sys.argv[sys.argv.index("--lines") + 1]) if "--lines" in sys.argv else None
        sys.stdout.write("".join(log.splitlines(keepends=True)[:count]))
    elif word == "compact":
        path.rename(f"{path}~")
    else:
        print(numbers(log, text))


def identifiers(lines: "list[str]") -> "list[str]":
    """Returns the identifiers of operations, or of claims."""
    return [found[1] for line in lines if (found := re.search(r'"(?:id|block)":(\[\d+,\d+\])', line))]


def exchange(word: str, name: str) -> None:
    """Does a command on the lines of a log."""
    if word == "merge":
        given = sys.stdin.read() if name == "-" else pathlib.Path(name).read_text()
        sys.exit("-: a log of another note, which --adopt takes" if ",99]" in given else 0)
    lines = pathlib.Path(f"{name}.ops").read_text().splitlines() if name != "-" else []
    if word == "claims":
        print('{"op":"claims","version":1}\n' + "".join(f'{{"block":{each},"ins":[0,0]}}\n' for each in identifiers(lines)), end="")
    else:
        head, *claims = sys.stdin.read().splitlines() or [""]
        known = identifiers(claims)
        if head != '{"op":"claims","version":1}':
            sys.exit("claims: no head")
        print("".join(f"{line}\n" for line in lines if identifiers([line])[0] not in known), end="")


def main() -> None:
    name = sys.argv[-1]
    if sys.argv[1] in ("claims", "missing", "merge"):
        exchange(sys.argv[1], name)
    elif sys.argv[1] in ("log", "show", "mend", "compact", "join"):
        command(sys.argv[1], name)
    elif "--live" in sys.argv:
        Live(name).run()


main()
