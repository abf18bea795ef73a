"""What mgr writes in a live session: statuses, each with the rows of the newest frame."""

import json
from collections.abc import Mapping
from dataclasses import dataclass, field
from itertools import accumulate
from typing import Any

PLAIN, PROMPT, SEARCH, QUERY = "plain", "prompt", "search", "query"
# How mgr labels its prompts, of those that the front does something at.
COMMAND, FIND, SWITCH, KILL = "M-x ", "Find file: ", "Switch to buffer: ", "Kill buffer: "

# Members of a status that are kept as they are.
KEPT = ("begun", "keys", "message", "mode", "more", "reports", "saved")


@dataclass(frozen=True)
class Status:
    """What mgr says after a block of keys, and the rows of its newest frame."""

    frame: tuple[str, ...] = ()
    cursor: tuple[int, int] = (0, 0)
    # The text rows of each window, from the top.
    heights: tuple[int, ...] = ()
    # How many keys and reports were taken, and whether a key was begun.
    keys: int = 0
    reports: int = 0
    begun: bool = False
    # How keys are read, the open prompt, and what is said.
    mode: str = PLAIN
    label: str = ""
    answer: str = ""
    message: str = ""
    # The current buffer.
    buffer: str = ""
    is_changed: bool = False
    unsaved: int = 0
    # Whether a second status of this block follows, and how the last writing ended that its end did.
    more: bool = False
    saved: str = "none"
    # Own operations that are saved, as lines; the faults of reports, by the numbers of these.
    operations: tuple[bytes, ...] = ()
    refused: Mapping[int, str] = field(default_factory=dict)
    # Whether the current buffer is the live one; where its point is, as line, column, counter and replica.
    is_live: bool = True
    point: tuple[int, ...] = (0, 0, 0, 0)
    # Of places of others in the live buffer that show: counter, replica, row and column.
    places: tuple[tuple[int, ...], ...] = ()
    # How the text of the live buffer changed, if that is asked for: each time a range, and what is in its place then.
    changes: tuple[tuple[int, int, str], ...] = ()

    @property
    def mode_rows(self) -> list[int]:
        """Returns which rows are mode lines."""
        return [end - 1 for end in accumulate(height + 1 for height in self.heights)]


class Statuses:
    """The statuses of what is read bit by bit: a line of JSON, then rows and operations, which are lines too."""

    def __init__(self) -> None:
        self.rest = b""
        # The lines that no whole status has yet, of which the first says how many are its own, and what it says.
        self.lines: list[bytes] = []
        self.told: dict[str, Any] = {}
        self.frame: tuple[str, ...] = ()

    def take(self, written: bytes) -> list[Status]:
        """Returns the statuses that are whole with these bytes, the newest last."""
        *lines, self.rest = (self.rest + written).split(b"\n")
        self.lines += lines
        made: list[Status] = []
        while self.lines:
            self.told = self.told or json.loads(self.lines[0])
            rows = 1 + self.told["rows"]
            end = rows + self.told["operations"]
            if len(self.lines) < end:
                break
            if rows > 1:
                self.frame = tuple(row.decode("utf-8", "replace") for row in self.lines[1:rows])
            made.append(_status(self.frame, tuple(self.lines[rows:end]), self.told))
            self.told = {}
            del self.lines[:end]
        return made


def _status(frame: tuple[str, ...], operations: tuple[bytes, ...], told: dict[str, Any]) -> Status:
    prompt, buffer = told["prompt"] or {}, told["buffer"]
    row, column = told["cursor"] or (0, 0)
    return Status(
        frame,
        (row, column),
        tuple(height for height, _ in told["windows"]),
        label=prompt.get("label", ""),
        answer=prompt.get("answer", ""),
        buffer=buffer["name"],
        is_changed=buffer["changed"],
        unsaved=buffer["unsaved"],
        operations=operations,
        refused=dict(told["refused"]),
        is_live=buffer["name"] == (told["live"] or {}).get("name"),
        point=tuple(told["point"]),
        places=tuple(map(tuple, told["places"])),
        changes=tuple((each["lo"], each["hi"], each["text"]) for each in told.get("changes", ())),
        **{name: told[name] for name in KEPT},
    )
