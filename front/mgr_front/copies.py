"""What is kept of each copy of a note, apart from it: its numbers, and how its last edit left it.

Each copy of a note that is written in needs a number of its own. So what is kept stands in the person's state folder,
by the machine, the user and the note's real path: a number is never copied with a note.
"""

import getpass
import hashlib
import json
import os
import secrets
import socket
from contextlib import suppress
from itertools import accumulate
from typing import Any

from mgr_front.notes import Refused, found
from mgr_front.program import Log

LEAST, MOST = 1000, 65000


def state_folder() -> str:
    """Returns the folder of this program's state."""
    named = os.environ.get("XDG_STATE_HOME", "")
    home = named if os.path.isabs(named) else os.path.expanduser("~/.local/state")
    return os.path.join(home, "mgr")


def own_folder(*names: str, makes: bool = True) -> str:
    """Returns a folder of the state, which is made for this person alone; it is `Refused` if others may write there."""
    for folder in accumulate(os.path.join(state_folder(), *names).split("/"), "{}/{}".format):
        with suppress(FileExistsError):
            if makes:
                os.mkdir(f"{folder}/", 0o700)
        seen = os.stat(folder) if folder.startswith(state_folder()) and os.path.isdir(folder) else None
        if seen and (seen.st_uid != os.getuid() or seen.st_mode & 0o022):
            raise Refused(f"{folder}: is not yours, or others may write there: see `chmod go-w {folder!r}`")
    return folder


def machine() -> str:
    """Returns a name of this machine that no other has: a copy of its files alone is not it."""
    number = found("/etc/machine-id") or b""
    return f"{socket.gethostname()} {number.decode('ascii', 'replace').strip()}".strip()


def user() -> str:
    try:
        return getpass.getuser()
    except (KeyError, OSError):
        return str(os.getuid())


def draw(used: set[int]) -> int:
    """Returns a number that is not used yet."""
    number: int = secrets.choice([*{*range(LEAST, MOST + 1)} - used])
    return number


def digest(data: bytes) -> str:
    return hashlib.sha256(data).hexdigest()


class Copy:
    """A copy of a note, and what is kept of it."""

    def __init__(self, path: str) -> None:
        """`path` is that of its text."""
        owner = [machine(), user(), os.path.realpath(path)]
        self.file = os.path.join(own_folder("copies", makes=False), digest(json.dumps(owner).encode()))
        # Its numbers, with the counters that were told. A digest of the text that was put last, and how many bytes
        # and operations its log had then, 0 if that is not known. How many bytes the log had as it was compacted.
        self.kept: dict[str, Any] = {"copy": owner, "counters": {}, "text": "", "put": 0, "operations": 0}
        self.kept["compacted"] = 0
        with suppress(OSError, ValueError, TypeError), open(self.file, encoding="ascii") as file:
            self.kept |= json.load(file)

    def keep(self, **members: object) -> None:
        """Keeps these, and what was noted; if that fails, the next edit has another number, or asks."""
        self.kept |= members
        with suppress(OSError, Refused):
            own_folder("copies")
            with open(self.file + ".new", "w", opener=lambda path, flags: os.open(path, flags, 0o600)) as file:
                json.dump(self.kept, file)
            os.replace(self.file + ".new", self.file)

    def number(self, log: Log | None) -> int:
        """Returns the number for this copy: its last one under which the log goes as far as was told, or a new one."""
        # Of a log that was restored or cut others may have what it lacks: under that number it would be given twice.
        counters, told = log.counters if log else {}, self.kept["counters"]
        numbers = [int(number) for number in told if counters.get(int(number), 0) >= told[number]]
        return numbers[-1] if numbers else self.new_number(log)

    def new_number(self, log: Log | None) -> int:
        """Returns a number that nobody has used here."""
        return draw({*map(int, self.kept["counters"]), *(log.counters if log else ())})

    def keep_number(self, number: int, counter: int = 0) -> None:
        """Keeps a number and the greatest counter that was told of it: a note that is only read needs none."""
        if counter > self.kept["counters"].get(str(number), -1):
            self.keep(counters=self.kept["counters"] | {str(number): counter})

    def note_put(self, text: bytes, size: int, operations: int = 0) -> None:
        """Notes which text was put last, with a log of this size; that is kept with what is kept next."""
        self.kept |= {"text": digest(text), "put": size, "operations": operations}

    def is_put(self, text: bytes) -> bool:
        """Whether this text was put last: then no other program wrote in it."""
        return bool(digest(text) == self.kept["text"])

    def has_grown(self, log: Log) -> bool:
        """Whether the log has at least the operations that it had then, as after a merge of git."""
        return bool(0 < self.kept["operations"] <= log.operations)
