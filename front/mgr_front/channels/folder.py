"""A folder that a sync tool or a mount shares, with a log for each writer: no file has two writers."""

import json
import os
import re
import secrets
import stat
import time
from contextlib import suppress
from dataclasses import dataclass
from typing import IO

from mgr_front.channels import Post, shown
from mgr_front.channels.worker import Worker
from mgr_front.copies import digest, machine, own_folder, state_folder, user
from mgr_front.notes import Refused, found
from mgr_front.shared import SharedNote, text_of
from mgr_front.wire import LONGEST

# The name of a log, and that of another state of it, which a sync tool keeps beside it.
NAME = re.compile(r"[0-9a-f]{32}.*\.ops")
LEAST_POLL, MOST_POLL, SLOWER = 0.5, 5.0, 1.25
# How many bytes before what is new are read once more: if they differ, the file is another one.
OVERLAP = 4096
# So many bytes are read at once, and a file may have: no note needs more.
PIECE, MOST, BLOCK = 1 << 20, 1 << 27, 512
# What has just taken the place of a file is no link that is followed, nor a pipe that is waited for.
OPENED = os.O_RDONLY | os.O_NONBLOCK | os.O_NOFOLLOW | os.O_CLOEXEC

# How a file looks from outside: size, inode and dates. One that was written to, or may be read since, looks different.
Stamp = tuple[int, int, int, int]


def stamp_of(seen: os.stat_result) -> Stamp:
    return seen.st_size, seen.st_ino, seen.st_mtime_ns, seen.st_ctime_ns


@dataclass(frozen=True)
class Taken:
    """What was taken of a file: how it looked, how many bytes, and the last of these."""

    stamp: Stamp
    size: int = 0
    tail: bytes = b""

    def after(self, stamp: Stamp, lines: bytes) -> "Taken":
        return Taken(stamp, self.size + len(lines), (self.tail + lines[-OVERLAP:])[-OVERLAP:])


def whole_lines(data: bytes) -> bytes:
    """Returns the lines that are whole, up to a NUL, which stands where something is still to come."""
    data = data.partition(b"\0")[0]
    return data[: data.rfind(b"\n") + 1]


class Folder(Worker):
    """A note that is carried by the files of a folder."""

    def __init__(self, note: SharedNote, post: Post, folder: str) -> None:
        super().__init__(note, post)
        self.folder = os.path.abspath(folder)
        owner = [machine(), user(), os.path.realpath(note.log), os.path.realpath(folder)]
        # Where the name of the own log is kept, for this note and this folder, on this machine alone.
        self.kept = os.path.join(state_folder(), "folders", digest(json.dumps(owner).encode()))
        self.own = self._kept_name() or self._draw_name()
        self.files: dict[str, Taken] = {}
        self.poll, self.last_append = LEAST_POLL, 0.0

    def join(self) -> None:
        """Reads all files; what they lack is appended to the own one."""
        self.files, self.poll = {}, LEAST_POLL
        lines = b"".join(self._read(name, stamp) for name, stamp in self._stamps().items())
        given, _ = self.compare(lines, mends=True)
        self._append(given)

    def turn(self) -> float:
        stamps = self._stamps()
        changed = {name: stamp for name, stamp in stamps.items() if name != self.own and not self._is_known(name, stamp)}
        if self.files.keys() - stamps or not self._is_own(stamps) or not all(map(self._has_grown, changed)):
            self.join_all()
            return self.poll
        news = b"".join(self._read(name, stamp) for name, stamp in changed.items())
        self.take(news.splitlines())
        self.poll = LEAST_POLL if news or self.told else min(self.poll * SLOWER, MOST_POLL)
        left = self.last_append + LEAST_POLL - time.monotonic()
        if self.told and left > 0 and not self.is_leaving:
            return left
        self._append(self.told)
        self.passed(len(self.told))
        return self.poll

    def _stamps(self) -> dict[str, Stamp]:
        """Returns how each log in the folder looks."""
        stamps = {}
        with os.scandir(self.folder) as entries:
            for entry in entries:
                if NAME.fullmatch(entry.name):
                    try:
                        seen = os.lstat(entry.path)
                    except FileNotFoundError:
                        continue  # It has just been removed.
                    if stat.S_ISREG(seen.st_mode):
                        stamps[entry.name] = stamp_of(seen)
        return stamps

    def _is_known(self, name: str, stamp: Stamp) -> bool:
        return name in self.files and self.files[name].stamp == stamp

    def _has_grown(self, name: str) -> bool:
        """Whether a file still has what was taken of it, so that what is new stands after that."""
        if name not in self.files:
            return False
        taken = self.files[name]
        with suppress(OSError), self._open(name, taken.size - len(taken.tail)) as file:
            return file.read(len(taken.tail)) == taken.tail
        return True  # It is left out.

    def _open(self, name: str, place: int) -> IO[bytes]:
        file = open(os.open(os.path.join(self.folder, name), OPENED), "rb")
        file.seek(place)
        return file

    def _read(self, name: str, stamp: Stamp) -> bytes:
        """Returns what whole lines of a file were not taken. One that cannot be read is left out until it changes."""
        taken, lines = self.files.get(name, Taken(stamp)), b""
        try:
            lines = self._new_lines(name, taken.size)
        except OSError as error:
            self.leave_out(f"{shown(name)}: {error.strerror or error}")
            if name == self.own:
                self.own = self._draw_name()
        self.files[name] = taken.after(stamp, lines)
        return lines

    def _new_lines(self, name: str, place: int) -> bytes:
        """Returns the whole lines of a file from a place on, up to one that is too long."""
        lines, rest, size = [b""], b"", place
        with self._open(name, place) as file:
            seen = os.fstat(file.fileno())
            while piece := file.read(PIECE):
                # Of a file with holes only what is written counts.
                if max(size, min(seen.st_size, seen.st_blocks * BLOCK)) > MOST:
                    raise OSError("more than a note can have")
                lines.append(whole_lines(rest + piece))
                rest = (rest + piece)[len(lines[-1]) :]
                size += len(lines[-1])
                if b"\0" in rest or b"\n" not in piece:
                    break
        if len(rest.partition(b"\0")[0]) > LONGEST:
            self.leave_out(f"{shown(name)}: a line that is too long")
        return b"".join(lines)

    def _kept_name(self) -> str:
        name = (found(self.kept) or b"").decode("ascii", "replace")
        return name if re.fullmatch(r"[0-9a-f]{32}\.ops", name) else ""

    def _draw_name(self) -> str:
        """Returns a new name; if it can't be kept, the next edit begins another log."""
        name = secrets.token_hex(16) + ".ops"
        with suppress(OSError, Refused):
            own_folder("folders")
            with open(self.kept + ".new", "w", encoding="ascii") as file:
                file.write(name)
            os.replace(self.kept + ".new", self.kept)
        return name

    def _is_own(self, stamps: dict[str, Stamp]) -> bool:
        """Whether the own file is as it was left. Where another one wrote to it, a new one is begun."""
        taken, stamp = self.files.get(self.own), stamps.get(self.own)
        if not (taken and stamp):
            return not (taken or stamp)
        if stamp[0] > taken.size:
            self.own = self._draw_name()
        # A mount may give it another date when it was written.
        return stamp == taken.stamp or stamp[0] == taken.size and self._has_grown(self.own)

    def _append(self, lines: list[bytes]) -> None:
        """Appends lines to the own file. What is half written there is cut off before."""
        if not lines:
            return
        path, text = os.path.join(self.folder, self.own), text_of(lines)
        taken = self.files.get(self.own, Taken((0, 0, 0, 0)))
        with open(path, "r+b" if self.own in self.files else "xb") as file:
            file.truncate(taken.size)
            file.seek(taken.size)
            file.write(text)
        self.files[self.own] = taken.after(stamp_of(os.stat(path)), text)
        self.last_append = time.monotonic()
