"""The files of a note: its text, its log, and what is kept beside them."""

import glob
import os
from contextlib import suppress
from dataclasses import dataclass

# How the names of logs end, and the folder in which this program began, which may be gone later.
LOG, HERE = ".ops", os.path.realpath("/proc/self/cwd")


class Refused(Exception):
    """A note is none that can be edited. Says why, and what the status is."""

    def __init__(self, why: str, status: int = 1) -> None:
        super().__init__(why)
        self.status = status


@dataclass(frozen=True)
class Note:
    """A note, by the name that its text has."""

    name: str

    @property
    def log(self) -> str:
        return self.name + LOG

    @property
    def has_log(self) -> bool:
        return os.path.exists(self.log)

    def check(self) -> None:
        """Refuses what stands under the names of the note and cannot be edited."""
        for path in (self.name, self.log):
            if os.path.exists(path) and not os.path.isfile(path):
                raise Refused(f"{path}: is a folder" if os.path.isdir(path) else f"{path}: is a pipe or a device")


def read(path: str) -> bytes:
    with open(path, "rb") as file:
        return file.read()


def found(path: str) -> bytes | None:
    """Returns what stands in a file, if it can be read."""
    try:
        return read(path)
    except OSError:
        return None


def keep(path: str) -> str:
    """Gives what stands at a path the first name that is free for what is kept of it, and returns that."""
    ends = "~", *map(".~{}~".format, range(1, 10000))
    name = next(path + end for end in ends if not os.path.lexists(path + end))
    # Nobody else has it from here on.
    os.close(os.open(name, os.O_CREAT | os.O_EXCL, 0o600))
    os.rename(path, name)
    return name


def put_back(path: str, before: bytes | None, put: bytes | None) -> list[str]:
    """Has a file be as it was before, be it that there was none; returns where what mgr did not put is kept."""
    path, kept = os.path.realpath(path), list[str]()
    # It leaves its name before anybody looks at it, and comes back only if that is free: others may write meanwhile.
    while found(path) != before:
        if seen := os.stat(path) if os.path.exists(path) else None:
            kept.append(keep(path))
            if put is not None and found(kept[-1]) == put:
                os.unlink(kept.pop())
        if before is not None:
            with suppress(FileExistsError), open(path, "xb") as file:
                if seen:
                    os.fchmod(file.fileno(), seen.st_mode & 0o7777)
                    with suppress(PermissionError):
                        os.fchown(file.fileno(), seen.st_uid, seen.st_gid)
                file.write(before)
    return kept


def why_not_written(name: str) -> str:
    """Returns which file of a note cannot be written, and why, as far as that can be seen."""
    folder = os.path.dirname(name) or HERE
    if not os.path.isdir(folder):
        return f": {folder} is not there"
    if not os.statvfs(folder).f_bavail:
        return f": no room is left in {folder}"
    for path in (Note(name).log, name):
        if os.path.exists(path) and not (os.access(path, os.W_OK) and os.path.isfile(path)):
            return f": {path} may not be written"
    return "" if os.access(folder, os.W_OK) else f": {folder} takes no new file"


class KeptFiles:
    """What mgr keeps beside notes, as something else had written it."""

    def __init__(self) -> None:
        self.known: dict[str, set[str]] = {}

    def since(self, name: str) -> list[str]:
        """Says what was kept beside a note since the last look at it; nothing at the first one."""
        ends = "~", ".~*~", f"{LOG}~", f"{LOG}.~*~"
        found = {kept for end in ends for kept in glob.glob(glob.escape(name) + end)}
        known = self.known.get(name, found)
        self.known[name] = found
        return [f"{kept} has what stood there" for kept in sorted(found - known)]
