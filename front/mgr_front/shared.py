"""A note as a channel knows it: what its log has, by commands of mgr, held against what others have."""

import os
import shutil
import subprocess
import tempfile
from collections.abc import Iterable, Sequence

from mgr_front.channels import CONFLICT, FAULTS, Apart, shown
from mgr_front.notes import Note
from mgr_front.wire import operation

# What mgr says of a log that is tied to nothing in a note.
OTHER = "a log of another note"
# More lines than so many pass as runs: they pass sooner, and are sooner taken.
MANY = 500


class SharedNote:
    """A note that is shared, under this number."""

    def __init__(self, mgr: str, note: Note, replica: int, adopts: bool = False) -> None:
        """`adopts` says that it takes what belongs to another note, too."""
        self.mgr, self.note, self.replica, self.adopts = mgr, note, replica, adopts
        self.name, self.log = note.name, note.log
        # Its claims, and how its log was then.
        self.known: tuple[object, bytes] = None, b""
        # Lines of another note, which it did not accept.
        self.refused: tuple[bytes, ...] = ()

    def _run(self, *words: str, given: bytes = b"") -> bytes:
        return written(run(self.mgr, *words, given=given))

    def claims(self) -> bytes:
        """Returns what its log has, in short; what an empty one has, if there is none."""
        found = os.stat(self.log) if os.path.exists(self.log) else None
        stamp = found and (found.st_ino, found.st_size, found.st_mtime_ns)
        if not self.known[1] or stamp != self.known[0]:
            self.known = stamp, self._run("claims", "--", self.name if found else "-")
        return self.known[1]

    def claims_of(self, log: bytes) -> bytes:
        return self._run("claims", "-", given=log)

    @property
    def is_empty(self) -> bool:
        """Whether it has neither operations nor a text."""
        return not blocks(self.claims()) and not (os.path.exists(self.name) and os.path.getsize(self.name))

    def missing(self, claims: bytes) -> list[bytes]:
        """Returns the lines that its log has and these claims lack."""
        return self._fewer(self._run("missing", "--", self.name, given=claims)) if self.note.has_log else []

    def _fewer(self, log: bytes) -> list[bytes]:
        return (joined(self.mgr, log) if log.count(b"\n") > MANY else log).splitlines()

    def merge(self, lines: Sequence[bytes]) -> bool:
        """Has mgr merge these lines into the note, and answers whether it does."""
        return run(self.mgr, "merge", "--adopt", "--", self.name, "-", given=text_of(lines)).returncode == 0

    def others(self, log: bytes, mends: bool) -> tuple[list[bytes], bytes, str]:
        """Returns what the note lacks of a log of others, all of that in short, and what was left out if it mends."""
        with tempfile.TemporaryDirectory() as folder:
            name = os.path.join(folder, "log")
            with open(name + ".ops", "wb") as file:
                file.write(log)
            claims, remark = run(self.mgr, "claims", "--", name), ""
            if mends and claims.returncode:
                said = self._run("mend", "--", name).decode("utf-8", "replace")
                claims, remark = run(self.mgr, "claims", "--", name), shown(said.partition("\n")[0])
            lacked = self._run("missing", "--", name, given=self.claims()) if log else b""
            return self._fewer(lacked), written(claims), remark

    def given(self, lines: list[bytes], claims: bytes, asks: bool) -> list[bytes]:
        """Returns what others lack, who have this in short, and lines of which the note lacks some.

        Where it asks, it is `Apart` if they have another note, or words under its number that its log lacks.
        """
        if asks and not self._accepts(lines, claims):
            self.refused = tuple(lines)
            raise Apart("another note", "refused")
        given = self.missing(claims)
        lacked = counters(lines, self.replica) - counters(given, self.replica) if asks else set()
        # A hub may have saved what it had sent before it told its claims: the log has that, and it is not given.
        if lacked and lacked - counters(self.missing(self.claims_of(b"")), self.replica):
            raise Apart(f"others have words of the number {self.replica} that this log lacks", "refused")
        return given

    def _accepts(self, lines: list[bytes], claims: bytes) -> bool:
        """Whether what others have belongs to this note: if no block is the same, mgr tries that on a copy of its log.

        Words at the very begin alone are tied to nothing, and belong to it if both have blocks of the same place.
        """
        own, theirs = blocks(self.claims()), blocks(claims)
        if self.adopts or not lines or self.is_empty or own & theirs:
            return True
        if not own:
            return False
        with tempfile.TemporaryDirectory() as folder:
            copy = os.path.join(folder, "copy")
            shutil.copyfile(self.log, copy + ".ops")
            done = run(self.mgr, "merge", "--", copy, "-", given=text_of(lines))
        said = done.stderr.decode("utf-8", "replace")
        if CONFLICT in said:
            raise Apart(FAULTS[CONFLICT], "conflict")
        return not done.returncode or OTHER in said and bool(places(own) & places(theirs))


def run(mgr: str, *words: str, given: bytes = b"") -> "subprocess.CompletedProcess[bytes]":
    """Runs mgr apart from the terminal, whose end is not to end it."""
    return subprocess.run([mgr, *words], input=given, capture_output=True, start_new_session=True)


def written(done: "subprocess.CompletedProcess[bytes]") -> bytes:
    """Returns what mgr wrote; `Apart` says why it did not do it."""
    if not done.returncode:
        return done.stdout
    said = done.stderr.decode("utf-8", "replace").strip().rpartition("\n")[2]
    why = shown(os.path.basename(said)) or f"mgr ended with status {done.returncode}"
    raise Apart(why, "conflict" if "Conflict" in said else "alone")


def joined(mgr: str, log: bytes) -> bytes:
    """Returns a log in few lines; if these do not agree, `Apart` says so."""
    return written(run(mgr, "join", "-", given=log))


def text_of(lines: Iterable[bytes]) -> bytes:
    """Returns lines as a file has them."""
    return b"".join(line + b"\n" for line in lines)


def blocks(claims: bytes) -> set[bytes]:
    """Returns the lines of claims that are about operations."""
    return {line for line in claims.splitlines() if line.startswith(b'{"block":')}


def places(blocks: set[bytes]) -> set[bytes]:
    """Returns whose counters blocks are, and which."""
    return {line.partition(b"]")[0] for line in blocks}


def counters(lines: Iterable[bytes], replica: int) -> set[int]:
    """Returns the counters of what a replica inserted in these lines."""
    found: set[int] = set()
    for line in lines:
        told = operation(line) if b",%d]" % replica in line else None
        if told and told.text and told.replica == replica:
            found.update(range(told.counter, told.counter + told.size))
    return found
