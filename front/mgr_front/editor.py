"""A live `mgr edit` that runs: keys and reports go in, statuses come out, and nothing here waits for either."""

import json
import math
import os
import select
import tempfile
import time
from collections.abc import Callable, Iterator, Sequence
from subprocess import PIPE, Popen

from mgr_front.notes import Note
from mgr_front.program import COLUMNS, explained
from mgr_front.signals import held_back
from mgr_front.statuses import Status, Statuses

BLOCK = 65536
# Seconds for which it is waited at once: who waits may have something else to do.
LOOK = 1.0
# How many rows the screen of mgr may have.
LEAST_ROWS, MOST_ROWS = 3, 200

# It begins a report, and is no key.
REPORT = b"\xff"
# So many characters of a text stand in a report: with the longest escapes it is not too long.
PIECE = 8192


def with_text(text: str, more: bool = False, **members: object) -> list[bytes]:
    """Returns the reports of a text, however long: mgr takes all as one command, be it that more comes."""
    told = [members | {"text": text[i : i + PIECE], "more": True} for i in range(0, len(text) or 1, PIECE)]
    if not more:
        del told[-1]["more"]
    return [json.dumps(each, ensure_ascii=False, separators=(",", ":")).encode() for each in told]


def write_some(waiting: bytearray, to: int) -> None:
    """Writes as much of what waits as is taken now. Where nobody takes it any more it is dropped."""
    try:
        del waiting[: os.write(to, waiting[:BLOCK])]
    except BlockingIOError:
        pass
    except OSError:
        waiting.clear()


class Talk:
    """What mgr is given, and what it told last."""

    def __init__(self, rows: int) -> None:
        """`rows` is how many its screen has."""
        self.rows = rows
        # The newest status, of which one is to come as the answer to a report, and how many keys it told of first.
        self.status, self.taken = Status(reports=-1), 0
        # What is still to be given; the keys that no status told of, how many reports there were. Of reports of texts
        # of the person the pieces up to the last one; and the texts of those that were refused.
        self.waiting, self.untold, self.reports = bytearray(), bytearray(), 0
        self.pasted: dict[int, list[str]] = {}
        self.refused: dict[int, str] = {}
        self.pieces: list[str] = []

    def hand_on(self, keys: bytes) -> None:
        """Has these keys wait for mgr, after those that do; one that would begin a report is left out."""
        keys = keys.replace(REPORT, b"")
        self.waiting += keys
        self.untold += keys

    def report(self, line: bytes) -> int:
        """Has a report wait, wherever it stands among the keys, and returns its number."""
        self.waiting += REPORT + line + b"\n"
        self.reports += 1
        return self.reports

    def paste(self, text: str, more: bool = False) -> None:
        """Has a text be put in, as one command with what comes after it if that is more of it."""
        self.pieces.append(text)
        self.pasted |= dict.fromkeys([self.report(line) for line in with_text(text, more, op="paste")], self.pieces)
        self.pieces = self.pieces if more else []

    def resize(self, rows: int) -> None:
        """Gives the screen so many rows."""
        if rows != self.rows:
            self.rows = rows
            self.report(b'{"cols":%d,"op":"size","rows":%d}' % (COLUMNS, rows))

    def note(self, status: Status) -> None:
        """Takes note of a status."""
        self.taken = status.keys - self.status.keys
        del self.untold[: self.taken]
        self.status = status
        self.refused |= {number: "".join(self.pasted[number]) for number in self.pasted.keys() & status.refused}
        self.pasted = {number: pieces for number, pieces in self.pasted.items() if number > status.reports}

    @property
    def is_settled(self) -> bool:
        """Whether all keys are answered."""
        return not self.untold and self.status.reports >= 0

    @property
    def is_answered(self) -> bool:
        """Whether all keys and reports are answered."""
        return self.is_settled and self.reports == self.status.reports


class Editor(Talk):
    """A mgr that runs."""

    def __init__(self, program: str, words: Sequence[str], rows: int) -> None:
        super().__init__(rows)
        # What it says on standard error, and all of that at its end.
        self.program, self.said, self.told = program, tempfile.TemporaryFile(), b""
        command = [program, "edit", "--live", "--rows", str(rows), "--cols", str(COLUMNS), *words]
        # In a session of its own, so that the end of the terminal reaches it as the end of the keys.
        # What ends a whole login reaches it all the same, and is held back: it has to save first.
        with held_back():
            self.process = Popen(command, bufsize=0, stdin=PIPE, stdout=PIPE, stderr=self.said, start_new_session=True)
        assert self.process.stdin is not None and self.process.stdout is not None
        self.keys, self.written = self.process.stdin.fileno(), self.process.stdout.fileno()
        os.set_blocking(self.keys, False)
        self.statuses, self.is_over = Statuses(), False

    def write(self) -> None:
        """Gives mgr as much of what waits as it takes now. One that takes no more ends, and its status says why."""
        write_some(self.waiting, self.keys)

    def read(self) -> Iterator[Status]:
        """Yields the statuses that came, each once note is taken of it; at their end `is_over` is set."""
        written = os.read(self.written, BLOCK)
        self.is_over = not written
        for status in self.statuses.take(written):
            self.note(status)
            yield status

    def end(self, seconds: float = math.inf, take: Callable[[Status], object] = id) -> bool:
        """Gives mgr what waits, then the end of the keys; answers whether it has saved and ended in so many seconds."""
        assert self.process.stdin and self.process.stdout
        until = time.monotonic() + seconds
        while (left := until - time.monotonic()) > 0:
            if not self.waiting:
                self.process.stdin.close()
            writing = [self.keys] * bool(self.waiting)
            ready, free, _ = select.select([self.written], writing, [], min(left, LOOK))
            if free:
                self.write()
            for status in self.read() if ready else ():
                take(status)
            if self.is_over:
                self.process.stdin.close()
                self.process.stdout.close()
                self.process.wait()
                with self.said:
                    self.said.seek(0)
                    self.told = self.said.read()
                return True
        return False

    def fault(self, note: Note) -> str:
        """Returns why it ended, if that was not well."""
        status = self.process.returncode
        return explained(status, self.told.decode(), note, self.status.reports >= 0) if status else ""
