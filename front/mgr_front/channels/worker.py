"""A channel: its work is done in a thread of its own, and nothing here waits for it but `close`."""

import contextlib
import select
import sys
import threading
import time
from abc import ABC, abstractmethod
from collections import Counter
from collections.abc import Iterable, Sequence
from contextlib import AbstractContextManager
from typing import Any

from mgr_front.channels import Apart, Place, Post, State, Took
from mgr_front.channels.presence import Presence
from mgr_front.mailbox import Mailbox
from mgr_front.shared import SharedNote
from mgr_front.wire import is_operation

# Seconds before it is tried again after a break: at first, and at most.
FIRST_PAUSE, MOST_PAUSE = 1.0, 30.0
FINAL = "refused", "conflict"
# Seconds that keys may wait for the thread of a channel each time, while much comes there.
SWITCH = 0.0005
# So much is said at once of what was left out.
MOST_SAID = 3

# What is to be read and written, as select has it.
Descriptors = tuple[Sequence[Any], Sequence[Any]]


class Worker(ABC):
    """Joins and has turns until something fails; then is alone, and joins again, which finds what was not passed on."""

    def __init__(self, note: SharedNote, post: Post) -> None:
        self.note, self.post = note, post
        self.is_leaving = False
        # Whether what others have was accepted. From then on it is the same note, also if two begin it at once.
        self.is_accepted = False
        # Who is where, if the channel carries that.
        self.presence: Presence | None = None
        # What was told and is not passed on; what was left out of what others have, and what of that was not said.
        self.told: list[bytes] = []
        self.left_out: Counter[str] = Counter()
        self.unsaid: list[str] = []
        self._given: Mailbox[Sequence[bytes]] = Mailbox()
        self._state = State("")
        # Seconds until it is tried again after a break.
        self.pause = FIRST_PAUSE
        self._thread = threading.Thread(target=self._run, daemon=True)

    def connected(self) -> AbstractContextManager[object]:
        """Opens what the channel goes by, and ends it."""
        return contextlib.nullcontext()

    @abstractmethod
    def join(self) -> None:
        """Takes what the note lacks, and gives what others lack."""

    @abstractmethod
    def turn(self) -> float:
        """Passes on what was told and takes what came; returns how many seconds are to pass to the next turn."""

    def leave(self) -> None:
        """Waits until what was passed on last has been taken."""

    def descriptors(self) -> Descriptors:
        """Returns what is to be read and written: its waits end once that can be."""
        return [], []

    def start(self) -> None:
        """Begins to join. What comes is posted."""
        sys.setswitchinterval(SWITCH)
        self._thread.start()

    def tell(self, lines: Sequence[bytes]) -> None:
        """Passes on own operations, which are saved, in their order."""
        self._given.post(lines)

    def show_place(self, place: Place) -> None:
        """Says where point stands, if the channel carries that."""
        if self.presence and self.presence.move(place):
            self.wake()

    def close(self, seconds: float) -> bool:
        """Leaves, and answers whether all that was told had been passed on within that time."""
        self.is_leaving = True
        self.wake()
        if self._thread.ident is not None:
            self._thread.join(seconds)
        return not (self._thread.is_alive() or self.told or any(self._given.letters))

    def wake(self) -> None:
        """Has the next turn now; any thread may ask for that."""
        self._given.post(())

    def wait(self, seconds: float) -> None:
        """Waits until something is told, or can be read or written; takes note of what is told."""
        reading, writing = self.descriptors()
        select.select([self._given.woken, *reading], writing, [], max(0.0, seconds))
        for lines in self._given.take():
            self.told += lines

    def passed(self, count: int) -> None:
        """Takes note that so many lines of what was told are passed on."""
        del self.told[:count]

    def compare(self, log: bytes, mends: bool = False) -> tuple[list[bytes], bytes]:
        """Takes what the note lacks of a log of others; returns what that lacks, and what they have, in short."""
        lines, claims, refused = self.note.others(log, mends)
        self.leave_out(refused, bool(refused))
        return self.accept(lines, claims), claims

    def accept(self, lines: list[bytes], claims: bytes) -> list[bytes]:
        """Takes lines of others, and returns what they lack; `Apart` if they have another note."""
        given = self.note.given(lines, claims, not self.is_accepted)
        self.is_accepted = True
        self.take(lines)
        return given

    def take(self, lines: Iterable[bytes]) -> None:
        """Posts lines of others, but for those that are no operations."""
        came = tuple(lines)
        made = tuple(filter(is_operation, came))
        self.leave_out("lines that are no operations", len(came) - len(made))
        if made:
            self.post(Took(made))

    def leave_out(self, what: str, count: int = 1) -> None:
        """Counts what is left out of what others have. It is said once of each."""
        self.unsaid += [what] * (count > 0 and not self.left_out[what])
        self.left_out[what] += count

    def _say_live(self) -> None:
        """Says that the channel is live, and what was left out."""
        counts, self.unsaid = [(what, self.left_out[what]) for what in self.unsaid[:MOST_SAID]], []
        said = "; ".join(what + f" ({count})" * (count > 1) for what, count in counts)
        self.say(State("live", said and f"left out: {said}"))

    def say(self, state: State) -> None:
        """Says how the channel stands, if that is news."""
        if state != self._state:
            self._state = state
            self.post(state)

    def join_all(self) -> None:
        """Joins, with which all that was told before is passed on too: the note's log has it."""
        count = len(self.told)
        self.join()
        self.passed(count)
        self._say_live()

    def _run(self) -> None:
        self.say(State("joining"))
        while not (self._has_worked() or self.is_leaving or self._state.word in FINAL):
            until = time.monotonic() + self.pause
            while not self.is_leaving and time.monotonic() < until:
                self.wait(until - time.monotonic())
            self.pause = min(2 * self.pause, MOST_PAUSE)

    def _has_worked(self) -> bool:
        """Joins and has turns; answers whether that went well up to the end."""
        try:
            with self.connected():
                self.join_all()
                # One that was live joins again soon.
                self.pause = FIRST_PAUSE
                self._stay()
            return True
        except Apart as apart:
            self.say(apart.state)
        except Exception as fault:  # Whatever it is, a thread that ended without a word would say nothing any more.
            self.say(State("alone", why(fault)))
        finally:
            if self.presence:
                self.presence.begin()
        return False

    def _stay(self) -> None:
        """Has turns to the end."""
        seconds = 0.0
        while True:
            is_last = self.is_leaving
            self.wait(0.0 if is_last else seconds)
            seconds = self.turn()
            if self.unsaid:
                self._say_live()
            if is_last and not self.told:
                self.leave()
                return


def why(fault: Exception) -> str:
    """Returns what a fault says, in a line."""
    if isinstance(fault, OSError) and fault.strerror:
        return f"{fault.filename}: {fault.strerror}" if fault.filename else fault.strerror
    return str(fault).partition("\n")[0] or type(fault).__name__
