"""Signals, which here only wake whoever waits."""

import os
import signal
import time
from collections.abc import Iterator
from contextlib import contextmanager, suppress

ENDING = (signal.SIGHUP, signal.SIGINT, signal.SIGQUIT, signal.SIGTERM)
# What would end a mgr before it has saved; that a file may not grow any more the call that writes it says as well.
HELD = (*ENDING, signal.SIGXFSZ)
# By this a hub asks who has its note alone to write at it: who does not know that goes on.
JOIN = signal.SIGURG


@contextmanager
def held_back() -> Iterator[None]:
    """What is begun here gets none of the signals that end a program; those for this one come later meanwhile."""
    # A program begins with what is held back here: where there are threads nothing may be called before its exec.
    before = signal.pthread_sigmask(signal.SIG_BLOCK, HELD)
    try:
        yield
    finally:
        signal.pthread_sigmask(signal.SIG_SETMASK, before)


class Signals:
    """The first of the signals that end a program, and those of others that came since."""

    ended = float("inf")  # When the first one came.

    def __init__(self, *others: int) -> None:
        """Takes note of those that end a program, but for ignored ones, as SIGHUP under nohup, and of these others."""
        self.first: int | None = None
        self.came: set[int] = set()
        self.woken, self.waker = os.pipe2(os.O_NONBLOCK | os.O_CLOEXEC)
        signal.set_wakeup_fd(self.waker, warn_on_full_buffer=False)
        for number in (*ENDING, *others):
            if number in others or signal.getsignal(number) != signal.SIG_IGN:
                self.listen(number)

    def listen(self, number: int) -> None:
        """Takes note of that signal from now on."""
        signal.signal(number, self._note)

    def _note(self, number: int, _: object) -> None:
        if number in (*ENDING, JOIN):
            self.first = self.first or number
            Signals.ended = min(Signals.ended, time.monotonic())
        else:
            self.came.add(number)

    def take(self) -> set[int]:
        """Returns those that end nothing and came since the last call."""
        with suppress(BlockingIOError):
            os.read(self.woken, 4096)
        came, self.came = self.came, set()
        return came
