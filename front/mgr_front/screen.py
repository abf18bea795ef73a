"""The terminal: raw while an edit goes on, and put back after it."""

import atexit
import errno
import os
import re
import select
import sys
import termios
import time
import tty
from collections.abc import Callable, Sequence
from contextlib import suppress
from os.path import commonprefix

from mgr_front.keys import DELETE
from mgr_front.signals import Signals
from mgr_front.view import Picture

# Another screen than the shell's; and pastes are marked.
OPEN, CLOSE = "\x1b[?1049h\x1b[?2004h", "\x1b[m\x1b[?2004l\x1b[?7h\x1b[?25h\x1b[?1049l"
# All is cleared, and a full row does not go on below.
EMPTY = "\x1b[m\x1b[?7l\x1b[2J"
BELL = "\x07"
# A row of which terminals agree in which column each character stands; in reverse, and cleared after it, or not.
PLAIN = re.compile("(\x1b\\[7m)?([ -~]*)(\x1b\\[m)?(\x1b\\[K)?")
# So many rows change for a key at most times.
FEW = 3
# Seconds after a signal that ends the program for which it is waited for what takes nothing, and between two looks.
LAST, LOOK = 0.5, 0.1


class Screen:
    """The terminal, in raw mode from `open` to `close`."""

    def __init__(self) -> None:
        self.saved = termios.tcgetattr(0)
        # What is drawn waits for a terminal that takes nothing now, and nothing else does.
        self.target, self.waiting = unblocked(1), bytearray()
        # The rows that it shows; none, if all has to be drawn.
        self.drawn: Sequence[str] = ()
        # Whether it is raw; whether it shows this program's screen; whether the shell's has to come back.
        self.is_raw = self.is_open = self.is_taken = False
        # Whether the program is about to end: then nothing is opened or drawn any more.
        self.is_over: Callable[[], bool] = lambda: False

    @property
    def erase(self) -> int:
        """The byte that the terminal erases by."""
        byte: bytes = self.saved[6][termios.VERASE]
        return byte[0] or DELETE

    @property
    def is_ours(self) -> bool:
        """Whether the terminal is this program's. It is a shell's while this one is suspended, or in the background."""
        return self.is_raw and not is_in_background()

    def open(self) -> None:
        """Puts the terminal into raw mode. All is drawn anew, on a screen of this program's own."""
        self.is_raw = until_done(lambda: tty.setraw(0, termios.TCSANOW), self.is_over) or self.is_raw
        self.is_open = False
        self.forget()

    def close(self) -> None:
        """Puts the terminal back, unless a shell has done so, or it is gone."""
        with suppress(OSError):
            write_all(bytes(self.waiting) + CLOSE.encode() * self.is_taken)
        self.waiting.clear()
        self.is_open = self.is_taken = False
        with suppress(OSError):
            if self.is_ours:
                until_done(lambda: termios.tcsetattr(0, termios.TCSANOW, self.saved))
        self.is_raw = False

    def write(self) -> None:
        """Draws as much of what waits as the terminal takes now."""
        with suppress(BlockingIOError):
            del self.waiting[: os.write(self.target, self.waiting)]

    def forget(self) -> None:
        """Has the next picture be drawn as a whole."""
        self.drawn = ()

    def draw(self, picture: Picture, rings: bool = False) -> None:
        """Draws the rows that differ from those that were drawn before, places the cursor, and rings the bell."""
        if self.is_over():
            return
        out = OPEN * (not self.is_open)
        self.is_open = self.is_taken = True
        if len(self.drawn) != len(picture.rows):
            out, self.drawn = out + EMPTY, [""] * len(picture.rows)
        pairs = enumerate(zip(self.drawn, picture.rows), 1)
        changes = [change(number, old, new) for number, (old, new) in pairs if old != new]
        # The cursor is not seen running over many rows.
        hides = len(changes) > FEW
        cursor = f"\x1b[{picture.row + 1};{picture.column + 1}H"
        out += "".join(["\x1b[?25l" * hides, *changes, cursor, "\x1b[?25h" * hides, BELL * rings])
        self.drawn = picture.rows
        self.waiting += out.encode()
        self.write()


def change(number: int, old: str, new: str) -> str:
    """Returns what makes a new row of an old one: of plain ones what they have in common at both ends stays."""
    was, now = PLAIN.fullmatch(old), PLAIN.fullmatch(new)
    if not (was and now) or was[1] != now[1]:
        return f"\x1b[{number};1H{new}"
    begin = len(commonprefix([was[2], now[2]]))
    ends = was[2][begin:][::-1], now[2][begin:][::-1]
    end = len(commonprefix(ends)) if len(was[2]) == len(now[2]) else 0
    text = now[2][begin : len(now[2]) - end]
    clear = now[4] if len(now[2]) < len(was[2]) else ""
    return f"\x1b[{number};{begin + 1}H{now[1] or ''}{text}{now[3] or ''}{clear or ''}"


def is_in_background() -> bool:
    """Whether the terminal is another job's."""
    try:
        return os.tcgetpgrp(0) != os.getpgrp()
    except OSError:
        return False  # It is no terminal of jobs, or it is gone.


def until_done(set_mode: Callable[[], object], is_over: Callable[[], bool] = lambda: False) -> bool:
    """Sets a mode of the terminal, unless all is over, and answers whether that is done.

    In the background it stops this program until it is continued, by a signal that ends it too.
    """
    while not is_over():
        try:
            set_mode()
            return True
        except termios.error as error:
            if error.args[0] != errno.EINTR:
                raise OSError(*error.args) from None
    return False


@atexit.register
def end_output() -> None:
    """Ends the program without a word if standard output does not take the rest: whoever would read that is gone."""
    try:
        if sys.stdout:
            sys.stdout.flush()
    except OSError:
        os._exit(3)


def unblocked(to: int) -> int:
    """Returns another descriptor of what is written to. A terminal's never waits: the shell's own stays as it is."""
    try:
        os.tcgetpgrp(to)  # It fails if the terminal is not this program's.
        return os.open("/dev/tty", os.O_WRONLY | os.O_NONBLOCK)
    except OSError:
        return os.dup(to)


def write_all(data: bytes, to: int = 1) -> None:
    """Writes all of it, for as long as that takes; it is a `TimeoutError` if a signal ends the program meanwhile."""
    with open(unblocked(to), "wb", 0) as file:
        while data:
            left = max(0.0, Signals.ended + LAST - time.monotonic())
            if select.select([], [file], [], min(left, LOOK))[1]:
                data = data[file.write(data[: select.PIPE_BUF]) or 0 :]
            elif not left:
                raise TimeoutError
