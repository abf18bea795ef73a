"""What a hub prints. Nobody waits for a terminal under C-s, or for a pipe that nobody reads."""

import atexit
import queue
import sys
import threading
import time

from mgr_front.cells import clean
from mgr_front.screen import write_all

# So many lines wait to be printed, and so many seconds at the end for that.
MOST, LAST = 1000, 1.0


class Printer:
    """Prints lines in a thread of its own. What finds no room or cannot be written is dropped and counted."""

    def __init__(self) -> None:
        self.lines: queue.Queue[str] = queue.Queue(MOST)
        self.dropped = self.failed = 0
        self.thread = threading.Thread(target=self._run, daemon=True)

    def put(self, line: str) -> None:
        if not self.thread.ident:
            self.thread.start()
            # Done in the other order.
            atexit.register(self.thread.join, LAST)
            atexit.register(self.put, "")
        try:
            self.lines.put_nowait(line)
        except queue.Full:
            self.dropped += 1

    def _run(self) -> None:
        told = 0
        while line := self.lines.get():
            lost = (self.dropped + self.failed - told) * self.lines.empty()
            try:
                write_all((line + f"{lost} lines were dropped\n" * bool(lost)).encode("utf-8", "replace"))
                told += lost
            except OSError:
                self.failed += 1


printer = Printer()


def log(said: str) -> None:
    """Has it printed what happened, and when."""
    if sys.stdout:  # Else it was closed at the start, and its number may be another file's.
        printer.put(f"{time.strftime('%Y-%m-%d %H:%M:%S')} {clean(said)}\n")
