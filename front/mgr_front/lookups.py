"""What commands of mgr find in a log, one after the other, while a loop does all else."""

import os
import subprocess
import tempfile
from collections.abc import Generator, Sequence
from typing import IO, Any

from mgr_front.shared import written
from mgr_front.wire import BLOCK

# Yields commands, each with what it reads, and is sent what it wrote: files, since a log may be large.
Steps = Generator[tuple[Sequence[str], IO[bytes]], IO[bytes], Any]


class Lookup:
    """Commands that run. It is ready to be read once one of them says something, or has ended."""

    def __init__(self, mgr: str, steps: Steps) -> None:
        self.mgr, self.steps, self.fault = mgr, steps, b""
        self.process: Any = None
        # What the command reads, and what it writes.
        self.files: list[Any] = [None]

    def fileno(self) -> int:
        return int(self.process.stderr.fileno())

    def go_on(self) -> bool:
        """Begins the next command if one has ended; answers whether that was the last. `Apart` if it failed."""
        if self.process and (said := os.read(self.fileno(), BLOCK)):
            self.fault = said
            return False
        made = self.files.pop()
        if self.process:
            self.end()
            written(subprocess.CompletedProcess([], self.process.returncode, b"", self.fault))
            made.seek(0)
        try:
            words, given = self.steps.send(made)
        except StopIteration:
            return True
        os.lseek(given.fileno(), 0, os.SEEK_SET)
        self.files = [given, tempfile.TemporaryFile()]
        ends = dict(zip(("stdin", "stdout", "stderr"), (*self.files, subprocess.PIPE)))
        self.process = subprocess.Popen([self.mgr, *words], bufsize=0, start_new_session=True, **ends)
        return False

    def end(self) -> None:
        """Ends the command, be it that nobody waits for it any more."""
        if self.process:
            self.process.kill()
            self.process.wait()
            self.process.stderr.close()
        while self.files and (file := self.files.pop()):
            file.close()
