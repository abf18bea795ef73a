"""A session of `mgr edit`: keys through a pipe, and the frames that come back.

Each session is traced, so that each key has a frame of its own after it, and what the echo line
says of it can be looked at while the session goes on.
"""

import os
import pathlib
import re
import select
import subprocess
import sys
import time

sys.path.insert(0, str(pathlib.Path(__file__).resolve().parent.parent / "front"))

from play.peers import HOST, free_port, listens  # noqa: F401 (for the scripts)

ROWS, COLUMNS = 6, 60
SECONDS = 120

SAVE = b"\x18\x13"
EXCHANGE = b"\x1bxreplica-exchange\r"
SERVE = b"\x1bxreplica-serve\r"

# ESC and C-x begin a key: no frame comes after them.
BEGINNINGS = b"\x1b\x18"

# Those that have not ended.
running = []


class Unexpected(Exception):
    """A session did something else than it should."""


class Session:
    """A `mgr edit` that runs, with the frame that it showed last."""

    def __init__(self, mgr, folder, replica, *words, name="note"):
        size = ["--rows", str(ROWS), "--cols", str(COLUMNS)]
        command = [mgr, "edit", name, "--replica", str(replica), *size, "--trace", *words]
        pipes = {"stdin": subprocess.PIPE, "stdout": subprocess.PIPE, "stderr": subprocess.PIPE}
        self.process = subprocess.Popen(command, cwd=folder, bufsize=0, **pipes)
        self.frame = []
        self.shown = b""
        # How many frames are still to come.
        self.awaited = 1
        running.append(self)

    def send(self, keys):
        """Hands keys to mgr, and waits for nothing."""
        self.awaited += len(keys) - sum(map(keys.count, BEGINNINGS))
        try:
            self.process.stdin.write(keys)
        except BrokenPipeError:
            self._fail("takes no more keys")

    def settle(self):
        """Waits for the frames of all keys so far; returns what the echo line says then."""
        end = time.monotonic() + SECONDS
        while self.awaited:
            ready, _, _ = select.select([self.process.stdout], [], [], max(0, end - time.monotonic()))
            if not ready:
                self._fail(f"shows nothing for {SECONDS} seconds")
            written = os.read(self.process.stdout.fileno(), 65536)
            if not written:
                self._fail("has ended")
            self._take(written)
        return self.message()

    def press(self, keys):
        """Hands keys to mgr; returns what the echo line says after them."""
        self.send(keys)
        return self.settle()

    def message(self):
        return self.frame[-1]

    def text(self):
        """Returns the rows of the text, as the window shows them, without empty ones at the end."""
        return "\n".join(self.frame[:-2]).rstrip("\n")

    def peak(self):
        """Returns the most memory that mgr took so far, in MiB."""
        status = pathlib.Path(f"/proc/{self.process.pid}/status").read_text()
        return int(re.search(r"VmHWM:\s+(\d+)", status)[1]) / 1024

    def end(self):
        """Ends the keys, which saves nothing, and waits for the end of mgr."""
        self.process.stdin.close()
        try:
            status = self.process.wait(SECONDS)
        except subprocess.TimeoutExpired:
            self._fail(f"goes on for {SECONDS} seconds behind its last key")
        if status:
            self._fail("did not end well")
        running.remove(self)
        self.process.stdout.close()
        self.process.stderr.close()

    def kill(self):
        """Ends mgr where it is, if it still runs."""
        self.process.kill()
        self.process.wait()
        running.remove(self)

    def _take(self, written):
        """Keeps the newest whole frame, and counts those that came."""
        self.shown += written
        *lines, _ = self.shown.split(b"\n")
        whole = len(lines) // ROWS
        if not whole:
            return
        used = sum(len(line) + 1 for line in lines[: whole * ROWS])
        self.frame = [line.decode() for line in lines[(whole - 1) * ROWS : whole * ROWS]]
        self.shown = self.shown[used:]
        self.awaited -= whole

    def _fail(self, what):
        try:
            self.process.wait(1)
        except subprocess.TimeoutExpired:
            pass
        self.kill()
        said = self.process.stderr.read().decode().strip()
        raise Unexpected(f"mgr {what}, status {self.process.returncode}, and says {said!r}")


def end_all():
    """Ends all that still run, once something was not as it should be."""
    for session in list(running):
        session.kill()


def await_listener(number, pause=0.005):
    """Waits until somebody listens at a port, and looks again after each pause, in seconds.

    The system's own table says it: a connection that only looks would be taken as the peer.
    """
    end = time.monotonic() + SECONDS
    while not listens(number):
        if time.monotonic() > end:
            raise Unexpected(f"nobody listens at {number} for {SECONDS} seconds")
        time.sleep(pause)


def show(mgr, log):
    """Returns the text of a log, by `mgr show`."""
    with open(log, "rb") as given:
        return subprocess.run([mgr, "show"], stdin=given, check=True, capture_output=True).stdout
