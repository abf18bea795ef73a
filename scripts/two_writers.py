#!/usr/bin/env python3
"""Has two write one note live with an mgr that is installed, in the current folder, and looks for one text.

One writes on the hub's machine and the other one at a port, each in a pseudo terminal. It needs nothing but Python, so
that it runs where mgr was just installed.
"""

import fcntl
import os
import pathlib
import pty
import re
import shutil
import signal
import struct
import subprocess
import sys
import termios
import threading
import time

HUB, OTHER = pathlib.Path("hub"), pathlib.Path("other")
WORDS = {HUB: "written here. ", OTHER: "written there. "}
PORT, SECONDS = "7471", 30
ROWS, COLUMNS = 10, 80


class Writer:
    """mgr-live in a pseudo terminal."""

    begun = []

    def __init__(self, folder, *words):
        self.process, self.terminal = pty.fork()
        if not self.process:
            os.chdir(folder)
            os.environ["TERM"] = "xterm"
            fcntl.ioctl(0, termios.TIOCSWINSZ, struct.pack("4H", ROWS, COLUMNS, 0, 0))
            os.execvp("mgr-live", ["mgr-live", "note", *words])
        self.seen = b""
        self.begun.append(self)
        threading.Thread(target=self.look, daemon=True).start()

    def look(self):
        try:
            while came := os.read(self.terminal, 4096):
                self.seen += came
        except OSError:
            pass

    def is_live(self):
        return bool(re.search(rb"Mg: note .* live", self.seen))

    def type(self, keys):
        os.write(self.terminal, keys.encode())

    def leave(self):
        """Ends it by its signal, after which all is saved, and returns its status."""
        os.kill(self.process, signal.SIGTERM)
        return os.waitstatus_to_exitcode(os.waitpid(self.process, 0)[1])


def text(folder):
    note = folder / "note"
    return note.read_text() if note.is_file() else ""


def await_that(what, is_so):
    end = time.monotonic() + SECONDS
    while not is_so():
        if time.monotonic() > end:
            print(*(writer.seen[-500:] for writer in Writer.begun), sep="\n")
            sys.exit(f"not seen within {SECONDS} seconds: {what}")
        time.sleep(0.1)
    print(what, flush=True)


def main():
    if shutil.which("mgr-hub") is None:
        sys.exit("two_writers.py: mgr-hub is not on PATH")
    for folder in WORDS:
        folder.mkdir()
    hub = subprocess.Popen(["mgr-hub", "note", "--port", PORT], cwd=HUB, stdout=subprocess.PIPE, text=True)
    try:
        print(hub.stdout.readline(), end="", flush=True)
        writers = {HUB: Writer(HUB)}
        await_that("the first one is live", writers[HUB].is_live)
        writers[OTHER] = Writer(OTHER, "--with", PORT)
        await_that("the other one is live", writers[OTHER].is_live)
        for folder, writer in writers.items():
            writer.type(WORDS[folder])
        await_that("both texts have both sentences", lambda: all(word in text(each) for word in WORDS.values() for each in WORDS))
        await_that("both texts are one", lambda: text(HUB) == text(OTHER) and len(text(HUB)) == sum(map(len, WORDS.values())))
        print(f"the text: {text(OTHER)!r}")
        print(f"statuses: {[writer.leave() for writer in writers.values()]}")
    finally:
        hub.terminate()
        hub.wait()


if __name__ == "__main__":
    main()
