"""Sessions and jobs of mgr to which growths of memory are refused, by refuse_growth.c."""

import mmap
import os
import pathlib
import shutil
import struct
import subprocess
import sys
import tempfile

from play.notation import keys_of
from play.programs import Session

SOURCE = pathlib.Path(__file__).resolve().parent / "refuse_growth.c"
SIZE = ("--rows", "5", "--cols", "40")

# How a program ends out of memory.
WANT = (4, b"out of memory\n")


def memory_folder():
    """Returns a folder in memory, where saves wait for no device; None if there is none."""
    return "/dev/shm" if os.access("/dev/shm", os.W_OK) else None


class Library:
    """The library, the orders that it reads, and a folder for notes; all go with it.

    `OSError` where it cannot be built here, or no program can be given it.
    """

    FORM = struct.Struct("4Q")

    def __init__(self):
        self.folder = pathlib.Path(tempfile.mkdtemp(prefix="mgr-refused-", dir=memory_folder()))
        # A folder in memory may be one from which nothing can be run.
        self.home = pathlib.Path(tempfile.mkdtemp(prefix="mgr-refused-"))
        self.path, self.orders = self.home / "refuse_growth.so", self.folder / "orders"
        # Whether more was asked for after the first refusal.
        self.asked_on = False
        try:
            self._build()
        except (OSError, subprocess.CalledProcessError) as fault:
            self.remove()
            raise OSError("no library can be built and loaded here") from fault

    def _build(self):
        words = ["cc", "-O2", "-fno-builtin", "-shared", "-fPIC", "-o", self.path, SOURCE]
        subprocess.run(words, check=True, capture_output=True)
        self.orders.write_bytes(bytes(self.FORM.size))
        with open(self.orders, "r+b") as file:
            self.shared = mmap.mmap(file.fileno(), self.FORM.size)
        subprocess.run([*self.under(), sys.executable, "-c", ""], check=True)
        if not self.FORM.unpack(self.shared[:])[0]:
            raise OSError("the library counts nothing")

    def refuse(self, first, on):
        """Sets a mark. From there on that growth is refused, and all after it where `on` says so."""
        self.shared[:] = self.FORM.pack(0, first, on, 0)

    def end(self):
        """Refuses nothing more; returns how many were refused since the mark."""
        asked, first, _, refused = self.FORM.unpack(self.shared[:])
        if refused:
            self.asked_on = asked > first
        self.refuse(0, False)
        return refused

    def under(self):
        """Returns the words of a command under which a program has the library."""
        return ["env", f"LD_PRELOAD={self.path}", f"REFUSE_ORDERS={self.orders}"]

    def remove(self):
        for folder in (self.folder, self.home):
            shutil.rmtree(folder)


class Editor:
    """A `mgr edit` in a folder, to which growths are refused where the library has orders."""

    def __init__(self, mgr, folder, under=(), replica=1, words=()):
        words = ["note", "--replica", str(replica), *SIZE, *words]
        self.session = Session([*under, mgr], folder, words, None)
        self.session.await_keys()

    def press(self, key):
        """Presses a key, and waits until mgr waits for the next one, or has ended."""
        self.begin(key)
        self.session.await_keys()

    def begin(self, key):
        """The same, and it may wait for a peer then."""
        self.session.press(keys_of(key))

    def has_ended(self):
        return self.session.has_ended()

    def rows(self):
        """Returns the rows of the windows."""
        return self.session.frame()[:-1]

    def said(self):
        """Returns the echo line."""
        return self.session.frame()[-1]

    def text(self):
        return "\n".join(self.rows()[: self.session.mode_lines()[0][0]]).rstrip("\n")

    def close(self):
        """Ends the keys; returns the status, and what standard error was told."""
        return self.session.close(), self.session.error

    def kill(self):
        if not self.session.process.stdout.closed:
            self.session.kill()
