"""The program mgr-live in a terminal, beside a program that takes the place of mgr."""

import fcntl
import os
import pathlib
import pty
import select
import shutil
import signal
import struct
import subprocess
import tempfile
import termios
import time
import unittest
from collections.abc import Callable

from context import TESTS, InFolder

LIVE = TESTS.parent / "mgr-live"
ROWS, COLUMNS, SECONDS = 10, 60, 20.0


class Terminals(InFolder):
    """A terminal of its own for each program."""

    def setUp(self) -> None:
        super().setUp()
        self.begun_in = self.folder

    def start(self, *words: str, **variables: str) -> subprocess.Popen[bytes]:
        """Starts mgr-live, with these further variables of its environment."""
        self.master, self.slave = ends = pty.openpty()
        self.seen = b""
        fcntl.ioctl(self.slave, termios.TIOCSWINSZ, struct.pack("HHHH", ROWS, COLUMNS, 0, 0))
        kept = {name: os.environ[name] for name in ("PATH", "LANG") if name in os.environ}
        kept |= {"MGR": self.mgr, "TERM": "xterm", "XDG_STATE_HOME": str(self.folder / "state")}
        program = subprocess.Popen(
            [str(LIVE), *words],
            stdin=self.slave,
            stdout=self.slave,
            stderr=self.slave,
            cwd=self.begun_in,
            env=kept | variables,
            start_new_session=True,
            preexec_fn=lambda: fcntl.ioctl(0, termios.TIOCSCTTY, 0),
        )
        for end in ends:
            self.addCleanup(os.close, end)
        self.addCleanup(program.wait)
        self.addCleanup(program.kill)
        return program

    def type(self, keys: bytes) -> None:
        os.write(self.master, keys)

    def wait(self, look: Callable[[], object], what: str) -> None:
        """Waits until something is so, and takes what the terminal is sent meanwhile."""
        end = time.monotonic() + SECONDS
        while not look():
            self.assertLess(time.monotonic(), end, f"{what}: {self.seen!r}")
            if select.select([self.master], [], [], 0.05)[0]:
                self.seen += os.read(self.master, 65536)

    def see(self, text: bytes) -> None:
        """Waits until the terminal was sent this."""
        self.wait(lambda: text in self.seen, f"{text!r} is not seen")


class TestOutput(InFolder):
    def test_a_failed_output_ends_in_a_status_without_a_traceback(self) -> None:
        for name, words in [("mgr-live", ["--help"]), ("mgr-hub", ["--help"]), ("mgr-channel", ["--version"])]:
            with self.subTest(name), open("/dev/full", "w") as full:
                kept = {"PATH": os.environ["PATH"]}
                done = subprocess.run([str(LIVE.parent / name), *words], stdout=full, stderr=subprocess.PIPE, env=kept)
                self.assertEqual((done.returncode, done.stderr), (3, b""))

    def test_a_terminal_that_is_gone_ends_a_question_without_a_traceback(self) -> None:
        self.put(note="other", note_ops="text")
        with tempfile.TemporaryFile() as said:
            master, slave = pty.openpty()
            fcntl.ioctl(slave, termios.TIOCSWINSZ, struct.pack("HHHH", ROWS, COLUMNS, 0, 0))
            words = {"PATH": os.environ["PATH"], "MGR": self.mgr, "TERM": "xterm", "HOME": str(self.folder)}
            place = {"stdin": slave, "stdout": slave, "stderr": said, "cwd": self.folder, "env": words}
            # It is no terminal of its own, as for a program that ignores SIGHUP.
            program = subprocess.Popen([str(LIVE), "note"], **place, start_new_session=True)
            os.close(slave)
            while b"the log" not in os.read(master, 65536):
                pass
            os.close(master)
            self.assertEqual(program.wait(SECONDS), 3)
            said.seek(0)
            self.assertNotIn(b"Exception", said.read())


class TestTerminals(Terminals):
    def test_one_that_moves_no_cursor_is_refused(self) -> None:
        for kind in ("dumb", ""):
            program = self.start("note", TERM=kind)
            self.see(b"mgr-live: TERM has to name a terminal")
            self.assertEqual((program.wait(SECONDS), b"\x1b" in self.seen, self.names()), (3, False, []))

    def test_one_that_takes_nothing_does_not_keep_it_from_ending(self) -> None:
        for number in (signal.SIGTERM, signal.SIGHUP):
            for more in (b"", b" more"):
                name = f"{number.name}{len(more)}"
                with self.subTest(name):
                    program = self.start(name)
                    self.see(b"C-x C-s saves")
                    self.type(b"typed")
                    self.see(b"typed")
                    termios.tcflow(self.slave, termios.TCOOFF)
                    self.type(more)
                    time.sleep(0.5 if more else 0)
                    begun = time.monotonic()
                    program.send_signal(number)
                    self.assertEqual(program.wait(SECONDS), 128 + number)
                    self.assertLess(time.monotonic() - begun, 2)
                    self.assertEqual((self.folder / name).read_bytes(), b"typed" + more)

    def test_what_is_typed_while_one_takes_nothing_goes_on_to_mgr(self) -> None:
        program, note = self.start("note"), pathlib.Path(self.folder / "note")
        self.see(b"C-x C-s saves")
        termios.tcflow(self.slave, termios.TCOOFF)
        for part in (b"one ", b"two"):
            self.type(part)
            time.sleep(0.3)
        self.wait(lambda: note.exists() and note.read_bytes() == b"one two", "it is not saved")
        termios.tcflow(self.slave, termios.TCOON)
        self.see(b"two")
        self.assertIsNone(program.poll())
        program.terminate()
        self.assertEqual(program.wait(SECONDS), 143)
        self.assertEqual(termios.tcgetattr(self.slave)[3] & termios.ICANON, termios.ICANON)

    def test_what_is_typed_in_a_folder_that_is_removed_is_kept_and_it_is_said_where(self) -> None:
        for leaves in (True, False):
            with self.subTest(leaves=leaves):
                self.begun_in = self.folder / "gone"
                self.begun_in.mkdir()
                program = self.start("note")
                self.see(b"C-x C-s saves")
                shutil.rmtree(self.begun_in)
                self.type(b"typed")
                if leaves:
                    self.type(b"\x18\x03")
                    self.see(b"d leaves and keeps it apart?")
                    self.type(b"d")
                else:
                    self.see(f"{self.begun_in} is not there".encode()[-20:])
                    program.terminate()
                self.wait(lambda: program.poll() is not None, "it goes on")
                self.assertEqual(program.returncode, 0 if leaves else 143)
                (place,) = self.folder.glob("state/mgr/guests/*/apart-*/text")
                self.assertEqual(place.read_text(), "typed")
                self.see(str(place).encode())
                shutil.rmtree(self.folder / "state")


if __name__ == "__main__":
    unittest.main()
