"""What mgr is given, what its statuses answer, and what it is not given: signals."""

import os
import pathlib
import signal
import stat
import tempfile
import unittest
from typing import Any

import context  # noqa: F401

from mgr_front.editor import Editor, Talk
from mgr_front.signals import ENDING, Signals, held_back
from mgr_front.statuses import Status

class TestTalk(unittest.TestCase):
    def setUp(self) -> None:
        self.talk = Talk(3)
        self.tell()

    def tell(self, keys: int = 0, **members: Any) -> None:
        """Has mgr tell a status."""
        self.talk.note(Status(keys=keys, **members))

    def test_keys_go_on_but_for_one_that_would_begin_a_report(self) -> None:
        for keys in (b"ab\x1bf\xff", b"\xff", b"\x18\x13"):
            self.talk.hand_on(keys)
        self.assertEqual(self.talk.waiting, b"ab\x1bf\x18\x13")

    def test_sizes_stand_among_the_keys(self) -> None:
        self.talk.hand_on(b"\x18")
        for rows in (3, 9, 9):
            self.talk.resize(rows)
        self.talk.hand_on(b"\x13")
        self.assertEqual(self.talk.waiting, b'\x18\xff{"cols":500,"op":"size","rows":9}\n\x13')

    def test_nothing_is_settled_before_the_first_status(self) -> None:
        self.assertEqual((self.talk.is_settled, Talk(3).is_settled), (True, False))

    def test_all_is_settled_once_all_keys_are_told_and_answered_with_the_reports(self) -> None:
        self.talk.hand_on(b"abc")
        self.assertEqual(self.talk.report(b"{}"), 1)
        self.assertEqual(self.talk.waiting, b"abc\xff{}\n")
        for keys, reports, wanted in [(1, 0, (False, False)), (3, 0, (True, False)), (3, 1, (True, True))]:
            self.tell(keys, reports=reports)
            self.assertEqual((self.talk.is_settled, self.talk.is_answered), wanted)

    def test_a_status_that_comes_late_answers_what_it_tells_of(self) -> None:
        self.talk.hand_on(b"ab")
        self.talk.hand_on(b"c")
        self.tell(2)
        self.assertEqual((self.talk.taken, self.talk.untold), (2, b"c"))
        self.tell(2)
        self.assertEqual((self.talk.taken, self.talk.untold), (0, b"c"))


class TestSignals(unittest.TestCase):
    def test_what_comes_for_the_front_meanwhile_is_not_lost(self) -> None:
        came: list[int] = []
        before = signal.signal(signal.SIGTERM, lambda number, _: came.append(number))
        self.addCleanup(signal.signal, signal.SIGTERM, before)
        with held_back():
            os.kill(os.getpid(), signal.SIGTERM)
        self.assertEqual(came, [signal.SIGTERM])
        self.assertEqual(signal.pthread_sigmask(signal.SIG_BLOCK, []), set())

    def test_one_that_is_ignored_at_the_start_stays_so(self) -> None:
        for number in ENDING:
            self.addCleanup(signal.signal, number, signal.getsignal(number))
        signal.signal(signal.SIGHUP, signal.SIG_IGN)
        self.addCleanup(signal.set_wakeup_fd, -1)
        signals = Signals()
        self.addCleanup(os.close, signals.woken)
        self.addCleanup(os.close, signals.waker)
        for number, first in ((signal.SIGHUP, None), (signal.SIGTERM, signal.SIGTERM)):
            os.kill(os.getpid(), number)
            self.assertEqual(signals.first, first)

    def test_one_that_does_not_end_is_ended_all_the_same(self) -> None:
        with tempfile.TemporaryDirectory() as folder:
            program = pathlib.Path(folder, "mgr")
            program.write_text("#!/bin/sh\nexec sleep 20\n")
            program.chmod(stat.S_IRWXU)
            editor = Editor(str(program), ["note"], 3)
            self.assertFalse(editor.end(0.1))
            editor.process.kill()
            self.assertTrue(editor.end(5))
        self.assertEqual(editor.process.returncode, -signal.SIGKILL)


if __name__ == "__main__":
    unittest.main()
