"""What is said of a note that another program has open, and who is asked to leave it."""

import contextlib
import os
import subprocess
import sys
import unittest
from collections.abc import Iterator
from unittest import mock

from context import TESTS, InFolder

from mgr_front import hub, live, meeting
from mgr_front.notes import Note
from mgr_front.opening import Opening
from mgr_front.options import HERE, read
from mgr_front.program import DEVICE, explained, holder, shell_status
from mgr_front.signals import JOIN

# A program that begins another one, which locks a file; it ends as it is asked to join, and says whether it can.
FRONT = f"""
import signal, subprocess, sys
sys.path.insert(0, {str(TESTS.parent)!r})
from mgr_front.meeting import is_served
locks = "import fcntl, sys; file = open(sys.argv[1]); fcntl.flock(file, fcntl.LOCK_EX); print(flush=True); sys.stdin.read()"
child = subprocess.Popen([sys.executable, "-c", locks, sys.argv[1] + ".ops"], stdin=subprocess.PIPE, stdout=subprocess.PIPE)
child.stdout.readline()
def join(*_):
    child.communicate()
    print(is_served(sys.argv[1]), flush=True)
    sys.exit()
signal.signal(signal.SIGURG, join)
print(child.pid, flush=True)
while True:
    signal.pause()
"""


class TestHolders(InFolder):
    def setUp(self) -> None:
        super().setUp()
        environment = mock.patch.dict(os.environ, {"XDG_STATE_HOME": str(self.folder / "state")})
        environment.start()
        self.addCleanup(environment.stop)
        self.put(note="text", note_ops="text")
        self.note = Note(str(self.folder / "note"))

    @contextlib.contextmanager
    def front(self, name: str) -> "Iterator[tuple[subprocess.Popen[str], int]]":
        """Begins a program of this name, whose child has the note locked; gives it, and the number of its child."""
        path = self.folder / name
        path.write_text(FRONT)
        command = [sys.executable, str(path), self.note.name]
        with subprocess.Popen(command, stdout=subprocess.PIPE, text=True) as begun:
            assert begun.stdout
            try:
                yield begun, int(begun.stdout.readline())
            finally:
                begun.kill()

    def test_who_has_a_note_is_said(self) -> None:
        self.assertEqual(holder(self.note), ("", 0))
        self.assertIn("another mgr has it open, or", explained(3, DEVICE, self.note, False))
        for name, wanted in (("mgr-live", "mgr-live"), ("mgr-channel", "mgr-channel"), ("else", "mgr")):
            with self.subTest(name), self.front(name) as (begun, child):
                process = child if name == "else" else begun.pid
                self.assertEqual(holder(self.note), (wanted, process))
                said = f"{self.note.name}: {wanted} (process {process}) has it open"
                self.assertEqual(explained(3, DEVICE, self.note, False), said)

    def test_a_hub_waits_for_a_note_and_asks_who_has_it_to_join(self) -> None:
        said: list[str] = []
        with self.front("mgr-live") as (begun, _), mock.patch.object(hub, "log", said.append):
            listener = hub.awaited(self.note)
            assert listener and begun.stdout
            self.assertEqual(begun.stdout.readline(), "True\n")
        with listener:
            self.assertTrue(meeting.is_served(self.note.name))
        path = self.note.name
        self.assertEqual(said, [f"{path} is open in mgr-live (process {begun.pid}), which is asked to join: this waits for it"])
        self.assertIsNone(hub.awaited(self.note))

    def test_who_is_asked_to_join_begins_again_at_the_hub(self) -> None:
        options, opened = read([self.note.name]), []
        options.text = "to be put back once"

        def edit(opening: Opening, company: object) -> int:
            opened.append((opening.note.name == self.note.name, opening.options.way, opening.options.text))
            if len(opened) == 1:
                self.addCleanup(meeting.listen(self.note.name).close)
                return shell_status(-JOIN)
            return 0

        with mock.patch.object(live, "meet", mock.Mock()), mock.patch.object(live, "tell"):
            self.assertEqual(live.begin(self.mgr, options, edit), 0)
        self.assertEqual(opened, [(True, ("", ""), "to be put back once"), (False, (HERE, self.note.name), None)])


if __name__ == "__main__":
    unittest.main()
