"""What is kept of copies of a note: their numbers, and how the last edits left them."""

import os
import shutil
import unittest
from unittest import mock

from context import InFolder

from mgr_front import copies, meeting
from mgr_front.copies import Copy
from mgr_front.notes import Refused
from mgr_front.program import Log


def log_of(operations: int = 10, **written: int) -> Log:
    """Returns what mgr says of a log in which these have written up to a counter, as `r1=2`."""
    return Log(500, operations, 0, "same", {int(name[1:]): counter for name, counter in written.items()})


class Copies(InFolder):
    def setUp(self) -> None:
        super().setUp()
        patch = mock.patch.dict(os.environ, XDG_STATE_HOME=str(self.folder / "state"))
        patch.start()
        self.addCleanup(patch.stop)
        self.path = str(self.folder / "note")


class TestNumbers(Copies):
    def test_a_number_that_wrote_in_the_log_is_kept(self) -> None:
        first = Copy(self.path).number(None)
        self.assertIn(first, range(1000, 65001))
        self.assertEqual(self.names(), [])
        Copy(self.path).keep_number(first)
        log = log_of(r1=2, r2=2, **{f"r{first}": 1})
        self.assertEqual(Copy(self.path).number(log), first)
        self.assertEqual(self.names(), ["state"])
        (self.folder / "link").symlink_to(self.folder)
        self.assertEqual(Copy(str(self.folder / "link" / "note")).number(log), first)

    def test_another_machine_user_and_note_have_others(self) -> None:
        Copy(self.path).keep_number(1001)
        with mock.patch.object(copies, "draw", side_effect=[1002, 1003, 1004]):
            with mock.patch.object(copies, "machine", return_value="another"):
                self.assertEqual(Copy(self.path).number(log_of(r1001=1)), 1002)
            with mock.patch.object(copies, "user", return_value="another"):
                self.assertEqual(Copy(self.path).number(log_of(r1001=1)), 1003)
            self.assertEqual(Copy(self.path + "2").number(log_of(r1001=1)), 1004)
            self.assertEqual(Copy(self.path).number(log_of(r1001=1)), 1001)

    def test_a_log_that_goes_less_far_than_was_told_is_a_copy(self) -> None:
        Copy(self.path).keep_number(1001, 9)
        Copy(self.path).keep_number(1002)
        Copy(self.path).keep_number(1002, 5)
        Copy(self.path).keep_number(1002, 3)
        for what, log, used in [
            ("the log is lost", None, {1001, 1002}),
            ("it has nothing of either number", log_of(r7=9), {1001, 1002, 7}),
            ("it was restored from a backup", log_of(r1001=8, r1002=4), {1001, 1002}),
        ]:
            with self.subTest(what), mock.patch.object(copies, "draw") as draw:
                Copy(self.path).number(log)
                draw.assert_called_once_with(used)
        for what, log, wanted in [
            ("nothing is lost", log_of(r1001=9, r1002=5), 1002),
            ("another branch, of before the second number", log_of(r1001=9), 1001),
            ("an edit that was killed before it told anything", log_of(r1001=9, r1002=6), 1002),
        ]:
            with self.subTest(what):
                self.assertEqual(Copy(self.path).number(log), wanted)

    def test_what_is_kept_cannot_be_read_or_written(self) -> None:
        copy = Copy(self.path)
        copy.keep_number(1001)
        for kept in ("", "[]", '["a"'):
            with open(copy.file, "w") as file:
                file.write(kept)
            with mock.patch.object(copies, "draw", return_value=1002):
                self.assertEqual(Copy(self.path).number(log_of(r1001=1)), 1002)
        with mock.patch.object(os, "replace", side_effect=PermissionError):
            copy.keep_number(1003)

    def test_a_number_that_is_used_is_not_drawn(self) -> None:
        self.assertEqual(copies.draw({*range(1000, 3000), *range(3001, 65001)}), 3000)


class TestTextsPutLast(Copies):
    def test_one_is_told_from_the_text_of_another_program(self) -> None:
        self.assertFalse(Copy(self.path).is_put(b""))
        copy = Copy(self.path)
        copy.note_put(b"text", 9, 10)
        copy.keep()
        for path, text, wanted in [(self.path, b"text", True), (self.path, b"other", False), (self.path + "2", b"text", False)]:
            self.assertEqual(Copy(path).is_put(text), wanted)

    def test_a_log_that_grew_is_told_from_an_older_one(self) -> None:
        copy = Copy(self.path)
        for known, operations, wanted in [(0, 10, False), (10, 10, True), (10, 11, True), (10, 9, False)]:
            copy.note_put(b"text", 9, known)
            self.assertEqual(copy.has_grown(log_of(operations)), wanted)


class TestFolders(Copies):
    def test_they_are_for_one_person_alone_whatever_the_umask(self) -> None:
        for umask in (0o000, 0o002, 0o022, 0o077):
            with self.subTest(umask=oct(umask)):
                before = os.umask(umask)
                try:
                    Copy(self.path).keep_number(1001)
                    meeting.listen(self.path).close()
                finally:
                    os.umask(before)
                state = self.folder / "state"
                modes = {path.relative_to(state).parts[0:3]: path.stat().st_mode & 0o777 for path in state.rglob("*")}
                self.assertEqual({len(parts) > 2: mode for parts, mode in modes.items()}, {False: 0o700, True: 0o600})
                self.assertEqual(len(modes), 5)
                shutil.rmtree(state)

    def test_one_in_which_others_may_write_is_refused_by_name(self) -> None:
        Copy(self.path).keep_number(1001)
        meeting.listen(self.path).close()
        for name, looks in [("mgr", (Copy, meeting.connect)), ("mgr/copies", (Copy,)), ("mgr/hubs", (meeting.connect,))]:
            folder = self.folder / "state" / name
            for mode in (0o770, 0o702):
                folder.chmod(mode)
                for look in looks:
                    with self.subTest(name, mode=oct(mode)), self.assertRaises(Refused) as refused:
                        look(self.path)
                    self.assertEqual(str(refused.exception), f"{folder}: is not yours, or others may write there: see `chmod go-w '{folder}'`")
            folder.chmod(0o700)

    def test_one_of_another_user_is_refused(self) -> None:
        Copy(self.path).keep_number(1001)
        with mock.patch.object(os, "getuid", return_value=os.getuid() + 1), self.assertRaises(Refused) as refused:
            Copy(self.path)
        self.assertIn(f"{self.folder}/state/mgr: is not yours", str(refused.exception))


if __name__ == "__main__":
    unittest.main()
