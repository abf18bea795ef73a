"""Answers that are completed."""

import os
import pathlib
import tempfile
import unittest
from unittest import mock

import context

from mgr_front.completion import COMMANDS, accept, candidates, complete
from mgr_front.errands import Errand
from mgr_front.statuses import Status

SOURCE = pathlib.Path(context.__file__).resolve().parents[2] / "crates" / "mg_keys" / "src" / "names.rt"


def play(errand: Errand, message: str = "") -> tuple[bytes, str | None]:
    """Returns the keys that an errand presses, and what it says."""
    keys = b""
    try:
        keys = next(errand)
        errand.send(Status(message=message))
    except StopIteration as end:
        return keys, end.value
    raise AssertionError("the errand goes on")


class TestCompletion(unittest.TestCase):
    def setUp(self) -> None:
        folder = tempfile.TemporaryDirectory()
        self.addCleanup(folder.cleanup)
        self.addCleanup(os.chdir, os.getcwd())
        os.chdir(folder.name)
        for name in ("notes", "notes.ops", "notes~", "notes.ops~", "novel.ops", "x.ops.new", ".hidden"):
            pathlib.Path(name).touch()
        pathlib.Path("drafts").mkdir()
        pathlib.Path("drafts", "one").touch()

    def test_candidates(self) -> None:
        for label, answer, wanted in [
            ("Find file: ", "", ["drafts/", "notes", "novel"]),
            ("Find file: ", "no", ["notes", "novel"]),
            ("Find file: ", "drafts/", ["drafts/one"]),
            ("Find file: ", ".h", [".hidden"]),
            ("Find file: ", "nowhere/", []),
            ("Switch to buffer: ", "b", ["beta"]),
            ("Kill buffer: ", "", ["alpha", "beta"]),
            ("M-x ", "replica-", ["replica-exchange", "replica-serve"]),
            ("Query replace: ", "n", []),
        ]:
            with self.subTest(label=label, answer=answer):
                self.assertEqual(candidates(label, answer, ["alpha", "beta", "x\x01"]), wanted)

    def test_completing(self) -> None:
        for label, answer, wanted in [
            ("Find file: ", "n", (b"o", None)),
            ("Find file: ", "no", (b"", "notes novel")),
            ("Find file: ", "not", (b"es", None)),
            ("Find file: ", "notes", (b"", "Sole completion")),
            ("Find file: ", "z", (b"", "No match")),
            ("Find file: ", "drafts/", (b"one", None)),
            ("M-x ", "replica-", (b"", "replica-exchange replica-serve")),
            ("M-x ", "und", (b"o", None)),
        ]:
            with self.subTest(label=label, answer=answer):
                self.assertEqual(play(complete(label, answer, [])), wanted)

    def test_the_home_folder(self) -> None:
        with mock.patch.dict(os.environ, HOME=os.getcwd()):
            home = os.getcwd().encode()
            self.assertEqual(play(complete("Find file: ", "~/not", [])), (b"\x7f" * 5 + home + b"/notes", None))
            self.assertEqual(play(accept("Find file: ", "~/notes")), (b"\x7f" * 7 + home + b"/notes\r", None))

    def test_a_fault_of_a_file_says_which_and_why(self) -> None:
        for name, message, wanted in [
            ("nowhere/n", "File fault", "File fault: nowhere is not there"),
            ("nowhere/n", "", "Nothing can be saved: nowhere is not there"),
            ("drafts", "File fault", "File fault: drafts may not be written"),
            ("notes", "File fault", "File fault: another mgr has it open, or a file of it cannot be read"),
            ("notes", "", None),
        ]:
            with self.subTest(name):
                self.assertEqual(play(accept("Find file: ", name), message)[1], wanted)

    @unittest.skipUnless(SOURCE.exists(), "the sources of mgr are not there")
    def test_the_commands_are_those_of_mgr(self) -> None:
        source = SOURCE.read_text()
        self.assertEqual(source.count('    b"'), len(COMMANDS))
        for name in COMMANDS:
            self.assertIn(f'b"{name}"', source)


if __name__ == "__main__":
    unittest.main()
