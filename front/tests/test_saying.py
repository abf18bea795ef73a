"""What is asked before an edit, and answers to it."""

import io
import unittest
from contextlib import redirect_stdout
from unittest import mock

import context  # noqa: F401

from mgr_front.saying import FAILED, choice, tell

NO_TEXT = UnicodeDecodeError("utf-8", b"\xff", 0, 1, "invalid start byte")


FOREIGN, CLEAN = "one\n\x1b]0;x\x07\u202e\x9b\ud800", "one\n?]0;x????"


class TestSayings(unittest.TestCase):
    def test_what_others_wrote_has_no_terminal_do_anything(self) -> None:
        with mock.patch("mgr_front.saying.write_all") as write_all:
            tell(FOREIGN)
        write_all.assert_called_once_with(f"mgr-live: {CLEAN}\n".encode(), to=2)
        with mock.patch("builtins.input", side_effect=["f"]), redirect_stdout(io.StringIO()) as asked:
            choice(FOREIGN, "f", "l")
        self.assertEqual(asked.getvalue(), CLEAN)


class TestChoices(unittest.TestCase):
    def answer(self, *answers: str | BaseException) -> str:
        with mock.patch("builtins.input", side_effect=answers), redirect_stdout(io.StringIO()):
            return choice("Which?\n", "f", "l")

    def test_it_is_asked_until_one_of_the_two_is_given(self) -> None:
        self.assertEqual(self.answer("", "x", NO_TEXT, " F "), "f")

    def test_without_an_answer_the_program_ends(self) -> None:
        for end in (EOFError(), KeyboardInterrupt()):
            with mock.patch("mgr_front.saying.stop", side_effect=SystemExit(FAILED)) as stop:
                with self.assertRaises(SystemExit):
                    self.answer("x", end)
            stop.assert_called_once_with("nothing was done")


if __name__ == "__main__":
    unittest.main()
