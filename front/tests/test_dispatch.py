"""Strokes beside a mgr that answers by and by, and the keys that it is given."""

import pathlib
import tempfile
import unittest
from typing import Any

import context  # noqa: F401

from mgr_front.dispatch import Dispatcher
from mgr_front.editor import Talk
from mgr_front.errands import Errand
from mgr_front.keys import Keys
from mgr_front.minibuffer import Page, Question
from mgr_front.statuses import Status


def asking(label: str, answer: str = "", mode: str = "prompt") -> dict[str, str]:
    """Returns the members of a status while a prompt is open."""
    return {"label": label, "answer": answer, "mode": mode}


class FakeDesk:
    """Notes what the front has to do itself."""

    def __init__(self, editor: Talk) -> None:
        self.editor = editor
        self.errand: Errand | None = None
        self.question: Question | None = None
        self.said: str | None = None
        self.done: list[str] = []

    def suspend(self) -> None:
        self.done.append("suspend")

    def repaint(self) -> None:
        self.done.append("repaint")

    def start(self, errand: Errand) -> None:
        try:
            self.editor.hand_on(next(errand))
            self.errand = errand
        except StopIteration as end:
            self.done.append(end.value)

    def save(self) -> Errand:
        yield b"\x18\x13"
        return None

    def leave(self) -> Errand:
        self.done.append("leave")
        yield b""
        return None

    def complete(self) -> None:
        self.done.append("complete")

    def accept(self) -> None:
        self.done.append("accept")

    def ask(self, question: Question) -> None:
        self.question = question

    def answer(self, byte: int) -> None:
        assert self.question
        errand = self.question.press(byte)
        if not self.question.is_open:
            self.question = None
        if errand:
            self.start(errand)


class TestDispatch(unittest.TestCase):
    def setUp(self) -> None:
        self.editor = Talk(3)
        self.editor.note(Status())
        self.desk = FakeDesk(self.editor)
        self.dispatcher = Dispatcher(self.editor, erase=8)  # type: ignore[arg-type]
        self.terminal = Keys()

    def press(self, sent: bytes) -> bytes:
        """Returns the keys that mgr is given for these, so far."""
        self.dispatcher.take(self.terminal.take(sent))
        return self.given()

    def answer(self, **members: Any) -> bytes:
        """Has mgr answer all keys by a status with these members, and returns those that it is given then."""
        self.editor.note(Status(keys=self.editor.status.keys + len(self.editor.untold), **members))
        return self.given()

    def given(self) -> bytes:
        self.editor.waiting.clear()
        self.dispatcher.run(self.desk)
        return bytes(self.editor.waiting)

    def test_text_goes_on_at_once(self) -> None:
        self.assertEqual(self.press(b"ab"), b"ab")
        self.assertEqual(self.press(b"c"), b"c")

    def test_lines_go_on_at_once(self) -> None:
        self.assertEqual(self.press(b"one\r\ttwo\r"), b"one\r\ttwo\r")
        self.assertEqual(self.press(b"\r\xc3\xa9\r"), b"\r\xc3\xa9\r")

    def test_the_end_of_a_line_waits_for_what_may_ask_for_one(self) -> None:
        for keys in (b"\x06", b"\x1bx", b"\x18\x06"):
            with self.subTest(keys=keys):
                self.setUp()
                self.assertEqual(self.press(keys), keys)
                self.assertEqual(self.press(b"a"), b"a")
                self.assertEqual(self.press(b"b\tc\r"), b"")
                self.assertEqual(self.answer(**asking("M-x ", "a")), b"b")
                self.answer(**asking("M-x ", "ab"))
                self.assertEqual(self.desk.done, ["complete"])

    def test_what_is_typed_within_a_key_is_no_text(self) -> None:
        self.press(b"\x15")
        self.assertEqual(self.answer(begun=True) + self.press(b"4\r"), b"4")
        self.assertEqual(self.answer(begun=True), b"\r")

    def test_what_depends_on_the_answer_waits_for_it(self) -> None:
        self.assertEqual(self.press(b"a\x18\x06b"), b"a")
        self.assertEqual(self.answer(), b"\x18\x06b")

    def test_the_byte_that_erases(self) -> None:
        self.assertEqual(self.press(b"\x08"), b"\x7f")
        self.assertEqual(self.answer(), b"")
        self.assertEqual(self.press(b"\x11\x08"), b"\x11\x08")

    def test_beginnings_of_keys_are_kept_back(self) -> None:
        self.assertEqual(self.press(b"\x18"), b"")
        self.assertEqual(self.press(b"\x13"), b"\x18\x13")
        self.assertEqual(self.answer(), b"")
        self.assertEqual(self.press(b"\x18"), b"")
        self.dispatcher.give_up()
        self.assertEqual(self.editor.waiting, b"\x18")

    def test_leaving_is_the_desks(self) -> None:
        self.assertEqual(self.press(b"\x18\x03"), b"")
        self.assertEqual(self.desk.done, ["leave"])

    def test_arguments_by_the_meta_key(self) -> None:
        self.assertEqual(self.press(b"\x1b1\x1b2"), b"\x151")
        self.assertEqual(self.answer(begun=True), b"2")
        self.assertEqual(self.press(b"\x06"), b"\x06")

    def test_keys_of_the_front_mean_nothing_in_an_answer(self) -> None:
        self.press(b"\x18\x06")
        self.answer(**asking("Find file: "))
        self.assertEqual(self.press(b"\x18g"), b"\x18")
        self.assertEqual(self.answer(**asking("Find file: ")), b"g")
        self.answer(**asking("Find file: ", "g"))
        self.assertEqual(self.press(b"\x1b[1;5D"), b"\xfe")
        self.answer(**asking("Find file: ", "g"))
        self.assertEqual(self.press(b"\x1bf"), b"\xfe")

    def test_suspending(self) -> None:
        self.press(b"\x1a")
        self.press(b"\x18\x1a")
        self.assertEqual(self.desk.done, ["suspend", "suspend"])
        self.assertEqual(self.press(b"\x11\x1a"), b"\x11\x1a")
        self.assertEqual(self.desk.done, ["suspend", "suspend"])

    def test_keys_of_an_answer(self) -> None:
        self.assertEqual(self.press(b"\t"), b"\t")
        self.assertEqual(self.answer() + self.press(b"\r"), b"\r")
        self.assertEqual(self.answer() + self.press(b"\x18\x06"), b"\x18\x06")
        self.answer(**asking("Find file: "))
        self.assertEqual(self.press(b"\t\r"), b"")
        self.assertEqual(self.desk.done, ["complete", "accept"])

    def test_all_is_drawn_anew(self) -> None:
        self.assertEqual(self.press(b"\x0c"), b"\x0c")
        self.assertEqual(self.desk.done, ["repaint"])

    def test_going_to_a_line(self) -> None:
        self.assertEqual(self.press(b"\x18g1x2\x083\r"), b"\x1b<")
        errand = self.desk.errand
        self.assertIsNotNone(errand)
        self.assertEqual(self.press(b"a"), b"")

    def test_a_line_of_too_many_digits(self) -> None:
        self.press(b"\x18g" + b"9" * 5000)
        assert self.desk.question
        self.assertEqual(self.desk.question.answer, "9" * 9)
        self.assertEqual(self.press(b"\r"), b"\x1b<")

    def test_help(self) -> None:
        for keys in (b"\x1bOP", b"\x08"):
            self.dispatcher = Dispatcher(self.editor)  # type: ignore[arg-type]
            self.press(keys)
            self.answer()
            shown = self.desk.question
            assert isinstance(shown, Page)
            self.assertIn("C-f C-b", shown.picture(5, 80).rows[0])
            self.press(b" ")
            self.assertIn("C-SPC", shown.picture(40, 80).rows[0])
            self.assertEqual(self.press(b"\x1b[A") + self.press(b"a"), b"a")
            self.assertIsNone(self.desk.question)
            self.answer()

    def test_another_name(self) -> None:
        with tempfile.TemporaryDirectory() as folder:
            name = f"{folder}/é"
            for taken in (False, True):
                self.press(b"\x18\x17" + name.encode() + b"x\x08\r")
                self.assertEqual(self.editor.waiting, b"" if taken else f"\x18h\x1bw\x18\x06{name}\r".encode())
                pathlib.Path(name + ".ops").touch()
                self.editor.waiting.clear()
                if not taken:
                    assert self.desk.errand
                    self.assertEqual(self.desk.errand.send(Status()), b"\x19\x18\x13")
                    self.desk.errand = None
                    self.answer()

    def test_a_line_that_is_pasted(self) -> None:
        self.press(b"\x18g\x1b[200~12\r\x1b[201~\x1b[D\x1bf")
        assert self.desk.question
        self.assertEqual(self.desk.question.answer, "12")

    def test_a_line_that_is_not_asked_for_any_more(self) -> None:
        self.assertEqual(self.press(b"\x18g12\x07a"), b"a")
        self.assertEqual(self.answer() + self.press(b"\x18g\rb"), b"b")

    def test_a_search_that_fails_keeps_what_is_typed(self) -> None:
        for what, sent, keys, kept in [
            ("characters", b"y\xc3\xa9z", b"", "xy\u00e9z"),
            ("DEL", b"y\x7f", b"", "x"),
            ("DEL of a character of two bytes", b"\xc3\xa9\x7f", b"", "x"),
            ("one more DEL than characters", b"\x7f\x7f", b"\x7f", ""),
            ("C-g", b"y\x07", b"", ""),
            ("C-s, which fails again", b"\x13\x12", b"", "x"),
            ("RET", b"y\r", b"\r", ""),
            ("another key", b"y\x01", b"\x01", ""),
            ("an arrow", b"y\x1b[A", b"\x10", ""),
            ("a paste, to the end of its line", b"\x1b[200~yz\n1\x1b[201~", b"", "xyz"),
        ]:
            with self.subTest(what):
                self.setUp()
                self.press(b"\x13")
                self.answer(**asking("I-search: ", "", "search"))
                self.assertEqual(self.press(b"fx"), b"f")
                self.assertEqual(self.answer(**asking("I-search: ", "f", "search")), b"x")
                self.answer(message="Search failed", **asking("I-search: ", "f", "search"))
                self.assertEqual(self.dispatcher.failing, b"x")
                self.assertEqual(self.press(sent), keys)
                self.assertEqual(self.dispatcher.failing.decode(), kept)

    def test_what_is_typed_at_once_after_a_search_began_waits_for_it(self) -> None:
        self.assertEqual(self.press(b"a\x13fo"), b"a")
        self.assertEqual(self.answer(), b"\x13")
        self.assertEqual(self.answer(**asking("I-search: ", "", "search")), b"f")
        self.assertEqual(self.answer(message="Search failed", **asking("I-search: ", "", "search")), b"")
        self.assertEqual((self.dispatcher.failing, self.desk.said), (b"fo", ""))
        self.press(b"\x07\x07b")
        self.assertEqual((self.dispatcher.failing, self.answer()), (b"", b"b"))

    def test_a_paste_leaves_what_was_begun_and_no_question_is_answered_by_it(self) -> None:
        self.assertEqual(self.press(b"\x154\x1b[200~y\r\x1b[201~"), b"\x154")
        self.assertEqual(self.answer(begun=True), b"\xfe")
        self.assertEqual(self.answer(), b'\xff{"op":"paste","text":"y\\n"}\n')
        self.answer()
        self.press(b"a")
        self.answer(**asking("Query replacing (y n ! q): ", mode="query"))
        self.assertEqual(self.press(b"\x1b[200~y\x1b[201~"), b"\x07")
        self.assertEqual(self.answer(), b'\xff{"op":"paste","text":"y"}\n')

    def test_a_paste_that_comes_in_pieces_is_one_command(self) -> None:
        self.assertEqual(self.press(b"\x1b[200~one"), b'\xff{"op":"paste","text":"one","more":true}\n')
        self.assertEqual(self.press(b" two\x1b[201~"), b'\xff{"op":"paste","text":" two"}\n')
        self.press(b"\x1b[200~cut")
        self.dispatcher.take(self.terminal.give_up())
        self.assertEqual(self.given(), b'\xff{"op":"paste","text":""}\n')


if __name__ == "__main__":
    unittest.main()
