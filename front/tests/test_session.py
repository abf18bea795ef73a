"""Sessions beside a program that takes the place of mgr, and their ends."""

import math
import os
import pathlib
import shutil
import threading
import time
import unittest
from collections.abc import Callable, Sequence
from typing import Any, cast
from unittest import mock

from context import OPERATION, InFolder

from mgr_front import ending, guests, session
from mgr_front.channels import State, Took
from mgr_front.company import Company
from mgr_front.editor import Editor
from mgr_front.keys import Keys
from mgr_front.notes import Note
from mgr_front.opening import NEW
from mgr_front.session import Session
from mgr_front.signals import ENDING
from mgr_front.statuses import Status


LACK = "what others lack they get at the next start"


class Sessions(InFolder):
    def setUp(self) -> None:
        super().setUp()
        self.woken, waker = os.pipe()
        self.addCleanup(os.close, self.woken)
        self.addCleanup(os.close, waker)
        size = mock.patch("os.get_terminal_size", return_value=os.terminal_size((80, 9)))
        for patch in (mock.patch.dict(os.environ, XDG_STATE_HOME=str(self.folder / "state")), size):
            patch.start()
            self.addCleanup(patch.stop)

    def begin(self, name: str) -> Session:
        self.note = Note(str(self.folder / name))
        editor = Editor(self.mgr, [self.note.name], 3)
        screen, signals = mock.Mock(erase=127, is_raw=False, waiting=b""), mock.Mock(first=None, woken=self.woken)
        return Session(editor, screen, signals)

    def settle(self, edit: Session) -> None:
        """Waits until all is answered."""
        while not edit.editor.is_settled:
            self.assertTrue(edit.step())

    def type(self, edit: Session, sent: bytes) -> None:
        edit.dispatcher.take(Keys().take(sent))


class TestStatuses(Sessions):
    def begin(self, name: str) -> Session:
        edit = super().begin(name)
        self.addCleanup(edit.editor.end, 5)
        return edit

    def test_a_new_size_is_told_at_once(self) -> None:
        edit = self.begin("note")
        self.settle(edit)
        self.type(edit, b"a\x18")
        edit.dispatcher.run(edit)
        edit.resize()
        self.settle(edit)
        self.assertEqual((edit.editor.status.frame[0], len(edit.editor.status.frame)), ("a", 9))

    def test_what_the_front_says_stands_until_a_key_is_taken(self) -> None:
        edit = self.begin("note")
        edit.said = "Sole completion"
        for keys, wanted in [(0, "Sole completion"), (1, None)]:
            edit.editor.note(Status(keys=keys))
            edit.take(edit.editor.status)
            self.assertEqual(edit.said, wanted)

    def test_what_is_said_of_a_new_note_goes_at_a_prompt_and_a_save(self) -> None:
        for members, wanted in [({}, [NEW]), ({"label": "M-x "}, []), ({"saved": "ok"}, [])]:
            edit = self.begin("note")
            edit.greeting = NEW
            edit.take(Status())
            edit.take(Status(**members))
            self.assertEqual(list(edit.remarks), wanted)

    def test_what_answers_own_keys_is_drawn_at_once(self) -> None:
        for keys, reports, wanted in [(1, 1, True), (1, 0, True), (0, 0, False), (0, 1, True)]:
            with self.subTest(keys=keys, reports=reports):
                edit = self.begin("note")
                self.settle(edit)
                edit.due, edit.painted = math.inf, time.monotonic()
                edit.editor.reports = 1
                edit.editor.untold += b"a" * keys
                edit.editor.note(Status(("", "", ""), keys=keys, reports=reports))
                edit.take(edit.editor.status)
                self.assertEqual(edit.due <= time.monotonic(), wanted)

    def test_the_bell_rings_for_keys_that_mean_nothing(self) -> None:
        for keys, begun, message, wanted in [
            (1, False, "Undefined key", True),
            (1, True, "Undefined key", False),
            (0, False, "Undefined key", False),
            (1, False, "Quit", False),
        ]:
            with self.subTest(keys=keys, begun=begun, message=message):
                edit = self.begin("note")
                edit.editor.note(Status(keys=keys, begun=begun, message=message))
                edit.take(edit.editor.status)
                self.assertEqual(edit.rings, wanted)


class Sharing(Sessions):
    def begin(self, name: str) -> Session:
        edit = super().begin(name)
        self.addCleanup(edit.editor.end, 5)
        edit.company = Company(mock.Mock(refusal=""), lambda post: mock.Mock())
        self.channel: Any = edit.company.channel
        self.settle(edit)
        return edit

    def go_on(self, edit: Session, look: Callable[[], object], wanted: object) -> None:
        """Goes on until what is looked at is what is wanted."""
        end = time.monotonic() + 10
        while (seen := look()) != wanted:
            self.assertLess(time.monotonic(), end, f"{seen!r} is not {wanted!r}")
            with mock.patch.object(edit, "_patience", return_value=0.05):
                self.assertTrue(edit.step())

    def rested(self, edit: Session) -> list[str]:
        return [name for name in self.names() if name == "note"]


class TestSharing(Sharing):
    def test_what_is_typed_is_told_and_what_others_did_is_reported(self) -> None:
        edit = self.begin("note")
        assert edit.company
        self.type(edit, b"typed")
        self.go_on(edit, lambda: self.channel.tell.call_count, 1)
        edit.company.mailbox.post(Took((OPERATION.encode(),) * 3))
        self.go_on(edit, lambda: edit.editor.status.frame[0], "typedaaa")
        self.assertEqual(self.channel.tell.call_args[0][0], (OPERATION.encode(),))

    def test_all_is_saved_once_nothing_is_typed_or_taken(self) -> None:
        edit = self.begin("note")
        assert edit.company
        edit.put = put = mock.Mock()
        with mock.patch.object(session, "IDLE", 0.1):
            # A rest; then an operation, its places and a rest.
            for reports in (1, 4):
                self.go_on(edit, lambda: edit.rest_number, 0)
                edit.typed = time.monotonic()
                if reports > 1:
                    edit.company.mailbox.post(Took((OPERATION.encode(),)))
                self.go_on(edit, lambda: edit.editor.status.reports >= reports, True)
            self.go_on(edit, lambda: self.rested(edit), ["note"])
            self.go_on(edit, lambda: put.called, True)
            self.assertIsNone(edit._rest_due())

    def test_that_others_go_away_is_drawn_at_once(self) -> None:
        edit = self.begin("note")
        assert edit.company
        self.go_on(edit, lambda: edit.due, math.inf)
        edit.company.mailbox.post(State("alone", "gone"))
        self.assertTrue(edit.step())
        self.assertIn("alone since", "".join(cast(Any, edit.screen).draw.call_args[0][0].rows))

    def test_at_the_end_others_wake_nobody(self) -> None:
        edit = self.begin("note")
        assert edit.company
        with mock.patch.object(edit.company, "hear") as hear:
            edit.company.mailbox.post(Took((OPERATION.encode(),)))
            self.type(edit, b"a")
            edit.conclude()
        hear.assert_not_called()

    def test_what_could_not_be_saved_is_tried_again_without_a_key_once_nothing_is_in_its_way(self) -> None:
        edit = self.begin("note")
        edit.names = self.note.name, "note"
        (self.folder / "note").mkdir()
        self.type(edit, b"typed")
        with mock.patch.object(session, "IDLE", 0.1), mock.patch.object(session, "FAILING", 0.3):
            edit.typed = time.monotonic()
            self.go_on(edit, lambda: bool(edit.fault), True)
            reports, end = edit.editor.reports, time.monotonic() + 0.7
            self.go_on(edit, lambda: time.monotonic() > end, True)
            self.assertEqual(edit.editor.reports, reports)
            (self.folder / "note").rmdir()
            self.go_on(edit, lambda: self.rested(edit) and self.text("note"), "typed")
            self.go_on(edit, lambda: edit.fault, "")
        self.assertEqual([said for said in edit.remarks if "aved" in said], ["Saved again"])

    def test_nothing_is_saved_before_anything_is_typed(self) -> None:
        edit = self.begin("note")
        self.assertIsNone(edit._rest_due())

    def test_what_is_told_is_kept_first(self) -> None:
        edit = self.begin("note")
        edit.keep = mock.Mock(side_effect=lambda lines: self.channel.tell.assert_not_called())
        self.type(edit, b"typed")
        self.go_on(edit, lambda: self.channel.tell.call_count, 1)
        edit.keep.assert_called_once_with((OPERATION.encode(),))

    def test_the_names_of_copies_are_not_shown(self) -> None:
        edit = self.begin("note")
        edit.names = self.note.name, "shown"
        self.assertEqual(edit.shown().frame[1], "----Mg: shown (fundamental)")


class TestTerminal(Sharing):
    """Keys that come in parts while another writes; a pipe takes the place of the terminal."""

    def begin(self, name: str) -> Session:
        edit = super().begin(name)
        source, self.terminal = os.pipe()
        self.addCleanup(os.dup2, os.dup(0), 0)
        os.dup2(source, 0)
        for each in (source, self.terminal):
            self.addCleanup(os.close, each)
        edit.screen.is_raw = True
        return edit

    def send(self, edit: Session, parts: Sequence[bytes], pause: float) -> None:
        """Has these come with a pause after each."""
        assert edit.company
        post = edit.company.mailbox.post

        def come() -> None:
            for part in parts:
                os.write(self.terminal, part)
                end = time.monotonic() + pause
                while time.monotonic() < end:
                    post(Took((OPERATION.encode(),)))
                    time.sleep(0.005)

        thread = threading.Thread(target=come)
        thread.start()
        while thread.is_alive():
            self.assertTrue(edit.step())
        self.settle(edit)

    def text(self, edit: Session) -> str:  # type: ignore[override]
        """Returns what is typed."""
        return edit.editor.status.frame[0].replace("a", "")

    def test_a_key_in_the_middle_of_its_bytes_waits_whatever_else_comes(self) -> None:
        for what, parts in [("an arrow", [b"\x1b", b"[", b"B"]), ("a paste", [b"\x1b[20", b"0~x\x1b[2", b"01~"])]:
            with self.subTest(what), mock.patch.object(session, "PATIENCE", 2.0):
                edit = self.begin("note")
                self.send(edit, [*parts, b"y"], 0.12)
                self.assertEqual(self.text(edit), "xy" if what == "a paste" else "y")

    def test_a_key_of_which_nothing_more_comes_is_none(self) -> None:
        edit = self.begin("note")
        self.send(edit, [b"\x1b", b"y"], 0.3)
        self.assertEqual((self.text(edit), edit.keys.is_in_doubt), ("", False))

    def test_a_paste_without_its_end_is_shown_and_left_by_its_key(self) -> None:
        edit = self.begin("note")
        for parts, is_shown, text in [
            ([b"\x1b[200~x"], True, "x"),
            ([b"y\x07z"], True, "xy\x07z"),
            ([b"\x07"], False, "xy\x07z"),
            ([b"\x1b[200~1\x1b[201~2"], False, "xy\x07z12"),
        ]:
            self.send(edit, parts, 0.3)
            self.assertEqual((session.PASTING in edit._echo().text, self.text(edit)), (is_shown, text))
            self.assertEqual(edit.keys.paste is not None, is_shown)


class TestEnds(Sessions):
    def test_all_that_was_typed_is_saved(self) -> None:
        edit = self.begin("note")
        self.type(edit, b"typed " * 100 + b"\x18")
        ending.finish(edit, self.note)
        self.assertEqual(self.text("note"), "typed " * 100)
        self.assertEqual(edit.editor.process.returncode, 0)

    def test_it_is_too_where_what_ends_a_login_reaches_mgr(self) -> None:
        for number in ENDING:
            with self.subTest(number=number):
                edit = self.begin(f"note-{number}")
                self.settle(edit)
                self.type(edit, b"typed")
                edit.editor.process.send_signal(number)
                ending.finish(edit, self.note)
                self.assertEqual(self.text(f"note-{number}"), "typed")
                self.assertEqual(edit.editor.process.returncode, 0)

    def leave(self, edit: Session, keys: bytes) -> None:
        """Types, and goes on until mgr is left or something is asked."""
        self.type(edit, keys)
        edit.dispatcher.run(edit)
        while (edit.errand or edit.dispatcher.strokes or not edit.editor.is_answered) and edit.step():
            pass

    def test_leaving(self) -> None:
        for keys, answer, asks, text in [
            (b"", b"", False, "before"),
            (b"ab", b"s", True, "ab"),
            (b"ab", b"d", True, "before"),
            (b"ab\x18\x13", b"", False, "ab"),
            (b"ab\x18\x13c", b"d", True, "ab"),
        ]:
            with self.subTest(keys=keys, answer=answer), mock.patch.object(ending, "tell") as tell:
                self.put(note="before", note_ops="ab")
                edit = self.begin("note")
                edit.names = self.note.name, "note"
                self.settle(edit)
                self.leave(edit, keys)
                self.leave(edit, b"\x18\x03")
                self.assertEqual(edit.question is not None, asks)
                self.leave(edit, answer)
                self.assertIsNone(edit.question)
                ending.finish(edit, self.note)
                self.assertEqual((self.text("note"), edit.discards), (text, answer == b"d"))
                said = f"{self.note.name} is as it was; {self.note.log} has what was written, and so have others"
                self.assertEqual(mock.call(said) in tell.call_args_list, answer == b"d")

    def test_what_another_program_wrote_is_kept_if_the_text_is_put_back(self) -> None:
        # The first save of the program that takes the place of mgr has kept the text from before.
        for before, kept in (("before", "note.~1~"), ("", "note~")):
            with self.subTest(before=before), mock.patch.object(ending, "tell") as tell:
                self.put(**{"note": before} if before else {}, note_ops="ab")
                edit = self.begin("note")
                edit.names = self.note.name, "note"
                self.settle(edit)
                self.leave(edit, b"ab\x18\x03")
                self.put(note="theirs")
                self.leave(edit, b"d")
                ending.finish(edit, self.note)
                self.assertEqual(self.text("note") if before else "", before)
                self.assertEqual((self.text(kept), (self.folder / "note").exists()), ("theirs", bool(before)))
                tell.assert_any_call(f"{self.folder / kept} has what stood there")
                for name in self.names():
                    if name.startswith("note"):
                        os.unlink(self.folder / name)

    def test_what_cannot_be_saved_is_put_apart(self) -> None:
        for end in (b"sd", b""):
            with self.subTest(end=end), mock.patch.object(ending, "tell") as tell:
                shutil.rmtree(self.folder / "note", ignore_errors=True)
                edit = self.begin("note")
                edit.names = self.note.name, "note"
                self.settle(edit)
                (self.folder / "note").mkdir()
                self.leave(edit, b"ab\x18\x03" * bool(end) + b"ab" * (not end))
                for key in end:
                    assert edit.question
                    self.assertIn("Not saved", edit.question.text)
                    self.leave(edit, bytes([key]))
                with mock.patch.object(ending, "keep_apart", return_value="apart") as keep:
                    ending.finish(edit, self.note)
                place = keep.call_args[0][2]
                self.assertTrue(place.startswith(guests.copies_of(self.note.name)))
                self.assertEqual((pathlib.Path(place).read_text(), edit.discards), ("ab", False))
                tell.assert_called_once_with("apart")

    def test_a_text_that_is_not_put_in_can_be_yanked(self) -> None:
        for text in ("words", "more words " * 2000):
            with self.subTest(text=text[:9]):
                edit = self.begin("full")
                edit.names = self.note.name, "full"
                self.settle(edit)
                self.type(edit, b"\x1b[200~" + text.encode() + b"\x1b[201~")
                self.leave(edit, b"")
                while edit.errand or edit.unput[1]:
                    self.assertTrue(edit.step())
                self.assertEqual(edit.said, "Not put in: Full; C-y puts it elsewhere")
                self.assertEqual((edit.editor.status.buffer, edit.made), (self.note.name, set()))
                self.assertEqual(os.listdir(guests.copies_of(self.note.name)), [])
                self.leave(edit, b"\x19")
                self.assertEqual(edit.editor.status.frame[0], text)
                ending.finish(edit, self.note)

    def test_the_command_that_leaves_asks_as_its_key_does(self) -> None:
        edit = self.begin("note")
        edit.names = self.note.name, "note"
        self.settle(edit)
        self.leave(edit, b"ab\x1bxsave-buffers-kill-emacs\r")
        assert edit.question
        self.assertEqual(edit.question.text, session.LEAVING)
        self.leave(edit, b"s")
        ending.finish(edit, self.note)
        self.assertEqual(self.text("note"), "ab")

    def test_who_stays(self) -> None:
        edit = self.begin("note")
        edit.names = self.note.name, "note"
        self.settle(edit)
        self.leave(edit, b"ab\x18\x03")
        self.leave(edit, b"\x07c")
        self.assertEqual((edit.question, edit.discards, edit.editor.status.frame[0]), (None, False, "abc"))
        ending.finish(edit, self.note)
        self.assertEqual(self.text("note"), "abc")

    def test_what_a_save_puts_aside_is_told(self) -> None:
        edit = self.begin("note")
        self.settle(edit)
        self.put(note="another program's")
        self.type(edit, b"typed")
        with mock.patch.object(ending, "tell") as tell:
            ending.finish(edit, self.note)
        self.assertEqual((self.text("note"), self.text("note~")), ("typed", "another program's"))
        tell.assert_called_once_with(f"{self.note.name}~ has what stood there")

    def test_it_is_told_what_others_lack_and_why(self) -> None:
        for state, is_passed, told in (
            (State("live"), True, []),
            (State("live"), False, [LACK]),
            (State("alone", "gone"), False, [f"{LACK}: gone"]),
            (State("refused", "another note"), False, []),
        ):
            edit = self.begin("note")
            edit.company = Company(mock.Mock(refusal=""), lambda post: mock.Mock())
            edit.company.mailbox.post(state)
            edit.company.channel.close.return_value = is_passed  # type: ignore[attr-defined]
            with self.subTest(state=state), mock.patch.object(ending, "tell") as tell:
                ending.finish(edit, self.note)
                self.assertEqual([call[0][0] for call in tell.call_args_list], told)

    def test_it_is_too_where_the_front_has_a_fault(self) -> None:
        edit = self.begin("note")
        self.type(edit, b"typed")
        with mock.patch.object(edit, "step", side_effect=RuntimeError), self.assertRaises(RuntimeError):
            ending.finish(edit, self.note)
        self.assertEqual(self.text("note"), "typed")

    def test_a_slow_save_is_waited_for(self) -> None:
        edit = self.begin("slow")
        self.type(edit, b"typed")
        with mock.patch.object(ending, "tell") as tell, mock.patch.object(ending, "PATIENCE", 0.2):
            ending.finish(edit, self.note)
        self.assertEqual((self.text("slow"), edit.editor.process.returncode), ("typed", 0))
        tell.assert_called_once_with(f"mgr saves {self.note.name}: this waits for it")

    def test_what_nothing_takes_is_told(self) -> None:
        edit = self.begin("note")
        edit.names = self.note.name, "note"
        self.settle(edit)
        self.put(state="no folder")
        (self.folder / "note").mkdir()
        with mock.patch.object(ending, "tell") as tell:
            self.type(edit, b"typed")
            ending.finish(edit, self.note)
        tell.assert_called_once_with(f"Not saved: File fault: {self.note.name} may not be written")

    def test_a_question_of_the_front_is_left(self) -> None:
        edit = self.begin("note")
        self.settle(edit)
        self.type(edit, b"ab")
        edit.dispatcher.run(edit)
        self.settle(edit)
        self.type(edit, b"\x18g12")
        edit.dispatcher.run(edit)
        self.assertIsNotNone(edit.question)
        ending.finish(edit, self.note)
        self.assertEqual(self.text("note"), "ab")


if __name__ == "__main__":
    unittest.main()
