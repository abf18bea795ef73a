"""What passes between mgr and those who write in the note too."""

import unittest
from collections.abc import Sequence
from typing import Any
from unittest import mock

import context  # noqa: F401

from mgr_front.channels import Event, Present, State, Took
from mgr_front.company import MOST_GIVEN, Company
from mgr_front.editor import Talk
from mgr_front.statuses import Status
from mgr_front.view import Mark, style

LINE = b'{"char":"a","id":[1,7],"op":"ins","parent":[0,0]}'

RUN = b'{"id":[1,9],"op":"run","parent":[0,0],"text":"x"}'


class TestCompany(unittest.TestCase):
    def setUp(self) -> None:
        self.note = mock.Mock(replica=7)
        self.company = Company(self.note, lambda post: mock.Mock())
        self.channel: Any = self.company.channel
        self.now = 100.0
        self.talk = Talk(3)
        self.talk.note(Status())

    def come(self, *events: Event) -> None:
        for event in events:
            self.company.mailbox.post(event)
        self.company.hear()

    def told(self) -> list[Sequence[bytes]]:
        return [call[0][0] for call in self.channel.tell.call_args_list]

    def test_what_others_did_is_reported(self) -> None:
        self.come(State("live"), Took((LINE, b'{"id":[1,7],"op":"del"}', RUN)))
        self.company.feed(self.talk)
        places = b'\xff{"op":"places","places":[[1,9]]}\n'
        self.assertEqual(self.talk.waiting, b"\xff" + LINE + b'\n\xff{"id":[1,7],"op":"del"}\n\xff' + RUN + b"\n" + places)

    def test_nothing_else_is(self) -> None:
        others = (b'{"op":"rest"}', b'{"op":"paste","text":"x"}', b'{"char":"a","id":[1,7],"op":"ins","parent":[0,0],"op":"rest"}')
        self.come(Took((*others, b"", b"x", b'{"op":"del","id":[1,7]}', LINE + b" ")))
        self.company.feed(self.talk)
        self.assertEqual(self.talk.waiting, b"")

    def test_what_channels_say_has_no_terminal_do_anything(self) -> None:
        for state in (State("live", "left out: \x1b[2J\u202e"), State("alone", "\ud800"), State("refused", "\x9b")):
            self.come(state)
            self.assertRegex(self.company.said, r"^(Live: left out: \?\[2J\?|Alone: \?|Refused: \?)$")

    def test_no_report_of_places_is_too_long(self) -> None:
        self.come(State("live"), Present({replica: ("x", ((1 << 53) - 1, replica, 1)) for replica in range(1, 65536)}))
        self.company.feed(self.talk)
        self.assertLess(len(self.talk.waiting), 65536)

    def test_keys_wait_for_few_reports(self) -> None:
        self.come(Took((LINE,) * 2000))
        self.company.feed(self.talk)
        given = len(self.talk.waiting)
        self.assertLess(given, 2 * MOST_GIVEN)
        self.company.feed(self.talk)
        self.assertEqual(len(self.talk.waiting), given)
        self.talk.note(Status(reports=self.talk.reports))
        self.company.feed(self.talk)
        self.assertGreater(len(self.talk.waiting), given)

    def test_what_is_saved_is_told_and_nothing_after_a_conflict(self) -> None:
        self.come(State("live"))
        self.company.note_status(Status(operations=(LINE,)))
        self.company.note_status(Status(refused={1: "Conflict"}))
        self.assertEqual(self.company.shown(), "conflict")
        self.assertIn("Conflict", self.company.said)
        self.company.note_status(Status(operations=(LINE,)))
        self.assertEqual(self.told(), [(LINE,)])

    def test_a_counter_too_far_is_said(self) -> None:
        self.come(State("live"))
        self.company.note_status(Status(refused={1: "Far"}))
        self.assertIn("too far", self.company.said)
        self.assertEqual(self.company.shown(), "live")

    def test_how_it_stands(self) -> None:
        for event, wanted, *said in [
            (State("joining"), "joining"),
            (State("live"), "live"),
            (State("alone", "gone"), "alone since 12:03", "Alone: gone"),
            (State("joining"), "alone since 12:03"),
            (State("alone", "gone"), "alone since 12:03"),
            (State("alone", "full"), "alone since 12:03", "Alone: full"),
            (State("live"), "live"),
            (State("live", "left out: x"), "live", "Live: left out: x"),
            (State("live", "left out: x"), "live"),
            (State("refused", "another note"), "refused", "Refused: another note"),
            (State("live"), "refused"),
        ]:
            with self.subTest(event=event), mock.patch("time.strftime", return_value="alone since 12:03"):
                self.come(event)
                self.assertEqual((self.company.shown(), self.company.said), (wanted, "".join(said)))
                self.company.said = ""

    def test_who_is_where(self) -> None:
        self.come(State("live"), Present({9: ("Bob", (4, 9, 12)), 8: ("\u6f22", (0, 0, 1))}))
        self.assertEqual(self.company.shown(), "live: \u6f22 L1, Bob L12")
        self.company.feed(self.talk)
        self.assertEqual(self.talk.waiting, b'\xff{"op":"places","places":[[0,0],[4,9]]}\n')
        status = Status(places=((0, 0, 0, 0), (4, 9, 3, 5), (5, 9, 3, 6)))
        marks = [Mark(0, 0, style(8, True), "?"), Mark(3, 5, style(9, True), "B")]
        self.assertEqual(self.company.marks(status, True), marks)
        self.come(State("alone"), Present({}))
        self.assertEqual((self.company.marks(status, True), self.company.names[9]), ([], "Bob"))

    def test_it_is_said_where_point_is(self) -> None:
        self.come(State("live"))
        self.company.note_status(Status(point=(2, 0, 7, 3)))
        self.company.note_status(Status(point=(3, 0, 7, 3), is_live=False))
        self.channel.show_place.assert_called_once_with((7, 3, 3))

    def test_what_others_wrote_is_marked_for_two_seconds_or_up_to_a_key(self) -> None:
        status = Status(places=tuple((counter, 9, 0, counter) for counter in range(1, 6)))

        def marked() -> list[int]:
            return [mark.column for mark in self.company.marks(status, True)]

        with mock.patch("time.monotonic", side_effect=lambda: self.now):
            self.come(Took((RUN.replace(b'"x"', b'"abcde"'),)))
            self.company.feed(self.talk)
            self.assertEqual((marked(), self.company.patience(101.0)), ([1, 2, 3, 4, 5], 1.0))
            # Two of them are deleted here.
            self.company.note_status(Status(operations=(b'{"count":2,"id":[2,9],"op":"dels"}',)))
            self.assertEqual(marked(), [1, 4, 5])
            self.now = 102.0
            self.assertEqual((marked(), self.company.patience(102.0)), ([], None))
            self.company.fresh = {(1, 9): 103.0}
            self.company.press()
            self.assertEqual(marked(), [])


if __name__ == "__main__":
    unittest.main()
