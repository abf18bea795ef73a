"""What a terminal shows of a frame, and what is sent to have it show that."""

import errno
import os
import re
import termios
import unittest
from unittest import mock

import context  # noqa: F401

from mgr_front.cells import cells
from mgr_front.screen import CLOSE, Screen, change, until_done
from mgr_front.statuses import Status
from mgr_front.view import CLEAR, Echo, Mark, Picture, echo_line, mode_row, picture, style, text_row

MODE = "----Mg: n (fundamental) L1 C0 W0".ljust(500, "-")


def texts(shown: Picture) -> list[str]:
    """Returns the rows without what only says how they are shown; a mark ends in `>`."""
    return [re.sub("\x1b\\[7m(.*)\x1b\\[m", r"\1", row).replace("\x1b[m", ">").replace(CLEAR, "") for row in shown.rows]


class TestPictures(unittest.TestCase):
    def test_the_row_of_point_is_shifted(self) -> None:
        status = Status(("x" * 30, "abcdefghijklmnopqrstuvwxyz", MODE, ""), (1, 25), (2,))
        shown = picture(status, Echo(""), 4, 20)
        self.assertEqual(texts(shown), ["x" * 19 + "$", "$lmnopqrstuvwxyz", MODE[:20], ""])
        self.assertEqual((shown.row, shown.column), (1, 15))

    def test_the_echo_line_is_shifted_while_it_has_the_cursor(self) -> None:
        asked = Status(("x", MODE, ""), (2, 31), (1,), mode="prompt", label="Find file: ", answer="y" * 20)
        shown = picture(asked, echo_line(asked), 3, 20)
        self.assertEqual(texts(shown)[2], "$" + "y" * 10)
        self.assertEqual((shown.row, shown.column), (2, 11))

    def test_a_smaller_terminal_shows_point_and_the_echo_line(self) -> None:
        rows = tuple("abcdefgh") + (MODE, "said")
        for height, point, wanted, row in [
            (4, 0, ["a", "b", "c", "said"], 0),
            (4, 4, ["c", "d", "e", "said"], 2),
            (2, 7, ["h", "said"], 0),
            (3, 9, ["h", MODE[:20], "said"], 2),
        ]:
            with self.subTest(height=height, point=point):
                shown = picture(Status(rows, (point, 0), (8,)), Echo("said"), height, 20)
                self.assertEqual(texts(shown), wanted)
                self.assertEqual(shown.row, row)

    def test_no_size_is_too_small(self) -> None:
        status = Status(("x" * 500, "漢" * 250, MODE, "said"), (1, 498), (2,))
        for rows in range(6):
            for columns in range(30):
                with self.subTest(rows=rows, columns=columns):
                    shown = picture(status, Echo("said"), rows, columns, "live")
                    self.assertTrue(0 <= shown.row < len(shown.rows) and 0 <= shown.column < max(columns, 4))

    def test_mode_lines_are_in_reverse_and_the_current_one_has_the_status(self) -> None:
        shown = picture(Status(("a", MODE, MODE, MODE, ""), (0, 0), (1, 1)), Echo(""), 5, 40, "live")
        self.assertEqual([row[:4] == "\x1b[7m" for row in shown.rows], [False, True, False, True, False])
        self.assertEqual(texts(shown)[1], "----Mg: n (fundamental) L1 C0 W0-- live ")
        self.assertEqual(texts(shown)[3], MODE[:40])


    def test_what_is_shown_of_others(self) -> None:
        for text, marks, wanted in [
            ("a c", [(1, "A")], "a<A>c"),
            ("abc", [(1, "A")], "a<b>c"),
            ("abc", [(3, "A")], "abc<A>"),
            (" bc", [(5, "A"), (0, "B")], "<B>bc  <A>"),
            ("a\u6f22c", [(2, "A")], "a<\u6f22>c"),
            ("abc", [(2, ""), (3, "")], "a<b><c>"),
            ("abc", [(0, ""), (9, "")], "abc"),
            ("", [(0, "A")], "<A>"),
        ]:
            with self.subTest(text=text, marks=marks):
                made = [Mark(0, column, "<", letter) for column, letter in marks]
                shown = picture(Status((text, MODE, ""), (0, 0), (1,)), Echo(""), 3, 20, "", made)
                self.assertEqual(texts(shown)[0], wanted)

    def test_colours(self) -> None:
        self.assertEqual([style(7, True), style(7, True, True)], ["\x1b[30;42m", "\x1b[32m"])
        self.assertEqual([style(7, False), style(7, False, True)], ["\x1b[7m", "\x1b[4m"])

    def test_a_mode_line_has_room_for_some_of_who_is_there(self) -> None:
        shown = picture(Status(("a", MODE, ""), (0, 0), (1,)), Echo(""), 3, 60, "live: " + "Alice L12, " * 20)
        self.assertEqual((len(texts(shown)[1]), texts(shown)[1][:26]), (60, "----Mg: n (fundament live:"))


class TestEchoLines(unittest.TestCase):
    def test_echo_lines(self) -> None:
        for what, message, mode, label, remarks, wanted in [
            ("nothing", "", "plain", "", [], Echo("")),
            ("a message", "Quit", "plain", "", [], Echo("Quit")),
            ("a prompt", "", "prompt", "Find file: ", [], Echo("Find file: a", 12)),
            ("one and a message", "Undefined key", "prompt", "M-x ", [], Echo("M-x a [Undefined key]", 5)),
            ("a search and one", "Search failed", "search", "I-search: ", [], Echo("I-search: a [Search failed]")),
            ("a remark alone", "", "plain", "", ["Sent 1, received 2"], Echo("Sent 1, received 2")),
            ("a remark behind a message", "Quit", "plain", "", ["no hub"], Echo("Quit [no hub]")),
        ]:
            with self.subTest(what):
                status = Status(mode=mode, label=label, answer="a" * bool(label), message=message)
                self.assertEqual(echo_line(status, None, remarks), wanted)

    def test_a_search_that_fails(self) -> None:
        status = Status(mode="search", label="I-search: ", answer="fo", message="Search failed")
        self.assertEqual(echo_line(status, "", [], "ox"), Echo("Failing I-search: foox"))

    def test_what_the_front_says_takes_the_place_of_a_message(self) -> None:
        self.assertEqual(echo_line(Status(message="Quit"), "Sole completion"), Echo("Sole completion"))

    def test_control_characters_of_an_answer(self) -> None:
        status = Status(label="Query replace: ", answer="x\ty\x9b", mode="prompt")
        self.assertEqual(echo_line(status), Echo("Query replace: x        y?", 26))


class TestRows(unittest.TestCase):
    def test_the_rest_of_a_row_is_cleared(self) -> None:
        for text, columns, wanted in [
            ("", 20, CLEAR),
            ("hello", 20, f"hello{CLEAR}"),
            ("x" * 20, 20, "x" * 20),
            ("漢", 20, f"{CLEAR}漢"),
            ("漢" * 10, 20, CLEAR + "漢" * 10),
        ]:
            with self.subTest(text=text):
                self.assertEqual(text_row(text, 0, columns), wanted)


    def test_what_turns_the_direction_of_a_text_is_not_sent_and_seen(self) -> None:
        for text, wanted in [
            ("ab\u202ecd", "a<b>cd"),
            ("\u202eab", "<a>b"),
            ("\u2066\u202e漢b", "<漢>b"),
            ("漢\u200fb\u2069", "<漢><b>"),
            ("\u061c", "< >"),
            ("a\u2028b\u2029", "a?b?"),
            ("👨\u200d👩 \u202ex", "👨\u200d👩< >x"),
        ]:
            with self.subTest(text=text):
                shown = text_row(text, 0, 20)
                self.assertEqual(shown.replace("\x1b[7m", "<").replace("\x1b[m", ">").replace(CLEAR, ""), wanted)

    def test_no_row_sends_what_others_have_a_terminal_do(self) -> None:
        foreign = "\x1b[2J\x9b1m\u202ex\u2066\ud800\n\x07"
        status = Status(("text", foreign, f"----Mg: {foreign}", ""), (0, 0), (2,), message=foreign, label="x", answer=foreign)
        shown = picture(status, echo_line(status, None, [foreign]), 4, 80, foreign)
        sent = re.sub("\x1b\\[7?m|\x1b\\[K", "", "".join(shown.rows))
        self.assertRegex(sent, "^[ -~]*$")
        sent.encode()
        asked = Echo(foreign, len(cells(foreign)))
        self.assertEqual(picture(status, asked, 4, 80).column, len(foreign))


class TestModes(unittest.TestCase):
    def test_a_terminal_that_is_gone_is_told_as_by_other_calls(self) -> None:
        def set_mode() -> None:
            raise termios.error(errno.EIO, "Input/output error")

        with self.assertRaises(OSError) as caught:
            until_done(set_mode)
        self.assertEqual(caught.exception.errno, errno.EIO)

    def test_a_terminal_of_another_job_is_waited_for_until_all_is_over(self) -> None:
        set_mode = mock.Mock(side_effect=termios.error(errno.EINTR, "Interrupted system call"))
        self.assertFalse(until_done(set_mode, mock.Mock(side_effect=[False, False, True])))
        self.assertEqual(set_mode.call_count, 2)


class TestScreens(unittest.TestCase):
    def setUp(self) -> None:
        self.patched("termios.tcgetattr")
        self.tcsetattr, self.setraw = self.patched("termios.tcsetattr"), self.patched("tty.setraw")
        self.write_all, self.is_in_background = self.patched("write_all"), self.patched("is_in_background")
        self.sent, target = os.pipe2(os.O_NONBLOCK)
        for end in (self.sent, target):
            self.addCleanup(os.close, end)
        self.patched("unblocked").return_value = target
        self.screen = Screen()

    def patched(self, name: str) -> mock.Mock:
        patch = mock.patch(f"mgr_front.screen.{name}", return_value=False)
        self.addCleanup(patch.stop)
        return patch.start()

    def test_it_is_put_back_once(self) -> None:
        self.screen.close()
        self.assertEqual(self.tcsetattr.call_count, 0)
        self.screen.open()
        for _ in range(2):
            self.screen.close()
            self.assertEqual(self.tcsetattr.call_count, 1)

    def test_in_the_background_the_modes_are_left_to_the_shell(self) -> None:
        self.screen.open()
        self.screen.draw(Picture([], 0, 0))
        self.is_in_background.return_value = True
        self.screen.close()
        self.assertEqual(self.tcsetattr.call_count, 0)
        self.write_all.assert_called_with(CLOSE.encode())

    def test_what_two_rows_have_in_common_stays(self) -> None:
        for old, new, wanted in [
            ("", "hello", "1Hhello"),
            ("hello", "hello!", "6H!"),
            ("hello!", "hello", f"6H{CLEAR}"),
            ("abcd", "", f"1H{CLEAR}"),
            ("L1 C5 W0", "L1 C6 W0", "5H6"),
            ("aab", "ab", f"2Hb{CLEAR}"),
            ("aba", "aa", f"2Ha{CLEAR}"),
            ("漢字x", "漢漢x", f"1H{CLEAR}漢漢x"),
            ("abc", "ab漢", f"1H{CLEAR}ab漢"),
        ]:
            with self.subTest(old=old, new=new):
                self.assertEqual(change(1, text_row(old, 0, 9), text_row(new, 0, 9)), f"\x1b[1;{wanted}")

    def test_full_rows_are_never_cleared(self) -> None:
        self.assertEqual(change(1, text_row("x" * 9, 0, 9), text_row("x" * 8 + "y", 0, 9)), "\x1b[1;9Hy")

    def test_rows_in_reverse(self) -> None:
        reverse = [mode_row(text, 5, "") for text in ("C5 W0", "C6 W0")]
        self.assertEqual(change(9, *reverse), "\x1b[9;2H\x1b[7m6\x1b[m")
        self.assertEqual(change(9, text_row("C5 W0", 0, 5), reverse[0]), "\x1b[9;1H\x1b[7mC5 W0\x1b[m")

    def test_rows_that_changed_are_sent(self) -> None:
        self.screen.open()
        self.screen.draw(Picture(["a", "b"], 0, 1))
        os.read(self.sent, 65536)
        for rows, wanted in [
            (["a", "c"], "\x1b[2;1Hc\x1b[1;2H"),
            (["a", "c"], "\x1b[1;2H"),
            (["a"], "\x1b[m\x1b[?7l\x1b[2J\x1b[1;1Ha\x1b[1;2H"),
        ]:
            self.screen.draw(Picture(rows, 0, 1))
            self.assertEqual((os.read(self.sent, 65536), self.screen.waiting), (wanted.encode(), b""))

    def test_what_a_terminal_does_not_take_waits_for_it(self) -> None:
        with mock.patch("os.write", side_effect=[3, BlockingIOError, 2]):
            self.screen.open()
            self.screen.draw(Picture([], 0, 0))
            sent = bytes(self.screen.waiting)
            self.screen.write()
            self.assertEqual(self.screen.waiting, sent)
            self.screen.write()
            self.assertEqual(self.screen.waiting, sent[2:])
        self.screen.close()
        self.write_all.assert_called_with(sent[2:] + CLOSE.encode())

    def test_nothing_is_opened_or_drawn_once_all_is_over(self) -> None:
        self.screen.is_over = lambda: True
        self.screen.open()
        self.screen.draw(Picture([], 0, 0))
        self.assertEqual((self.setraw.call_count, self.screen.waiting), (0, b""))
        self.assertRaises(BlockingIOError, os.read, self.sent, 1)
        self.assertFalse(self.screen.is_ours)


if __name__ == "__main__":
    unittest.main()
