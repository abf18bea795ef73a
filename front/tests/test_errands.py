"""Errands, played with statuses that are made up."""

import unittest

import context  # noqa: F401

from mgr_front.errands import Errand, go_to_line, kill_word_backward
from mgr_front.statuses import Status


def play(errand: Errand, *messages: str) -> list[bytes]:
    """Returns the keys that an errand presses, if these are the messages after them."""
    keys = [next(errand)]
    try:
        for message in (*messages, *[""] * 9):
            keys.append(errand.send(Status(message=message)))
    except StopIteration:
        pass
    return keys


class TestErrands(unittest.TestCase):
    def test_kill_word_backward(self) -> None:
        self.assertEqual(play(kill_word_backward()), [b"\x00", b"\x1bb", b"\x17"])
        self.assertEqual(play(kill_word_backward(), "", "Beginning of buffer"), [b"\x00", b"\x1bb"])

    def test_go_to_line(self) -> None:
        for line, keys in [
            (0, [b"\x1b<"]),
            (1, [b"\x1b<"]),
            (2, [b"\x1b<", b"\x151\x0e"]),
            (10000, [b"\x1b<", b"\x159999\x0e"]),
            (20001, [b"\x1b<", b"\x159999\x0e", b"\x159999\x0e", b"\x152\x0e"]),
        ]:
            with self.subTest(line=line):
                self.assertEqual(play(go_to_line(line)), keys)

    def test_a_line_beyond_the_last(self) -> None:
        self.assertEqual(play(go_to_line(20001), "", "End of buffer"), [b"\x1b<", b"\x159999\x0e", b"\x1b>"])


if __name__ == "__main__":
    unittest.main()
