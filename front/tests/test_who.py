"""Who wrote what, as it is shown."""

import unittest
from unittest import mock

import context  # noqa: F401 (makes the package known)

from mgr_front import who
from mgr_front.notes import Refused
from mgr_front.minibuffer import Page
from mgr_front.who import pieces, row, show

TOLD = (
    b'{"replica":1001,"text":"Buy two litres of "}\n{"replica":2,"text":"oat "}\n'
    b'{"replica":1001,"text":"milk\\n\\n"}\n{"replica":2,"text":"\\u001b[2Jend"}\n'
)


class TestWho(unittest.TestCase):
    def test_lines_with_their_writers(self) -> None:
        lines = pieces(TOLD)
        self.assertEqual(lines[0], [(1001, "Buy two litres of "), (2, "oat "), (1001, "milk")])
        self.assertEqual(lines[1:], [[(1001, "")], [(2, "\x1b[2Jend")]])
        shown = ["".join(row(line, {1001: "Alice"}, False)) for line in lines]
        wanted = ["Alice 2          Buy two litres of oat milk", "Alice            ", "2                ?[2Jend"]
        self.assertEqual(shown, wanted)
        self.assertEqual(row([(1, "o")], {}, True)[-1], "\x1b[32mo\x1b[m")

    def test_it_stands_until_a_key(self) -> None:
        page = Page([row([(1, str(number))], {}, False) for number in range(5)])
        seen = []
        while page.is_open:
            picture = page.picture(4, 20)
            self.assertEqual((len(picture.rows), picture.row), (4, 3))
            seen += [line[17:].replace("\x1b[K", "") for line in picture.rows[:3]]
            page.press(ord(" "))
        self.assertEqual([text for text in seen if text], ["0", "1", "2", "3", "4"])
        page = Page([row([(1, "x")], {}, False)] * 9)
        page.picture(4, 20)
        page.press(ord("q"))
        self.assertFalse(page.is_open)

    def test_the_prompt_is_left_first(self) -> None:
        asked = mock.Mock()
        for told, wanted in ((TOLD, ""), (Refused("notes.ops: line 1: Json"), "notes.ops: line 1: Json")):
            with mock.patch.object(who, "ask", side_effect=[told]):
                errand = show("mgr", "notes", {}, True, asked)
                self.assertEqual(next(errand), b"\x07")
                with self.assertRaises(StopIteration) as end:
                    errand.send(mock.Mock())
                self.assertEqual(end.exception.value, wanted)
        self.assertEqual(asked.call_count, 1)


if __name__ == "__main__":
    unittest.main()
