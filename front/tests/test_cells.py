"""Columns of characters and of rows, and the part of a row that shows."""

import unittest

import context  # noqa: F401

from mgr_front.cells import beginning, cells, clean, part, shift, width


SIGNS = [("a", 1), ("é", 1), ("漢", 2), ("ｱ", 1), ("Ａ", 2), ("\u0301", 0), ("\u200b", 0), ("😀", 2)]
# Characters that some tables lack.
NEWER = [("\u0378", 1), ("\U0001fae9", 2), ("\ud7c0", 0), ("\u00ad", 1)]


class TestWidths(unittest.TestCase):
    def test_characters(self) -> None:
        for sign, wanted in SIGNS + NEWER:
            with self.subTest(sign=sign):
                self.assertEqual(width(sign), wanted)

    def test_rows(self) -> None:
        for row, wanted in [("", []), ("abc", ["a", "b", "c"]), ("e\u0301\u0302漢\u0301b", ["e\u0301\u0302", "漢\u0301", "", "b"])]:
            with self.subTest(row=row):
                self.assertEqual(cells(row), wanted)


class TestCleaning(unittest.TestCase):
    def test_what_a_terminal_is_sent(self) -> None:
        for text, wanted in [
            ("plain 漢 e\u0301", "plain 漢 e\u0301"),
            ("\x1b[2J\x1b]0;x\x07", "?[2J?]0;x?"),
            ("\x9b2J\x7f\r\n\t\0", "?2J?????"),
            ("a\u202eb\u2066c\u2069\u200e\u200f\u061c", "a?b?c????"),
            ("\u2028\u2029\ud800\udcff", "????"),
            # A family, a heart and a soft hyphen.
            ("👨\u200d👩\u200d👧 ❤\ufe0f \u00ad", "👨\u200d👩\u200d👧 ❤\ufe0f \u00ad"),
        ]:
            with self.subTest(text=text):
                self.assertEqual(clean(text), wanted)
                self.assertEqual("".join(cells(text)), wanted)


class TestParts(unittest.TestCase):
    def test_parts(self) -> None:
        for row, left, columns, wanted in [
            ("abcdef", 0, 6, "abcdef"),
            ("abcdefg", 0, 6, "abcde$"),
            ("abcdefghij", 4, 6, "$fghij"),
            ("abcdefghijk", 4, 6, "$fghi$"),
            ("漢漢漢", 0, 6, "漢漢漢"),
            ("漢漢漢漢", 0, 6, "漢漢 $"),
            ("漢漢漢漢", 2, 6, "$ 漢漢"),
            ("a漢漢漢漢", 2, 6, "$漢漢$"),
            ("ae\u0301bcdef", 0, 4, "ae\u0301b$"),
            ("abc", 6, 6, "$"),
        ]:
            with self.subTest(row=row, left=left):
                shown = part(cells(row), left, columns)
                self.assertEqual("".join(shown), wanted)
                self.assertLessEqual(len(shown), columns)

    def test_beginnings(self) -> None:
        for row, columns, wanted in [("abc", 5, "abc"), ("abc", 2, "ab"), ("a漢", 2, "a "), ("abc", 0, "")]:
            with self.subTest(row=row):
                self.assertEqual("".join(beginning(cells(row), columns)), wanted)

    def test_each_column_shows_between_the_signs_for_what_is_cut_off(self) -> None:
        for columns in (20, 21, 80, 499):
            for column in range(500):
                left = shift(column, columns)
                place = column - left
                self.assertTrue(1 <= place <= columns - 2 if left else place <= columns - 2, (column, columns))

    def test_no_shift_where_the_column_shows(self) -> None:
        self.assertEqual([shift(column, 20) for column in (0, 18, 19, 28, 29)], [0, 0, 10, 10, 20])


if __name__ == "__main__":
    unittest.main()
