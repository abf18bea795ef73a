"""Texts that differ, and what makes one of the other."""

import json
import random
import unittest

import context  # noqa: F401

from mgr_front.difference import changes, splices

PAIRS = [
    ("", ""),
    ("", "new\n"),
    ("old\n", ""),
    ("one\ntwo\nthree\n", "one\n2\nthree\n"),
    ("one\ntwo\nthree\n", "zero\none\nthree\nfour"),
    ("aaa", "aaaa"),
    ("a\tb\x01c\x7f", "a\tb\x02c\x7f\r"),
    ("a\nb\n", "a\r\nb\r\r\n\rc"),
    ("x" * 30000, "x" * 10000 + "\x01" * 10000 + "x" * 10000),
]


def spliced(text: str, reports: list[bytes]) -> str:
    """Returns what a text becomes by these reports, as mgr takes them."""
    held = ""
    for report in reports:
        assert len(report) <= 65536
        told = json.loads(report)
        held += told["text"]
        if "more" not in told:
            text, held = text[: told["lo"]] + held + text[told["hi"] :], ""
    return text


class TestDifferences(unittest.TestCase):
    def test_splices_make_the_new_text(self) -> None:
        chance = random.Random(7)
        seeded = [tuple("".join(chance.choices("ab\n", k=chance.randrange(30))) for _ in range(2)) for _ in range(300)]
        for old, new in [*PAIRS, *seeded]:
            with self.subTest(old=old[:30], new=new[:30]):
                self.assertEqual(spliced(old, splices(old, new)), new)

    def test_only_what_differs_is_changed(self) -> None:
        for old, new, wanted in [
            ("one\ntwo\nthree\n", "one\ntwenty\nthree\n", [(6, 1, "enty")]),
            ("a\nb\nc\nd\n", "a\nB\nc\nD\n", [(2, 1, "B"), (6, 1, "D")]),
            ("a\nb\nc\n", "a\nc\n", [(2, 2, "")]),
            ("a\n\na\n", "a\n\nb\n\na\n", [(3, 0, "b\n\n")]),
        ]:
            with self.subTest(old=old, new=new):
                self.assertEqual(changes(old, new), wanted)


if __name__ == "__main__":
    unittest.main()
