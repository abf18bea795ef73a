"""Changes that two made at once: both come to one text, and nothing that was put is missing."""

import random
import unittest

import context  # noqa: F401

from mgr_front.carrying import Piece, Pieces, carry, joined, pieces_of, splices_of


def changed(text: str, pieces: Pieces) -> str:
    """Returns a text after changes."""
    for lo, hi, put in pieces:
        assert 0 <= lo <= hi <= len(text), (lo, hi, text)
        text = text[:lo] + put + text[hi:]
    return text


class TestCarrying(unittest.TestCase):
    def test_two_come_to_one_text(self) -> None:
        text = "some words"
        for what, ours, theirs, wanted in (
            ("apart", pieces_of(0, 4, "many"), pieces_of(10, 10, "!"), "many words!"),
            ("ours stand in front", pieces_of(5, 5, "my "), pieces_of(5, 5, "your "), "some my your words"),
            ("what is put within what goes stays", pieces_of(0, 10, ""), pieces_of(5, 5, "new "), "new "),
            ("the other way round", pieces_of(5, 5, "new "), pieces_of(0, 10, ""), "new "),
            ("both delete", pieces_of(0, 7, ""), pieces_of(5, 10, ""), ""),
            ("both replace", pieces_of(0, 4, "no"), pieces_of(0, 4, "all"), "noall words"),
        ):
            with self.subTest(what):
                mine, passed = carry(ours, theirs)
                self.assertEqual(changed(changed(text, theirs), mine), wanted)
                self.assertEqual(changed(changed(text, ours), passed), wanted)

    def test_random_changes(self) -> None:
        chance = random.Random(1)

        def made(text: str, signs: str) -> Pieces:
            pieces: Pieces = []
            for _ in range(chance.randint(0, 4)):
                size = len(changed(text, pieces))
                lo = chance.randint(0, size)
                put = "".join(chance.choices(signs, k=chance.randint(0, 4)))
                pieces += pieces_of(lo, chance.randint(lo, min(size, lo + 6)), put)
            return pieces

        for _ in range(3000):
            start = "".join(chance.choices("abc", k=chance.randint(0, 14)))
            ours, theirs = made(start, "XYZ"), made(start, "123")
            mine, passed = carry(ours, theirs)
            both = changed(changed(start, theirs), mine)
            self.assertEqual(both, changed(changed(start, ours), passed))
            self.assertEqual(both, changed(changed(start, joined(ours)), passed))
            for one, signs in ((ours, "XYZ"), (theirs, "123")):
                kept = [sign for sign in changed(start, one) if sign in signs]
                self.assertEqual(sorted(kept), sorted(sign for sign in both if sign in signs))

    def test_neighbours_are_joined(self) -> None:
        text = "abcdefgh"
        for what, pieces, count in (
            ("forwards", [Piece(2, 3, ""), Piece(2, 3, ""), Piece(2, 4, "")], 1),
            ("backwards", [Piece(5, 6, ""), Piece(4, 5, ""), Piece(1, 4, "")], 1),
            ("round it", [Piece(3, 4, ""), Piece(2, 5, "")], 1),
            ("typed", [Piece(2, 2, "x"), Piece(3, 3, "y")], 1),
            ("apart", [Piece(2, 3, ""), Piece(4, 5, ""), Piece(1, 1, "x"), Piece(1, 1, "y")], 4),
        ):
            with self.subTest(what):
                self.assertEqual(len(joined(pieces)), count)
                self.assertEqual(changed(text, joined(pieces)), changed(text, pieces))

    def test_steps_are_as_few_as_can_be(self) -> None:
        self.assertEqual(splices_of(pieces_of(2, 5, "new")), [Piece(2, 5, "new")])
        self.assertEqual(splices_of([Piece(1, 2, ""), Piece(4, 4, "x"), Piece(4, 4, "")]), [Piece(1, 2, ""), Piece(4, 4, "x")])


if __name__ == "__main__":
    unittest.main()
