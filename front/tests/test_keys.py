"""What terminals send, and the strokes and keys that it becomes."""

import time
import unittest

import context  # noqa: F401

from mgr_front.keys import HELP, Key, Keys, Pasted, Stroke, Typed

SENT: list[tuple[str, bytes, bytes]] = [
    ("text", b"hello", b"hello"),
    ("control keys", b"\x18\x13", b"\x18\x13"),
    ("characters of several bytes", "漢é".encode(), "漢é".encode()),
    ("Up", b"\x1b[A", b"\x10"),
    ("Up, as applications get it", b"\x1bOA", b"\x10"),
    ("Shift-Right", b"\x1b[1;2C", b"\x06"),
    ("Home and End, three ways", b"\x1b[H\x1b[1~\x1bOH\x1b[F\x1b[4~\x1bOF", b"\x01\x01\x01\x05\x05\x05"),
    ("Page Up, Page Down, Delete", b"\x1b[5~\x1b[6~\x1b[3~", b"\x1bv\x16\x04"),
    ("Control with arrows, Home and End", b"\x1b[1;5C\x1b[1;5D\x1b[1;5H\x1b[1;6F", b"\x1bf\x1bb\x1b<\x1b>"),
    ("Control with arrows, in letters", b"\x1bOc\x1bOd", b"\x1bf\x1bb"),
    ("a paste", b"a\x1b[200~b\rc\td\x01\x1b[A\x1b[201~e", b"ab\nc\td\x01\x1b[Ae"),
    ("ends of lines in a paste", b"\x1b[200~1\r\n2\n3\r\x1b[201~", b"1\n2\n3\n"),
    ("wide characters in a paste", "\x1b[200~漢字😀\x1b[201~".encode(), "漢字😀".encode()),
    ("F5, F2 of the console", b"\x1b[15~\x1b[[B", b""),
    ("a meta key", b"\x1bf", b"\x1bf"),
    ("ESC and an arrow", b"\x1b\x1b[A", b"\x1b\x10"),
    ("text round an arrow", b"a\x1b[Cb", b"a\x06b"),
    ("a modifier of too many digits", b"\x1b[1;" + b"5" * 5000 + b"C", b"\x06"),
    ("a number of too many digits", b"\x1b[" + b"1" * 5000 + b"~", b""),
]


def keys_of(strokes: list[Stroke]) -> bytes:
    return b"".join(stroke.text.encode() if isinstance(stroke, Pasted) else stroke.data for stroke in strokes)


class TestKeys(unittest.TestCase):
    def test_sent_at_once(self) -> None:
        for what, sent, wanted in SENT:
            with self.subTest(what):
                self.assertEqual(keys_of(Keys().take(sent)), wanted)

    def test_sent_byte_by_byte(self) -> None:
        for what, sent, wanted in SENT:
            with self.subTest(what):
                keys = Keys()
                taken = [stroke for i in range(len(sent)) for stroke in keys.take(sent[i : i + 1])]
                self.assertEqual(keys_of(taken + keys.give_up()), wanted)

    def test_many_digits_that_are_no_key_are_read_at_once(self) -> None:
        digits, begun = b"1" * 60_000, time.monotonic()
        self.assertEqual(Keys().take(b"\x1b[" + digits + b"\x01"), [Key(b"\x1b["), Typed(digits + b"\x01")])
        self.assertLess(time.monotonic() - begun, 2)

    def test_escape_alone_is_given_up(self) -> None:
        keys = Keys()
        self.assertEqual(keys.take(b"a\x1b"), [Typed(b"a")])
        self.assertEqual(keys.give_up(), [Typed(b"\x1b")])
        self.assertEqual(keys.give_up(), [])

    def test_no_character_of_a_paste_is_cut(self) -> None:
        sent = "\x1b[200~é漢😀x\x1b[201~".encode()
        for size in (1, 2, 3, 5):
            keys = Keys()
            for i in range(0, len(sent), size):
                for piece in keys.take(sent[i : i + size]):
                    assert isinstance(piece, Pasted)
                    self.assertNotIn("\ufffd", piece.text)
                self.assertFalse(keys.paste and keys.is_in_doubt)

    def test_a_paste_that_breaks_off_is_given_up(self) -> None:
        keys = Keys()
        self.assertEqual(keys.take(b"\x1b[200~ab\x1b[2"), [Pasted("ab", False)])
        self.assertEqual(keys.give_up(), [Pasted("\x1b[2", True)])

    def test_help(self) -> None:
        self.assertEqual(Keys().take(b"\x1bOP\x1b[11~\x1b[[A"), [Key(HELP)] * 3)

    def test_meta_is_told_from_escape(self) -> None:
        self.assertEqual(Keys().take(b"\x1bfg\x1b[A"), [Key(b"\x1bf"), Typed(b"g"), Key(b"\x10")])


if __name__ == "__main__":
    unittest.main()
