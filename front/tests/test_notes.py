"""Files of notes."""

import unittest

import os
from unittest import mock

from context import InFolder

from mgr_front.notes import Note, Refused, put_back


class TestNotes(InFolder):
    def setUp(self) -> None:
        super().setUp()
        self.note = Note(str(self.folder / "note"))

    def refusal(self) -> str:
        with self.assertRaises(Refused) as caught:
            self.note.check()
        return str(caught.exception).removeprefix(f"{self.folder}/")

    def test_what_is_refused_is_named(self) -> None:
        self.note.check()
        (self.folder / "note").mkdir()
        self.assertEqual(self.refusal(), "note: is a folder")


class TestTexts(InFolder):
    """Texts that are put back as they were before an edit."""

    def test_what_mgr_did_not_put_is_kept(self) -> None:
        for what, before, there, put, kept in [
            ("mgr put it", "old", "put", b"put", None),
            ("it was new", None, "put", b"put", None),
            ("another program wrote", "old", "theirs", b"put", "theirs"),
            ("another program wrote, and it was new", None, "theirs", b"put", "theirs"),
            ("it is not known what mgr put", "old", "put", None, "put"),
            ("another program removed it", "old", None, b"put", None),
            ("another program put it back", "old", "old", b"put", None),
        ]:
            for taken in ([], ["note~"], ["note~", "note.~1~"]):
                with self.subTest(what, taken=taken):
                    self.put(**dict.fromkeys(taken, "kept before"))
                    path, name = self.folder / "note", ["note~", "note.~1~", "note.~2~"][len(taken)]
                    if there is not None:
                        path.write_text(there)
                        path.chmod(0o640)
                    told = put_back(str(path), before and before.encode(), put)
                    self.assertEqual(told, [str(self.folder / name)] * (kept is not None))
                    self.assertEqual([self.text(each) for each in taken], ["kept before"] * len(taken))
                    self.assertEqual(path.read_text() if path.exists() else None, before)
                    if before and there:
                        self.assertEqual(path.stat().st_mode & 0o777, 0o640)
                    if kept:
                        self.assertEqual(self.text(name), kept)
                    self.assertEqual(self.names(), sorted([*taken, *[name] * bool(kept), *["note"] * bool(before)]))
                    for each in self.names():
                        os.unlink(self.folder / each)

    def test_what_is_written_meanwhile_is_kept_too(self) -> None:
        rename, path = os.rename, str(self.folder / "note")
        for before, wanted in [
            (b"old", {"note": "old", "note~": "before", "note.~1~": "after"}),
            (None, {"note~": "before", "note.~1~": "after"}),
        ]:
            texts = ["after", "before"]

            def renamed(old: str, new: str) -> None:
                """Another program writes before and after the text leaves its name."""
                self.put(**{"note": texts.pop()} if texts else {})
                rename(old, new)
                self.put(**{"note": texts.pop()} if texts else {})

            self.put(note="put")
            with mock.patch.object(os, "rename", renamed):
                put_back(path, before, b"put")
            self.assertEqual({name: self.text(name) for name in self.names()}, wanted)
            for each in self.names():
                os.unlink(self.folder / each)


if __name__ == "__main__":
    unittest.main()
