"""What is asked before an edit with others, and who joins whom."""

import io
import os
import pathlib
import subprocess
import sys
import unittest
from contextlib import redirect_stderr
from unittest import mock

from context import InFolder

from mgr_front import guests, joining
from mgr_front.channels import Apart, State, Took, stream
from mgr_front.channels.folder import Folder
from mgr_front.channels.git import GitBranch
from mgr_front.channels.hub import Hub
from mgr_front.channels.redis import RedisStream
from mgr_front.company import Company
from mgr_front.copies import Copy
from mgr_front.joining import meet
from mgr_front.notes import Note, Refused
from mgr_front.opening import Opening
from mgr_front.options import HERE, read
from mgr_front.saving import SAVE
from mgr_front.shared import SharedNote

HEAD = b'{"op":"claims","version":1}\n'
LINE = '{"char":"a","id":[1,%d],"op":"ins","parent":[0,0]}'


class TestShared(InFolder):
    def shared(self, name: str = "note", adopts: bool = False) -> SharedNote:
        return SharedNote(self.mgr, Note(str(self.folder / name)), 7, adopts)

    def others(self, replica: int, claims: bytes = HEAD) -> tuple[list[bytes], bytes]:
        return [(LINE % replica).encode()], claims

    def test_without_a_log_there_is_nothing(self) -> None:
        note = self.shared()
        self.assertEqual((note.claims(), note.missing(b""), note.is_empty), (HEAD, [], True))
        self.assertEqual(note.given(*self.others(99), True), [])

    def test_what_is_missing(self) -> None:
        self.put(note_ops=f"{LINE % 1}\n{LINE % 2}\n")
        note = self.shared()
        self.assertEqual(note.missing(note.claims()), [])
        self.assertEqual(note.missing(HEAD + note.claims().splitlines(keepends=True)[1]), [(LINE % 2).encode()])

    def test_own_words_that_a_hub_sent_and_then_saved(self) -> None:
        self.put(note_ops=f"{LINE % 7}\n")
        note = self.shared()
        self.assertEqual(note.given(*self.others(7, note.claims()), True), [])
        with self.assertRaises(Apart) as caught:
            note.given([(LINE % 7).replace("[1", "[2").encode()], note.claims(), True)
        self.assertIn("words of the number 7", caught.exception.state.why)

    def test_another_note_is_not_accepted(self) -> None:
        self.put(note_ops=f"{LINE % 1}\n", text="a text without a log")
        for note, others in (
            (self.shared(), self.others(2)),
            (self.shared(adopts=True), self.others(99)),
            (self.shared(), self.others(99, self.shared().claims())),
        ):
            note.given(*others, True)
        for name in ("note", "text"):
            note, others = self.shared(name), self.others(99)
            with self.assertRaises(Apart) as caught:
                note.given(*others, True)
            self.assertEqual((caught.exception.state.word, note.refused), ("refused", tuple(others[0])))
            note.given(*others, False)


class TestMeeting(InFolder):
    """`meet`, with a channel that stands as it is told."""

    def setUp(self) -> None:
        super().setUp()
        self.put(note_ops="mine", note="mine")
        environment = mock.patch.dict(os.environ, {"XDG_STATE_HOME": str(self.folder / "state")})
        environment.start()
        self.addCleanup(environment.stop)

    def meet(self, state: State, *words: str, answers: str = "", lines: tuple[bytes, ...] = (), came: tuple[bytes, ...] = ()) -> tuple[Opening, Company | None]:
        """Returns what is opened, and who is met then."""
        note = Note(str(self.folder / "note"))
        opening = Opening(self.mgr, note, read([note.name, "--with", "7000", *words]))

        def channel(options: object, note: SharedNote, post: "mock.Mock") -> "mock.Mock":
            note.refused = lines
            return mock.Mock(start=lambda: (post(Took(came)), post(state)))

        given = iter(answers)
        with mock.patch.object(joining, "channel", channel), mock.patch("builtins.print"):
            with mock.patch("builtins.input", lambda _: next(given)), mock.patch.object(joining, "tell"):
                return opening, meet(opening)

    def test_a_plain_text_has_a_log_before_others_are_met(self) -> None:
        def made(mgr: str, note: Note, number: int, keys: bytes) -> int:
            return pathlib.Path(note.log).write_text(f"{number} {keys!r}")

        for text, wanted in (("mine", True), ("", False)):
            (self.folder / "note.ops").unlink()
            self.put(note=text)
            with mock.patch.object(joining, "edit", made):
                opened, company = self.meet(State("live"))
            self.assertEqual((opened.note.has_log, bool(company and company.note.adopts)), (wanted, not wanted))
            if wanted:
                self.assertEqual(self.text("note.ops"), f"{opened.number} {SAVE!r}")
                self.assertIn(str(opened.number), Copy(opened.note.name).kept["counters"])

    def test_others_that_are_away(self) -> None:
        for word in ("live", "alone", "conflict"):
            _, company = self.meet(State(word))
            self.assertIsNotNone(company)

    def test_much_is_merged_before_the_edit_begins(self) -> None:
        for count, wanted in ((501, 1), (3, 0)):
            with mock.patch.object(SharedNote, "merge", return_value=True) as merge:
                _, company = self.meet(State("live"), came=(b"x",) * count)
            self.assertEqual((merge.call_count, len(company.lines) if company else 0), (wanted, count * (1 - wanted)))

    def test_a_hub_that_refuses(self) -> None:
        with self.assertRaises(SystemExit), mock.patch.object(joining, "stop", side_effect=SystemExit) as stop:
            self.meet(State("refused", "another version"))
        stop.assert_called_once_with("another version", 1)

    def test_a_number_in_use_is_another_one_next_time(self) -> None:
        in_use, lost = "the number 1001 is in use by somebody who writes now", "others have words of the number 1001"
        for state in (State("alone", in_use), State("refused", lost)):
            opening, company = self.meet(state)
            self.assertIsNone(company)
            self.assertNotEqual(Opening(self.mgr, opening.note, opening.options).number, opening.number)
        with self.assertRaises(SystemExit), mock.patch.object(joining, "stop", side_effect=SystemExit) as stop:
            self.meet(State("alone", in_use), "--replica", "1001")
        stop.assert_called_once_with(in_use, 1)

    def test_another_note(self) -> None:
        lines = (b"theirs",)
        with self.assertRaises(SystemExit):
            self.meet(State("refused", "another note"), answers="q", lines=lines)
        self.assertEqual(self.text("note"), "mine")
        opening, company = self.meet(State("refused", "another note"), answers="f", lines=lines)
        self.assertEqual((company, opening.options.adopts, self.text("note")), (None, True, "mine"))
        opening, company = self.meet(State("refused", "another note"), answers="t", lines=lines)
        self.assertEqual((company, opening.options.adopts), (None, False))
        self.assertEqual((self.text("note~"), self.text("note~.ops"), opening.note.has_log), ("mine", "mine", False))


class TestChannels(unittest.TestCase):
    """Which channel a command line asks for."""

    def made(self, *words: str) -> object:
        note = SharedNote("mgr", Note("note"), 7)
        options = read(["note", *words])
        options.way = options.way if "--with" in words else (HERE, "note")
        return joining.channel(options, note, lambda event: None)

    def test_engines(self) -> None:
        with mock.patch.object(stream, "library", mock.Mock()):
            for word, made in (
                ("7000", Hub),
                ("host:note", Hub),
                ("dir:/a", Folder),
                ("git:a", GitBranch),
                ("redis://a/b", RedisStream),
                ("rediss://a/b", RedisStream),
            ):
                self.assertIs(type(self.made("--with", word)), made)
        self.assertIs(type(self.made()), Hub)

    def test_a_name(self) -> None:
        made = self.made("--as", "A\x1b")
        assert isinstance(made, Hub)
        self.assertEqual(made.presence.name, "A?")

    def test_a_branch(self) -> None:
        cases = (("a#b", "a", "b"), ("a", "a", ""), ("ssh://host/a#b#c", "ssh://host/a", "b#c"), (".", os.getcwd(), ""))
        for word, place, branch in cases:
            made = self.made("--with", f"git:{word}")
            assert isinstance(made, GitBranch)
            self.assertEqual((made.url, made.branch), (place, branch))

    def test_machines(self) -> None:
        for word, host, path in (
            ("host:note", "host", "note"),
            ("[fe80::6]:a:b", "fe80::6", "a:b"),
            ("bob@[::1]:note", "bob@::1", "note"),
            ("bob@host:/a b", "bob@host", "/a b"),
        ):
            with mock.patch.object(joining, "by_ssh") as by_ssh:
                self.made("--with", word)
            by_ssh.assert_called_once_with(host, path)

    def test_an_address_of_redis(self) -> None:
        with mock.patch.object(stream, "library", mock.Mock()) as library:
            self.made("--with", "redis://[::1]:6380/k")
        self.assertEqual([library().Redis.call_args[1][name] for name in ("host", "port")], ["::1", 6380])

    def test_what_is_wrong(self) -> None:
        for word in ("redis://h:99999/k", "redis://[::1/k", "rediss://h:abc/k", "[-x]:n", "-x:n", "[::1]n", "[::1]:", ":n", "h:", "0"):
            with self.assertRaises(SystemExit, msg=word), redirect_stderr(io.StringIO()) as said:
                self.made("--with", word)
            self.assertRegex(said.getvalue(), "argument --with: .")

    def test_what_is_refused(self) -> None:
        with mock.patch.object(stream, "library", mock.Mock()):
            for word in ("redis://host", "redis://host/", "redis:///key", "redis:key"):
                with self.assertRaises(Refused, msg=word):
                    self.made("--with", word)
        with mock.patch.dict(sys.modules, redis=None), self.assertRaises(Refused) as caught:
            self.made("--with", "redis://a/b")
        self.assertIn("python3-redis", str(caught.exception))


class TestGuests(InFolder):
    def setUp(self) -> None:
        super().setUp()
        environment = mock.patch.dict(os.environ, {"XDG_STATE_HOME": str(self.folder / "state")})
        environment.start()
        self.addCleanup(environment.stop)
        self.path = str(self.folder / "note")

    def test_each_has_a_copy_of_their_own(self) -> None:
        first, second = guests.guest_of(self.path), guests.guest_of(self.path)
        self.assertNotEqual(first.name, second.name)
        self.assertEqual(os.path.basename(first.name), "note")
        self.assertEqual(pathlib.Path(first.name).parent.stat().st_mode & 0o777, 0o700)

    def test_what_they_wrote_is_taken_back(self) -> None:
        pathlib.Path(guests.guest_of(self.path).log).write_text("lines")
        with mock.patch.object(subprocess, "run", return_value=mock.Mock(returncode=0, stderr=b"")) as run:
            self.assertIsNone(guests.take_back(self.mgr, Note(self.path)))
        self.assertEqual(run.call_args[0][0][1:4], ["merge", "--", self.path])
        failed = mock.Mock(returncode=1, stderr=b"line 1: Conflict")
        with mock.patch.object(subprocess, "run", return_value=failed):
            self.assertIn("Conflict", guests.take_back(self.mgr, Note(self.path)) or "")


if __name__ == "__main__":
    unittest.main()
