"""What is done before an edit, by the answers to what is asked, beside a program in the place of mgr."""

import contextlib
import io
import itertools
import json
import os
import pathlib
import random
import shutil
import unittest
from collections.abc import Iterator, Sequence
from unittest import mock

from context import InFolder

from mgr_front import opening
from mgr_front.copies import Copy
from mgr_front.difference import changes
from mgr_front.notes import Note, Refused
from mgr_front.opening import Opening
from mgr_front.options import read
from mgr_front.program import Log, log_of


class Openings(InFolder):
    def setUp(self) -> None:
        super().setUp()
        self.note = Note(str(self.folder / "note"))
        self.answers: list[str] = []
        self.said: list[str] = []
        for patch in (
            mock.patch("builtins.input", lambda _: self.answers.pop(0)),
            mock.patch("builtins.print"),
            mock.patch.object(opening, "tell", self.said.append),
            mock.patch.dict(os.environ, XDG_STATE_HOME=str(self.folder / "state")),
        ):
            patch.start()
            self.addCleanup(patch.stop)

    def open(self, *answers: str, words: tuple[str, ...] = ()) -> Opening:
        """Opens the note; each answer has to be asked for."""
        self.answers = list(answers)
        with contextlib.ExitStack() as behind:
            behind.callback(lambda: self.assertEqual(self.answers, []))
            return Opening(self.mgr, self.note, read([self.note.name, *words]))

    @contextlib.contextmanager
    def refused(self, status: int, said: str) -> Iterator[None]:
        before = {path.name: path.read_text() for path in self.folder.glob("note*")}
        with self.assertRaises(Refused) as caught:
            yield
        told = str(caught.exception).replace(f"{self.folder}/", "")
        self.assertEqual((caught.exception.status, told), (status, said))
        if "mended" not in said:
            self.assertEqual({path.name: path.read_text() for path in self.folder.glob("note*")}, before)

    def remarks(self, opened: Opening) -> list[str]:
        return [said.replace(f"{self.folder}/", "") for said in opened.remarks]


class TestRefusedLogs(Openings):
    def test_one_that_is_left(self) -> None:
        self.put(note_ops="?text", note="text")
        with self.refused(1, "note.ops: line 1: Json: see `mgr mend note`"):
            self.open("x", "q")

    def test_one_that_is_mended_is_written_in_under_another_number(self) -> None:
        self.put(note_ops="?text", note="text and more")
        Copy(self.note.name).keep_number(1001)
        opened = self.open("m")
        self.assertNotEqual(opened.number, 1001)
        said = ["note.ops.refused has what was left out", "note~ has what stood there"]
        self.assertEqual(self.remarks(opened), said)
        self.assertEqual((self.said, self.text("note")), (["1 line is no operation"], "text"))

    def test_a_number_that_is_given_may_be_one_that_lost_lines(self) -> None:
        self.put(note_ops="?text", note="text")
        with self.refused(1, "note.ops is mended: now give a --replica that nobody has used, or none"):
            self.open("m", words=("--replica", "7"))
        self.assertEqual(self.open(words=("--replica", "8")).number, 8)

    def test_one_that_cannot_be_read(self) -> None:
        self.put(note_ops="!text", note="text")
        with self.refused(3, "note: another mgr has it open, or a file of it cannot be read"):
            self.open()


class TestDifferences(Openings):
    def test_where_they_do_not_differ_nothing_is_done(self) -> None:
        self.put(note_ops="text", note="text")
        self.assertEqual(self.open().remarks, [])
        (self.folder / "note").unlink()
        self.assertEqual(self.open().remarks, [])

    def test_the_log_is_gone_on_with(self) -> None:
        for answers, words in ((("x", "L"), ()), ((), ("--keep-file",))):
            with self.subTest(words=words):
                self.put(note_ops="text~", note="other")
                opened = self.open(*answers, words=words)
                kept = "note.~1~" if words else "note~"
                self.assertEqual(self.remarks(opened), ["A part of note.ops is missing", f"{kept} has what stood there"])
                self.assertEqual((self.text("note"), self.text(kept)), ("text~", "other"))

    def test_it_is_said_what_the_file_does_to_the_log(self) -> None:
        self.put(note_ops="one\ntwo\nand more\n")
        opened = self.open()
        self.put(note="one\n2\n")
        for lines, wanted in (
            (None, "f  the file, of ..: 12 characters of the log deleted, 1 new\n"),
            (2, "f  both: as in the file, of .., 3 characters deleted, 1 new\n"),
        ):
            with mock.patch.object(opening.time, "strftime", return_value=".."):
                self.assertIn(wanted, opened._question(lines, "one\n2\n"))
        (self.folder / "note").write_bytes(b"\xff")
        with self.assertRaises(Refused):
            opened._takes_file(None)

    def test_the_file_is_taken_without_the_last_words_of_the_log(self) -> None:
        for then, wanted in (("", "one\ntwo\n"), ("one\n", "one\n"), ("one\ntwo\n", "one\n")):
            self.put(note_ops="one\n", note="one\n")
            opened = self.open()
            if then:
                # Keys may come to the log before its length is noted.
                self.put(note_ops=then)
                opened.put()
            self.put(note_ops="one\ntwo\n", note="words of another\n")
            given: list[object] = []

            def made(mgr: str, note: Note, number: int, text: str) -> bool:
                given.extend([pathlib.Path(note.log).read_text(), text, number in (1001, opened.number)])
                return True

            with mock.patch.object(opening, "put_text", made):
                self.open("f")
            self.assertEqual(given, [wanted, "words of another\n", False])

    def test_it_is_without_a_question_where_it_was_merged(self) -> None:
        self.put(note_ops="text", note="text")
        self.open().remember()
        self.put(note_ops="more and text")
        self.open(words=("--take-file",))
        self.assertEqual((self.text("note"), self.text("note~")), ("more and text", "text"))

    def test_it_is_without_a_question_after_a_kill(self) -> None:
        for log, text, answers, kept in (
            ("one\ntwo\nthree\n", "one\ntwo\n", "", "note~"),
            ("one\ntwo\nthree\n", "one\ntwo\nwords of another\n", "l", "note.~1~"),
            ("one\n2\nthree\n", "one\ntwo\n", "l", "note.~1~"),
        ):
            with self.subTest(log=log, text=text):
                self.put(note_ops="one\n", note="one\n")
                opened = self.open()
                self.put(note_ops="one\ntwo\n", note="one\ntwo\n")
                opened.put()
                self.put(note_ops=log, note=text)
                self.open(*answers)
                self.assertEqual((self.text("note"), self.text(kept)), (log, text))
                (self.folder / "note.~1~").unlink(missing_ok=True)

    def test_it_is_without_a_question_after_a_kill_before_the_put_was_noted(self) -> None:
        for noted, text, answers, words, kept in (
            ("one\n", "one\ntwo\n", "", (), "note~"),
            ("", "one\ntwo\n", "", (), "note~"),
            ("one\n", "one\n2..\n", "l", (), "note.~1~"),
            ("one\ntwo\n", "one\n", "l", (), "note.~1~"),
            ("one\n", "one\ntwo\n", "l", ("--replica", "7"), "note.~1~"),
        ):
            with self.subTest(noted=noted, text=text):
                shutil.rmtree(self.folder / "state", ignore_errors=True)
                self.put(note_ops="one\n", note="one\n")
                opened = self.open(words=words)
                opened.keep((), 1)
                if noted:
                    self.put(note_ops=noted, note=noted)
                    opened.put()
                self.put(note_ops="one\ntwo\nthree\n", note=text)
                self.open(*answers, words=words)
                self.assertEqual((self.text("note"), self.text(kept)), ("one\ntwo\nthree\n", text))
                (self.folder / "note.~1~").unlink(missing_ok=True)

    def test_what_was_put_before_the_first_key_is_kept_with_it(self) -> None:
        self.put(note_ops="one\n", note="one\n")
        opened = self.open()
        self.assertEqual(Copy(self.note.name).kept["put"], 0)
        opened.keep(())
        self.assertEqual(Copy(self.note.name).kept["put"], 4)


Identifier = tuple[int, int]


class Text:
    """A replicated text, as the lines of a log make it: what is inserted stands after its parent, the newest first."""

    def __init__(self, lines: Sequence[str]) -> None:
        self.lines, self.gone = list(lines), set[Identifier]()
        self.after: dict[Identifier, list[tuple[Identifier, str]]] = {}
        for told in map(json.loads, dict.fromkeys(lines)):
            if told["op"] == "del":
                self.gone.add(tuple(told["id"]))
            else:
                self.after.setdefault(tuple(told["parent"]), []).append((tuple(told["id"]), told["char"]))

    def shown(self) -> list[tuple[Identifier, str]]:
        """Returns the characters, with their names."""
        waiting, made = sorted(self.after.get((0, 0), [])), []
        while waiting:
            each = waiting.pop()
            made += [each] * (each[0] not in self.gone)
            waiting += sorted(self.after.get(each[0], []))
        return made

    def __str__(self) -> str:
        return "".join(char for _, char in self.shown())

    def splice(self, replica: int, lo: int, count: int, put: str) -> None:
        """Deletes characters and puts others there."""
        counter = max((told["id"][0] for told in map(json.loads, self.lines)), default=0)
        names = [(0, 0), *[name for name, _ in self.shown()]]
        made = [{"id": name, "op": "del"} for name in names[lo + 1 : lo + 1 + count]]
        for at, char in enumerate(put):
            parent = (counter + at, replica) if at else names[lo]
            made.append({"char": char, "id": (counter + at + 1, replica), "op": "ins", "parent": parent})
        self.__init__([*self.lines, *[json.dumps(told, separators=(",", ":")) for told in made]])  # type: ignore[misc]


class TestChangesOfOthers(Openings):
    """A text that another program changed after mgr put it, while its log grew."""

    def setUp(self) -> None:
        super().setUp()
        for name, done in (("ask", self.ask), ("log_of", self.log_of), ("put_text", self.put_text), ("mend", self.mend)):
            patch = mock.patch.object(opening, name, done)
            patch.start()
            self.addCleanup(patch.stop)
        patch = mock.patch.object(opening, "differ", lambda mgr, note, log, number: log.text == "other")
        patch.start()
        self.addCleanup(patch.stop)
        self.signs = map(chr, range(0x4E00, 0x20000))

    # ---- what is asked of mgr

    def lines(self, note: Note) -> list[str]:
        return pathlib.Path(note.log).read_text().splitlines()

    def ask(self, mgr: str, note: Note, *words: str, logs: Sequence[str] = ()) -> bytes:
        if words[0] == "show":
            return str(Text(self.lines(note)[: int(words[2]) if words[1:] else None])).encode()
        self.assertEqual(words, ("merge", "--adopt"))
        pathlib.Path(note.log).write_text("".join(f"{line}\n" for line in dict.fromkeys(self.lines(note) + self.lines(Note(logs[0][:-4])))))
        self.mend(mgr, note)
        return b""

    def log_of(self, mgr: str, note: Note) -> "Log | None":
        lines = self.lines(note)
        counters = {replica: counter for counter, replica in sorted(json.loads(line)["id"] for line in lines)}
        is_same = pathlib.Path(note.name).exists() and pathlib.Path(note.name).read_text() == str(Text(lines))
        return Log(os.path.getsize(note.log), len(lines), 0, "same" if is_same else "other", counters)

    def put_text(self, mgr: str, note: Note, replica: int, text: str) -> bool:
        made = Text(self.lines(note))
        for lo, count, put in reversed(changes(str(made), text)):
            made.splice(replica, lo, count, put)
        pathlib.Path(note.log).write_text("".join(f"{line}\n" for line in made.lines))
        return str(made) == text

    def mend(self, mgr: str, note: Note) -> "tuple[list[str], bytes]":
        pathlib.Path(note.name).write_text(str(Text(self.lines(note))))
        return [], b""

    # ---- what people do

    def write(self, chance: random.Random, text: Text, replica: int) -> None:
        """Writes or deletes a little; no character is put twice."""
        length = len(str(text))
        lo = min(length, max(0, chance.choice([length, chance.randrange(length + 1)])))
        count = chance.choice([0, 0, 0, 1, 3])
        text.splice(replica, lo, min(count, length - lo), "".join(chance.choice([next(self.signs)] * 6 + ["\n"]) for _ in range(chance.randrange(1, 6))))

    def log(self, text: Text) -> None:
        pathlib.Path(self.note.log).write_text("".join(f"{line}\n" for line in text.lines))

    def round(self, chance: random.Random) -> None:
        """Two write, mgr puts the text, another program changes that, and the file is taken at the next start."""
        shutil.rmtree(self.folder / "state", ignore_errors=True)
        text = Text([])
        for _ in range(chance.randrange(8, 15)):
            self.write(chance, text, 1)
        self.log(text)
        self.mend("", self.note)
        opened = self.open()
        opened.put()
        noted = str(text).replace("\n", "")
        for _ in range(chance.randrange(8)):
            begun = len(text.lines)
            self.write(chance, text, chance.choice([opened.number, 2]))
            self.log(text)
            # Own words are told at once.
            opened.keep([line.encode() for line in text.lines[begun:]])
        # It was killed before it noted that this was put.
        put = str(text)
        lo, is_early = chance.randrange(len(put) + 1), chance.random() < 0.3
        # Whether what was typed last was deleted, or not put yet, nobody can know.
        count = 0 if is_early else chance.choice([0, 0, 1, 4])
        gone = "".join(itertools.takewhile(noted.__contains__, put[lo : lo + count]))
        new = "".join(next(self.signs) for _ in range(chance.randrange(1, 5)))
        (self.folder / "note").write_text(put[:lo] + new + put[lo + len(gone) :])
        if is_early:
            # It was changed before it was noted.
            opened.put()
        for _ in range(chance.randrange(4)):
            self.write(chance, text, 2)
        self.log(text)
        self.open("f")
        signs, wanted = (self.folder / "note").read_text().replace("\n", ""), str(text).replace("\n", "")
        self.assertEqual(len(signs), len(set(signs)), "nothing comes twice")
        self.assertEqual(set(signs), set(wanted) - set(gone) | set(new), "all else is as the log and the file have it")

    def test_only_what_the_other_program_changed_is_taken(self) -> None:
        for seed in range(50):
            with self.subTest(seed=seed):
                self.round(random.Random(seed))


class TestLargeLogs(Openings):
    def test_it_is_compacted_when_the_note_is_left(self) -> None:
        self.put(note="text", note_ops="text")
        for large, times, before, wanted in [(5, 0, 0, False), (3, 1, 0, False), (3, 0, 3, False), (3, 0, 1, True)]:
            opened = self.open()
            opened.copy.kept["compacted"] = before
            with mock.patch.multiple(opening, LARGE=large, TIMES=times):
                with mock.patch.object(opened.copy, "keep") as kept, mock.patch("os.path.getsize", return_value=7):
                    opened.remember()
            self.assertEqual("note.ops~" in self.names(), wanted)
            self.assertEqual(mock.call(compacted=7) in kept.call_args_list, wanted)


class TestBeginnings(Openings):
    def test_a_new_note_says_its_keys_once(self) -> None:
        self.assertEqual(self.open().remarks, [opening.NEW])
        self.put(note="text")
        self.assertEqual(self.open().remarks, [])

    def test_an_absent_folder_is_said(self) -> None:
        self.note = Note(str(self.folder / "absent" / "note"))
        self.assertEqual(self.remarks(self.open()), ["Nothing can be saved: absent is not there"])

    def test_the_name_of_a_log_is_that_of_its_note(self) -> None:
        self.assertEqual((read(["a/note.ops"]).name, read(["note"]).name), ("a/note", "note"))
        with self.assertRaises(SystemExit), contextlib.redirect_stderr(io.StringIO()):
            read(["a/.ops"])


class TestLogs(Openings):
    def test_there_is_no_log_to_tell_of(self) -> None:
        self.assertIsNone(log_of(self.mgr, self.note))


if __name__ == "__main__":
    unittest.main()
