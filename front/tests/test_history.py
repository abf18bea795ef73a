"""The texts that a note had, shown, compared and put back."""

import os
import subprocess
import unittest
from unittest import mock

from context import InFolder

from mgr_front import history
from mgr_front.channels.git import GitBranch
from mgr_front.notes import Note
from mgr_front.options import read
from mgr_front.shared import SharedNote


class TestHistory(InFolder):
    def setUp(self) -> None:
        super().setUp()
        self.note = Note(str(self.folder / "note"))
        self.words: list[str] = []
        self.put(note_ops="one\ntwo\nthree\n")

    def choose(self, *answers: str) -> tuple[str, list[str]]:
        """Returns what is put back by these answers, and what was shown before."""
        with mock.patch("builtins.input", side_effect=answers), mock.patch("builtins.print") as told:
            with mock.patch.object(history.pydoc, "pager") as pager:
                text = history.choose(self.mgr, self.note, read([self.note.name, *self.words]))
        self.told = [call[0][0] for call in told.call_args_list]
        return text, [call[0][0] for call in pager.call_args_list]

    def test_steps_are_shown_compared_and_put_back(self) -> None:
        text, shown = self.choose("1", "x", "9", "d 2", "p 2")
        self.assertEqual(text, "one\ntwo\n")
        self.assertEqual(shown[0], "one\n")
        self.assertEqual(shown[1].split("\n")[-2:], ["+three", " "])
        self.assertEqual([line.split(":")[0] for line in self.told], ["  1  1 lines", "  2  2 lines", "  3  3 lines"])

    def test_nothing_of_a_text_reaches_the_terminal_but_signs(self) -> None:
        self.put(note_ops="\x1b[2J\u202e\n")
        self.assertEqual(self.choose("1", "p 1")[1], ["?[2J?\n"])

    def test_a_log_of_many_lines_has_few_steps(self) -> None:
        self.put(note_ops="x\n" * 1001)
        counts = [what for what, _ in history.steps(self.mgr, self.note, read([self.note.name]))]
        self.assertEqual((len(counts), counts[0], counts[-1]), (20, "51 lines", "1001 lines"))

    def test_commits_of_the_folder_and_of_the_branch_that_carries_the_note(self) -> None:
        def git(*words: str) -> str:
            person = ("-c", "user.name=Ada", "-c", "user.email=ada")
            return subprocess.run(["git", "-C", self.folder, *person, *words], capture_output=True, text=True, check=True).stdout

        git("init", "--quiet")
        git("add", "note.ops")
        git("commit", "--quiet", "-m", "first")
        with mock.patch.dict(os.environ, XDG_CACHE_HOME=str(self.folder / "cache")):
            branch = GitBranch(SharedNote(self.mgr, self.note, 0), print, "place")
            git("clone", "--quiet", "--bare", ".", branch.clone)
            git("-C", branch.clone, "update-ref", branch.ref, "HEAD")
            words = [self.note.name, "--with", "git:place"]
            for given, count in ((words[:1], 1), (words, 2)):
                found = history.steps(self.mgr, self.note, read(given))
                self.assertEqual([what.split()[-1] for what, _ in found], [*["Ada"] * count, *["lines"] * 3])

    def test_who_leaves_and_a_note_without_a_log(self) -> None:
        with self.assertRaises(SystemExit), mock.patch.object(history, "stop", side_effect=SystemExit) as stop:
            self.choose("q")
        stop.assert_called_once_with("nothing was done", 0)
        self.note = Note(str(self.folder / "other"))
        with self.assertRaises(SystemExit), mock.patch.object(history, "stop", side_effect=SystemExit):
            self.choose()


if __name__ == "__main__":
    unittest.main()
