"""Steps, and what an undo takes back of them: played on a list of texts, as mgr undoes."""

import unittest

import context  # noqa: F401

from mgr_front.steps import ONLY, REDO, UNDO, Steps


class Texts:
    """The text after each command, and mgr's undo beside the steps."""

    def __init__(self) -> None:
        self.steps, self.before = Steps(), [""]
        self.run: int | None = None

    @property
    def text(self) -> str:
        return self.before[-1]

    def type(self, text: str, joins: bool = False) -> None:
        self.steps.edited(joins)
        self.before.append(self.text + text)
        self.run = None

    def undo(self, kind: str, goes_on: bool = False) -> str:
        """Undoes as mgr does, command by command, and returns the text then."""
        target = self.steps.target(kind, goes_on)
        if target is None:
            return "none"
        is_new, count = self.steps.go_back(target)
        if is_new:
            self.run = None
        for _ in range(count):
            self.run = (len(self.before) - 1 if self.run is None else self.run) - 1
            # What was made after the command that is taken back counts for nothing in a run.
            self.before.append(self.before[self.run])
            self.steps.count += 1
        return self.text


class TestSteps(unittest.TestCase):
    def setUp(self) -> None:
        self.texts = Texts()
        for text, joins in (("a", False), ("b", True), ("c", False), ("d", True), ("e", True), ("f", False)):
            self.texts.type(text, joins)

    def test_a_run_of_undos(self) -> None:
        self.assertEqual([self.texts.undo(UNDO, i > 0) for i in range(4)], ["abcde", "ab", "", "none"])

    def test_undos_are_undone(self) -> None:
        for goes_on, wanted in ((False, "abcde"), (True, "ab"), (False, "abcde"), (True, "abcdef"), (True, "abcde")):
            self.assertEqual(self.texts.undo(UNDO, goes_on), wanted)

    def test_undo_only_and_redo(self) -> None:
        played = ((ONLY, "abcde"), (ONLY, "ab"), (REDO, "abcde"), (ONLY, "ab"), (ONLY, ""), (ONLY, "none"), (REDO, "ab"))
        for kind, wanted in (*played, (REDO, "abcde"), (REDO, "abcdef"), (REDO, "none"), (ONLY, "abcde")):
            self.assertEqual(self.texts.undo(kind), wanted)

    def test_after_an_edit_nothing_is_redone_and_all_is_undone(self) -> None:
        self.texts.undo(ONLY)
        self.texts.undo(ONLY)
        self.texts.type("x", True)
        self.assertEqual(self.texts.undo(REDO), "none")
        self.assertEqual(self.texts.undo(ONLY), "ab")
        self.assertEqual(self.texts.undo(ONLY), "")
        self.texts.type("y")
        self.assertEqual(self.texts.undo(UNDO), "")
        self.assertEqual([self.texts.undo(UNDO, True) for _ in range(4)], ["ab", "abx", "ab", "abcde"])


if __name__ == "__main__":
    unittest.main()
