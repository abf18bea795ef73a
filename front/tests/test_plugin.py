"""What stands between an editor program and mgr, beside an mgr that is played here: a text, and the answers to reports."""

import json
import os
import re
import time
import unittest
from typing import Any
from unittest import mock

import context  # noqa: F401

from mgr_front.editor import Talk
from mgr_front.plugin import Lines, Plugin
from mgr_front.statuses import Status


class Mgr(Talk):
    """A mgr that has a text, and takes what waits for it when it is asked to."""

    def __init__(self, text: str) -> None:
        super().__init__(3)
        self.text, self.base, self.groups, self.undone = text, 0, [], None
        self.reports_taken = self.keys_taken = 0
        self.refuses = ""

    def _put(self, lo: int, hi: int, text: str) -> tuple[int, int, str]:
        self.groups.append((lo, lo + len(text), self.text[lo:hi]))
        self.text, self.base = self.text[:lo] + text + self.text[hi:], self.base + 1
        return lo, hi, text

    def other(self, lo: int, hi: int, text: str) -> Status:
        """Another one changes the text; this is no command, and nothing that was given is taken."""
        change = self._put(lo, hi, text)
        self.groups.pop()
        return Status(changes=(change,), keys=self.keys_taken, reports=self.reports_taken, saved="ok")

    def answer(self) -> Status:
        """Takes all that waits, and returns the status."""
        changes, refused = [], {}
        for part in re.findall(rb"\xff[^\n]*\n|.", bytes(self.waiting), re.DOTALL):
            if part[0] != 0xFF:
                self.keys_taken += 1
                changes += [self._put(*self.groups[-1])] if part == b"\x1f" else []
                continue
            self.reports_taken += 1
            told = json.loads(part[1:])
            if told["op"] == "splice" and (self.refuses or told["base"] != self.base):
                refused[self.reports_taken] = self.refuses or "Stale"
            elif told["op"] == "splice":
                changes.append(self._put(told["lo"], told["hi"], told["text"]))
        self.waiting.clear()
        return Status(changes=tuple(changes), keys=self.keys_taken, reports=self.reports_taken, refused=refused, saved="ok")


class TestPlugin(unittest.TestCase):
    def test_what_could_not_be_saved_is_tried_again(self) -> None:
        self.plugin.doing, self.plugin.fault = None, "Not saved"
        self.plugin.changed = self.plugin.rested = time.monotonic()
        self.assertAlmostEqual(self.plugin._patience() or 0.0, 5.0, delta=1.0)
        for why, wanted in [(": no room is left", 0), ("", 1)]:
            self.plugin.changed = self.plugin.rested = time.monotonic() - 6
            with mock.patch("mgr_front.plugin.why_not_written", return_value=why):
                self.plugin._go_on()
            self.assertEqual(self.mgr.reports, wanted)

    def setUp(self) -> None:
        self.addCleanup(os.close, (ends := os.pipe())[0])
        self.addCleanup(os.close, ends[1])
        self.lines, self.mgr = Lines(ends[0], ends[1]), Mgr("")
        self.plugin = Plugin(self.mgr, self.lines, mock.Mock(), None, "note")  # type: ignore[arg-type]
        self.note(self.mgr.other(0, 0, "some words"))
        self.assertEqual(self.said(), [{"op": "change", "made": 0, "splices": [[0, 0, "some words"]], "by": None, "undo": False}, {"op": "begun", "made": 0}])
        self.plugin.take({"op": "seen", "seen": 1})

    def note(self, status: Status) -> None:
        """Has the plugin read a status."""
        self.mgr.note(status)
        self.plugin.note(status)

    def answer(self) -> None:
        """Has mgr answer all that it is given, until there is nothing more."""
        self.plugin._go_on()
        while self.plugin.doing:
            self.note(self.mgr.answer())
            self.plugin._go_on()

    def said(self, *ops: str) -> list[dict[str, Any]]:
        """Returns what was said since the last call; of these alone, if some are named."""
        lines, self.lines.waiting = [json.loads(line) for line in self.lines.waiting.splitlines()], bytearray()
        return [line for line in lines if not ops or line["op"] in ops]

    def splice(self, lo: int, hi: int, text: str, seen: int = 1, **members: object) -> None:
        self.plugin.take({"op": "splice", "seen": seen, "lo": lo, "hi": hi, "text": text, **members})

    def test_changes_of_both_are_carried_over_each_other(self) -> None:
        self.splice(0, 4, "many")
        self.note(self.mgr.other(0, 0, "so "))
        self.assertEqual([line["splices"] for line in self.said("change")], [[[4, 4, "so "]]])
        # This one was made before that came.
        self.splice(4, 4, "!")
        self.assertEqual(self.said("change"), [{"op": "change", "made": 2, "splices": [[5, 5, "so "]], "by": None, "undo": False}])
        self.answer()
        self.assertEqual((self.mgr.text, self.said("kept")), ("many!so  words", [{"op": "kept", "made": 2}]))

    def test_what_comes_late_is_given_again(self) -> None:
        self.splice(0, 0, "a")
        self.splice(1, 1, "b")
        self.plugin._go_on()
        # As if a change before had left the text as it was.
        self.mgr.base -= 1
        self.plugin.base -= 1
        self.note(self.mgr.answer())
        self.assertEqual(self.said("kept"), [{"op": "kept", "made": 0}])
        self.answer()
        self.assertEqual((self.mgr.text, self.said("kept")), ("absome words", [{"op": "kept", "made": 2}]))

    def test_what_is_refused_is_said(self) -> None:
        self.mgr.refuses = "Full"
        self.splice(0, 0, "a")
        self.answer()
        self.assertEqual(self.said("kept", "refused"), [{"op": "kept", "made": 0}, {"op": "refused", "made": 0, "why": "Full"}])
        self.assertTrue(self.plugin.is_refused)

    def test_what_others_made_nothing_of_is_kept(self) -> None:
        self.splice(0, 4, "")
        self.note(self.mgr.other(0, 10, ""))
        self.answer()
        self.assertEqual((self.mgr.text, self.said("kept")), ("", [{"op": "kept", "made": 1}]))

    def test_an_undo(self) -> None:
        for lo, joins in ((0, False), (1, True)):
            self.splice(lo, lo, "x", joins=joins)
        self.plugin.take({"op": "undo", "kind": "undo"})
        self.answer()
        self.assertEqual([line["op"] for line in self.said()], ["kept", "change", "undone"])
        self.plugin.take({"op": "undo", "kind": "only"})
        self.answer()
        self.assertEqual(self.said(), [{"op": "undone", "why": "Nothing to undo"}])


if __name__ == "__main__":
    unittest.main()
