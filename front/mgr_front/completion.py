"""Answers to prompts that are completed, and names that begin in the home folder."""

import os
import re
from collections.abc import Iterable

from mgr_front.errands import Errand
from mgr_front.keys import DELETE, RETURN
from mgr_front.notes import LOG, why_not_written
from mgr_front.statuses import COMMAND, FIND, KILL, SWITCH
from mgr_front.who import WHO

KILL_EMACS = "save-buffers-kill-emacs"
# The commands that M-x takes.
COMMANDS = """
    backward-char backward-word beginning-of-buffer beginning-of-line capitalize-word copy-region-as-kill
    delete-backward-char delete-char delete-other-windows delete-window downcase-word end-of-buffer end-of-line
    exchange-point-and-mark fill-paragraph find-file forward-char forward-word isearch-backward isearch-forward
    kill-buffer kill-line kill-region kill-word mark-whole-buffer newline newline-and-indent next-line open-line
    other-window previous-line query-replace recenter replica-exchange replica-serve save-buffer
    save-buffers-kill-emacs scroll-down scroll-up set-mark-command split-window-vertically switch-to-buffer
    transpose-chars undo upcase-word yank
""".split()

# The prompts for names, of which M-x takes those of commands.
ANSWERED = FIND, SWITCH, KILL
NAMED = COMMAND, *ANSWERED
HOME = "~/"
FAULT, ELSEWHERE = "File fault", ": another mgr has it open, or a file of it cannot be read"
# What no name may have that is typed.
UNTYPED = re.compile("[\0-\x1f\x7f\ud800-\udfff]")
# Files that stand beside a note and are none.
BESIDE = ("~", ".ops.new", ".ops.refused", ".ops.text")


def expanded(name: str) -> str:
    """Returns a name with the home folder in place of a leading `~/`."""
    return os.path.expanduser(name) if name.startswith(HOME) else name


def candidates(label: str, answer: str, buffers: Iterable[str]) -> list[str]:
    """Returns what an answer to this prompt may become, in order."""
    names = {COMMAND: [*COMMANDS, WHO], FIND: _notes(answer)}.get(label, buffers if label in NAMED else ())
    return sorted({name for name in names if name.startswith(answer) and not UNTYPED.search(name)})


def _notes(answer: str) -> list[str]:
    """Returns the notes and folders of the folder that an answer names."""
    folder, begin = os.path.split(answer)
    try:
        entries = list(os.scandir(folder or "."))
    except OSError:
        return []
    names = [entry.name + "/" if entry.is_dir() else entry.name.removesuffix(LOG) for entry in entries]
    shown = [name for name in names if not name.endswith(BESIDE) and (begin or not name.startswith("."))]
    return [os.path.join(folder, name) for name in shown]


def complete(label: str, answer: str, buffers: Iterable[str]) -> Errand:
    """Makes an answer as long as all that it may become have in common; says what that is, if it is several."""
    found = candidates(label, expanded(answer), buffers)
    common = os.path.commonprefix(found)
    if not found:
        return "No match"
    if common != answer:
        yield _retyped(answer, common)
        return None
    return "Sole completion" if len(found) == 1 else " ".join(os.path.basename(name) or name for name in found)


def accept(label: str, answer: str) -> Errand:
    """Accepts the answer of a prompt, with the home folder in place of a leading `~/`; says what ails a file."""
    name = expanded(answer)
    status = yield _retyped(answer, name) + bytes([RETURN])
    if status.message == FAULT:
        return FAULT + (why_not_written(name) or ELSEWHERE)
    if label == FIND and not os.path.isdir(os.path.dirname(name) or "."):
        return f"Nothing can be saved{why_not_written(name)}"
    return None


def _retyped(answer: str, new: str) -> bytes:
    """Returns the keys that make another answer of one."""
    kept = os.path.commonprefix([answer, new])
    return bytes([DELETE]) * (len(answer) - len(kept)) + new[len(kept) :].encode()
