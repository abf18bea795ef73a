"""The program mgr-channel: an edit of a note by an editor program, which gives and takes lines of JSON."""

import os
from collections.abc import Sequence
from functools import partial

from mgr_front.company import Company
from mgr_front.editor import LEAST_ROWS, Editor
from mgr_front.ending import run
from mgr_front.live import begin
from mgr_front.opening import NEW, Opening
from mgr_front.options import channel_parser
from mgr_front.plugin import Lines, Plugin
from mgr_front.program import guarded, shell_status
from mgr_front.saying import speak_for
from mgr_front.signals import Signals


def edit(lines: Lines, opening: Opening, company: Company | None) -> int:
    """Edits a note until the editor program leaves, or something ends it, and returns the status."""
    note, signals = opening.note, Signals()
    lines.say("open", path=os.path.realpath(note.name), replica=opening.number)
    for remark in opening.remarks:
        if remark != NEW:
            lines.say("say", text=remark)
    words = ["--changes", "--replica", str(opening.number), "--", note.name]
    plugin = Plugin(Editor(opening.mgr, words, LEAST_ROWS), lines, signals, company, note.name)
    if not (status := run(plugin, opening)):
        opening.remember()
    return shell_status(status)


def main(words: Sequence[str], folder: str) -> int:
    """Edits as the command line says, and returns the status; `folder` is where mgr-channel stands."""
    options, lines = channel_parser().parse_args(words), Lines()
    speak_for("mgr-channel", lines.choose)
    try:
        return guarded(folder, options, lambda mgr, options: begin(mgr, options, partial(edit, lines)))
    finally:
        lines.say("over")
        lines.end()
