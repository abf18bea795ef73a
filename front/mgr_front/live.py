"""The program mgr-live: an edit of a note on a terminal."""

import os
import signal
from collections.abc import Callable, Sequence

from mgr_front.channels.stream import trim
from mgr_front.company import Company
from mgr_front.difference import splices
from mgr_front.editor import LEAST_ROWS, MOST_ROWS, Editor
from mgr_front.ending import run
from mgr_front.guests import guest_of, take_back
from mgr_front.joining import meet
from mgr_front.meeting import is_served
from mgr_front.notes import Note
from mgr_front.opening import Opening
from mgr_front.options import HERE, Options, read as read_options
from mgr_front.program import guarded, shell_status, text_of
from mgr_front.saying import stop, tell
from mgr_front.screen import Screen
from mgr_front.session import Session
from mgr_front.signals import JOIN, Signals

LEAST_COLUMNS = 20


def terminal_rows() -> int:
    """Returns how many rows mgr is to fill."""
    if not (os.isatty(0) and os.isatty(1)):
        stop("standard input and standard output have to be a terminal")
    if os.environ.get("TERM", "") in ("", "dumb"):
        stop("TERM has to name a terminal that moves its cursor, such as xterm")
    columns, rows = os.get_terminal_size(1)
    if rows < LEAST_ROWS or columns < LEAST_COLUMNS:
        least = f"{LEAST_ROWS} rows and {LEAST_COLUMNS} columns are needed"
        stop(f"the terminal is too small: it has {rows} rows and {columns} columns, and {least}")
    return min(rows, MOST_ROWS)


def edit(opening: Opening, company: Company | None) -> int:
    """Edits a note until the person leaves, or something ends it, and returns the status for the shell."""
    mgr, note, options, rows = opening.mgr, opening.note, opening.options, terminal_rows()
    joins = [JOIN] * (not options.way[0])
    signals, screen = Signals(signal.SIGTSTP, signal.SIGCONT, signal.SIGWINCH, *joins), Screen()
    fill = ["--fill", str(options.fill)] if options.fill else []
    put_back = [] if options.text is None else splices(text_of(mgr, note), options.text)
    editor = Editor(mgr, ["--replica", str(opening.number), *fill, "--", note.name], rows)
    session = Session(editor, screen, signals, company)
    session.names = note.name, options.name
    session.has_colours = not (options.is_plain or os.environ.get("NO_COLOR"))
    session.greeting = "; ".join(opening.remarks)
    for report in put_back:
        editor.report(report)
    if not (status := run(session, opening)):
        opening.remember(session.discards)
    # A signal that ended mgr-live counts before one that ended mgr, as mgr-live itself may have sent that.
    return shell_status(-signals.first if signals.first and status <= 0 else status)


def on_terminal(mgr: str, options: Options) -> int:
    """Edits on the terminal, if there is one."""
    terminal_rows()
    return begin(mgr, options, edit)


def begin(mgr: str, options: Options, edit: Callable[[Opening, Company | None], int]) -> int:
    """Does what is to be done first, joins others if the note is shared, and edits it."""
    note, company = Note(options.name), None
    if options.history:
        # Its pager is long to load, and others wait for nothing of it.
        from mgr_front.history import choose

        options.text = choose(mgr, note, options)
    while True:
        if not options.way[0] and is_served(note.name):
            tell(f"a hub of this machine has {note.name}: this writes with all others there")
            note, options.way = guest_of(note.name), (HERE, note.name)
        elif said := take_back(mgr, note):
            tell(said)
        opening = Opening(mgr, note, options)
        if not options.way[0] or (company := meet(opening)):
            status = edit(opening, company)
            if status != shell_status(-JOIN):
                return status
            # What was to be put back has been.
            options.text = None


def trimmed(mgr: str, options: Options) -> int:
    """Has the stream of Redis hold few lines."""
    before, after = trim(":".join(options.way), mgr)
    tell(f"the stream had {before:,} bytes of lines, and has {after:,}")
    return 0


def main(words: Sequence[str], folder: str) -> int:
    """Edits as the command line says, and returns the status; `folder` is where mgr-live stands."""
    options = read_options(words)
    return guarded(folder, options, trimmed if options.trims else on_terminal)
