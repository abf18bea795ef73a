"""What a session shows."""

import pathlib
import sys

from play.notation import text_of, written_of
from play.words.people import end, seen, session_of
from play.words.table import parted, word

sys.path.insert(0, str(pathlib.Path(__file__).resolve().parents[3] / "front"))

from mgr_front.cells import cells  # noqa: E402


def _text_rows(session):
    """Returns the rows of the first window."""
    return session.frame()[: session.mode_lines()[0][0]]


@word
def shows(stage, about):
    """The text of the first window, without the empty rows after it."""
    rows = "\n".join(_text_rows(seen(stage))).rstrip("\n")
    stage.compare(text_of(about), rows.encode(), written_of)


@word
def stands(stage, about):
    """The same of a live session, with `^` where the cursor stands in it."""
    session = seen(stage)
    rows, (row, column) = _text_rows(session), session.cursor()
    if row < len(rows):
        rows[row] = _with_cursor(rows[row], column)
    stage.compare(text_of(about), "\n".join(rows).rstrip("\n").encode(), written_of)


def _with_cursor(row, column):
    before = "".join(cells(row)[:column])
    return f"{before}^{row[len(before):]}"


@word
def says(stage, about):
    """The echo line."""
    stage.compare(text_of(about), seen(stage).frame()[-1].encode(), written_of)


@word
def windows(stage, about):
    """Each window's buffer, from the top, with `*` in front of one that is changed, else `-`."""
    names = ["*-"[not changed] + name for _, changed, name in seen(stage).mode_lines()]
    stage.compare(about, " ".join(names))


@word
def heights(stage, about):
    """How many text rows each window has, from the top."""
    ends = [-1, *(at for at, _, _ in seen(stage).mode_lines())]
    stage.compare(about, " ".join(str(end - above - 1) for above, end in zip(ends, ends[1:])))


@word
def frame(stage, about):
    """All rows."""
    stage.compare(text_of(about), "\n".join(seen(stage).frame()).encode(), written_of)


@word
def row(stage, about):
    """`row N | TEXT`, from 0."""
    number, text = parted(about)
    stage.compare(text_of(text), seen(stage).frame()[int(number)].encode(), written_of)


@word
def cursor(stage, about):
    """`cursor ROW COLUMN`, from 0, of a live session."""
    stage.compare(about, "%d %d" % seen(stage).cursor())


@word
def frames(stage, about):
    """How many frames were shown since the session began."""
    session = session_of(stage)
    session.await_keys()
    stage.compare(int(about), session.count())


@word
def quits(stage, about):
    """The session has ended, well, though keys could still come."""
    session = session_of(stage)
    session.settle(session.has_ended)
    stage.compared += 1
    end(stage.person)
