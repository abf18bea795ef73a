"""What a terminal of some size shows of a frame: its rows, as they are sent, and its cursor."""

import functools
import re
from collections.abc import Sequence
from dataclasses import dataclass

from mgr_front.cells import TURNING, beginning, cells, clean, part, shift
from mgr_front.statuses import PROMPT, Status

# So many rows are kept as they were made: most are the same in the next picture.
KEPT = 1024
# Of a terminal that has less than this a part is drawn beyond its edges.
LEAST_ROWS, LEAST_COLUMNS = 2, 4
LEAST_NOTE = 20

CLEAR, REVERSE, RESET = "\x1b[K", "\x1b[7m", "\x1b[m"
# How many colours writers have.
COLOURS = 6
HIDING, BEGIN = re.compile(f"[{TURNING}]"), re.compile(f"^([{TURNING}]+)(.?)")


@dataclass(frozen=True)
class Mark:
    """What is shown of another writer: a letter at a place, if nothing stands there, else what stands before it."""

    row: int
    column: int
    style: str
    letter: str = ""


def style(replica: int, has_colours: bool, is_text: bool = False) -> str:
    """Returns what a terminal is sent before what is shown of a writer: of its point, or of its text."""
    colour = replica % COLOURS + 1
    if not has_colours:
        return "\x1b[4m" if is_text else REVERSE
    return f"\x1b[3{colour}m" if is_text else f"\x1b[30;4{colour}m"


@dataclass(frozen=True)
class Echo:
    """What stands in the echo line, and the column of the cursor where it stands there."""

    text: str
    column: int | None = None


def echo_line(status: Status, said: str | None = None, remarks: Sequence[str] = (), failing: str = "") -> Echo:
    """Returns the prompt, with what a search does not find, the message or what is `said`, and remarks in brackets."""
    message = status.message if said is None else said
    prompt = clean((status.label + status.answer).expandtabs())
    prompt = f"Failing {prompt}{failing}" if failing else prompt
    shown = [text for text in (prompt, message) if text]
    shown += [remark for remark in remarks if remark != message]
    text = "".join(f" [{text}]" if i else text for i, text in enumerate(shown))
    return Echo(text, len(cells(prompt)) if status.mode == PROMPT else None)


@dataclass(frozen=True)
class Picture:
    """All rows of the terminal, and the row and column of its cursor."""

    rows: Sequence[str]
    row: int
    column: int


def picture(status: Status, echo: Echo, rows: int, columns: int, note: str = "", marks: Sequence[Mark] = ()) -> Picture:
    """Returns what shows of a frame with these marks, and the note at the right end of the cursor's mode line."""
    rows, columns = max(rows, LEAST_ROWS), max(columns, LEAST_COLUMNS)
    frame, (row, column), mode_rows = status.frame, status.cursor, status.mode_rows
    current = min((i for i in mode_rows if i >= row), default=len(frame) - 2)
    if echo.column is not None:
        row, column = len(frame) - 1, echo.column
    left = shift(column, columns)
    shown = [
        mode_row(text, columns, note if i == current else "")
        if i in mode_rows
        else text_row(text, left if i == row else 0, columns, tuple(mark for mark in marks if mark.row == i))
        for i, text in enumerate((*frame[:-1], clean(echo.text)))
    ]
    if len(shown) > rows:
        # Those up to the cursor's show, and the echo line.
        top = max(0, min(row, len(shown) - 2) - rows + 2)
        shown, row = shown[top : top + rows - 1] + shown[-1:], min(row - top, rows - 1)
    return Picture(shown, row, column - left)


@functools.lru_cache(maxsize=KEPT)
def text_row(text: str, left: int, columns: int, marks: tuple[Mark, ...] = ()) -> str:
    """Returns a row of the text, or the echo line."""
    # What turns the direction of a text has no column, and could hide what others wrote: what it follows is in reverse.
    row = cells(BEGIN.sub(lambda found: (found[2] or " ") + found[1], text), TURNING)
    row = [f"{REVERSE}{HIDING.sub('', sign)}{RESET}" if HIDING.search(sign) else sign for sign in row]
    for mark in marks:
        _put(mark, row)
    return sent(part(row, left, columns), columns)


def sent(row: Sequence[str], columns: int, before: str = "", after: str = "") -> str:
    """Returns what has a terminal show a row in place of another, be it that it counts its columns differently."""
    text = f"{before}{''.join(row)}{after}"
    if not text.isascii():
        return CLEAR + text
    # To clear a full row at its end would take its last character.
    return text + CLEAR * (len(row) < columns)


def _put(mark: Mark, row: list[str]) -> None:
    """Shows a mark in a row, in which no character of the text is hidden by it."""
    place = mark.column if mark.letter else mark.column - 1
    if mark.letter:
        row += [" "] * (place + 1 - len(row))
    while 0 < place < len(row) and not row[place]:
        place -= 1
    if 0 <= place < len(row):
        row[place] = f"{mark.style}{mark.letter if mark.letter and row[place] == ' ' else row[place]}{RESET}"


@functools.lru_cache(maxsize=KEPT)
def mode_row(text: str, columns: int, note: str) -> str:
    """Returns a mode line with the note at its end, of which most is left out that has no room."""
    end = beginning(cells(f" {note} "), max(LEAST_NOTE, columns * 2 // 3)) if note else []
    return sent(beginning(cells(text), max(0, columns - len(end))) + end, columns, REVERSE, RESET)
