"""What the front itself asks, in the echo line, and what it shows above that until a key."""

import os
from collections.abc import Callable, Sequence

from mgr_front.cells import beginning, cells
from mgr_front.errands import Errand, copy_to, go_to_line
from mgr_front.keys import CANCEL, DELETE, RETURN
from mgr_front.notes import Note
from mgr_front.view import CLEAR, RESET, REVERSE, Picture, sent

# No note has as many lines as a number with so many digits says; and no name has more bytes.
MOST_DIGITS, MOST_NAME = 9, 1024

HELP = """\
C-f C-b C-n C-p   a character on, back; a line down, up
C-a C-e M-f M-b   ends of the line; a word on, back
C-v M-v M-< M->   a window down, up; ends of the text
C-d DEL M-d C-k   delete on, back; kill a word, a line
C-SPC C-w M-w     set the mark; kill, copy up to it
C-y C-_ C-q       yank; undo; insert the next character
C-s C-r M-%       search on, back; replace
M-u M-l M-c M-q   a word's case; fill the paragraph
C-x C-f b k       open a note; go to one; remove one
C-x C-s C-w       save; write under another name
C-x C-c C-z       leave; suspend
C-x 2 o 0 1       split; next window; one less; one only
C-x g C-l C-u 4   go to a line; draw anew; four times
M-x C-g C-h       a command; leave what was begun; this
""".splitlines()


class Question:
    """A question, and its answer so far."""

    def __init__(
        self, label: str, accept: Callable[[str], Errand | None], most: int = MOST_NAME, keys: str = ""
    ) -> None:
        """Asks for so many characters at most, digits if few, or one of these keys; `accept` makes an errand of it."""
        self.label, self.accept, self.most, self.keys = label, accept, most, keys
        self.typed = b""
        self.is_open = True

    @property
    def answer(self) -> str:
        return self.typed.decode("utf-8", "replace")

    @property
    def text(self) -> str:
        """The question and its answer, as the echo line shows them."""
        return self.label + self.answer

    def press(self, byte: int) -> Errand | None:
        """Takes a key, and returns the errand that it leads to; RET and C-g end the question."""
        ends = chr(byte) in self.keys if self.keys else byte == RETURN
        self.is_open = not ends and byte != CANCEL
        if ends:
            return self.accept(chr(byte) if self.keys else self.answer)
        if byte == DELETE:
            self.typed = self.answer[:-1].encode()
        elif len(self.typed) < self.most and (byte in b"0123456789" or self.most > MOST_DIGITS and byte >= ord(" ")):
            self.typed += bytes([byte])
        return None


class Page(Question):
    """Rows that stand over the screen. A key shows further ones, and after the last ones nothing; `q` ends it."""

    def __init__(self, lines: Sequence[list[str]]) -> None:
        super().__init__("", lambda _: None)
        self.lines, self.shown = lines, 1

    def picture(self, rows: int, columns: int) -> Picture:
        self.shown = max(1, rows - 1)
        foot = "a key shows more, q ends" if len(self.lines) > self.shown else "a key ends this"
        made = [sent(beginning(line, columns), columns) for line in self.lines[: self.shown]]
        made += [CLEAR] * (self.shown - len(made))
        return Picture([*made, sent(beginning(cells(foot), columns), columns, REVERSE, RESET)], self.shown, 0)

    def press(self, byte: int) -> None:
        self.lines = self.lines[self.shown :]
        self.is_open = bool(self.lines) and byte not in (CANCEL, RETURN, ord("q"))


def show_help() -> Question:
    """Shows the keys."""
    return Page(list(map(cells, HELP)))


def ask_for_line() -> Question:
    """Asks for the number of a line to go to; if none is given, nothing is done."""
    return Question("Goto line: ", lambda answer: go_to_line(int(answer)) if answer else None, MOST_DIGITS)


def ask_for_name() -> Question:
    """Asks for another name for the current text; one that is taken is none."""

    def accept(answer: str) -> Errand | None:
        name = os.path.expanduser(answer)
        is_taken = os.path.lexists(name) or os.path.lexists(Note(name).log)
        return copy_to(name, is_taken) if name else None

    return Question("Write file: ", accept)
