"""Strokes and what they do: keys for mgr, and what the front does itself."""

import re
from collections import deque
from collections.abc import Iterable
from typing import TYPE_CHECKING

from mgr_front.editor import Editor
from mgr_front.errands import kill_word_backward
from mgr_front.keys import ARGUMENT, CANCEL, CONTROL_X, DELETE, ESCAPE, HELP, NO_KEY, QUOTE, RETURN, TAB
from mgr_front.keys import Key, Pasted, Stroke, Typed
from mgr_front.minibuffer import ask_for_line, ask_for_name, show_help
from mgr_front.statuses import PLAIN, PROMPT, QUERY, SEARCH

if TYPE_CHECKING:
    from mgr_front.session import Session

REPAINT, SUSPEND, FORWARD, BACKWARD = 0x0C, 0x1A, 0x13, 0x12
# Keys that the front looks at, besides the one that erases: those that stand alone, and those of a text.
ALONE, WITHIN = bytes([SUSPEND, ESCAPE, CONTROL_X, QUOTE, FORWARD, BACKWARD, *HELP]), bytes([TAB, RETURN])
LINE_MODES = (PROMPT, QUERY)
SEARCHING = re.compile(b"[%c%c]" % (FORWARD, BACKWARD))
# Whatever is no text.
KEYS = re.compile(b"[^%b -~\x80-\xfd]" % WITHIN)
# Up to the next TAB or RET, or one of these.
PART = re.compile(b"[^%b]+|." % WITHIN, re.DOTALL)
CHARACTER = re.compile(b"[\xc0-\xf7][\x80-\xbf]*|.", re.DOTALL)
NOT_FOUND = "Search failed"


class Dispatcher:
    """The strokes that wait, in their order: a text goes on at once, all else once mgr has answered the keys before."""

    def __init__(self, editor: Editor, erase: int = DELETE) -> None:
        """`erase` is the byte by which the terminal erases; it is DEL to mgr."""
        self.editor = editor
        self.erase = erase
        alone = ALONE + bytes([erase] * (erase != DELETE))
        self.special = alone + WITHIN
        self.piece = re.compile(b"[^%b]+|." % re.escape(alone), re.DOTALL)
        self.strokes: deque[Stroke] = deque()
        self.prefix = b""  # ESC, C-x or C-q, until the key after it is there.
        # Of a search: the character that mgr looks for, and what was typed and is not found, nor given to mgr.
        self.tried, self.failing = b"", b""

    def take(self, strokes: Iterable[Stroke]) -> None:
        """Has further strokes wait."""
        for stroke in strokes:
            if isinstance(stroke, Typed):
                self.strokes += map(Typed, self.piece.findall(stroke.data))
            else:
                self.strokes.append(stroke)

    def run(self, desk: "Session") -> None:
        """Does all strokes of which it is known what they do."""
        self._note_search(desk)
        while self.strokes and self._is_clear(self.strokes[0], desk):
            stroke = self.strokes.popleft()
            if desk.question:
                self._answer(stroke, desk)
            elif isinstance(stroke, Pasted):
                self._paste(stroke)
            elif isinstance(stroke, Key):
                self._press_key(stroke.data, desk)
            else:
                self._type(stroke.data, desk)

    def give_up(self) -> None:
        """Does all strokes that wait, as when mgr asks for nothing."""
        self.editor.hand_on(self.prefix)
        self.prefix = b""
        while self.strokes:
            stroke = self.strokes.popleft()
            if isinstance(stroke, Pasted):
                self.editor.paste(stroke.text, not stroke.is_last)
            else:
                self.editor.hand_on(stroke.data)

    def _is_clear(self, stroke: Stroke, desk: "Session") -> bool:
        """Whether it is known what a stroke does."""
        if desk.question or desk.errand:
            return desk.question is not None
        if self.editor.is_settled:
            return True
        if self.editor.status.mode != PLAIN or self.prefix or not isinstance(stroke, Typed):
            return False
        if any(key in stroke.data for key in WITHIN):
            return self._is_text()
        return stroke.data[0] not in self.special and not SEARCHING.search(self.editor.untold)

    def _is_text(self) -> bool:
        """Whether TAB and RET are text: nothing is asked for, nor can it be by keys that are not answered."""
        status = self.editor.status
        return status.mode == PLAIN and not (status.begun or KEYS.search(self.editor.untold))

    def _answer(self, stroke: Stroke, desk: "Session") -> None:
        """Gives the front's own question the first key of a stroke; the others wait, as it may end."""
        if isinstance(stroke, Key):
            keys = bytes([ESCAPE])
        else:
            keys = stroke.text.partition("\n")[0].encode() if isinstance(stroke, Pasted) else stroke.data
        if keys:
            self._put_back(keys[1:])
            desk.answer(DELETE if keys[0] == self.erase else keys[0])

    def _put_back(self, keys: bytes) -> None:
        """Has keys wait before all others."""
        self.strokes.extendleft(map(Typed, reversed(self.piece.findall(keys))))

    def _first(self, part: re.Pattern[bytes], data: bytes) -> bytes:
        """Returns the first part of keys; the others wait."""
        found = part.match(data)
        assert found
        self._put_back(data[found.end() :])
        return found[0]

    def _hand_on(self, keys: bytes, desk: "Session") -> None:
        self.editor.hand_on(keys)
        if REPAINT in keys:
            desk.repaint()

    def _type(self, data: bytes, desk: "Session") -> None:
        if self.prefix:
            self._put_back(data[1:])
            self._complete(data[0], desk)
        elif self.editor.status.mode == SEARCH:
            key = self._first(CHARACTER, data)
            if not self._search(key):
                self._press(key, desk)
        else:
            self._press(data if self._is_text() else self._first(PART, data), desk)

    def _press(self, data: bytes, desk: "Session") -> None:
        """Does a text, or a key that means something else while a line is asked for."""
        key, mode = data[0], self.editor.status.mode
        if key not in self.special:
            self._hand_on(data, desk)
        elif key == self.erase:
            self.editor.hand_on(bytes([DELETE]))
        elif key == SUSPEND:
            desk.suspend()
        elif mode == PROMPT and key == TAB:
            desk.complete()
        elif mode == PROMPT and key == RETURN:
            desk.accept()
        elif mode == PLAIN and key == HELP[0]:
            desk.ask(show_help())
        elif mode not in LINE_MODES and key in (ESCAPE, CONTROL_X, QUOTE):
            self.prefix = data
        else:
            self._hand_on(data, desk)

    def _search(self, key: bytes) -> bool:
        """Does a key of a search that fails, and answers whether it is done; any other one is mgr's."""
        erases = key[0] in (DELETE, self.erase)
        is_character = key[0] >= ord(" ") and not erases
        if not self.failing:
            # Of a character that came in parts mgr has begun the first.
            self.tried = self.tried * self.editor.status.begun + key if is_character else b""
            return False
        if is_character:
            self.failing += key
        elif erases:
            self.failing = self.failing.decode("utf-8", "replace")[:-1].encode()
        elif key[0] not in (FORWARD, BACKWARD):
            self.failing = b""
        # C-s and C-r fail again.
        return is_character or erases or key[0] in (CANCEL, FORWARD, BACKWARD)

    def _note_search(self, desk: "Session") -> None:
        """Keeps a character that mgr did not find; what is kept ends with the search."""
        status = self.editor.status
        if not self.editor.is_settled or status.begun:
            return
        if self.tried and status.message == NOT_FOUND:
            self.failing, desk.said = self.tried, ""
        elif status.mode != SEARCH:
            self.failing = b""
        self.tried = b""

    def _complete(self, byte: int, desk: "Session") -> None:
        """Does the key that a byte makes with the one before it."""
        keys, self.prefix = self.prefix + bytes([byte]), b""
        if keys[0] == ESCAPE and byte in b"0123456789":
            # With the meta key a digit begins an argument, or goes on with one.
            self.editor.hand_on(keys[1:] if self.editor.status.begun else bytes([ARGUMENT, byte]))
        elif keys[0] == ESCAPE and byte in (DELETE, self.erase):
            desk.start(kill_word_backward())
        elif keys == b"\x18g":
            desk.ask(ask_for_line())
        elif keys == b"\x18\x17":
            desk.ask(ask_for_name())
        elif keys == b"\x18\x03":
            desk.start(desk.leave())
        elif keys == b"\x18\x13":
            desk.start(desk.save())
        elif keys == b"\x18\x1a":
            desk.suspend()
        else:
            self._hand_on(keys, desk)

    def _press_key(self, keys: bytes, desk: "Session") -> None:
        """Does a key that came as a whole; one of two bytes does nothing if a line is asked for or a key was begun."""
        self.failing = b""
        if keys == HELP:
            self._break_off()
            desk.ask(show_help())
        elif len(keys) == 1:
            self._hand_on(self.prefix + keys, desk)
            self.prefix = b""
        elif self.prefix or self.editor.status.mode in LINE_MODES:
            self._break_off()
        else:
            self.prefix = keys[:1]
            self._complete(keys[1], desk)

    def _paste(self, pasted: Pasted) -> None:
        """Puts a text in, or adds it to an answer. What was begun, and a question, are left first."""
        status = self.editor.status
        if self.prefix or status.begun:
            self._break_off()
            self.strokes.appendleft(pasted)
        elif status.mode == QUERY:
            self.editor.hand_on(bytes([CANCEL]))
            self.strokes.appendleft(pasted)
        elif self.failing:
            self.failing += pasted.text.partition("\n")[0].encode()
        else:
            self.editor.paste(pasted.text, not pasted.is_last)

    def _break_off(self) -> None:
        """Has what was begun of a key be none."""
        self.editor.hand_on(self.prefix + bytes([NO_KEY]))
        self.prefix = b""
