"""What a terminal sends, as strokes: bytes that stand for themselves, keys of several bytes, and pasted text."""

import codecs
import io
import re
from dataclasses import dataclass

CANCEL = 7
TAB = 9
RETURN = 13
QUOTE = 17
ARGUMENT = 21
CONTROL_X = 24
ESCAPE = 27
DELETE = 127
# No key anywhere, and in no character: it ends whatever key was begun, C-q too, and does nothing.
NO_KEY = 254


@dataclass(frozen=True)
class Typed:
    """Bytes that stand for themselves."""

    data: bytes


@dataclass(frozen=True)
class Key:
    """What a terminal sends for one key, as the keys of mgr that do the same; ESC and a byte are the meta key."""

    data: bytes


@dataclass(frozen=True)
class Pasted:
    """A piece of a text that is pasted, and whether it is the last."""

    text: str
    is_last: bool


Stroke = Typed | Key | Pasted

HELP = b"\x08"
RIGHT, LEFT, HOME, END, WORD_RIGHT, WORD_LEFT = b"\x06", b"\x02", b"\x01", b"\x05", b"\x1bf", b"\x1bb"
# Some terminals have small letters when the control key is held down.
LETTERS = {b"A": b"\x10", b"B": b"\x0e", b"C": RIGHT, b"D": LEFT, b"H": HOME, b"F": END}
LETTERS |= {b"P": HELP, b"c": WORD_RIGHT, b"d": WORD_LEFT}
NUMBERED = {b"1": HOME, b"7": HOME, b"4": END, b"8": END, b"3": b"\x04", b"5": b"\x1bv", b"6": b"\x16", b"11": HELP}
CONTROLLED = {RIGHT: WORD_RIGHT, LEFT: WORD_LEFT, HOME: b"\x1b<", END: b"\x1b>"}
# What a modifier adds to the number after the semicolon, which is 1 without any.
CONTROL = 4

PASTE_BEGIN, PASTE_END = b"\x1b[200~", b"\x1b[201~"
# No key has a number of more digits. Without a bound each of many would be tried as the last one.
STROKE = re.compile(
    rb"\x1b(?:O(?P<plain>[ -~])|\[\[(?P<console>[ -~])"
    rb"|\[(?P<number>\d{0,3})(?:;(?P<modifier>\d{1,3})(?!\d))?[0-?]*[ -/]*(?P<last>[@-~]))"
    rb"|\x1b(?P<meta>[^\x1b])|(?P<typed>[^\x1b]+|\x1b)"
)
BEGUN = re.compile(rb"\x1b(?:O|\[\[|\[[0-?]*[ -/]*)?\Z")
PASTE_END_BEGUN = re.compile(rb"\x1b(?:\[(?:2(?:01?)?)?)?\Z")


class Keys:
    """The strokes of what is read bit by bit."""

    def __init__(self) -> None:
        self.begun = b""
        # What makes text of a paste that goes on, of which a character or the end of a line may be cut.
        self.paste: io.IncrementalNewlineDecoder | None = None

    def take(self, sent: bytes) -> list[Stroke]:
        """Returns the strokes of these bytes, and keeps a beginning of a longer one."""
        rest, self.begun = self.begun + sent, b""
        strokes: list[Stroke] = []
        while rest:
            rest = self._take_paste(rest, strokes) if self.paste else self._take_keys(rest, strokes)
        return strokes

    @property
    def is_in_doubt(self) -> bool:
        """Whether what was begun may be whole already: there is no end of a paste but its own."""
        return bool(self.begun) and not self.paste

    def give_up(self) -> list[Stroke]:
        """Returns what was begun, as it was sent: nothing goes on of it, nor of a paste."""
        begun, self.begun = self.begun, b""
        paste, self.paste = self.paste, None
        return [Pasted(paste.decode(begun, True), True)] if paste else [Typed(begun)] * bool(begun)

    def _take_keys(self, sent: bytes, strokes: list[Stroke]) -> bytes:
        """Adds the strokes up to a paste, and returns what stands after its beginning."""
        keys, begin, rest = sent.partition(PASTE_BEGIN)
        if begin:
            self.paste = io.IncrementalNewlineDecoder(codecs.getincrementaldecoder("utf-8")("replace"), True)
        else:
            keys = self._cut(BEGUN, keys)
        strokes += filter(None, map(_stroke, STROKE.finditer(keys)))
        return rest

    def _take_paste(self, sent: bytes, strokes: list[Stroke]) -> bytes:
        """Adds what is pasted up to its end, and returns what stands after that."""
        text, end, rest = sent.partition(PASTE_END)
        if not end:
            text = self._cut(PASTE_END_BEGUN, text)
        assert self.paste
        piece = self.paste.decode(text, bool(end))
        if piece or end:
            strokes.append(Pasted(piece, bool(end)))
        if end:
            self.paste = None
        return rest

    def _cut(self, begun: re.Pattern[bytes], sent: bytes) -> bytes:
        """Keeps what may have begun at the end, and returns what stands before that."""
        found = begun.search(sent)
        self.begun = found[0] if found else b""
        return sent[: len(sent) - len(self.begun)]


def _stroke(sent: re.Match[bytes]) -> Stroke | None:
    """Returns the stroke that was sent; there is none for keys that do nothing, as F5."""
    if sent["typed"]:
        return Typed(sent["typed"])
    if sent["meta"]:
        return Key(sent[0])
    if sent["console"]:
        return Key(HELP) if sent["console"] == b"A" else None
    is_numbered = sent["last"] == b"~"
    keys = NUMBERED.get(sent["number"]) if is_numbered else LETTERS.get(sent["plain"] or sent["last"])
    if keys and int(sent["modifier"] or 1) - 1 & CONTROL:
        keys = CONTROLLED.get(keys, keys)
    return Key(keys) if keys else None
