"""Errands: commands of the front that press several keys of mgr, one after the answer to another.

An errand yields keys and is sent the status that answers the last of them. Nothing is drawn before
its end. What it returns stands in the echo line then; if that is None, mgr's own does.
"""

from collections.abc import Generator

from mgr_front.saving import SAVE
from mgr_front.statuses import Status

Errand = Generator[bytes, Status, str | None]

COPY_ALL, YANK, FIND, REMOVE = b"\x18h\x1bw", b"\x19", b"\x18\x06", b"\x18k"
SET_MARK, KILL_REGION, NEXT_LINE, FORWARD_CHAR, ARGUMENT = b"\x00", b"\x17", b"\x0e", b"\x06", b"\x15"
LEAVE = b"\x18\x03"
BACKWARD_WORD, BUFFER_BEGIN, BUFFER_END = b"\x1bb", b"\x1b<", b"\x1b>"
MOST_ARGUMENT = 9999

END_OF_BUFFER = "End of buffer"


def switch_to(buffer: str) -> bytes:
    """Returns the keys that go to a buffer."""
    return b"\x18b" + buffer.encode() + b"\r"


def copy_to(name: str, is_taken: bool) -> Errand:
    """Goes to a new buffer of that name with the text of this one, and saves it, unless the name is taken."""
    if is_taken:
        return f"{name} is there already"
    yield COPY_ALL + FIND + name.encode() + b"\r"
    yield YANK + SAVE
    return None


def kill_word_backward() -> Errand:
    """Kills the word before point, by the mark: M-b M-d would kill all of a word around it, and no blanks after one."""
    yield SET_MARK
    status = yield BACKWARD_WORD
    if not status.message:
        yield KILL_REGION
    return None


def go_to_line(line: int) -> Errand:
    """Goes to the begin of a line; the first is 1. Beyond the last one it goes to the end."""
    status = yield BUFFER_BEGIN
    rest = line - 1
    while rest > 0 and status.message != END_OF_BUFFER:
        count = min(rest, MOST_ARGUMENT)
        status = yield ARGUMENT + str(count).encode() + NEXT_LINE
        rest -= count
    if status.message == END_OF_BUFFER:
        yield BUFFER_END
    return None
