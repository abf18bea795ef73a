"""What carries operations between those who write in one note.

Only lines of operations that mgr told once they were saved are given to a channel. An engine never
writes the note's files: what it took it posts, and mgr saves that.
"""

from collections.abc import Callable, Mapping
from dataclasses import dataclass

from mgr_front.cells import clean

# So many characters of a sentence are shown, and of a name.
SHOWN, MOST_NAME = 100, 32
# What is said of faults of mgr that end or spoil writing together.
CONFLICT = "Conflict"
FAULTS = {
    CONFLICT: "two characters have one name: these copies do not become one any more",
    "Far": "a counter too far ahead was not taken",
}

# Counter and replica of the identifier that point stands after, and its line.
Place = tuple[int, int, int]


@dataclass(frozen=True)
class Took:
    """Lines of operations of others: whole lines, without newlines."""

    lines: tuple[bytes, ...]


@dataclass(frozen=True)
class State:
    """How the channel stands: `joining`, `live`, `alone`, `conflict` or `refused`; and why, in a sentence."""

    word: str
    why: str = ""


@dataclass(frozen=True)
class Present:
    """Who else is there, by their numbers: a name, and where point stands."""

    who: Mapping[int, tuple[str, Place]]


Event = Took | State | Present
# May be called from any thread, and wakes whoever waits for what comes.
Post = Callable[[Event], None]


class Apart(Exception):
    """A channel can't carry a note. Says why, and how the channel stands then."""

    def __init__(self, why: str, word: str = "alone") -> None:
        super().__init__(why)
        self.state = State(word, why)


def shown(text: str, most: int = SHOWN) -> str:
    """Returns what a terminal may be sent of a text, in one row."""
    return clean(text[:most])
