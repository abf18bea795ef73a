"""Changes that two made of one text at once, each carried over those of the other: so both come to one text."""

from collections.abc import Sequence
from typing import NamedTuple


class Piece(NamedTuple):
    """A part of a change: what is deleted, or what is put at a place. One of nothing is a place alone."""

    lo: int
    hi: int
    text: str


Pieces = list[Piece]


def pieces_of(lo: int, hi: int, text: str) -> Pieces:
    """Returns the parts of a change, each a change of the text that the one before it left."""
    return [Piece(lo, hi, "")] * (lo < hi) + [Piece(lo, lo, text)] * bool(text)


def splices_of(pieces: Sequence[Piece]) -> Pieces:
    """Returns the same change in fewer steps: what is put where something was just deleted is put in its place."""
    made: Pieces = []
    for lo, hi, text in pieces:
        if text and made and made[-1].lo == lo and not made[-1].text:
            made[-1] = Piece(lo, made[-1].hi, text)
        elif text or lo < hi:
            made.append(Piece(lo, hi, text))
    return made


def joined(pieces: Sequence[Piece]) -> Pieces:
    """Returns the same change in fewer pieces: what goes beside what just went, and what is put after what was put."""
    made: Pieces = []
    for lo, hi, text in pieces:
        last = made[-1] if made else Piece(0, 0, "")
        if text and last.text and lo == last.lo + len(last.text):
            made[-1] = Piece(last.lo, last.lo, last.text + text)
        elif lo < hi and last.lo < last.hi and lo <= last.lo <= hi:
            made[-1] = Piece(lo, hi + last.hi - last.lo, "")
        else:
            made.append(Piece(lo, hi, text))
    return made


def carry(ours: Pieces, theirs: Pieces) -> tuple[Pieces, Pieces]:
    """Returns each as it stands after the other: at one place ours stand first; what is put within a deletion stays."""
    carried: Pieces = []
    for our in ours:
        mine, theirs = _carry_one(our, theirs)
        carried += mine
    return carried, theirs


def _carry_one(our: Piece, theirs: Pieces) -> tuple[Pieces, Pieces]:
    """The same, of one piece of ours."""
    mine, passed = [our], []
    for their in theirs:
        mine, left = _cross(mine[0], their) if len(mine) == 1 else carry(mine, [their])
        passed += left
    return mine, passed


def _cross(our: Piece, their: Piece) -> tuple[Pieces, Pieces]:
    """The same, of one piece each."""
    if our.lo < our.hi and their.lo < their.hi:
        return _remaining(our, their), _remaining(their, our)
    if our.lo < our.hi:
        return _around(our, their), [_after(their, our)]
    if their.lo < their.hi:
        return [_after(our, their)], _around(their, our)
    if our.lo <= their.lo:
        return [our], [_moved(their, len(our.text))]
    return [_moved(our, len(their.text))], [their]


def _moved(piece: Piece, by: int) -> Piece:
    return Piece(piece.lo + by, piece.hi + by, piece.text)


def _place_after(place: int, gone: Piece) -> int:
    """Returns where a place is after a deletion."""
    return min(place, gone.lo) if place <= gone.hi else place - (gone.hi - gone.lo)


def _after(put: Piece, gone: Piece) -> Piece:
    """Returns what is put, after a deletion."""
    place = _place_after(put.lo, gone)
    return Piece(place, place, put.text)


def _remaining(gone: Piece, other: Piece) -> Pieces:
    """Returns what is still to be deleted after another deletion."""
    lo, hi = _place_after(gone.lo, other), _place_after(gone.hi, other)
    return [Piece(lo, hi, "")] * (lo < hi)


def _around(gone: Piece, put: Piece) -> Pieces:
    """Returns what is deleted after something was put: what was put stays."""
    size = len(put.text)
    if put.lo <= gone.lo:
        return [_moved(gone, size)]
    if put.lo >= gone.hi:
        return [gone]
    front = put.lo - gone.lo
    return [Piece(gone.lo, put.lo, ""), Piece(gone.lo + size, gone.hi + size - front, "")]
