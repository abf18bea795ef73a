"""What makes one text of another: what differs is deleted and put in, and nothing else is touched."""

import difflib
from itertools import accumulate
from os.path import commonprefix

from mgr_front.editor import with_text

# A change of a text: where it begins, how many characters are deleted there, and what is put there.
Change = tuple[int, int, str]


def changes(old: str, new: str) -> list[Change]:
    """Returns changes that make `new` of `old`, in the order of the text, with places of `old`: common lines stay."""
    ours, theirs = old.splitlines(keepends=True), new.splitlines(keepends=True)
    places = [0, *accumulate(map(len, ours))]
    made: list[Change] = []
    for _, i, j, k, m in difflib.SequenceMatcher(None, ours, theirs).get_opcodes():
        gone, put = "".join(ours[i:j]), "".join(theirs[k:m])
        if gone != put:
            begin = len(commonprefix([gone, put]))
            gone, put = gone[begin:], put[begin:]
            end = len(commonprefix([gone[::-1], put[::-1]]))
            made.append((places[i] + begin, len(gone) - end, put[: len(put) - end]))
    return made


def splices(old: str, new: str) -> list[bytes]:
    """Returns the reports that make `new` of `old` in a note that was just opened: the last change first."""
    made = [with_text(put, op="splice", base=0, lo=lo, hi=lo + count) for lo, count, put in reversed(changes(old, new))]
    return [report for reports in made for report in reports]
