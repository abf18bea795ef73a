"""Rows of a terminal as lists with an entry for each column: the first of a wide character's has all of it."""

import functools
import re
import unicodedata

# From here on characters that Python's tables do not have yet are pictures and ideographs.
PICTURES = "\U0001f000"
# The vowels and last consonants of Hangul, which join the syllable before them.
JOINING = range(0x1160, 0x1200), range(0xD7B0, 0xD800)
SOFT_HYPHEN = "\u00ad"
CUT = "$"
# What turns the direction of a text. It is never sent, nor are controls, ends of lines and halves of characters.
TURNING = "\u061c\u200e\u200f\u202a\u202b\u202c\u202d\u202e\u2066\u2067\u2068\u2069"
UNSENT = re.compile(f"[\x00-\x1f\x7f-\x9f\u2028\u2029\ud800-\udfff{TURNING}]")


def clean(text: str, kept: str = "") -> str:
    """Returns a text as a terminal may be sent it, but for what is kept of it."""
    return UNSENT.sub(lambda sign: sign[0] if sign[0] in kept else "?", text)


@functools.cache
def width(sign: str) -> int:
    """Returns how many columns a character takes, as most terminals count them."""
    category = unicodedata.category(sign)
    is_joining = category in ("Mn", "Me", "Cf") or any(ord(sign) in each for each in JOINING)
    if is_joining and sign != SOFT_HYPHEN:
        return 0
    is_known = category != "Cn" or sign >= PICTURES
    return 2 if is_known and unicodedata.east_asian_width(sign) in "WF" else 1


def cells(row: str, kept: str = "") -> list[str]:
    """Returns what stands in each column of a row; a combining character stands with the one before it."""
    row = clean(row, kept)
    if row.isascii():
        return list(row)
    made: list[str] = []
    for sign in row:
        if columns := width(sign):
            made += [sign, ""][:columns]
        elif made:
            made[-1 if made[-1] else -2] += sign
    return made


def shift(column: int, columns: int) -> int:
    """Returns how far a row is shifted to the left so that a column shows: by half screens, so that it stays mostly."""
    beyond = column - (columns - 2)  # The last column is left to the sign for what is cut off.
    step = columns // 2
    return 0 if beyond <= 0 else -(-beyond // step) * step


def beginning(row: list[str], columns: int) -> list[str]:
    """Returns at most so many columns of a row from its beginning; half of a wide character is left blank."""
    shown = row[:columns]
    if shown and row[columns : columns + 1] == [""]:
        shown[-1] = " "
    return shown


def part(row: list[str], left: int, columns: int) -> list[str]:
    """Returns what shows of a row from a column on, with a `$` at each end where more stands."""
    is_cut = len(row) > left + columns
    shown = [*beginning(row, left + columns - 1), CUT][left:] if is_cut else row[left:]
    if left:
        shown[:2] = [CUT, *(sign or " " for sign in shown[1:2])]
    return shown
