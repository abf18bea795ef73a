"""Who wrote what: each line of a note, with those who wrote in it, over the screen until a key."""

import json
from collections.abc import Callable, Mapping

from mgr_front.cells import beginning, cells
from mgr_front.errands import Errand
from mgr_front.keys import CANCEL
from mgr_front.minibuffer import Page, Question
from mgr_front.notes import Note, Refused
from mgr_front.program import ask
from mgr_front.view import RESET, style

WHO = "who"
# So many columns have the names of a line.
NAMES = 16


def pieces(told: bytes) -> list[list[tuple[int, str]]]:
    """Returns of each line of a text the pieces, each with the number of who wrote it, as `mgr who` tells them."""
    lines: list[list[tuple[int, str]]] = [[]]
    for each in map(json.loads, told.splitlines()):
        *ended, last = each["text"].split("\n")
        for part in ended:
            lines[-1].append((each["replica"], part))
            lines.append([])
        lines[-1] += [(each["replica"], last)] * bool(last)
    return lines


def row(line: list[tuple[int, str]], names: Mapping[int, str], has_colours: bool) -> list[str]:
    """Returns how a line is shown: who wrote in it, and what, each in a colour."""

    def styled(replica: int, text: str, is_text: bool) -> list[str]:
        signs = cells(text)
        colour = style(replica, True, is_text)
        return [f"{colour}{sign}{RESET}" if sign else "" for sign in signs] if has_colours else signs

    made: list[str] = []
    for replica in dict.fromkeys(replica for replica, _ in line):
        made += styled(replica, names.get(replica, str(replica)), False) + [" "]
    made = beginning(made + [" "] * NAMES, NAMES) + [" "]
    for replica, text in line:
        made += styled(replica, text.expandtabs(), True)
    return made


def show(mgr: str, buffer: str, names: dict[int, str], has_colours: bool, ask_by: Callable[[Question], None]) -> Errand:
    """Leaves the prompt, and shows who wrote what in a buffer, all of which is saved then."""
    yield bytes([CANCEL])
    try:
        lines = pieces(ask(mgr, Note(buffer), "who"))
    except Refused as refused:
        return str(refused)
    ask_by(Page([row(line, names, has_colours) for line in lines]))
    return ""
