"""The texts that a note had, as its log's lines came and as git has them: shown, compared, chosen to be put back."""

import difflib
import os
import pydoc
import re
import subprocess
from collections.abc import Iterator

from mgr_front.cells import clean
from mgr_front.channels.git import GitBranch
from mgr_front.notes import Note, read
from mgr_front.options import GIT, Options
from mgr_front.program import ask, made_by
from mgr_front.saying import REFUSED, answer, stop
from mgr_front.shared import SharedNote

# So many steps of the log, and so many commits of each repository, are shown; so much of a line.
STEPS, COMMITS, SHOWN = 20, 20, 40
ASKED = "NUMBER shows a text, d NUMBER compares it with the last, p NUMBER puts it back, q leaves: "

# What is said of a text, and the text.
Step = tuple[str, str]


def _run(*command: str) -> bytes:
    return subprocess.run(command, capture_output=True).stdout


def _commits(mgr: str, folder: str, tip: str, path: str) -> Iterator[Step]:
    """The texts of the last commits of a log, the first one first, in the repository of a folder."""
    git = ["git", "-C", folder]
    told = _run(*git, "log", f"-{COMMITS}", "--format=%h %cs %an", tip, "--", path)
    for line in reversed(told.decode("utf-8", "replace").splitlines()):
        yield line, made_by(mgr, _run(*git, "show", f"{line.split()[0]}:{path}"))


def steps(mgr: str, note: Note, options: Options) -> list[Step]:
    """Returns the texts that a note had, of commits and after so many lines of its log; the last is that of now."""
    folder, log = os.path.split(os.path.abspath(note.log))
    made = [*_commits(mgr, folder, "HEAD", f"./{log}")]
    kind, place = options.way[:2]
    if kind == GIT:
        branch = GitBranch(SharedNote(mgr, note, 0), print, place)
        made += _commits(mgr, branch.clone, branch.ref, branch.file)
    lines = read(note.log).count(b"\n")
    for count in sorted({-(-lines * step // STEPS) for step in range(1, STEPS + 1)}):
        made.append((f"{count} lines", ask(mgr, note, "show", "--lines", str(count)).decode()))
    return made


def choose(mgr: str, note: Note, options: Options) -> str:
    """Shows the texts that a note had, until one is chosen to be put back, and returns that."""
    if not note.has_log:
        stop(f"{note.name} has no log", REFUSED)
    found = steps(mgr, note, options)
    for number, (what, text) in enumerate(found, 1):
        line = text.rstrip().rpartition("\n")[2]
        print(f"{number:3}  {clean(what)}: {len(text):,} characters, .. {clean(line)[-SHOWN:]}")
    while (answered := answer(ASKED)) != "q":
        asked = re.fullmatch(r"([dp]?) *([0-9]+)", answered)
        if not asked or not 0 < int(asked[2]) <= len(found):
            continue
        text = found[int(asked[2]) - 1][1]
        if asked[1] == "p":
            return text
        if asked[1] == "d":
            now = found[-1][1]
            text = "\n".join(difflib.unified_diff(text.split("\n"), now.split("\n"), "then", "now", lineterm=""))
        pydoc.pager(clean(text, "\n\t"))
    stop("nothing was done", 0)
