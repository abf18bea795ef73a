"""How others are reached, and what is asked before an edit with them."""

import glob
import itertools
import os
import select
import time

from mgr_front.channels import Post, shown
from mgr_front.channels.folder import Folder
from mgr_front.channels.git import GitBranch
from mgr_front.channels.hub import IN_USE, Hub, by_note, by_port, by_ssh
from mgr_front.channels.redis import RedisStream
from mgr_front.channels.worker import Worker
from mgr_front.company import Company
from mgr_front.copies import user
from mgr_front.notes import Note, found
from mgr_front.opening import Opening
from mgr_front.options import FOLDER, GIT, HERE, HOSTS, PORTS, Options
from mgr_front.program import edit, made_by, text_of
from mgr_front.saving import SAVE
from mgr_front.saying import REFUSED, choice, stop, tell
from mgr_front.shared import MANY, SharedNote

# Seconds for others before an edit begins alone, for a hub that is there, and for ssh, which may ask for a word.
PATIENCE, COMING, SSH = 2.0, 30.0, 600.0
# So much of a line is shown.
SHOWN = 60


def channel(options: Options, note: SharedNote, post: Post) -> Worker:
    """Returns the channel that the command line asks for; `Refused` says what it lacks."""
    kind, rest, *path = options.way
    person = options.person or user()
    if kind == GIT:
        return GitBranch(note, post, rest, options.person)
    if kind == FOLDER:
        return Folder(note, post, rest)
    if kind not in (PORTS, HOSTS, HERE):
        return RedisStream(note, post, f"{kind}:{rest}", person)
    way = by_note(rest) if kind == HERE else by_port(int(rest)) if kind == PORTS else by_ssh(rest, *path)
    return Hub(note, post, way, person)


def meet(opening: Opening) -> Company | None:
    """Joins others, and returns them, be it that they are away; None if the opening is to be done again."""
    options = opening.options
    if not opening.note.has_log and found(opening.note.name):
        # Else others have nothing of a plain text before its first key, nor know it as another note.
        opening.keep(())
        edit(opening.mgr, opening.note, opening.number, SAVE)
        opening.put()
    note = SharedNote(opening.mgr, opening.note, opening.number, options.adopts)
    note.adopts = options.adopts or note.is_empty
    company = Company(note, lambda post: channel(options, note, post))
    company.channel.start()
    _wait(company, SSH if options.way[0] == HOSTS else PATIENCE)
    why = company.state.why
    if company.state.word != "refused" and IN_USE not in why:
        if len(company.lines) > MANY * (options.text is None) and note.merge(tuple(company.lines)):
            company.lines.clear()
        return company
    company.channel.close(0.0)
    if note.refused:
        _settle(opening, note)
    elif "number" in why and options.replica is None:
        # Somebody writes under the number that this copy had.
        opening.copy.keep_number(opening.copy.new_number(None))
    else:
        stop(why, REFUSED)
    return None


def _wait(company: Company, seconds: float) -> None:
    """Waits until it is clear how the others stand, or it takes too long."""
    begun = time.monotonic()
    while company.state.word == "joining":
        left = begun + max(seconds, COMING * bool(company.state.why)) - time.monotonic()
        if left < 0:
            return
        select.select([company.mailbox.woken], [], [], left)
        company.hear()


def _settle(opening: Opening, note: SharedNote) -> None:
    """Asks what becomes of a note if others have another one."""
    name, mgr = opening.note.name, opening.mgr
    texts = text_of(mgr, opening.note), made_by(mgr, b"\n".join([*note.refused, b""]))
    here, there = (shown(text.strip().partition("\n")[0], SHOWN) for text in texts)
    asked = (
        f"{name} and what the others have are two notes: they share nothing.\n"
        f"here:  {here}\nthere: {there}\n"
        f"t  take theirs; this one is kept as {name}~\n"
        "f  fuse both into one, for good\n"
        "q  leave both as they are\n"
    )
    answer = choice(asked, "t", "f", "q", default="t")
    if answer == "q":
        stop("nothing was joined", REFUSED)
    if answer == "t":
        tell(f"{name} is now {_put_aside(opening.note)}")
    opening.options.adopts = answer == "f"


def _put_aside(note: Note) -> str:
    """Gives a note another name, with its log, and returns that."""
    names = (f"{note.name}.~{number}~" if number else f"{note.name}~" for number in itertools.count())
    kept = next(Note(name) for name in names if not glob.glob(glob.escape(name) + "*"))
    for old, new in ((note.log, kept.log), (note.name, kept.name)):
        if os.path.exists(old):
            os.rename(old, new)
    return kept.name
