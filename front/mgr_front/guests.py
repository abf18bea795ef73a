"""Copies of a note in the person's state folder: of those who write at a hub here, and of what a log could not take."""

import fcntl
import glob
import itertools
import os
import shutil
import subprocess
import tempfile
from collections.abc import Generator
from contextlib import suppress

from mgr_front.copies import Copy, own_folder, state_folder
from mgr_front.errands import COPY_ALL, FIND, YANK, switch_to
from mgr_front.meeting import socket_name
from mgr_front.notes import Note, Refused, read
from mgr_front.opening import mend, put_text
from mgr_front.program import log_of
from mgr_front.saving import SAVE, SAVED
from mgr_front.shared import OTHER
from mgr_front.statuses import Status

# How the names of folders begin whose logs have what a note's log could not take.
APART = "apart-"


def copies_of(path: str) -> str:
    """Returns the folder in which the copies of a note stand, each in a folder of its own."""
    return os.path.join(state_folder(), "guests", socket_name(path))


def guest_of(path: str) -> Note:
    """Returns a copy of the note whose text has this path, in which nobody else writes while this program runs."""
    for number in itertools.count(1):
        folder = own_folder("guests", socket_name(path), str(number))
        held = os.open(os.path.join(folder, "lock"), os.O_RDWR | os.O_CREAT, 0o600)
        try:
            fcntl.flock(held, fcntl.LOCK_EX | fcntl.LOCK_NB)
            return Note(os.path.join(folder, os.path.basename(path)))
        except OSError:
            os.close(held)
    raise AssertionError("numbers have no end")


def place_apart(name: str) -> str:
    """Returns a place for a buffer's text, in a folder beside the copies of that note; "" if there is none."""
    try:
        return os.path.join(tempfile.mkdtemp(prefix=APART, dir=own_folder("guests", socket_name(name))), "text")
    except (OSError, Refused):
        return ""


def put_apart(name: str) -> Generator[bytes, Status, str]:
    """Puts the text of the current buffer, which is that note's, there by keys of mgr; returns the place if it did."""
    if place := place_apart(name):
        yield switch_to(name) + COPY_ALL + FIND + place.encode() + b"\r"
        status = yield YANK + SAVE
        if status.message == SAVED + place:
            return place
    return ""


def keep_apart(mgr: str, note: Note, place: str) -> str:
    """Makes a log of a text that was put apart and of what the note's log has; says where what is kept."""
    copy = Note(os.path.join(os.path.dirname(place), os.path.basename(note.name)))
    with suppress(OSError, Refused):
        if note.has_log:
            shutil.copyfile(note.log, copy.log)
            mend(mgr, copy)
        number = Copy(copy.name).new_number(log_of(mgr, copy))
        if put_text(mgr, copy, number, read(place).decode()):
            return f"{copy.log} has what {note.log} did not take; the next start takes it"
    return f"{place} is the text of {note.name}, which could not be saved"


def take_back(mgr: str, note: Note) -> str | None:
    """Has mgr merge what copies have, of which the note may lack some; returns what it says if it does not."""
    for log in glob.glob(os.path.join(glob.escape(copies_of(note.name)), "*", glob.escape(os.path.basename(note.log)))):
        said = _taken(mgr, note, log)
        if said and OTHER not in said:
            return f"{log} was not taken: {said}"
        if not said and APART in log:
            shutil.rmtree(os.path.dirname(log))
    return None


def _taken(mgr: str, note: Note, log: str) -> str:
    """Has a log be taken, all of it or nothing, and returns why it is not."""
    if note.has_log or not os.path.exists(note.name):
        done = subprocess.run([mgr, "merge", "--", note.name, log], capture_output=True)
        said = done.stderr.decode("utf-8", "replace").strip()
        return said or f"status {done.returncode}" if done.returncode else ""
    # mgr merges nothing into a text without a log; this one has the text, and what was written to it.
    try:
        with tempfile.NamedTemporaryFile(dir=os.path.dirname(note.log) or ".") as file:
            file.write(read(log))
            file.flush()
            os.fsync(file.fileno())
            os.link(file.name, note.log)
        return ""
    except OSError as error:
        return str(error.strerror)
