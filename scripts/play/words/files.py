"""Files: those that are there before, what other programs do to them, and what they hold."""

import decimal
import fcntl
import os
import pathlib
import shutil
import subprocess

from play.notation import lines_of, text_of, words_of, written_of
from play.programs import Unexpected
from play.stage import LeftOut
from play.words.table import parted, word


def _put_or_compare(stage, name, content, written):
    path = stage.path(name)
    if stage.person.has_begun:
        came = pathlib.Path(path).read_bytes() if os.path.isfile(path) else None
        stage.compare(content, came, lambda it: "no such file" if it is None else written(it))
    else:
        pathlib.Path(path).write_bytes(content)


@word
def file(stage, about):
    """Puts a file, before anything was begun; after that compares it."""
    name, text = parted(about)
    _put_or_compare(stage, name, text_of(text), written_of)


@word
def log(stage, about):
    """The same of the log of a note."""
    name, lines = parted(about)
    _put_or_compare(stage, f"{name}.ops", lines_of(lines), words_of)


@word
def holds(stage, about):
    """`holds NAME | LINES`: the log of a note has these lines, one after the other."""
    name, lines = parted(about)
    wanted, came = lines_of(lines), pathlib.Path(stage.path(f"{name}.ops")).read_bytes()
    stage.compare(wanted, wanted if wanted in came else came, words_of)


@word
def write(stage, about):
    """Another program writes a file."""
    name, text = parted(about)
    pathlib.Path(stage.path(name)).write_bytes(text_of(text))


@word
def append(stage, about):
    """Another program adds to a file."""
    name, text = parted(about)
    with open(stage.path(name), "ab") as file:
        file.write(text_of(text))


@word
def relog(stage, about):
    """Another program writes the log of a note."""
    name, lines = parted(about)
    pathlib.Path(stage.path(f"{name}.ops")).write_bytes(lines_of(lines))


@word
def remove(stage, about):
    path = stage.path(about)
    os.rmdir(path) if os.path.isdir(path) else os.remove(path)


@word
def folder(stage, about):
    os.mkdir(stage.path(about))


@word
def rights(stage, about):
    """`rights NAME 640` gives a file rights, before anything was begun; after that compares them."""
    name, mode = about.split()
    if stage.person.has_begun:
        stage.compare(mode, f"{os.stat(stage.path(name)).st_mode & 0o777:o}")
    else:
        os.chmod(stage.path(name), int(mode, 8))


@word
def owner(stage, about):
    """The same of its owner: `owner NAME USER`. Root alone can give a file to another."""
    name, user = about.split()
    path = pathlib.Path(stage.path(name))
    if stage.person.has_begun:
        stage.compare(user, path.owner())
    else:
        shutil.chown(path, user)


@word
def move(stage, about):
    old, new = about.split()
    os.rename(stage.path(old), stage.path(new))


@word
def link(stage, about):
    """`link NEW OLD` makes a symbolic link."""
    new, old = about.split()
    os.symlink(old, stage.path(new))


@word
def twin(stage, about):
    """`twin NEW OLD` gives a file a second name."""
    new, old = map(stage.path, about.split())
    os.link(old, new)


@word
def pipe(stage, about):
    """A pipe of that name, which nobody writes to."""
    os.mkfifo(stage.path(about))


@word
def locks(stage, about):
    """Another program has a file locked, and not the one before any more; `locks nothing` has none."""
    if stage.locked:
        stage.locked.close()
    stage.locked = None if about == "nothing" else open(stage.path(about), "rb")
    if stage.locked:
        fcntl.flock(stage.locked, fcntl.LOCK_EX | fcntl.LOCK_NB)


@word
def dated(stage, about):
    """`dated NAME SECONDS` gives a file the time of its last change."""
    name, seconds = about.split()
    nanoseconds = int(decimal.Decimal(seconds) * 10**9)
    os.utime(stage.path(name), ns=(nanoseconds, nanoseconds))


def _write_unseen(path, content):
    """Writes a new file. A file whose times were asked for, as `open` does, gets finer ones at its next change."""
    file = os.open(path, os.O_WRONLY | os.O_CREAT | os.O_EXCL, 0o644)
    os.write(file, content)
    os.close(file)


@word
def checkout(stage, about):
    """`checkout NAME OTHER`: another program writes both anew within one tick of the clock, and so gives them one time."""
    paths = [pathlib.Path(stage.path(name)) for name in about.split()]
    contents = [path.read_bytes() for path in paths]
    for _ in range(100):
        for path, content in zip(paths, contents):
            path.unlink()
            _write_unseen(path, content)
        if len({path.stat().st_mtime_ns for path in paths}) == 1:
            return
    raise LeftOut("files that are written one behind the other have different times here")


@word
def no(stage, about):
    """There is no such file."""
    stage.compare("no such file", "a file" if os.path.lexists(stage.path(about)) else "no such file")


@word
def size(stage, about):
    """`size NAME N`: a file has so many bytes."""
    name, most = about.split()
    stage.compare(int(most), os.path.getsize(stage.path(name)))


@word
def starts(stage, about):
    """`starts NAME OTHER`: a file is a beginning of another."""
    begin, whole = (pathlib.Path(stage.path(name)).read_bytes() for name in about.split())
    stage.compare(begin, whole[: len(begin)], written_of)


@word
def show(stage, about):
    """`mgr show` makes this text of the log of a note."""
    name, text = parted(about)
    with open(stage.path(f"{name}.ops"), "rb") as given:
        shown = subprocess.run([stage.mgr, "show"], stdin=given, capture_output=True)
    if shown.returncode:
        raise Unexpected(f"mgr show ends with {shown.returncode}, and says {shown.stderr!r}")
    stage.compare(text_of(text), shown.stdout, written_of)
