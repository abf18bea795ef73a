"""Who does something: sessions, their keys, and their ends."""

import concurrent.futures
import os
import pathlib
import resource
import shutil

from play.notation import Unreadable, keys_of, text_of
from play.programs import DELAYED, Live, Session, Unexpected, delaying, ends_well, failing, limits, makes_calls_fail, noted, noting
from play.stage import LeftOut
from play.words.table import WORDS, parted, word

# An ordinary user and a group, and the words of a command that are in front of one of hers.
NOBODY, NOGROUP = "nobody", "nogroup"
AS_NOBODY = ["setpriv", f"--reuid={NOBODY}", f"--regid={NOGROUP}", "--clear-groups"]

# Those that mount a file by itself, which ends with what they run.
MOUNTED = ["unshare", "--mount", "sh", "-c", 'mount --bind "$0" "$0" && exec "$@"']


@word
def _as(stage, about):
    """Somebody else goes on, in a folder of its own; `as BOB beside ALICE` in hers."""
    name, *beside = about.split()
    stage.meet(name, beside[1] if beside else None)


@word
def edit(stage, about):
    """Begins a session of `mgr edit`, once the one before has ended."""
    _begin(stage, about, Session)


@word
def live(stage, about):
    """The same, by `--live`: its statuses say where the cursor stands."""
    _begin(stage, about, Live)


def _begin(stage, about, kind):
    person = stage.person
    if person.session:
        end(person)
    words = [str(stage.port) if it == "PORT" else text_of(it).decode() for it in about.split()]
    person.has_begun = True
    person.session, person.job = kind([*person.under, stage.mgr], person.folder, words, person.takes), None
    _press(stage, b"", "start")


@word
def keys(stage, about):
    _press(stage, keys_of(about), "keys")


def _press(stage, keys, when):
    """Hands keys to the session, and does what is to be done while a call is delayed, if anything is."""
    with concurrent.futures.ThreadPoolExecutor() as beside:
        done = beside.submit(_do_meanwhile, stage, when)
        session_of(stage).press(keys)
        done.result()


def _do_meanwhile(stage, when):
    if when in stage.person.meanwhile:
        call, line = stage.person.meanwhile.pop(when)
        session_of(stage).await_delay(call)
        name, _, about = line.partition(" ")
        WORDS[name](stage, about.strip())


@word
def disk(stage, about):
    """`disk takes N`: no file may become larger than that; `disk takes all` ends it."""
    takes = None if about == "takes all" else int(about.removeprefix("takes "))
    stage.person.takes = takes
    if stage.person.session:
        stage.person.session.disk_takes(takes)


@word
def fails(stage, about):
    """`fails CALL FAULT`: from here on that call of the system fails so in what `edit` or `run` begins.

    If the fault is a number the call does nothing, and answers that; `SIGKILL` kills it there. With
    `:when=N` after it the Nth of these calls alone fails.
    """
    if not makes_calls_fail():
        raise LeftOut("there is no strace that may trace")
    stage.person.under = failing(*about.split())


@word
def delays(stage, about):
    """`delays CALL N | LINE`: that call of the session that is begun next takes a second, in which another program does the line.

    `delays start CALL N | LINE`: the same of a call that comes before any key.
    """
    if not makes_calls_fail():
        raise LeftOut("there is no strace that may trace")
    call, line = parted(about)
    *when, call, number = call.split()
    if call not in DELAYED:
        raise Unreadable(f"{call} is not delayed")
    stage.person.under = delaying(call, number)
    stage.person.meanwhile = {"start" if when == ["start"] else "keys": (call, line)}


@word
def notes(stage, about):
    """`notes calls`: from here on the calls by which a session or a job changes files are noted."""
    if about != "calls":
        raise Unreadable(f"{about} are not noted")
    if not makes_calls_fail():
        raise LeftOut("there is no strace that may trace")
    stage.person.noted = f"{stage.person.folder}.calls"
    stage.person.under = noting(stage.person.noted)


@word
def calls(stage, about):
    """All that the session or the job did to files so far: `calls write NAME, sync NAME, rename OLD NEW, link OLD NEW`."""
    if stage.person.session:
        seen(stage)
    stage.compare(about, ", ".join(noted(stage.person.noted, stage.person.folder)))


@word
def ordinary(stage, about):
    """From here on sessions and jobs are an ordinary user's, whom rights bind, and so are the files and folders that are there."""
    if os.getuid():
        return
    if not ends_well((*AS_NOBODY, str(stage.mgr), "--version")):
        raise LeftOut("root can't have an ordinary user run mgr")
    os.chmod(stage.root, 0o711)
    for path in (stage.person.folder, *stage.person.folder.rglob("*")):
        shutil.chown(path, NOBODY, NOGROUP)
    stage.person.under = AS_NOBODY


@word
def mounted(stage, about):
    """From here on a file is mounted by itself in sessions and jobs, as in a container. Root alone can do so."""
    under = [*MOUNTED, stage.path(about)]
    if not ends_well((*under, "true")):
        raise LeftOut("no file can be mounted by itself here")
    stage.person.under = under


@word
def root(stage, about):
    """Who plays this is bound by no rights."""
    if os.getuid():
        raise LeftOut("root alone is bound by no rights")


@word
def growth(stage, about):
    """`growth none`: the session is given no more memory than it has; `growth any` ends it."""
    process = session_of(stage).process
    pages = int(pathlib.Path(f"/proc/{process.pid}/statm").read_text().split()[0])
    most = {"none": pages * resource.getpagesize(), "any": None}
    if about not in most:
        raise Unreadable(f"no growth is {about}")
    resource.prlimit(process.pid, resource.RLIMIT_AS, limits(most[about]))


@word
def killed(stage, about):
    """The session is killed where it is."""
    session_of(stage).kill()
    stage.person.session = None


def session_of(stage):
    if not stage.person.session:
        raise Unreadable("no session was begun")
    return stage.person.session


def seen(stage):
    """Returns the session, once it waits for keys."""
    session = session_of(stage)
    session.await_keys()
    return session


def end(person):
    """Ends a session, which must end well."""
    session, person.session = person.session, None
    status = session.close()
    if status or session.error:
        raise Unexpected(f"mgr ends with {status}, and says {session.error!r}")


def end_all(stage):
    """Ends each session that a scene left."""
    for person in stage.people.values():
        if person.session:
            end(person)
    if stage.peer:
        stage.peer.end()
