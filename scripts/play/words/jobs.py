"""Jobs, and how what was begun last ended."""

import pathlib

from play import inputs
from play.notation import Unreadable, keys_of, lines_of, text_of, written_of
from play.programs import Job
from play.words.table import parted, word


@word
def _input(stage, about):
    """What the next job reads: `input | TEXT`, `input pieces N | TEXT`, `input breaks | TEXT`, or both."""
    how, text = parted(about)
    stage.person.input = _input_of(how.split(), text_of(text))


@word
def lines(stage, about):
    """The same of lines of operations."""
    how, text = parted(about)
    stage.person.input = _input_of(how.split(), lines_of(text))


@word
def typed(stage, about):
    """The same of keys."""
    how, text = parted(about)
    stage.person.input = _input_of(how.split(), keys_of(text))


def _input_of(how, text):
    match how:
        case []:
            return inputs.Whole(text)
        case ["pieces", most]:
            return inputs.Pieces(text, int(most))
        case ["breaks"]:
            return inputs.Broken(text)
        case ["pieces", most, "breaks"]:
            return inputs.Broken(text, int(most))
    raise Unreadable(f"no input is {' '.join(how)}")


@word
def reads(stage, about):
    """The next job reads that file."""
    stage.person.input = inputs.Whole(pathlib.Path(stage.path(about)).read_bytes())


@word
def passes(stage, about):
    """The next job reads what the last one wrote."""
    stage.person.input = inputs.Whole(job_of(stage).output)


@word
def room(stage, about):
    """The output of the next job has room for so many bytes."""
    stage.person.room = int(about)


@word
def taken(stage, about):
    """The output of the next job is taken so many bytes at a time, and a write that waits for that is cut short."""
    stage.person.most = int(about)


@word
def memory(stage, about):
    """The next job is given so many bytes of memory."""
    stage.person.memory = int(about)


# The standard streams, by their descriptors.
STREAMS = ("input", "output", "error")


@word
def closed(stage, about):
    """`closed output`: the next job has no such standard stream."""
    if about not in STREAMS:
        raise Unreadable(f"no standard stream is {about}")
    stage.person.closed = STREAMS.index(about)


@word
def run(stage, about):
    """Does a job of mgr, to its end."""
    person = stage.person
    words = [text_of(it) for it in about.split()]
    person.has_begun = True
    command = [*person.under, stage.mgr, *words]
    confined = {"takes": person.room, "memory": person.memory, "closed": person.closed}
    person.job = Job(command, person.folder, person.input, person.most, **confined)
    person.await_job()


def job_of(stage):
    if not stage.person.job:
        raise Unreadable("no job was done")
    return stage.person.job


@word
def output(stage, about):
    """All that the job wrote."""
    stage.compare(text_of(about), job_of(stage).output, written_of)


@word
def begins(stage, about):
    """What it wrote begins so."""
    text = text_of(about)
    stage.compare(text, job_of(stage).output[: len(text)], written_of)


@word
def has(stage, about):
    """What it wrote has this in it."""
    text, written = text_of(about), job_of(stage).output
    stage.compare(text, text if text in written else written, written_of)


@word
def wrote(stage, about):
    """`wrote N bytes`, `wrote N lines`: how much that was."""
    most, unit = about.split()
    written = job_of(stage).output
    stage.compare(int(most), {"bytes": len(written), "lines": written.count(b"\n")}[unit])


def _ended(stage):
    """Returns the status of what was begun last, and what it said on standard error."""
    person = stage.person
    if person.job:
        person.ended = person.job.status, person.job.error
    elif person.session:
        session, person.session = person.session, None
        person.ended = session.close(), session.error
    if not person.ended:
        raise Unreadable("nothing was begun")
    return person.ended


@word
def status(stage, about):
    """The exit status; the keys of a session end here."""
    stage.compare(int(about), _ended(stage)[0])


@word
def error(stage, about):
    """All of standard error."""
    stage.compare(text_of(about), _ended(stage)[1], written_of)


@word
def tells(stage, about):
    """Standard error begins so."""
    text = text_of(about)
    stage.compare(text, _ended(stage)[1][: len(text)], written_of)
