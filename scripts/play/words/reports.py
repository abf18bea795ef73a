"""Reports among the keys of a live session, and what its statuses tell."""

import json

from play.notation import keys_of, lines_of, text_of, words_of, written_of
from play.words.people import seen, session_of
from play.words.table import word

# No key and no character has it.
BEGIN = b"\xff"


def _report(line):
    return BEGIN + line + b"\n"


@word
def report(stage, about):
    """Hands a report to the session."""
    session_of(stage).press(_report(text_of(about)))


@word
def others(stage, about):
    """Hands what others did to the session, each operation or run as a report."""
    session_of(stage).press(b"".join(map(_report, lines_of(about).splitlines())))


@word
def slowly(stage, about):
    """Hands keys to the session byte by byte: each is read before the next one comes."""
    session = session_of(stage)
    for byte in keys_of(about):
        session.press(bytes([byte]))
        session.await_keys()


@word
def member(stage, about):
    """`member NAME VALUE`: of the status that was written last."""
    name, _, value = about.partition(" ")
    came = json.dumps(seen(stage).status()[name], ensure_ascii=False, separators=(",", ":"))
    stage.compare(text_of(value), came.encode(), written_of)


@word
def statuses(stage, about):
    """How many statuses were written since the session began."""
    stage.compare(int(about), len(seen(stage).statuses()))


@word
def told(stage, about):
    """The lines of all operations that the session told."""
    stage.compare(lines_of(about), seen(stage).told(), words_of)


@word
def refused(stage, about):
    """The reports that were refused since the session began, as `1 Stale, 3 Range`, or `none`."""
    came = [f"{number} {fault}" for it in seen(stage).statuses() for number, fault in it["refused"]]
    stage.compare(about, ", ".join(came) or "none")


@word
def changes(stage, about):
    """The changes of the text that the session told, as `0-2:ab` where `ab` replaces the first two characters."""
    came = [change for it in seen(stage).statuses() for change in it["changes"]]
    stage.compare(" ".join(about.split()), " ".join(map(_change, came)))


def _change(change):
    text = written_of(change["text"].encode()).replace(" ", "\\s")
    return f"{change['lo']}-{change['hi']}:{text if change['text'] else ''}"
