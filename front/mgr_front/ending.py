"""An edit up to its end, whatever brings that: what was typed is taken, mgr saves it, and others are told."""

from mgr_front.company import Company
from mgr_front.guests import keep_apart
from mgr_front.notes import Note, put_back
from mgr_front.opening import Opening
from mgr_front.plugin import Plugin
from mgr_front.program import ask
from mgr_front.saying import tell
from mgr_front.session import Session

# Seconds until it is said what is waited for, and that others have to take what was told last.
PATIENCE, LAST = 5.0, 2.0


def run(edit: Session | Plugin, opening: Opening) -> int:
    """Edits until the person leaves, or something ends it, and returns the status of mgr; says why if it is a fault."""
    edit.keep, edit.put = opening.keep, opening.put
    try:
        edit.run()
    finally:
        finish(edit, opening.note)
    if fault := edit.editor.fault(opening.note):
        tell(fault)
    return edit.editor.process.returncode


def finish(edit: Session | Plugin, note: Note) -> None:
    """Has mgr take all that was typed or asked for and save it, for as long as that takes; says what is not saved."""
    editor = edit.editor
    try:
        edit.conclude()
    finally:
        if not editor.end(PATIENCE, edit.note):
            tell(f"mgr saves {note.name}: this waits for it")
            editor.end(take=edit.note)
        leave(edit.company, edit.fault * (not edit.apart))
    if isinstance(edit, Session):
        put_texts_back(edit)
    for name, place in edit.apart.items():
        tell(keep_apart(editor.program, Note(name), place))


def put_texts_back(session: Session) -> None:
    """Has texts be as they were if the person wants that; says what was put aside."""
    session.note_kept()
    for said in session.put_aside:
        tell(said)
    for name in session.made if session.discards else ():
        put = ask(session.editor.program, Note(name), "show") if Note(name).has_log else None
        for kept in put_back(name, session.buffers[name], put):
            tell(f"{kept} has what stood there")
        tell(f"{name} is as it was; {Note(name).log} has what was written, and so have others")


def leave(company: Company | None, fault: str) -> None:
    """Leaves the others, once they took what was told last, and says what is not well; `fault` is that of a save."""
    if company and not company.channel.close(LAST):
        company.hear()
        why = f": {company.state.why}" * (company.state.word == "alone")
        if company.is_shared:
            tell(f"what others lack they get at the next start{why}")
    if fault:
        tell(fault)
