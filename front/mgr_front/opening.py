"""What is done before an edit: a log that mgr refuses is mended, a text that is not its log's is settled.

mgr reads the log alone: what another program wrote would be put aside at the next save unless it comes into that.
"""

import os
import tempfile
import time
from collections.abc import Sequence
from contextlib import suppress

from mgr_front.copies import Copy
from mgr_front.difference import changes, splices
from mgr_front.editor import REPORT
from mgr_front.notes import KeptFiles, Note, Refused, read, why_not_written
from mgr_front.options import Options
from mgr_front.program import Log, ask, edit, log_of, text_of
from mgr_front.saying import REFUSED, choice, tell
from mgr_front.shared import counters

# A log is large that has more bytes than this, and than so many times its text.
LARGE, TIMES = 1_000_000, 20
# How many lines of a log may have come between its text and the note that was taken of its length.
LATE = 20
# So many texts of the log are held against the one in the file; if there are more, first those at even distances.
TRIED = 50
NEW = "New: C-x C-s saves, C-x C-c leaves, C-_ undoes, C-h helps"


class Opening:
    """A note that is about to be edited, and the number of this copy."""

    def __init__(self, mgr: str, note: Note, options: Options) -> None:
        """Does what is to be done first; `Refused` if nothing is edited then."""
        self.mgr, self.note, self.options, self.copy = mgr, note, options, Copy(note.name)
        # What is to be said at the start.
        self.remarks: list[str] = []
        note.check()
        try:
            log = log_of(mgr, note)
            self.number = options.replica or self.copy.number(log)
        except Refused as refused:
            log = self._mended(refused)
        if log:
            self._settle(log)
            self.keep((), log.counters.get(self.number, -1))
        elif not os.path.exists(note.name):
            is_new = os.path.isdir(os.path.dirname(note.name) or ".")
            self.remarks.append(NEW if is_new else f"Nothing can be saved{why_not_written(note.name)}")

    def _mended(self, refused: Refused) -> Log | None:
        """Has the log mended that was refused so, if the person wants that, and says what was left out of it."""
        log = self.note.log
        asked = f"{refused}\nm  mend it now; {log}.refused keeps what is refused\nq  leave it as it is\n"
        if refused.status != REFUSED or choice(asked, "m", "q") == "q":
            raise refused
        kept, said = mend(self.mgr, self.note)
        tell(said.decode().rstrip())
        if self.options.replica:
            raise Refused(f"{log} is mended: now give a --replica that nobody has used, or none")
        found = log_of(self.mgr, self.note)
        # Others may have what was left out under the number from before.
        self.number = self.copy.new_number(found)
        self.remarks += [f"{log}.refused has what was left out", *kept]
        return found

    def _settle(self, log: Log) -> None:
        """If the note's text and its log differ, goes on with what the person chooses.

        It is the log, without a question, if no other program wrote in the text, as after a merge, or after a kill
        that came before the text was put, or before that was noted.
        """
        if log.waiting:
            # mgr does not show what waits.
            self.remarks.append(f"A part of {self.note.log} is missing")
        if log.text == "same":
            self.copy.note_put(read(self.note.name), log.bytes, log.operations)
        if not differ(self.mgr, self.note, log, self.number):
            return
        text, lines = read(self.note.name), None
        is_put = self.copy.is_put(text)
        if not (is_put and self.copy.has_grown(log)):
            lines, count = self._nearest(text)
            # A text from before was put back by somebody, and so may be any if this copy never wrote.
            is_put = not count and (is_put or bool(self.copy.kept["counters"]) and not self.options.takes_file)
        if is_put or self.options.keeps_file or not self._takes_file(lines):
            self.remarks += mend(self.mgr, self.note)[0]
        self.put()

    def _nearest(self, text: bytes) -> tuple[int | None, int]:
        """Returns how many lines of the log made the text from which this one differs least, and by how much that is.

        They made the text that was noted as put, or a later one: a kill may have come before that was noted. If the
        log does not make the noted text any more, it is not known how many.
        """
        log = read(self.note.log)
        noted = log[: self.copy.kept["put"]].count(b"\n")
        # Further keys may have come to the log before its length was noted.
        begins = (lines for lines in range(noted, max(noted - LATE, -1), -1) if self.copy.is_put(self._made(lines)))
        begin = next(begins, None)
        if begin is None and self.copy.is_put(text):
            # Another program changed it before it was noted.
            begin = max(0, noted - LATE)
        if begin is None and not self.copy.kept["counters"]:
            return None, len(text)
        tried: Sequence[int] = range(noted if begin is None else begin, log.count(b"\n") + 1)
        while True:
            step = -(-len(tried) // TRIED)
            count, _, lines = min((self._differs(lines, text), abs(lines - noted), lines) for lines in tried[::step])
            if step == 1:
                return lines if begin is not None else None, count
            at = tried.index(lines)
            tried = tried[max(0, at - step) : at + step + 1]

    def _differs(self, lines: int, text: bytes) -> int:
        """Returns in how many characters a text differs from that which so many lines make."""
        made = changes(self._made(lines).decode(), text.decode("utf-8", "replace"))
        return sum(gone + len(put) for _, gone, put in made)

    def _made(self, lines: int | None) -> bytes:
        """Returns the text that so many lines of the log make, or all of them."""
        words = [] if lines is None else ["--lines", str(lines)]
        return ask(self.mgr, self.note, "show", *words) if lines != 0 else b""

    def _takes_file(self, lines: int | None) -> bool:
        """Has mgr merge what another program changed in the text, if the person wants that: all of it, or nothing.

        So many lines of the log made the text before; if it is not known how many, all of it is compared.
        """
        try:
            new = read(self.note.name).decode()
        except UnicodeDecodeError:
            raise Refused(f"{self.note.name}: not UTF-8: see --keep-file") from None
        if not self.options.takes_file and choice(self._question(lines, new), "f", "l") == "l":
            return False
        with tempfile.TemporaryDirectory() as folder:
            copy = Note(os.path.join(folder, "copy"))
            with open(copy.log, "wb") as file:
                file.write(b"".join(read(self.note.log).splitlines(keepends=True)[:lines]))
            # Under its own number this copy may have written what this part of the log lacks.
            if not put_text(self.mgr, copy, self.copy.new_number(log_of(self.mgr, self.note)), new):
                raise Refused(f"{self.note.log}: has no room for the changes of {self.note.name}: see --keep-file")
            ask(self.mgr, self.note, "merge", "--adopt", logs=[copy.log])
        return True

    def _question(self, lines: int | None, new: str) -> str:
        """Returns what the person is asked."""
        made = changes(self._made(lines).decode(), new)
        deleted, put = sum(count for _, count, _ in made), sum(len(put) for _, _, put in made)
        name, log = self.note.name, self.note.log
        file, then = (time.strftime("%Y-%m-%d %H:%M", time.localtime(os.stat(path).st_mtime)) for path in (name, log))
        taken = f"the file, of {file}: {deleted:,} characters of the log deleted, {put:,} new"
        if lines is not None:
            taken = f"both: as in the file, of {file}, {deleted:,} characters deleted, {put:,} new"
        asked = f"{name} and its log {log} differ. Go on with which?\nf  {taken}\n"
        said = "".join(f"{remark}\n" for remark in self.remarks)
        return f"{said}{asked}l  the log, of {then}: the file is kept as {name}~\n"

    def keep(self, lines: Sequence[bytes], counter: int = 0) -> None:
        """Keeps how far this copy wrote, before others are told these lines; a number that was given is not kept."""
        if self.options.replica is None:
            self.copy.keep_number(self.number, max(counters(lines, self.number), default=counter))

    def put(self) -> None:
        """Takes note that mgr put the text of the log."""
        with suppress(OSError):
            self.copy.note_put(read(self.note.name), os.path.getsize(self.note.log))
            self.copy.keep()

    def remember(self, is_older: bool = False) -> None:
        """Compacts a large log; keeps how the edit left the note, if its text is that of its log, or is to be older."""
        try:
            text, log = read(self.note.name), log_of(self.mgr, self.note)
            if log and log.bytes > max(LARGE, TIMES * len(text), 2 * self.copy.kept["compacted"]):
                ask(self.mgr, self.note, "compact")
                # It is compacted again once it has grown to twice of this.
                self.copy.keep(compacted=os.path.getsize(self.note.log))
            if log and (log.text == "same" or is_older):
                self.copy.note_put(text, os.path.getsize(self.note.log), log.operations)
                self.copy.keep()
        except OSError:
            pass  # There is no text, or this person may not read it.
        except Refused as refused:
            tell(f"{self.note.log} was not compacted: {refused}")


def differ(mgr: str, note: Note, log: Log, replica: int) -> bool:
    """Whether a note's text is another than that of its log, and nobody has it open, who may be about to put it."""
    return log.text == "other" and edit(mgr, note, replica) == 0


def put_text(mgr: str, note: Note, replica: int, text: str) -> bool:
    """Changes a note into this text, as edits of this replica, and answers whether its log makes that then."""
    old = text_of(mgr, note) if note.has_log else ""
    given = b"".join(REPORT + report + b"\n" for report in splices(old, text))
    return edit(mgr, note, replica, given) == 0 and text_of(mgr, note) == text


def mend(mgr: str, note: Note) -> tuple[list[str], bytes]:
    """Has mgr put the text of the log, which it mends first. Returns what it keeps then, and what it says."""
    kept = KeptFiles()
    kept.since(note.name)
    said = ask(mgr, note, "mend")
    return kept.since(note.name), said
