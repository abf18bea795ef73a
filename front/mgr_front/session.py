"""An edit: keys from the terminal to mgr, and what it says and shows to the terminal."""

import math
import os
import select
import shutil
import signal
import time
from collections.abc import Callable, Generator, Sequence
from contextlib import suppress
from dataclasses import replace

from mgr_front import who
from mgr_front.cells import cells
from mgr_front.company import Company
from mgr_front.completion import ANSWERED, KILL_EMACS, NAMED, accept, complete
from mgr_front.dispatch import Dispatcher
from mgr_front.editor import BLOCK, LEAST_ROWS, MOST_ROWS, Editor
from mgr_front.errands import COPY_ALL, FIND, LEAVE, REMOVE, Errand, switch_to
from mgr_front.guests import place_apart, put_apart
from mgr_front.keys import CANCEL, NO_KEY, RETURN, TAB, Keys, Typed
from mgr_front.minibuffer import Page, Question
from mgr_front.notes import KeptFiles, found, why_not_written
from mgr_front.opening import NEW
from mgr_front.remarks import Remarks
from mgr_front.saving import AGAIN, FAILING, IDLE, REST, SAVE, SAVED, UNSAVED
from mgr_front.screen import Screen
from mgr_front.signals import Signals
from mgr_front.statuses import COMMAND, PLAIN, Status
from mgr_front.view import Echo, echo_line, picture
from mgr_front.who import WHO

# Seconds until what may be the beginning of a longer key counts as keys of its own, as ESC does.
PATIENCE = 0.05
# Seconds for which it is said what is wrong with a note that was opened.
OPENED = 10.0
# Seconds between two pictures of what others do while further ones are to come.
PICTURE = 0.05

# For what the bell rings.
RINGING = "Undefined key", "Search failed"
PASTING = "Pasting: C-g leaves it"
# What is said if nothing is left to save.
PUT = SAVED, "No changes"
LEAVING = "Leave: s puts the text, d leaves its file as it was? "
APART = "Not saved: s tries again, d leaves and keeps it apart? "
# How much may wait for mgr before no more keys are read.
MOST_WAITING = 65536


class Session:
    """An edit by a mgr that runs."""

    def __init__(self, editor: Editor, screen: Screen, signals: Signals, company: Company | None = None) -> None:
        """`company` are those who write in the note too."""
        self.editor, self.screen, self.signals, self.company = editor, screen, signals, company
        screen.is_over = lambda: signals.first is not None
        self.keys = Keys()
        self.dispatcher = Dispatcher(editor, screen.erase)
        # The buffers that were seen, each with its text as it was at the start, or at the last C-x C-s; those in
        # which something was made since; and whether their texts are to be so again.
        self.buffers: dict[str, bytes | None] = {}
        self.made: set[str] = set()
        self.opened: dict[str, tuple[bool, int]] = {}
        self.discards = False
        # What is said of a save that failed, and where texts of buffers stand that could not be saved.
        self.fault, self.apart = "", dict[str, str]()
        # What mgr put aside in a save, and what was said of that.
        self.kept, self.put_aside, self.remarks = KeptFiles(), list[str](), Remarks()
        # The note's path, and the name that is shown for it; what is said at the start.
        self.names, self.greeting = ("", ""), ""
        # What takes note of own operations before others are told, and that the note's text was put.
        self.keep: Callable[[Sequence[bytes]], None] = lambda _: None
        self.put: Callable[[], None] = lambda: None
        self.errand: Errand | None = None
        self.question: Question | None = None
        # A text of the person that mgr did not take, and why.
        self.unput = "", ""
        # What the front says in mgr's place; what was drawn last beside the status, when, and when it is due again.
        self.said: str | None = None
        self.drawn: tuple[object, ...] = ()
        self.painted, self.due = -math.inf, math.inf
        self.rings = self.is_ending = False
        self.has_colours = True
        # When a key was typed, when all was saved, and by which report.
        self.typed = self.rested = time.monotonic()
        self.rest_number = 0

    def run(self) -> None:
        """Goes on until mgr, the keys or the terminal end, or a signal comes; what was typed before is still taken."""
        with suppress(OSError):  # The terminal is gone, which may be seen before the signal that says so.
            self.screen.open()
            while self.signals.first is None and self.step():
                pass
            while self.signals.first and self._has_keys() and self._take_keys():
                pass

    def step(self) -> bool:
        """Does what is ready, first what a person waits for, then what others do; answers whether more is to come."""
        others = self.company.mailbox.woken if self.company else self.signals.woken
        reading, writing = [self.editor.written], [self.editor.keys] * bool(self.editor.waiting)
        if not self.is_ending:
            takes_keys = self.screen.is_raw and len(self.editor.waiting) < MOST_WAITING
            reading += [self.signals.woken, others] + [0] * takes_keys
            writing += [self.screen.target] * bool(self.screen.waiting)
        ready, free, _ = select.select(reading, writing, [], None if self.is_ending else self._patience())
        if self.signals.woken in ready:
            self._heed()
        if 0 in ready and self.screen.is_raw and not self._take_keys():
            return False
        if self.keys.is_in_doubt and time.monotonic() >= self.typed + PATIENCE and not self._has_keys():
            self.dispatcher.take(self.keys.give_up())
        if self.company and others in ready:
            self.company.hear()
        if self.screen.target in free:
            self.screen.write()
        told: list[Status] = []
        try:
            for status in self.editor.read() if self.editor.written in ready else ():
                told.append(status)
                self.take(status)
            self.dispatcher.run(self)
            if self.editor.waiting:
                self.editor.write()
            self._draw()
        finally:
            for status in told:
                self._tell(status)
        self._watch()
        return not self.editor.is_over

    def _patience(self) -> float | None:
        """Returns after how many seconds something is to be done, whatever happens."""
        now = time.monotonic()
        dues = [self._rest_due(), self.remarks.patience(now), self.company.patience(now) if self.company else None]
        dues += [self.typed + PATIENCE - now] * self.keys.is_in_doubt
        dues += [self.due - now] * (self._draws and self.due < math.inf)
        return min((max(0.0, due) for due in dues if due is not None), default=None)

    def _rest_due(self) -> float | None:
        """Returns in how many seconds all is to be saved, if a key was typed or something was taken since, or failed."""
        changed = max(self.typed, self.company.took if self.company else self.typed)
        if self.rest_number or self.is_ending or changed <= self.rested and not self.fault:
            return None
        return max(self.typed, self.rested) + (FAILING if self.fault else IDLE) - time.monotonic()

    def _watch(self) -> None:
        """Gives mgr what others did, and has it save what was not saved for a while."""
        if self.company and not (self.errand or self.is_ending):
            self.company.feed(self.editor)
        due = self._rest_due()
        if due is not None and due <= 0:
            self.rested = time.monotonic()
            # Each try may keep a copy of a log that may not be written.
            if not (self.fault and any(map(why_not_written, {self.names[0], *self.made}))):
                self.rest()
        if self.unput[1] and self._is_free():
            self.start(self.keep_words())

    def _is_free(self) -> bool:
        """Whether nothing is asked, begun, typed ahead or under way."""
        begun = self.errand or self.question or self.is_ending or self.dispatcher.prefix or self.editor.status.begun
        return not begun and self.editor.is_answered and self.editor.status.mode == PLAIN

    def rest(self) -> None:
        """Has mgr save all that was made or taken, log and text."""
        self.rested = time.monotonic()
        self.rest_number = self.editor.report(REST)

    def _has_keys(self) -> bool:
        """Whether there is something to read of the terminal, while that is this program's."""
        return self.screen.is_ours and bool(select.select([0], [], [], 0)[0])

    def _take_keys(self) -> bool:
        sent, before = os.read(0, BLOCK), self.typed
        self.typed = time.monotonic()
        if self.company:
            self.company.press()
        try:
            if CANCEL in sent:
                self.remarks.acknowledge()
            # A text that is pasted comes with its C-g.
            leaves = self.keys.paste and sent == bytes([CANCEL]) and self.typed >= before + PATIENCE
            self.dispatcher.take(self.keys.give_up() if leaves else self.keys.take(sent))
        except BaseException:
            # Whatever it was, these are keys.
            self.dispatcher.take([Typed(sent)])
            raise
        return bool(sent)

    def take(self, status: Status) -> None:
        """Takes note of a status, and goes on with an errand that waits for it."""
        self.remark(self.greeting)
        self.greeting = ""
        if status.label or status.saved == "ok":
            self.remarks.pop(NEW, None)
        is_key = self.editor.taken > 0
        if is_key:
            self.said = None
        self._note(status)
        # The first status after all was saved, as it was asked for.
        has_rested = 0 < self.rest_number <= status.reports and not status.more
        self.rest_number = 0 if has_rested else self.rest_number
        is_saved = has_rested or is_key and status.message.startswith(SAVED)
        if is_saved or len(self.kept.known) < len(self.buffers):
            self.note_kept()
        if status.saved == "ok" and (has_rested or is_saved and status.buffer == self.names[0]):
            self.put()
        if self.errand:
            if self.editor.is_answered and not status.more:
                self._go_on(self.errand, status)
            return
        self._draw_soon(is_key and self.editor.is_settled)
        self.rings = self.rings or is_key and not status.begun and status.message in RINGING

    def _note(self, status: Status) -> None:
        """Takes note of what a status says of buffers."""
        name = status.buffer
        if name not in self.buffers:
            # A plain text counts as changed from the start.
            self.buffers[name], self.opened[name] = found(name), (status.is_changed, status.unsaved)
        if status.operations:
            self.made.add(self.names[0])
        if status.saved in UNSAVED or status.saved == "ok":
            self.remarks.pop(self.fault, None)
            self.remark(AGAIN * (bool(self.fault) and status.saved == "ok"))
            self.fault = UNSAVED.get(status.saved, "")
        if self.fault and status.saved in UNSAVED:
            if status.saved == "file":
                self.fault += next(filter(None, map(why_not_written, self.buffers)), "")
            self.remarks[self.fault] = math.inf
        is_made = status.is_changed and (status.is_changed, status.unsaved) != self.opened[name]
        if is_made and (self.fault or name != self.names[0]):
            self.made.add(name)
        for number in self.editor.refused.keys() & status.refused.keys():
            self.unput = self.editor.refused[number], f"Not put in: {status.refused[number]}"
            self.editor.refused[number] = ""

    def _tell(self, status: Status) -> None:
        """Tells others what was made, once note is taken of that."""
        if status.operations:
            self.keep(status.operations)
        if self.company:
            others = {number: fault for number, fault in status.refused.items() if number not in self.editor.refused}
            self.company.note_status(replace(status, refused=others))

    def note(self, status: Status) -> None:
        """Takes note of a status at the end, and tells others."""
        self._note(status)
        self._tell(status)

    def note_kept(self) -> None:
        """Says what mgr put aside: other programs have written it, and nobody may know."""
        for said in sum(map(self.kept.since, self.buffers), []):
            self.put_aside.append(said)
            self.remark(said)

    def _draw_soon(self, is_awaited: bool = False) -> None:
        """Has a picture be drawn: at once if own keys made it, or nothing else is to come, else by and by."""
        self.due = min(self.due, 0.0 if is_awaited or self.editor.is_answered else self.painted + PICTURE)

    @property
    def _draws(self) -> bool:
        """Whether there is something to draw, and room: nothing is within an errand, nor at the end."""
        is_free = not (self.is_ending or self.errand or self.screen.waiting)
        return is_free and bool(self.editor.status.frame)

    def _draw(self) -> None:
        """Draws the newest status, or what changed beside it."""
        if not self._draws:
            return
        now = time.monotonic()
        if self.company and self.company.said:
            # The mode line goes on to say that one is alone.
            is_alone = self.company.state.word == "alone"
            self.remarks[self.company.said] = now + OPENED if is_alone else math.inf
            self.company.said = ""
        shown = self.company.shown() if self.company else ""
        marks = self.company.marks(self.editor.status, self.has_colours) if self.company else []
        drawn = self.remarks.at(now), self.keys.paste is None, self.dispatcher.failing, shown, marks
        if drawn != self.drawn:
            self._draw_soon()
        if now < self.due:
            return
        columns, rows = os.get_terminal_size(1)
        if isinstance(self.question, Page):
            made = self.question.picture(rows, columns)
        else:
            made = picture(self.shown(), self._echo(), rows, columns, shown, marks)
        self.screen.draw(made, self.rings)
        self.rings = False
        self.drawn, self.painted, self.due = drawn, now, math.inf

    def shown(self) -> Status:
        """Returns the newest status, with the note's name as it is shown."""
        status, (path, name) = self.editor.status, self.names
        if path == name:
            return status
        frame = list(status.frame)
        for row in status.mode_rows:
            frame[row] = frame[row].replace(path, name, 1)
        return replace(status, frame=tuple(frame), message=status.message.replace(path, name))

    def _echo(self) -> Echo:
        if self.question:
            return Echo(self.question.text, len(cells(self.question.text)))
        failing = self.dispatcher.failing.decode("utf-8", "replace")
        remarks = [PASTING] * (self.keys.paste is not None) + list(self.remarks)
        return echo_line(self.shown(), self.said, remarks, failing)

    def remark(self, said: str) -> None:
        """Says something of a note that was opened, for a while."""
        if said:
            self.remarks[said] = time.monotonic() + OPENED

    def start(self, errand: Errand) -> None:
        """Begins an errand. Its first keys are pressed at once; all others wait for its end."""
        # Nothing is drawn meanwhile.
        self._draw()
        self.errand = errand
        self._go_on(errand, None)

    def _go_on(self, errand: Errand, status: Status | None) -> None:
        """Sends an errand the status that it waits for, and presses the keys that it asks for then."""
        try:
            self.editor.hand_on(next(errand) if status is None else errand.send(status))
        except StopIteration as end:
            self.errand, self.said = None, end.value
            self.due = 0.0

    def ask(self, question: Question) -> None:
        """Asks something in the echo line."""
        self.question = question
        self.remarks.pop(NEW, None)
        self.due = 0.0

    def answer(self, byte: int) -> None:
        """Takes a key of the answer to what is asked."""
        assert self.question
        errand = self.question.press(byte)
        if not self.question.is_open:
            self.question = None
        if errand:
            self.start(errand)
        self.due = 0.0

    def save(self) -> Errand:
        """Saves the current buffer: its text is to be as it is now."""
        status = yield SAVE
        if status.message.startswith(PUT):
            self.made.discard(status.buffer)
            self.buffers[status.buffer] = found(status.buffer)
        return None

    def leave(self, answer: str = "", keys: bytes = b"") -> Errand:
        """Leaves, after these keys; if something was made it asks first what becomes of the texts."""
        self.rest()
        unsaved = yield from self._unsaved((yield keys))
        if unsaved and answer == "d":
            unsaved = yield from self._put_apart(unsaved)
        if not unsaved and (answer or not self.made):
            self.discards = answer == "d" and not self.apart
            yield LEAVE
            # mgr asks: a text that was only opened counts as changed.
            yield b"y"
        self.ask(Question(APART if unsaved else LEAVING, self.leave, keys="sd"))
        return None

    def _unsaved(self, status: Status) -> Generator[bytes, Status, list[str]]:
        """Returns the buffers in which something was made that is not saved; `status` is the newest."""
        shown, found = status.buffer, []
        for name in sorted(self.made):
            if name != status.buffer:
                status = yield switch_to(name)
            found += [name] * status.is_changed
        if status.buffer != shown:
            yield switch_to(shown)
        return found

    def _put_apart(self, names: list[str]) -> Generator[bytes, Status, list[str]]:
        """Puts the texts of buffers into the state folder, and returns the buffers for which that fails."""
        failed = []
        for name in names:
            if place := (yield from put_apart(name)):
                self.apart[name] = place
            else:
                failed.append(name)
        return failed

    def keep_words(self) -> Errand:
        """Has the kill buffer take a text that mgr did not put in, by a buffer of its own, which goes again."""
        (text, said), self.unput, shown = self.unput, ("", ""), self.editor.status.buffer
        if not (text and (place := place_apart(self.names[0]))):
            return said
        yield FIND + place.encode() + b"\r"
        self.editor.paste(text)
        status = yield b""
        if status.is_changed and not status.refused:
            yield COPY_ALL + SAVE
            said += "; C-y puts it elsewhere"
        yield switch_to(shown) + REMOVE + place.encode() + b"\r"
        self.unput = "", ""
        self.made.discard(place)
        del self.buffers[place]
        shutil.rmtree(os.path.dirname(place), ignore_errors=True)
        return said

    def rescue(self) -> Errand:
        """Puts apart what could not be saved, if nobody is asked any more."""
        status = yield bytes([NO_KEY, CANCEL])
        yield from self._put_apart((yield from self._unsaved(status)))
        return None

    def complete(self) -> None:
        """Completes the answer of the open prompt; if it asks for no name, TAB is a part of it."""
        status = self.editor.status
        if status.label in NAMED:
            self.start(complete(status.label, status.answer, self.buffers))
        else:
            self.editor.hand_on(bytes([TAB]))

    def accept(self) -> None:
        """Accepts the answer of the open prompt."""
        status = self.editor.status
        if (status.label, status.answer) == (COMMAND, WHO):
            self.rest()
            names = self.company.names if self.company else {}
            self.start(who.show(self.editor.program, status.buffer, names, self.has_colours, self.ask))
        elif (status.label, status.answer) == (COMMAND, KILL_EMACS):
            self.start(self.leave(keys=bytes([CANCEL])))
        elif status.label in ANSWERED:
            self.start(accept(status.label, status.answer))
        else:
            self.editor.hand_on(bytes([RETURN]))

    def conclude(self) -> None:
        """Does all strokes that wait, without the terminal, for as long as that takes; then puts the terminal back."""
        self.is_ending, self.question = True, None
        try:
            self.dispatcher.take(self.keys.give_up())
            if self.editor.process.poll() is None and self._settle():
                self.rest()
                self.start(self.rescue())
                self._settle()
        except BaseException:
            # Whatever it was: mgr gets what it did not get yet, and saves what it shows.
            self.dispatcher.give_up()
            self.editor.hand_on(bytes([NO_KEY, CANCEL]))
            raise
        finally:
            # It may take nothing, so this comes once all is saved.
            self.screen.close()

    def _settle(self) -> bool:
        """Does all that waits, and answers whether mgr has not ended."""
        self.dispatcher.run(self)
        while self.errand or self.dispatcher.strokes or not self.editor.is_answered:
            if not self.step():
                return False
        return True

    def _heed(self) -> None:
        """Does what signals ask for that end nothing."""
        came = self.signals.take()
        if signal.SIGTSTP in came:
            self.suspend()
        if signal.SIGCONT in came:
            self.screen.open()
            self.due = 0.0
        if signal.SIGWINCH in came:
            self.resize()

    def resize(self) -> None:
        """The terminal has another size: mgr is told of it, and until then the frame is cut for it."""
        _, rows = os.get_terminal_size(1)
        self.editor.resize(max(LEAST_ROWS, min(rows, MOST_ROWS)))
        self.repaint()

    def repaint(self) -> None:
        """Has all of the screen be drawn anew."""
        self.screen.forget()
        self.due = 0.0

    def suspend(self) -> None:
        """Puts the terminal back and stops, until somebody continues this program."""
        if self.is_ending or self.signals.first is not None:
            return
        self.screen.close()
        signal.signal(signal.SIGTSTP, signal.SIG_DFL)
        os.kill(0, signal.SIGTSTP)
        # Where nobody could continue it, it does not stop.
        self.signals.listen(signal.SIGTSTP)
        self.screen.open()
        self.due = 0.0
