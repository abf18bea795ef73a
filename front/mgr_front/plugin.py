"""What stands between an editor program and mgr: its changes go there, and those of others come back.

Both may change the text at the same time. mgr's text is the judge: it takes one thing at a time, and what the editor
program did meanwhile is carried over that; what mgr told and that program has not seen is carried over what it did.
So it needs no such rule itself: it leaves out what was told before its own last change, as that comes again.
"""

import json
import os
import select
import time
from collections import deque
from collections.abc import Callable, Generator, Sequence
from dataclasses import dataclass, field, replace
from typing import Any

from mgr_front.carrying import Piece, Pieces, carry, joined, pieces_of, splices_of
from mgr_front.company import Company
from mgr_front.editor import BLOCK, Editor, with_text, write_some
from mgr_front.errands import ARGUMENT, BUFFER_BEGIN, FORWARD_CHAR, MOST_ARGUMENT, NEXT_LINE
from mgr_front.guests import put_apart
from mgr_front.notes import KeptFiles, why_not_written
from mgr_front.saving import CANCEL, FAILING, IDLE, REST, SAVE, UNSAVED
from mgr_front.saying import stop
from mgr_front.shared import MANY
from mgr_front.signals import Signals
from mgr_front.statuses import Status
from mgr_front.steps import REDO, UNDO, Steps
from mgr_front.wire import in_runs, operation

# Seconds that the editor program has to take what it is told last.
LAST = 2.0
UNDO_KEY = b"\x1f"
# So many bytes of changes are given at once: what others did waits for no more than these.
MOST_GIVEN = 65536
# The fault of a change that is of a text from before.
LATE = "Stale"


class Lines:
    """Lines of JSON: those of an editor program, and those for it. Nothing here waits for it."""

    def __init__(self, source: int = 0, target: int = 1) -> None:
        self.source, self.target = source, target
        self.begun, self.waiting = b"", bytearray()
        self.is_over = False
        os.set_blocking(target, False)

    def take(self) -> list[dict[str, Any]]:
        """Returns what came; at the end `is_over` is set."""
        block = os.read(self.source, BLOCK)
        self.is_over = not block
        *lines, self.begun = (self.begun + block).split(b"\n")
        return [json.loads(line) for line in lines]

    def say(self, op: str, **members: object) -> None:
        """Has a line wait for being written."""
        self.waiting += json.dumps({"op": op, **members}, ensure_ascii=False, separators=(",", ":")).encode() + b"\n"

    def write(self) -> None:
        """Writes as much as is taken now."""
        write_some(self.waiting, self.target)

    def choose(self, question: str, letters: Sequence[str], default: str) -> str:
        """Asks for one of these letters, and waits for it; nothing else comes before a note is open."""
        self.say("ask", question=question, letters=letters, default=default)
        while self.waiting:
            select.select([], [self.target], [])
            self.write()
        while not self.is_over:
            for told in self.take():
                if told["op"] == "answer" and told["letter"] in letters:
                    return str(told["letter"])
        stop("nothing was done")

    def end(self) -> None:
        """Writes what waits, if it is soon taken."""
        until = time.monotonic() + LAST
        while self.waiting and select.select([], [self.target], [], max(0.0, until - time.monotonic()))[1]:
            self.write()


@dataclass
class Task:
    """What mgr is to do, one after the other. It is done once mgr has answered all of it."""

    op: str
    # The number of the editor program's changes with this one, and what is to be done to mgr's text.
    made: int = 0
    pieces: Pieces = field(default_factory=list)
    # Changes that mgr was given at once with this one; each splice of them, with the number of its last report.
    batch: list["Task"] = field(default_factory=list)
    given: list[tuple[int, Piece, "Task"]] = field(default_factory=list)
    # Whether a change is of the step before; whether an undo goes on with a run; what an undo is to take back.
    joins: bool = False
    kind: str = UNDO
    # By whom the change was that is taken; the line and the column where point is, from 0.
    by: int | None = None
    place: tuple[int, int] = (0, 0)


# What mgr does by itself, and what the editor program asks for.
START, OTHERS, RESTING, APART = "start", "others", "rest", "apart"
EDIT, POINT, SAVING, UNDOING = "splice", "point", "save", "undo"


class Plugin:
    """An edit by an editor program."""

    def __init__(self, editor: Editor, lines: Lines, signals: Signals, company: Company | None, name: str) -> None:
        self.editor, self.lines, self.signals, self.company, self.name = editor, lines, signals, company, name
        # What mgr is to do, and what it does now.
        self.tasks: deque[Task] = deque()
        self.doing: Task | None = Task(START)
        # How many changes the editor program made, and how many of them mgr was given; how many of those that it was
        # told it has made, and the others.
        self.made = self.given = self.seen = 0
        self.unseen: Pieces = []
        # How many changes mgr told since the start, and the faults of changes that it was given.
        self.base = 0
        self.refused: dict[int, str] = {}
        self.steps = Steps()
        # What takes note of own operations before others are told, and that the text was put.
        self.keep: Callable[[Sequence[bytes]], None] = lambda _: None
        self.put: Callable[[], None] = lambda: None
        # What is said of a save that failed, where the text stands that could not be saved, and what was put aside.
        self.fault, self.apart, self.kept = "", dict[str, str](), KeptFiles()
        self.kept.since(name)
        # What was said of others last.
        self.shown, self.who = "", list[tuple[int, str, int]]()
        self.is_refused = self.is_ending = False
        # When something was changed, and when all was saved.
        self.changed = self.rested = time.monotonic()

    def run(self) -> None:
        """Goes on until the editor program or mgr ends, or a signal comes."""
        while self.signals.first is None and not (self.lines.is_over or self.is_refused) and self.step():
            pass

    def conclude(self) -> None:
        """Has mgr do all that was asked for, and save it, and says so; what it cannot save is put apart."""
        self.is_ending = True
        try:
            if self.editor.process.poll() is not None:
                return
            while not (self.lines.is_over or self.is_refused) and select.select([self.lines.source], [], [], 0)[0]:
                for told in self.lines.take():
                    self.take(told)
            if self._settle():
                self.rest()
                if self._settle() and self.fault:
                    self._put_apart(put_apart(self.name))
        finally:
            self.lines.end()

    def _put_apart(self, errand: Generator[bytes, Status, str]) -> None:
        """Presses the keys of an errand, and keeps what comes of it."""
        try:
            keys = next(errand)
            while True:
                self.editor.hand_on(keys)
                self.doing = Task(APART, self.given)
                if not self._settle():
                    return
                keys = errand.send(self.editor.status)
        except StopIteration as end:
            self.apart |= {self.name: end.value} if end.value else {}

    def _settle(self) -> bool:
        """Does all that waits, and answers whether mgr has not ended."""
        self._go_on()
        while self.doing:
            if not self.step():
                return False
        return True

    def step(self) -> bool:
        """Waits for what is ready and does that, and answers whether mgr has not ended."""
        others = [self.company.mailbox.woken] * bool(self.company) if self.company else []
        reading = [self.editor.written, *others]
        if not self.is_ending:
            reading += [self.signals.woken, self.lines.source]
        writing = [self.editor.keys] * bool(self.editor.waiting) + [self.lines.target] * bool(self.lines.waiting)
        ready, free, _ = select.select(reading, writing, [], self._patience())
        for told in self.lines.take() if self.lines.source in ready else ():
            self.take(told)
        for status in self.editor.read() if self.editor.written in ready else ():
            self.note(status)
        if self.company and self.company.mailbox.woken in ready:
            self._hear(self.company)
        self._go_on()
        self._say_who()
        if self.editor.waiting:
            self.editor.write()
        if self.lines.waiting:
            self.lines.write()
        return not self.editor.is_over

    def _hear(self, company: Company) -> None:
        """Takes what others did. mgr compares the whole text for each line, so much is to be few lines."""
        company.hear()
        if len(company.lines) > MANY:
            company.lines = deque(in_runs(company.lines))

    def _patience(self) -> float | None:
        """Returns after how many seconds all is to be saved."""
        changed = max(self.changed, self.company.took if self.company else 0.0)
        if self.doing or self.is_ending or changed <= self.rested and not self.fault:
            return None
        return max(0.0, max(self.changed, self.rested) + (FAILING if self.fault else IDLE) - time.monotonic())

    def take(self, told: dict[str, Any]) -> None:
        """Takes what the editor program says."""
        op, seen = told["op"], told.get("seen", self.seen)
        # The editor program has made so many of the changes that it was told.
        del self.unseen[: seen - self.seen]
        self.seen = seen
        if op == EDIT:
            self._take_edit(told)
        elif op == UNDOING:
            self.tasks.append(Task(op, self.made, joins=bool(told.get("again")), kind=told.get("kind", UNDO)))
        elif op == SAVING:
            self.tasks.append(Task(op, self.made))
        elif op == POINT:
            self.tasks = deque(task for task in self.tasks if task.op != POINT)
            self.tasks.append(Task(op, self.made, place=(told["line"], told["column"])))

    def _take_edit(self, told: dict[str, Any]) -> None:
        """Takes a change of the editor program, which is carried over what that has not seen; it is told that anew."""
        self.made += 1
        self.changed = time.monotonic()
        pieces, self.unseen = carry(pieces_of(told["lo"], told["hi"], told["text"]), self.unseen)
        self.tasks.append(Task(EDIT, self.made, pieces, joins=bool(told.get("joins"))))
        self._tell(self.unseen)

    def _tell(self, pieces: Pieces, by: int | None = None, is_undo: bool = False) -> None:
        """Tells the editor program how the text changed that it has after so many changes of its own."""
        if pieces:
            self.lines.say("change", made=self.made, splices=pieces, by=by, undo=is_undo)

    def note(self, status: Status) -> None:
        """Takes note of a status, and tells others what was made."""
        self.base += len(status.changes)
        task = self.doing
        if task and task.op == EDIT:
            self.refused |= status.refused
        else:
            pieces = joined([piece for change in status.changes for piece in pieces_of(*change)])
            self._pass_on(pieces, task.by if task else None, task is not None and task.op == UNDOING)
        if task and task.op == UNDOING:
            self.steps.count += len(status.changes)
        if status.operations:
            self.keep(status.operations)
        if self.company:
            is_of_others = task is not None and task.op == OTHERS
            self.company.note_status(status if is_of_others else replace(status, refused={}))
        self._note_save(status)
        if task and self.editor.is_answered and not status.more:
            self.doing = None
            self._end_task(task, status)

    def _pass_on(self, pieces: Pieces, by: int | None, is_undo: bool) -> None:
        """Tells a change of mgr's text, carried over what that does not have yet."""
        for task in self.tasks:
            task.pieces, pieces = carry(task.pieces, pieces)
        self.unseen += pieces
        self._tell(pieces, by, is_undo)

    def _note_save(self, status: Status) -> None:
        """Takes note of how the last writing of a log ended."""
        fault = UNSAVED.get(status.saved, "")
        if status.saved == "file":
            fault += why_not_written(self.name)
        if fault != self.fault:
            self.lines.say("fault", why=fault)
        self.fault = fault

    def _end_task(self, task: Task, status: Status) -> None:
        """mgr has answered all of a task."""
        if task.op == START:
            self.lines.say("begun", made=self.made)
        elif task.op == EDIT:
            self._end_edits(task)
        elif task.op == UNDOING:
            self.lines.say("undone", why="")
        elif task.op in (SAVING, RESTING):
            self._end_save(task, status)

    def _end_edits(self, task: Task) -> None:
        """mgr took changes. What it refuses as late is given again; what it refuses else no log has."""
        given, task.given = task.given, []
        left: dict[int, Task] = {}
        for number, splice, edit in given:
            if number not in self.refused:
                self.steps.edited(edit.joins)
                edit.joins = True
            elif edit.made in left:
                edit.pieces += pieces_of(*splice)
            else:
                left[edit.made] = edit
                edit.pieces = pieces_of(*splice)
        kept = min(left, default=task.batch[-1].made + 1) - 1
        if not self.fault:
            self.lines.say("kept", made=kept)
        if fault := next((fault for fault in self.refused.values() if fault != LATE), None):
            self.is_refused = True
            self.tasks.clear()
            self.lines.say("refused", made=kept, why=fault)
        else:
            self.tasks.extendleft(reversed(left.values()))
        self.refused = {}

    def _end_save(self, task: Task, status: Status) -> None:
        """The text was put, or could not be; says so, and what was put aside."""
        is_put = not (self.fault or status.is_changed)
        if is_put:
            self.put()
        if is_put or task.op == SAVING:
            self.lines.say("saved", made=task.made, why="" if is_put else self.fault or status.message)
        for said in self.kept.since(self.name):
            self.lines.say("say", text=said)

    def _go_on(self) -> None:
        """Gives mgr what it is to do next, once it has answered all before: what the person waits for comes first."""
        while not self.doing and self.tasks:
            task = self.tasks.popleft()
            self.doing = task if self._give(task) else None
        if self.doing or self.is_refused:
            return
        if self.company and not self.is_ending:
            self._give_others(self.company)
        if not self.doing and self._patience() == 0.0:
            self.rested = time.monotonic()
            if not (self.fault and why_not_written(self.name)):
                self.rest()

    def rest(self) -> None:
        """Has mgr save all that was made or taken, log and text."""
        self.rested = time.monotonic()
        self.editor.report(REST)
        self.doing = Task(RESTING, self.given)

    def _give(self, task: Task) -> bool:
        """Gives mgr a task, and answers whether there is something to do."""
        self.given = task.made
        if task.op == EDIT:
            return self._give_edits(task)
        if task.op == UNDOING:
            return self._give_undo(task)
        if task.op == POINT:
            return self._give_point(task)
        self.editor.hand_on(SAVE)
        self.steps.run = None
        return True

    def _give_edits(self, task: Task) -> bool:
        """Gives a change, and at once those after it: their log is written once."""
        task.batch = [task]
        self._give_edit(task, task)
        while self.tasks and self.tasks[0].op == EDIT and len(self.editor.waiting) < MOST_GIVEN:
            task.batch.append(self.tasks.popleft())
            self._give_edit(task.batch[-1], task)
        self.given = task.batch[-1].made
        if not task.given:
            # What others did meanwhile made nothing of it.
            self._end_edits(task)
        return bool(task.given)

    def _give_edit(self, edit: Task, batch: Task) -> None:
        for lo, hi, text in splices_of(edit.pieces):
            base = self.base + len(batch.given)
            numbers = [self.editor.report(each) for each in with_text(text, base=base, hi=hi, lo=lo, op=EDIT)]
            batch.given.append((numbers[-1], Piece(lo, hi, text), edit))

    def _give_undo(self, task: Task) -> bool:
        """Has mgr undo what makes one step."""
        self.changed = time.monotonic()
        target = self.steps.target(task.kind, task.joins)
        if target is None:
            self.lines.say("undone", why={REDO: "Nothing to redo"}.get(task.kind, "Nothing to undo"))
            return False
        is_new, count = self.steps.go_back(target)
        if not count:
            self.lines.say("undone", why="")
            return False
        self.editor.hand_on(CANCEL * is_new + UNDO_KEY * count)
        return True

    def _give_point(self, task: Task) -> bool:
        """Has mgr's point go where the editor program's is, for others to see; in a run of undos that waits."""
        if self.steps.run is not None or not self.company:
            return False
        line, column = task.place
        self.editor.hand_on(BUFFER_BEGIN + times(line, NEXT_LINE) + times(column, FORWARD_CHAR))
        return True

    def _give_others(self, company: Company) -> None:
        """Gives mgr some of what others did."""
        number = self.editor.reports
        by = author(company.lines[0]) if len(company.lines) == 1 else None
        # Nothing is marked here.
        company.press()
        company.feed(self.editor)
        if self.editor.reports > number:
            self.doing = Task(OTHERS, by=by)

    def _say_who(self) -> None:
        """Says how others are reached, and who they are, where that is news."""
        if not self.company:
            return
        if self.company.said:
            self.lines.say("say", text=self.company.said)
            self.company.said = ""
        shown = self.company.shown()
        who = [(number, name, place[2]) for number, (name, place) in sorted(self.company.who.items())]
        if (shown, who) != (self.shown, self.who):
            self.shown, self.who = shown, who
            self.lines.say("state", shown=shown, word=self.company.state.word, who=who)


def times(count: int, key: bytes) -> bytes:
    """Returns what presses a key so many times."""
    whole, rest = divmod(count, MOST_ARGUMENT)
    counts = [MOST_ARGUMENT] * whole + [rest] * bool(rest)
    return b"".join(ARGUMENT + str(each).encode() + key for each in counts)


def author(line: bytes) -> int | None:
    """Returns the number of who wrote the characters of an operation; who deletes some is not told."""
    told = operation(line)
    return told.replica if told and told.text else None
