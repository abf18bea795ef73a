"""Those who write in the note too: what they do goes to mgr as reports, and what it says goes to them."""

import time
from collections import deque
from collections.abc import Callable, Mapping

from mgr_front.cells import clean, width
from mgr_front.channels import CONFLICT, FAULTS, Event, Place, State, Took
from mgr_front.channels.worker import FINAL, Worker
from mgr_front.editor import Talk
from mgr_front.mailbox import Mailbox
from mgr_front.shared import SharedNote
from mgr_front.statuses import Status
from mgr_front.view import Mark, style
from mgr_front.wire import Operation, operation, said

# So many bytes of reports are given at once: keys wait for no more than these.
MOST_GIVEN = 16384
# Seconds for which it is marked what others wrote, and so many characters at most; of so many the places are shown.
FRESH, MOST_FRESH, MOST_SHOWN = 2.0, 200, 2000

# Counter and replica.
Identifier = tuple[int, int]


class Company:
    """The others, and how they are reached."""

    def __init__(self, note: SharedNote, make: Callable[[Callable[[Event], None]], Worker]) -> None:
        """`make` makes a channel that posts what comes so."""
        self.note = note
        self.mailbox: Mailbox[Event] = Mailbox()
        self.channel = make(self.mailbox.post)
        self.state, self.since = State("joining"), time.time()
        # Lines that mgr was not given yet, and when the last one came.
        self.lines: deque[bytes] = deque()
        self.took = 0.0
        # Who is there, and was; what they wrote since the last key, until when that is marked, what mgr knows of it.
        self.who: Mapping[int, tuple[str, Place]] = {}
        self.names: dict[int, str] = {note.replica: "I"}
        self.fresh: dict[Identifier, float] = {}
        self.known: list[Identifier] = []
        # What is to be said to the person.
        self.said = ""

    @property
    def is_shared(self) -> bool:
        """Whether anything may still pass."""
        return self.state.word not in FINAL

    def hear(self) -> None:
        """Takes what the channel posted."""
        for event in self.mailbox.take():
            if isinstance(event, Took):
                self.lines.extend(event.lines)
            elif isinstance(event, State):
                self._stand(event)
            else:
                self.who = event.who
                self.names |= {replica: name for replica, (name, _) in event.who.items()}

    def _stand(self, state: State) -> None:
        """Takes note of how the channel stands."""
        if not self.is_shared or state.word == "joining" and self.state.word == "alone":
            return
        if state.word == "alone" != self.state.word:
            self.since = time.time()
        if state != self.state and state.word != "joining" and (state.why or state.word != "live"):
            self.said = clean(f"{state.word.capitalize()}: {state.why}")
        self.state = state
        if not self.is_shared:
            self.lines.clear()
            self.channel.close(0.0)

    def feed(self, editor: Talk) -> None:
        """Gives mgr some of what others did, once it has answered all before; and where they are, if that was all."""
        given = 0
        while self.lines and given < MOST_GIVEN and (given or editor.is_answered):
            line = self.lines.popleft()
            if told := operation(line):
                editor.report(line)
                self._freshen(told, time.monotonic() + FRESH)
            given += len(line)
        if given:
            self.took = time.monotonic()
        if not self.lines and (given or editor.is_answered) and (places := self._places()) != self.known:
            self.known = places
            editor.report(said("places", places=places).rstrip())

    def _places(self) -> list[Identifier]:
        return sorted({*self.fresh, *[place[:2] for _, place in self.who.values()][:MOST_SHOWN]})

    def _freshen(self, told: Operation, until: float = 0.0) -> None:
        """Takes note of what an operation wrote, until some time, or removed."""
        size = min(told.size, MOST_FRESH) if told.text else told.size
        for each in range(told.counter, told.counter + size):
            self.fresh.pop((each, told.replica), None)
            if told.text and until and len(self.fresh) < MOST_FRESH:
                self.fresh[each, told.replica] = until

    def press(self) -> None:
        """A key was typed: what others wrote before is seen."""
        self.fresh.clear()

    def patience(self, now: float) -> float | None:
        """Returns the seconds until a mark ends; those that have ended are forgotten."""
        self.fresh = {each: until for each, until in self.fresh.items() if until > now}
        return min(self.fresh.values()) - now if self.fresh else None

    def note_status(self, status: Status) -> None:
        """Tells others what was made and saved and where point is, and takes note of what mgr refused."""
        for line in status.operations:
            if b'"del' in line and (told := operation(line)):
                self._freshen(told)
        if self.is_shared:
            if status.operations:
                self.channel.tell(status.operations)
            if status.is_live:
                row, _, counter, replica = status.point
                self.channel.show_place((counter, replica, row + 1))
        for fault in status.refused.values():
            if fault == CONFLICT:
                self._stand(State("conflict", FAULTS[CONFLICT]))
            elif self.is_shared:
                self.said = FAULTS.get(fault, f"mgr did not take a change of others: {fault}")

    def shown(self) -> str:
        """Returns what the mode line says."""
        if self.state.word == "alone":
            return time.strftime("alone since %H:%M", time.localtime(self.since))
        if self.state.word != "live" or not self.who:
            return self.state.word
        return "live: " + ", ".join(f"{name} L{place[2]}" for _, (name, place) in sorted(self.who.items()))

    def marks(self, status: Status, has_colours: bool) -> list[Mark]:
        """Returns what is shown of others in the text: what they wrote, and over that where they are."""
        who = {place[:2]: (replica, name) for replica, (name, place) in self.who.items()}
        made, now = [], time.monotonic()
        for counter, replica, row, column in status.places:
            if self.fresh.get((counter, replica), now) > now:
                made.append(Mark(row, column, style(replica, has_colours, True)))
            if found := who.get((counter, replica)):
                letter = found[1][:1] if width(found[1][:1] or " ") == 1 else "?"
                made.append(Mark(row, column, style(found[0], has_colours), letter or "?"))
        return sorted(made, key=lambda mark: mark.letter)
