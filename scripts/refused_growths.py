#!/usr/bin/env python3
"""Refuses growths of memory to mgr, one after another, and then presses the same keys again.

usage: refused_growths.py [--short] MGR [NAME]. A play is files and keys. Each of its keys, the start of the
program too, is pressed with its first growth refused, with its second, and so on until none is, each alone and,
where more is asked for then, once with all that follow. Frame and files then have to be those of a run without
refusals; or the echo line says `Out of memory`, nothing has changed, and the key pressed again leads to the
same; or the program ends with status 4 and `out of memory`, and the files are those before that key or after
it: keys pressed again on them lead to the same text. Logs are whole, and have the lines of every save that said
`Wrote`. Jobs such as `mgr show`, and exchanges of two, of which one is refused memory, are tried so too. A row
is a play: how many growths were refused, and after how many of these mgr went on as without, said so, or
ended. `make hostile` calls it, and `make test` with --short: the keys of one play. A NAME has those alone
tried that have it in theirs. It ends with an error where something was lost, or not as it has to be.
"""

import collections
import pathlib
import subprocess
import sys
import time
from dataclasses import dataclass, field

import plain_ends  # noqa: F401
from notes import SECONDS, Notes, Shown, expect, put
from play.notation import lines_of
from play.peers import await_listener, free_port, listens
from play.programs import Unexpected
from refusing import WANT, Editor, Library

OUT = "Out of memory"

# What came of a growth that was refused.
WENT_ON, SAID, ENDED, BAD = "went on", "said", "ended", "bad"

# What a run that is not as it has to be ends with.
FAULTS = (Unexpected, OSError, subprocess.SubprocessError)

# After how many of these a key is left.
MOST_FAULTS = 50

# ---- what is played

# A name, files, and keys: of these a comma and a blank stand between two, and only the last one saves.
Play = collections.namedtuple("Play", "name files keys")

TYPED = {"note.ops": lines_of("o1.1<0.0 n2.1<1.1 e3.1<2.1 \\s4.1<3.1 t5.1<4.1 w6.1<5.1 o7.1<6.1")}
WORDS = {"note": b"one two  three four\nfive six seven\n\nEight, nine\n"}
FAMILY = " ".join(f"a{number}.{number % 3 + 1}<0.0" for number in range(1, 71))
TORN = {"note.ops": TYPED["note.ops"] + b'{"id":[1,1],"op":"d'}
LINES = {"note": b"".join(b"%d\n" % number for number in range(40))}
SAVE = "C-x C-s"

SHORT = Play("a log, a few keys", TYPED, f"x, {SAVE}")
PLAYS = [
    SHORT,
    Play("from no files", {}, f"h, \\u{{fc}}, RET, C-q C-a, C-u 3 x, C-o, C-j, DEL, C-d, {SAVE}"),
    Play("a text without a log", WORDS, f"C-f, z, C-n, C-e, z, {SAVE}"),
    Play("a log that ends torn", TORN, f"M->, z, {SAVE}"),
    Play("a log of a large family, and of what waits",
         {"note.ops": lines_of(f"{FAMILY} -3.1 w90.1<80.1 -81.1")}, f"C-f, z, C-d, {SAVE}"),
    Play("kills and yanks", WORDS,
         f"C-k, C-k, C-y, C-SPC, M-f, C-w, C-y, M-b, M-d, C-SPC, C-e, M-w, C-n, C-y, C-x h, C-w, C-y, {SAVE}"),
    Play("words", WORDS, f"M-u, M-c, M-l, C-f, C-t, C-n, M-q, {SAVE}"),
    Play("undos", WORDS, f"a, C-k, C-u 130 b, C-_, C-_, C-_, z, C-_, C-x u, C-n, M-d, C-_, M-q, {SAVE}"),
    Play("searches", WORDS,
         f"C-s, t, w, C-s, DEL, RET, y, C-r, o, C-r, C-g, C-s, C-s, C-s, M-f, C-s, q, RET, z, {SAVE}"),
    Play("query-replace", WORDS, f"M-%, o, n, RET, 0, 1, DEL, RET, y, RET, M-%, e, RET, RET, y, n, SPC, !, {SAVE}"),
    Play("a replacement of all, undone", WORDS, f"M-%, e, RET, E, E, RET, !, C-_, C-d, {SAVE}"),
    Play("windows", LINES, f"C-x 2, C-v, C-x o, C-u 30 C-n, C-l, z, C-x 0, C-x 2, C-x 1, M-v, {SAVE}"),
    Play("several buffers", {**WORDS, "b": b"abc"},
         "C-k, C-x C-f, b, RET, C-y, C-x 2, C-x o, C-x b, RET, C-d, C-x k, x, RET, C-x C-f, n, RET, z, "
         f"C-x b, RET, {SAVE}"),
    Play("a buffer that is removed, and found again", {**WORDS, "b": b"abc"},
         f"C-x C-f, b, RET, C-x k, RET, C-x C-f, b, RET, C-d, C-u 70 x, {SAVE}"),
    Play("commands by name", WORDS, f"C-k, M-x, y, a, n, k, RET, M-x, q, DEL, RET, M-x, C-g, C-x C-c, n, {SAVE}"),
]

# A name, the words of the command line, and what is read.
Job = collections.namedtuple("Job", "name words given")
SHOW = ("show",)
JOBS = [
    Job("mgr show: a log", SHOW, TYPED["note.ops"] + lines_of("-2.1 -4.1 w90.1<80.1")),
    Job("mgr show: nothing", SHOW, b""),
    Job("mgr show: a large family", SHOW, lines_of(FAMILY)),
    Job("mgr show: a thousand lines", SHOW,
        lines_of(" ".join(f"a{number}.1<{number - 1}.{number > 1:d}" for number in range(1, 1001)))),
    Job("mgr show: other spellings", SHOW,
        b'{ "op":"ins", "parent":[0,0], "id":[1,1], "char":"a" }\n'
        b'{"char":"\\u0062","id":[2,1],"op":"ins","parent":[1,1]}\n{"op":"\\u0064el","id":[2,1]}\n'),
    Job("mgr show: a conflict", SHOW, lines_of("a1.1<0.0 b1.1<0.0")),
    Job("mgr show: no JSON", SHOW, b"[" * 120 + b"\n"),
    Job("mgr --help", ("--help",), b""),
    Job("mgr edit --help", ("edit", "--help"), b""),
    Job("mgr --version", ("--version",), b""),
    Job("no command", ("shwo",), b""),
    Job("no option", ("edit", "note", "--replica", "0", "--rosw", "3"), b""),
]

# The files of a note whose log is compacted.
Compaction = collections.namedtuple("Compaction", "name files")
COMPACTIONS = [
    Compaction("mgr compact: a log", {"note.ops": TYPED["note.ops"] + lines_of("-2.1 -4.1 w90.1<80.1"), "note": b"oe two"}),
    Compaction("mgr compact: a large family", {"note.ops": lines_of(FAMILY)}),
    Compaction("mgr compact: a conflict", {"note.ops": lines_of("a1.1<0.0 b1.1<0.0")}),
]

# What Alice and Bob have; she connects, and he waits.
Exchange = collections.namedtuple("Exchange", "name alice bob")
ALICE = lines_of("a1.1<0.0 l2.1<1.1 i3.1<2.1 c4.1<3.1 e5.1<4.1")
BOB = lines_of("b1.2<0.0 o2.2<1.2 b3.2<2.2 -2.2")
EXCHANGES = [
    Exchange("an exchange of two notes", {"note.ops": ALICE}, {"note.ops": BOB}),
    Exchange("an exchange with a text that is not saved", {"note": b"alice"}, {"note.ops": ALICE}),
    Exchange("an exchange of a large family with no files", {}, {"note.ops": lines_of(FAMILY)}),
]

# ---- what came of it


@dataclass
class Outcomes:
    """How many growths were refused, by what came of it, and what was not as it has to be."""

    name: str
    counts: collections.Counter = field(default_factory=collections.Counter)
    faults: list = field(default_factory=list)
    # How many places there are, and at how many a refusal is not as it has to be.
    places: int = 0
    bad: int = 0

    def print(self):
        counts = (f"{self.counts[what]:>7}" for what in (WENT_ON, SAID, ENDED))
        print(f"{self.name:<48} {self.counts.total():>7} {' '.join(counts)}  {self._verdict()}", flush=True)

    def _verdict(self):
        if not self.faults:
            return "well"
        return "\n    ".join([f"{len(self.faults)} not as they have to be", *self.faults[:5]])


def tried(library, name, places, try_once):
    """Refuses at each place each growth in turn, until none is; returns what came of it.

    `try_once` answers what came of one refusal, or None if nothing was refused. If the program asked for
    more after it, it is tried once more with that refused too.
    """
    outcomes = Outcomes(name, places=len(places))
    for place, called in places:
        known, first = len(outcomes.faults), 1
        while once(outcomes, f"{called}, growth {first}", try_once, place, first, False):
            if library.asked_on:
                once(outcomes, f"{called}, growth {first} and on", try_once, place, first, True)
            first += 1
            if len(outcomes.faults) - known > MOST_FAULTS:
                break
        outcomes.bad += len(outcomes.faults) > known
    outcomes.print()
    return outcomes


def once(outcomes, called, try_once, *refusal):
    """Tries one refusal; returns what came of it, None where nothing was refused."""
    try:
        came = try_once(*refusal)
    except FAULTS as fault:
        outcomes.faults.append(f"{called}: {fault}")
        came = BAD
    outcomes.counts[came] += came is not None
    return came


# ---- a session


class Moment:
    """What a session shows after a key, and what its folder has then."""

    def __init__(self, editor, folder):
        self.rows, self.said, self.text = editor.rows(), editor.said(), editor.text()
        self.notes = Notes(folder)

    def expect_shown(self, editor):
        expect("the windows", self.rows, editor.rows())
        expect("the echo line", self.said, editor.said())


class Stage:
    """Where a play is tried: mgr, the library, and a folder that has the play's files each time."""

    def __init__(self, mgr, library):
        self.mgr, self.library, self.shown = mgr, library, Shown(mgr)
        self.folders = [library.folder / name for name in ("alice", "bob")]
        self.editors = []

    def begin(self, folder, is_refused=True, **settings):
        """Begins a session in a folder."""
        editor = Editor(self.mgr, folder, self.library.under() if is_refused else (), **settings)
        self.editors.append(editor)
        return editor

    def clear(self):
        self.library.end()
        for editor in self.editors:
            editor.kill()
        self.editors.clear()

    def expect_between(self, low, folder, high):
        """Each log has the lines of one of two moments, each text is that of one, and no text is before its log."""
        notes = Notes(folder)
        for name in low.logs() | high.logs() | notes.logs():
            lines = notes.lines(name)
            if lines != low.lines(name):
                expect(name, high.lines(name), lines)
                self.shown.text(notes.files.get(name, b""))
        for name in low.texts() | high.texts() | notes.texts():
            text = notes.files.get(name)
            if text != low.files.get(name):
                expect(name, high.files.get(name), text)
                expect(f"the log of {name}", high.lines(f"{name}.ops"), notes.lines(f"{name}.ops"))

    def expect_same(self, moment, folder):
        """The folder has the texts and the lines of that moment, and logs show their texts."""
        self.expect_between(moment.notes, folder, moment.notes)
        for name, data in Notes(folder).files.items():
            if f"{name}.ops" in moment.notes.files:
                expect(f"the text of the log of {name}", data, self.shown.text(moment.notes.files[f"{name}.ops"]))

    def expect_well(self, editor):
        expect("the end", (0, b""), editor.close())


class Trial:
    """A play, and what a run of it without refusals shows after each key."""

    def __init__(self, stage, play):
        self.stage, self.folder, self.files = stage, stage.folders[0], play.files
        self.keys, self.loaded = play.keys.split(", "), None
        put(self.folder, play.files)
        editor = stage.begin(self.folder)
        self.moments = [Moment(editor, self.folder)]
        for key in self.keys:
            editor.press(key)
            self.moments.append(Moment(editor, self.folder))
        stage.expect_well(editor)
        stage.expect_same(self.moments[-1], self.folder)

    def places(self):
        return [(0, "the start"), *((at, f"key {at}, {key}") for at, key in enumerate(self.keys, 1))]

    def refuse(self, at, first, on):
        """Refuses a growth at a key, 0 for the start; returns what came of it, None where none was refused."""
        stage, library = self.stage, self.stage.library
        put(self.folder, self.files)
        try:
            if not at:
                library.refuse(first, on)
            editor = stage.begin(self.folder)
            for key in self.keys[: at - 1] if at else ():
                editor.press(key)
            if at:
                library.refuse(first, on)
                editor.press(self.keys[at - 1])
            return self._came(editor, at) if library.end() else None
        finally:
            stage.clear()

    def _came(self, editor, at):
        """Looks at what came of a refusal, and goes on with the keys."""
        before, behind = self.moments[max(at - 1, 0)], self.moments[at]
        self.stage.expect_between(before.notes, self.folder, behind.notes)
        if editor.has_ended():
            return self._begin_again(editor)
        if editor.said() != OUT:
            behind.expect_shown(editor)
            self._press_rest(editor, at)
            return WENT_ON
        self._press_again(editor, at)
        return SAID

    def _press_again(self, editor, at):
        """Presses a key again that was refused, or all of what was asked for, if that is asked for no more."""
        before = self.moments[at - 1]
        if editor.rows() != before.rows:
            self._replace_again(editor, at)
        elif self.keys[at - 1] == "RET" and before.said.startswith("Find file: "):
            editor.press("C-g")
            self._press_rest(editor, self._opening("C-x C-f", at))
        else:
            self._press_rest(editor, at - 1)

    def _opening(self, key, at):
        """Returns how many keys there are before that one, which opened the prompt."""
        return max(i for i, opening in enumerate(self.keys[:at]) if opening == key)

    def _press_rest(self, editor, at):
        """Presses the keys after that one: each leads to what it leads to without refusals."""
        for key, moment in zip(self.keys[at:], self.moments[at + 1 :]):
            editor.press(key)
            moment.expect_shown(editor)
        self._end(editor)

    def _replace_again(self, editor, at):
        """A replacement was done, and query-replace ended out of memory: it is begun again."""
        expect("the text behind Out of memory", self.moments[at].text, editor.text())
        begin = self._opening("M-%", at)
        ends = [i for i, key in enumerate(self.keys) if key == "RET" and i > begin]
        for key in self.keys[begin : ends[1] + 1] + self.keys[at:]:
            editor.press(key)
        self._end(editor)

    def _end(self, editor):
        self.stage.expect_same(self.moments[-1], self.folder)
        self.stage.expect_well(editor)

    def _begin_again(self, editor):
        """The program has ended out of memory; another is begun on what it left, with the same keys."""
        expect("the end", WANT, editor.close())
        left = Notes(self.folder)
        editor = self.stage.begin(self.folder)
        if all(left.lines(name) == self.moments[0].notes.lines(name) for name in left.logs()):
            for key in self.keys:
                editor.press(key)
            self._end(editor)
        else:
            self._go_on(editor)
        return ENDED

    def _go_on(self, editor):
        """The log was saved: it is loaded, and the next save of a change puts the text too."""
        expect("the text that is loaded", self._loaded(), editor.text())
        editor.press(f"z {SAVE}")
        expect("the echo line", "Wrote note", editor.said())
        notes = Notes(self.folder)
        expect("the text of the log", notes.files["note"], self.stage.shown.text(notes.files["note.ops"]))
        self.stage.expect_well(editor)

    def _loaded(self):
        """Returns what a window shows at the start of the note as it is saved last."""
        if self.loaded is None:
            put(self.stage.folders[1], self.moments[-1].notes.files)
            editor = self.stage.begin(self.stage.folders[1])
            self.stage.expect_well(editor)
            self.loaded = editor.text()
        return self.loaded


class KeyTrial(Trial):
    """The same, without the start of the program."""

    def places(self):
        return super().places()[1:]


# ---- a job


class RunTrial:
    """What is run to its end, and what it does without refusals."""

    def __init__(self, stage):
        self.stage = stage
        self.wanted = self._run()

    def places(self):
        return [(0, "the job")]

    def refuse(self, _, first, on):
        self.stage.library.refuse(first, on)
        came = self._run()
        if not self.stage.library.end():
            return None
        if came == self.wanted:
            return WENT_ON
        expect("the end", WANT, (came[0], came[2]))
        self._compare(came)
        return ENDED


class JobTrial(RunTrial):
    """A job between its input and its output."""

    def __init__(self, stage, job):
        self.job = job
        super().__init__(stage)

    def _run(self):
        library, given = self.stage.library, self.job.given
        words = [*library.under(), self.stage.mgr, *self.job.words]
        ran = subprocess.run(words, cwd=library.folder, input=given, capture_output=True, timeout=SECONDS)
        return ran.returncode, ran.stdout, ran.stderr

    def _compare(self, came):
        expect("the output", self.wanted[1][: len(came[1])], came[1])


class CompactionTrial(RunTrial):
    """A log that is compacted, and the files that this leaves."""

    def __init__(self, stage, compaction):
        self.files = compaction.files
        super().__init__(stage)

    def _run(self):
        library, folder = self.stage.library, self.stage.folders[0]
        put(folder, self.files)
        words = [*library.under(), self.stage.mgr, "compact", "note"]
        ran = subprocess.run(words, cwd=folder, capture_output=True, timeout=SECONDS)
        # What is written beside may stay where no memory is left to name it by; the next compaction begins it anew.
        files = {path.name: path.read_bytes() for path in folder.iterdir() if path.name != "note.ops.new"}
        return ran.returncode, ran.stdout, ran.stderr, files

    def _compare(self, came):
        expect("the files", (b"", self.files), (came[1], came[3]))


# ---- an exchange


class ExchangeTrial:
    """Two that exchange, of which one is refused memory, and what both have without refusals."""

    def __init__(self, stage, exchange):
        self.stage, self.exchange = stage, exchange
        self._begin_both()
        self.before = [Notes(folder) for folder in stage.folders]
        self._meet()
        self.moments = [Moment(editor, folder) for editor, folder in zip(self.editors, stage.folders)]
        stage.clear()

    def places(self):
        return [(0, "the one who connects"), (1, "the one who waits")]

    def _begin_both(self, side=None):
        """Begins both; growths are refused to one alone."""
        self.port = str(free_port())
        for folder, files in zip(self.stage.folders, (self.exchange.alice, self.exchange.bob)):
            put(folder, files)
        self.editors = [self._begin(number, number == side) for number in (0, 1)]

    def _begin(self, number, is_refused=False):
        words = ("--port", self.port)
        return self.stage.begin(self.stage.folders[number], is_refused, replica=number + 1, words=words)

    def _meet(self):
        """Has Bob wait, unless he does, and Alice connect."""
        self._serve()
        self._exchange()

    def _serve(self):
        if not listens(int(self.port)):
            self.editors[1].begin("M-x replica-serve RET")
        await_listener(int(self.port), self._answers)

    def _answers(self):
        """Whether Bob waits for keys, or has ended."""
        session = self.editors[1].session
        return session.has_ended() or session.reads_keys()

    def _exchange(self):
        """Alice connects; Bob is awaited where he no more waits for a peer."""
        self.editors[0].press("M-x replica-exchange RET")
        session = self.editors[1].session
        session.settle(lambda: listens(int(self.port)) or self._answers())

    def refuse(self, side, first, on):
        """Refuses a growth to one side; returns what came of it, None where none was refused."""
        stage, library = self.stage, self.stage.library
        try:
            self._begin_both(side)
            self._ask(side)
            library.refuse(first, on)
            self._answer(side)
            return self._came(side) if library.end() else None
        finally:
            stage.clear()

    def _ask(self, side):
        """All but the last key of the one who is refused memory."""
        if side == 0:
            self._serve()
        self.editors[side].press(("M-x replica-exchange", "M-x replica-serve")[side])

    def _answer(self, side):
        """The last key, and what the other one does."""
        if side == 0:
            self.editors[0].press("RET")
            self.editors[1].session.settle(lambda: listens(int(self.port)) or self._answers())
            return
        self.editors[1].begin("RET")
        await_listener(int(self.port), self._answers)
        if listens(int(self.port)):
            self._exchange()

    def _came(self, side):
        """Looks at both, and has them exchange again."""
        for number in (0, 1):
            self._expect_own(number)
        self._expect_saved_before_reply()
        editor = self.editors[side]
        if editor.has_ended():
            expect("the end", WANT, editor.close())
            self.editors[side], came = self._begin(side), ENDED
        elif editor.said() == OUT:
            editor.press("C-g")
            came = SAID
        else:
            expect("the echo line", self.moments[side].said, editor.said())
            came = WENT_ON
        if came != WENT_ON:
            self._meet()
        self._expect_both(came, side)
        return came

    def _expect_own(self, number):
        """Each log is whole, has what was its own, and at most what the other has beside it."""
        name, low, high = "note.ops", self.before[number], self.moments[number].notes
        now = Notes(self.stage.folders[number])
        expect("what the log lost", set(), set(low.lines(name)) - set(now.lines(name)))
        expect("what nobody wrote", set(), set(now.lines(name)) - set(high.lines(name)))
        self.stage.shown.text(now.files.get(name, b""))

    def _expect_saved_before_reply(self):
        """If Alice was answered, Bob's log has all: he replies once it is saved."""
        alice = self.editors[0]
        if not alice.has_ended() and alice.said() == self.moments[0].said:
            saved = Notes(self.stage.folders[1]).lines("note.ops")
            expect("the log of the one who replied", self.moments[1].notes.lines("note.ops"), saved)

    def _expect_both(self, came, side):
        for number, (editor, moment, folder) in enumerate(zip(self.editors, self.moments, self.stage.folders)):
            expect("the text", moment.text, editor.text())
            if came == WENT_ON:
                expect("the echo line", moment.said, editor.said())
            if came == ENDED and number == side:
                self._expect_put(editor, moment, folder)
            else:
                self.stage.expect_same(moment, folder)
            self.stage.expect_well(editor)

    def _expect_put(self, editor, moment, folder):
        """If a program ended between its log and its text, the next save of a change puts this."""
        editor.press(f"z {SAVE}")
        expect("the echo line", "Wrote note", editor.said())
        notes = Notes(folder)
        lacks = set(moment.notes.lines("note.ops")) - set(notes.lines("note.ops"))
        expect("what the log lacks", set(), lacks)
        expect("the text", notes.files["note"], self.stage.shown.text(notes.files["note.ops"]))


# ---- all of it

SHORT_TRIALS = [(KeyTrial, SHORT)]
TRIALS = [(Trial, it) for it in PLAYS] + [(JobTrial, it) for it in JOBS]
TRIALS += [(CompactionTrial, it) for it in COMPACTIONS] + [(ExchangeTrial, it) for it in EXCHANGES]


def short(mgr):
    """Tries the short play; returns at how many of its keys all was as it has to be, and at how many not."""
    outcomes = played(mgr, SHORT_TRIALS)
    return sum(max(it.places - it.bad, 0) for it in outcomes), sum(it.bad for it in outcomes)


def played(mgr, trials):
    """Tries these; returns what came of each, and nothing where no library can be built."""
    try:
        library = Library()
    except OSError as why:
        print(f"refused growths are left out: {why}")
        return []
    try:
        stage = Stage(mgr, library)
        print(f"{'refused growths':<48} {'refused':>7} {WENT_ON:>7} {SAID:>7} {ENDED:>7}")
        return [play_one(stage, *trial) for trial in trials]
    finally:
        library.remove()


def play_one(stage, kind, what):
    """Tries one play, job or exchange."""
    try:
        trial = kind(stage, what)
    except FAULTS as fault:
        outcomes = Outcomes(what.name, faults=[f"without a refusal: {fault}"], bad=1)
        outcomes.print()
        return outcomes
    finally:
        stage.clear()
    return tried(stage.library, what.name, trial.places(), trial.refuse)


def main():
    words = [word for word in sys.argv[1:] if word != "--short"]
    if len(words) not in (1, 2):
        sys.exit("usage: refused_growths.py [--short] MGR [NAME]")
    mgr, name = words[0], "".join(words[1:])
    trials = SHORT_TRIALS if "--short" in sys.argv else [it for it in TRIALS if name in it[1].name]
    begin = time.monotonic()
    outcomes = played(pathlib.Path(mgr).resolve(), trials)
    counts = sum((it.counts for it in outcomes), collections.Counter())
    lost = sum(len(it.faults) for it in outcomes)
    seconds = time.monotonic() - begin
    print(f"\n{counts.total()} growths were refused in {seconds:.0f} seconds: behind {counts[WENT_ON]} mgr went on as "
          f"without, {counts[SAID]} it told, and {counts[ENDED]} ended it.")
    if lost:
        sys.exit(f"{lost} are not as they have to be")
    if outcomes:
        print("Nothing was lost.")


if __name__ == "__main__":
    main()
