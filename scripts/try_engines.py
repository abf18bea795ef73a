#!/usr/bin/env python3
"""Tries what carries a note between four: a hub, a folder, one behind a sync tool, a branch of git, a stream of Redis.

usage: try_engines.py MGR [ENGINE..] [--seconds N] [--away N] [--seed S]. Each writes by mgr-live in a terminal of tmux,
words of their own at lines of the text; the clocks of two are wrong. Meanwhile they are killed, hung up, ended by TERM,
stopped, leave and come back, one a day later; and the engine is away, is killed, emptied, put back to an older state or
trimmed, and its lines are cut, one time for a minute, silent or slow. At the end all have one text with each word that
was typed, nothing waits, nothing was put aside, and nobody saw a conflict, a refusal or a traceback; then one who has
nothing joins, and gets that text. What is not installed is said, and left out. `make try-engines` calls it; it takes
some fifteen minutes.
"""

import argparse
import collections
import concurrent.futures
import glob
import json
import os
import pathlib
import random
import shutil
import signal
import subprocess
import sys
import threading
import time

import plain_ends  # noqa: F401
from engines import ENGINES, await_that, fail, stop_all
from live_writer import INSERTED, operations_of
from terminal import BEHIND, ROOT, Server, Terminal, environment, is_gone

FOLDER = ROOT / "build" / "try-engines"
NAME = "note"
WRITERS, SECONDS, AWAY, TOGETHER = 4, 60.0, 3.0, 240.0
ROWS, COLUMNS = 24, 140
# Seconds between two words, and between two disturbances.
WORDS, DISTURBANCES = (0.1, 0.6), (1.0, 3.0)
# Seconds that a program has for what it does.
PATIENCE = 180
HOME, DOWN, LINE_END, ENTER = b"\x1b<", b"\x0e", b"\x05", b"\r"
# By the number of a writer, what is wrong with the clock; a day has passed for one who comes back.
CLOCKS, DAY = {3: 3600, 4: -7200}, 86400
CLOCK = "".join(glob.glob("/usr/lib/*/faketime/libfaketime.so.1")[:1])
# libfaketime refuses the call by which Python sleeps, and waits for a program: there it sleeps by another one.
SLEEP = "import select, time\ntime.sleep = lambda seconds: select.select([], [], [], seconds)\n"


def state_of(terminal):
    """Returns what the mode line of a terminal ends in, without who is where."""
    said = terminal.shown()[-2].rstrip().rsplit("- ", 1)[-1]
    return "live" if said.startswith("live: ") else said


class Person:
    """One who writes by mgr-live in a terminal."""

    def __init__(self, server, engine, number, chance):
        self.server, self.engine, self.number, self.chance = server, engine, number, chance
        self.folder, self.words, self.counts = engine.home(number), [], collections.Counter()
        self.folder.mkdir(exist_ok=True)
        self.variables = environment(engine.mgr, self.folder) | {"XDG_CACHE_HOME": str(self.folder / "cache")}
        self.clock, self.seen = CLOCKS.get(number, 0), collections.Counter()
        # Variables that the next edit has, as a shell takes them.
        self.before = ""
        # Whoever holds it does something to the writer, or types.
        self.lock = threading.Lock()
        self.open()

    def open(self):
        """Opens a terminal."""
        self.counts["terminals"] += 1
        name = f"{self.engine.folder.name}-{self.number}-{self.counts['terminals']}"
        self.terminal = Terminal(self.server, name, self.folder, self.variables, ROWS, COLUMNS)

    def begin(self, words=None):
        """Begins an edit, and waits until keys are taken."""
        self.start(words)
        self.terminal.expect("an edit", self._is_begun, True, seconds=PATIENCE)

    def start(self, words=None):
        words = self.engine.address(self.number) if words is None else words
        before = f"{self.before} PATH={self.engine.tools}$PATH"
        if CLOCK and self.clock:
            home = self.variables["HOME"]
            pathlib.Path(home, "sitecustomize.py").write_text(SLEEP)
            before += f" PYTHONPATH={home} LD_PRELOAD={CLOCK} FAKETIME={self.clock:+} FAKETIME_DONT_FAKE_MONOTONIC=1"
        self.terminal.begin(f"{NAME} --as writer{self.number} {words}", before=before)

    def _is_begun(self):
        """Whether an edit is shown. If it is asked which text is gone on with, as after a kill, it is the log's."""
        shown = self.terminal.shown()
        if "f or l?" in shown:
            self.counts["asked"] += 1
            self.terminal.write("l")
            self.terminal.press("Enter")
        return "Mg: " in shown[-2]

    def live(self):
        self.terminal.expect(f"{self.number} is live", lambda: state_of(self.terminal), "live", seconds=PATIENCE)

    def write(self, text):
        """Types some words."""
        self.terminal.write(text)
        self.words += text.split()

    def type(self):
        """Types a word as a line of its own, somewhere."""
        word = f"w{self.number}.{len(self.words)}"
        keys = HOME + DOWN * self.chance.choice((0, 0, 1, 3, 8, 30)) + LINE_END + ENTER + word.encode()
        self.terminal.tmux("send-keys", "-H", *[f"{byte:02x}" for byte in keys])
        self.words.append(word)

    def note_state(self):
        self.seen[state_of(self.terminal).split()[0]] += 1

    def left(self):
        """Waits until the shell is back, and looks for what must not be said."""
        said = lambda: any(row.startswith("status ") for row in self.terminal.shown())  # noqa: E731
        self.terminal.expect("the shell", said, True, seconds=PATIENCE)
        self.expect_no_traceback()

    def expect_no_traceback(self):
        said = self.terminal.tmux("capture-pane", "-p", "-S", "-")
        if "Traceback" in said:
            fail(f"writer {self.number} reads\n{said}")

    def leave(self):
        """leaves"""
        self.terminal.leave()
        self.left()
        self.terminal.expect("the status", lambda: "status 0" in self.terminal.shown(), True)

    def signal(self, number, programs):
        """Gives programs a signal; whoever is ended by it leaves a terminal that is as it should be."""
        for program in programs:
            os.kill(program, number)
        self.left()

    def await_shown(self):
        """Waits until the last word is shown, and returns it."""
        word = self.words[-1]
        self.terminal.expect("its word", lambda: word in " ".join(self.terminal.shown()), True, seconds=PATIENCE)
        return word

    def await_logged(self):
        """Waits until the last word is shown, and then until it is in the log, which comes after that."""
        word = self.await_shown()
        logged = lambda: words_in(typed(operations_in(self.engine.log(self.number))))  # noqa: E731
        await_that(f"{word} is in the log", lambda: word in logged(), PATIENCE)

    def kill(self):
        """is killed, as if out of memory"""
        self.await_logged()
        for program in (programs := self.terminal.programs()):
            os.kill(program, signal.SIGKILL)
        self.close(programs)

    def kill_mgr(self):
        """has mgr killed"""
        self.await_logged()
        self.signal(signal.SIGKILL, self.terminal.programs()[1:])

    def terminate(self):
        """is ended by TERM right after a word"""
        self.signal(signal.SIGTERM, self.terminal.programs()[:1])

    def hang_up(self):
        """has the terminal closed right after a word is shown"""
        # With a terminal goes what no program has read of it.
        self.await_shown()
        self.close(self.terminal.programs())

    def close(self, programs):
        """Closes the terminal, and opens another one."""
        self.server.run("kill-session", "-t", self.terminal.name)
        await_that("the programs end", lambda: all(map(is_gone, programs)), PATIENCE)
        self.open()

    def write_alone(self):
        """leaves, writes without others, and comes back a day later"""
        self.leave()
        if self.number > 1:  # The first one is at the hub without a word.
            self.begin("")
            for _ in range(20):
                self.type()
            self.leave()
        self.clock += DAY
        time.sleep(2 * self.engine.seconds)

    def doze(self):
        """is stopped, as a laptop that is closed, and goes on"""
        # What they have not read the shell would.
        self.await_shown()
        live, mgr = self.terminal.programs()
        for program in (live, mgr):
            os.kill(program, signal.SIGSTOP)
        time.sleep(4 * self.engine.seconds)
        os.kill(mgr, signal.SIGCONT)
        # The shell has the terminal, as it was left: the end of a line is C-j there.
        self.terminal.write(f"fg; {BEHIND}")
        self.terminal.press("C-j")
        self.terminal.expect("an edit", self._is_begun, True, seconds=PATIENCE)

    ENDS = kill, kill_mgr, terminate, hang_up, leave, write_alone

    def ask(self, *words):
        """Returns what mgr says of the note's log."""
        return ask(self.engine.mgr, self.engine.log(self.number), *words)


def ask(mgr, log, command, *words):
    """Returns what a command of mgr says of the note that has this log."""
    return subprocess.run([mgr, command, NAME, *words], cwd=log.parent, capture_output=True).stdout


def operations_in(log):
    """Returns the operations of a log; one that is not there has none."""
    return operations_of(log.read_bytes().splitlines()) if log.exists() else {}


def typed(made):
    """Returns what each wrote in these operations: another one may write within a word of which a half has come."""
    texts = collections.defaultdict(str)
    for (kind, _, replica), value in sorted(made.items()):
        texts[replica] += value[0] if kind == INSERTED else ""
    return texts.values()


def words_in(texts):
    return {word for text in texts for word in text.split()}


class Trial:
    """Those who write by an engine."""

    def __init__(self, server, engine):
        self.server, self.engine, self.mgr, self.chance = server, engine, engine.mgr, engine.chance
        self.people = []

    def writer(self, number):
        """Returns one more, who has a terminal."""
        self.people.append(Person(self.server, self.engine, number, random.Random(self.chance.random())))
        return self.people[-1]

    def person(self, number):
        """Returns one more, who edits."""
        self.writer(number).begin()
        return self.people[-1]

    def run(self, seconds):
        for number in range(1, WRITERS + 1):
            self.person(number)
        with concurrent.futures.ThreadPoolExecutor(1) as pool:
            disturbing = pool.submit(self.disturb, seconds)
            self.write(lambda: disturbing.done())
        counts = disturbing.result()
        taken = self.come_together()
        self.leave()
        late = self.person(WRITERS + 1)
        self.come_together([late])
        late.leave()
        self.compare()
        seen = sum((person.seen for person in self.people), collections.Counter())
        words = sum(len(person.words) for person in self.people)
        print("    " + ", ".join(f"{what} ({count})" for what, count in counts.items()))
        asked = sum(person.counts["asked"] for person in self.people)
        print(f"    {words} words; the mode lines said {dict(seen)}; {asked} were asked which text is gone on with")
        print(f"    {taken:.1f} seconds after the last word all had one text with each of them")

    def write(self, is_done):
        """Types words, of whoever is there, until it is done."""
        while not is_done():
            person = self.chance.choice(self.people)
            if person.lock.acquire(blocking=False):
                try:
                    person.type()
                    person.note_state()
                finally:
                    person.lock.release()
            time.sleep(self.chance.uniform(*WORDS))

    def disturb(self, seconds):
        """Does to the engine and the writers what may be, each at least once; returns how often what was done."""
        end, counts, waits = time.monotonic() + seconds, collections.Counter(), []
        time.sleep(2)
        while time.monotonic() < end or waits:
            if not waits:
                waits = [*self.engine.disturbances, *Person.ENDS, Person.doze]
                self.chance.shuffle(waits)
            disturbance = waits.pop()
            counts[disturbance.__doc__] += 1
            self.note(disturbance.__doc__)
            if disturbance in self.engine.disturbances:
                disturbance()
            else:
                self.disturb_one(disturbance)
            time.sleep(self.chance.uniform(*DISTURBANCES))
        return counts

    def disturb_one(self, disturbance):
        """Does it to a writer, who begins again if it is an end."""
        person = self.chance.choice(self.people)
        self.note(f"    that is {person.number}")
        with person.lock:
            person.type()
            disturbance(person)
            self.note("    it is done")
            if disturbance in Person.ENDS:
                person.begin()
                self.note("    it began again")

    def note(self, what):
        """Takes note of what is done, and when."""
        with open(self.engine.folder / "done", "a") as done:
            print(time.strftime("%H:%M:%S"), what, file=done)

    def logs(self):
        return [self.engine.log(person.number) for person in self.people] + self.engine.others()

    def _is_one(self):
        return len({ask(self.mgr, log, "claims") for log in self.logs()}) == 1

    def come_together(self, people=None):
        """Waits until all logs have the same; returns how many seconds that took."""
        begun = time.monotonic()
        await_that(f"one text: {self.engine.folder}", self._is_one, TOGETHER, pause=0.5)
        for person in people or self.people:
            person.live()
        return time.monotonic() - begun

    def leave(self):
        for person in self.people:
            person.leave()

    def settle(self):
        """All come together, and leave; returns their text."""
        self.come_together()
        self.leave()
        return self.compare()

    def compare(self):
        """All have one text, which has all words; returns it."""
        text = ask(self.mgr, self.logs()[0], "show").decode()
        texts = typed(operations_in(self.logs()[0]))
        expect("how many characters there are", sum(map(len, texts)), len(text))
        words = {word for person in self.people for word in person.words}
        expect("the words that are lost", [], sorted(words - words_in(texts)))
        for log in self.logs():
            expect(f"the text of {log}", text, ask(self.mgr, log, "show").decode())
            expect(f"what waits in {log}", 0, json.loads(ask(self.mgr, log, "log", "--json"))["waiting"])
        for person in self.people:
            expect(f"what {person.number} saw", set(), person.seen.keys() - {"joining", "live", "alone"})
        self.engine.end()
        for log in self.logs():
            expect(f"the file {log.with_suffix('')}", text, log.with_suffix("").read_text())
        expect("what was put aside", [], self.put_aside(set(text.split())))
        return text

    def put_aside(self, words):
        """Returns what stands beside the notes, but where somebody was asked, and older texts of these words alone."""
        asked = [self.engine.log(person.number).parent for person in self.people if person.counts["asked"]]
        beside = [path for log in self.logs() for path in log.parent.glob("note*") if path.suffix not in ("", ".ops")]
        found = [path for path in beside if path.parent not in asked]
        return [str(path) for path in found if ".ops" in path.name or set(path.read_text().split()) - words]


def expect(what, wanted, seen):
    if seen != wanted:
        fail(f"{what}\nwanted: {repr(wanted)[:600]}\nseen:   {repr(seen)[:600]}")


def main():
    parser = argparse.ArgumentParser(description=__doc__, formatter_class=argparse.RawDescriptionHelpFormatter)
    parser.add_argument("mgr", metavar="MGR", help="a built mgr")
    parser.add_argument("engines", metavar="ENGINE", nargs="*", help=f"one of {', '.join(ENGINES)}; else all are tried")
    parser.add_argument("--seconds", metavar="N", type=float, default=SECONDS, help="for how long each is disturbed")
    parser.add_argument("--away", metavar="N", type=float, default=AWAY, help="for how long something is away")
    parser.add_argument("--seed", metavar="S", default="0", help="what the disturbances come of")
    asked = parser.parse_args()
    if not set(asked.engines) <= set(ENGINES):
        parser.error(f"engines are {', '.join(ENGINES)}")
    shutil.rmtree(FOLDER, ignore_errors=True)
    server = Server()
    signal.signal(signal.SIGTERM, lambda *_: sys.exit("ended"))
    try:
        for name in asked.engines or ENGINES:
            print(f"{name}: {ENGINES[name].__doc__}" + "; no faketime" * (not CLOCK), flush=True)
            if lacks := ENGINES[name].lacks():
                print(f"    left out: {lacks}")
                continue
            chance = random.Random(f"{asked.seed} {name}")
            engine = ENGINES[name](os.path.abspath(asked.mgr), FOLDER / name, chance, asked.away)
            Trial(server, engine).run(asked.seconds)
    finally:
        server.end()
        stop_all()
    print("All was seen as it should be.")


if __name__ == "__main__":
    main()
