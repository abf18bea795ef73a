#!/usr/bin/env python3
"""Has four write in one note while somebody attacks them, at a hub, by a folder, by Redis and by a branch of git.

usage: attackers.py MGR [NAME..] [--seconds N] [--seed S]. A NAME is that of an attacker or of an engine; without one
all come in turn, each for a minute, which takes some 40 minutes. Each writer is an mgr-live in a pseudo terminal, and
types characters that stand nowhere else; the fourth one begins while the attack goes on. A row of the table has, of an
attacker: milliseconds from a key to the own screen, and to the screens of others, 99 of 100; seconds until the fourth
was live; MB of the largest program of the front; tracebacks; how much reached a terminal that is neither text nor an
escape of the front's own; words that a note lacks at the end; seconds in which all ended by TERM; and milliseconds by
which this script itself was woken too late, which a busy machine adds to all. What is beyond its bound has a `!`, and
then the status is 1. The rows `nobody` are those without an attack. By git and by a folder others' words come by
commits and polls, and are not timed. What is not installed is said, and left out. If root calls it, nobody does it
all, whom modes bind. `make hostile-front` calls it.
"""

import argparse
import codecs
import multiprocessing
import os
import pathlib
import pwd
import random
import re
import resource
import shutil
import signal
import subprocess
import sys
import time
from contextlib import suppress

import plain_ends  # noqa: F401
from attacks import ATTACKERS
from engines import SharedBranch, SharedFolder, SharedHub, SharedStream, memory, stop_all
from liar import Liar
from terminal import LIVE, ROOT, text_of

sys.path.insert(0, str(ROOT / "bench"))

from live import LINE_BEGIN, NEXT_LINE, Screen, watch  # noqa: E402
from mgr_front import screen, view  # noqa: E402

FOLDER = ROOT / "build" / "attackers"
NOBODY = "nobody"
SECONDS, WRITERS, ROWS, COLUMNS = 60.0, 4, 12, 100
# Seconds between two keys, for a writer to begin, until what was typed is shown, and until it is in all notes; those
# of an attack before the fourth writer begins.
KEY, BEGIN, SHOWN, ARRIVED, ALONE = 0.1, 60.0, 15.0, 120.0, 2.0
# Bounds: milliseconds from a key to a screen, seconds to join and to end, and MB. A program gets no more than so much.
OWN, OTHERS, JOINED, ENDED, MOST_MEMORY, LIMIT = 100, 300, 15, 10, 200, 1 << 30
FIRST_LINE = "a line of the note"
TEXT = (FIRST_LINE + "\n") * (WRITERS + 2)
# An engine's writer of number 1 may have another way to it.
FIRST_NUMBER = 2
# The columns of the table.
WIDE, NARROW = 24, 11
# Signs that stand nowhere but where they are typed.
FIRST_SIGN, SIGN = 0x4E00, re.compile("[\u4e00-\u9fff]")
# Pictures are joined by this; a program ends its lines.
PLAIN = "\u200d\n"
# The last line of a traceback.
FAULT = re.compile(r"^[\w.]+(?:Error|Exception)\b[^\r\n]*", re.M)

STYLES = {
    view.style(number, has_colours, is_text)
    for number in range(view.COLOURS)
    for has_colours in (True, False)
    for is_text in (True, False)
}
# What the front sends beside text, the longest first.
ESCAPES = {screen.OPEN, screen.CLOSE, screen.EMPTY, view.CLEAR, view.REVERSE, view.RESET, *STYLES}
ESCAPES |= {"\x1b[?25l", "\x1b[?25h"}
OWN_ESCAPE = re.compile("|".join(map(re.escape, sorted(ESCAPES, key=len, reverse=True))) + r"|\x1b\[\d+;\d+H")
LONGEST_ESCAPE = max(map(len, ESCAPES))


def unclean(text):
    """Returns what is neither text nor the end of a line."""
    return [sign for sign in text.replace("\r\n", "\n") if not (sign.isprintable() or sign in PLAIN)]


class Writer(Screen):
    """An honest one: an mgr-live in a pseudo terminal, and what it was seen to show."""

    def __init__(self, engine, number):
        self.engine, self.number, home = engine, number, engine.home(number)
        home.mkdir(exist_ok=True)
        words = [sys.executable, LIVE, "note", *engine.address(number).split(), "--as", f"writer{number}"]
        super().__init__(words, home, ROWS, COLUMNS, MGR=engine.mgr, NO_COLOR="")
        self.decoder = codecs.getincrementaldecoder("utf-8")("surrogateescape")
        # All that it got, what of that is still to be looked at, and what is wrong with it.
        self.text = self.rest = ""
        self.unclean = []
        # When a sign was typed here, and when one was shown first; when this one began, and was live.
        self.typed, self.seen = {}, {}
        self.begun, self.live = time.monotonic(), None
        self.is_placed = self.is_gone = False

    def read(self):
        """Takes note of what came, and when."""
        self.shown = b""
        super().read()
        self.is_gone, now = not self.shown, time.monotonic()
        text = self.decoder.decode(self.shown)
        for sign in SIGN.findall(text):
            self.seen.setdefault(sign, now)
        self.text = (self.text + text)[-100_000:]
        if self.live is None and " live" in self.text[-len(text) - 10 :]:
            self.live = now
        self._look(self.rest + text)

    def _look(self, text):
        """Looks for what is neither text nor an escape of the front's own; the end may be the beginning of one."""
        at = 0
        while (begin := text.find("\x1b", at)) >= 0 and (self.is_gone or len(text) - begin > LONGEST_ESCAPE):
            found = OWN_ESCAPE.match(text, begin)
            self.unclean += unclean(text[at:begin]) + ["\x1b"] * (not found)
            at = found.end() if found else begin + 1
        end = begin if begin >= 0 else len(text) - text.endswith("\r")
        self.unclean += unclean(text[at:end])
        self.rest = text[end:]

    def has_place(self):
        """Whether it stands in a line of its own: it goes there once the note is shown, or if that takes too long."""
        if not self.is_placed and (FIRST_LINE in self.text or time.monotonic() > self.begun + JOINED):
            self.is_placed = True
            self.press(NEXT_LINE * (self.number - FIRST_NUMBER + 1))
        return self.is_placed

    def press(self, keys):
        with suppress(OSError):  # Whoever has ended by itself takes none, and a row says what is missing.
            super().press(keys)

    def type(self, sign):
        self.typed[sign] = time.monotonic()
        self.press(sign.encode() + LINE_BEGIN)

    def signal(self, number):
        if not self.is_gone:
            os.kill(self.pid, number)


def family(pid):
    """Returns a process and all that it began."""
    found = [pid]
    for task in pathlib.Path(f"/proc/{pid}/task").glob("*/children"):
        try:
            found += [each for word in task.read_text().split() for each in family(int(word))]
        except (FileNotFoundError, ProcessLookupError):
            pass  # It has just ended.
    return found


def attack(attacker, engine, seed):
    """Attacks until it is ended, which is well."""
    signal.signal(signal.SIGTERM, lambda *_: sys.exit())
    attacker.act(engine, random.Random(seed))


class Trial:
    """Four who write, and one who attacks them."""

    def __init__(self, mgr, attacker, seconds, seed):
        self.attacker, self.seconds, self.seed = attacker, seconds, f"{seed} {attacker.name}"
        self.engine = ENGINES[attacker.engine](mgr, FOLDER / attacker.name, attacker, random.Random(self.seed))
        self.writers, self.count, self.memory, self.attack = [], 0, 0.0, None
        # How many milliseconds this script was woken too late.
        self.late = []

    def run(self):
        """Returns the row of figures."""
        for _ in range(WRITERS - 1):
            writer = self.begin()
            self.watch_until(lambda: writer.live and writer.has_place(), BEGIN)
        words = self.attacker, self.engine, self.seed
        self.attack = multiprocessing.Process(target=attack, args=words, daemon=True)
        self.attack.start()
        begun = time.monotonic()
        self.type(begun + ALONE)
        late = self.begin()
        self.type(begun + self.seconds)
        self.attack.terminate()
        self.attack.join()
        if self.engine.liar:
            self.engine.liar.lies.clear()
        if self.attacker.is_apart and late.is_gone:
            late.typed.clear()  # It was sent away at the door, with a message.
        self.watch_until(self._is_shown, SHOWN)
        missing = self._missing(time.monotonic() + ARRIVED)
        ended = self.end()
        joined = late.live - late.begun if late.live else float("inf")
        return self.row(joined, missing, ended)

    def begin(self):
        """Has one more write."""
        self.writers.append(Writer(self.engine, FIRST_NUMBER + len(self.writers)))
        return self.writers[-1]

    def watch(self, seconds):
        watch([writer for writer in self.writers if not writer.is_gone], seconds)

    def watch_until(self, is_so, seconds):
        end = time.monotonic() + seconds
        while not is_so() and time.monotonic() < end:
            self.watch(0.2)

    def type(self, end):
        """Has each type in turn, whatever is shown."""
        looked = 0.0
        while (begun := time.monotonic()) < end:
            writer = self.writers[self.count % len(self.writers)]
            if writer.has_place() and not writer.is_gone:
                writer.type(chr(FIRST_SIGN + self.count))
            self.count += 1
            if begun > looked + 1:
                looked = begun
                self.weigh()
            while (left := begun + KEY - time.monotonic()) > 0:
                self.watch(left)
            self.late.append(-1000 * left)

    def weigh(self):
        """Takes note of how much memory each program had at most."""
        for pid in [writer.pid for writer in self.writers if not writer.is_gone] + self.engine.programs():
            for each in family(pid):
                try:
                    self.memory = max(self.memory, memory(each))
                except (FileNotFoundError, ProcessLookupError):
                    pass  # It has just ended.

    # ---- what came of it

    def own(self):
        """Returns the milliseconds from each key to the own screen."""
        return [self._took(writer, sign, writer) for writer in self.writers for sign in writer.typed]

    def others(self):
        """Returns those to the screens of others, from when both were live on."""
        pairs = [(writer, other) for writer in self.writers for other in self.writers if other is not writer]
        return [
            self._took(writer, sign, other)
            for writer, other in pairs
            for sign, typed in writer.typed.items()
            if writer.live and other.live and typed > max(writer.live, other.live) + 1
        ]

    @staticmethod
    def _took(writer, sign, screen):
        return 1000 * (screen.seen.get(sign, float("inf")) - writer.typed[sign])

    def _is_shown(self):
        return float("inf") not in self.own() + self.others() * self.attacker.is_timed

    def _missing(self, end):
        """Waits until all words are in all notes; returns how many are not."""
        while (missing := self._lacking()) and time.monotonic() < end:
            self.watch(2)
        return missing

    def _lacking(self):
        """Returns how many words lack in all notes, of those that should be there."""
        mgr, logs = self.engine.mgr, [self.engine.log(writer.number) for writer in self.writers]
        if self.attacker.is_apart:
            return sum(len(writer.typed.keys() - signs_of(mgr, log)) for writer, log in zip(self.writers, logs))
        words = {sign for writer in self.writers for sign in writer.typed}
        return sum(len(words - signs_of(mgr, log)) for log in logs + self.engine.others())

    def end(self):
        """Ends all; returns how many seconds that took."""
        self.weigh()
        begun = time.monotonic()
        for writer in self.writers:
            writer.signal(signal.SIGTERM)
        self.watch_until(lambda: all(writer.is_gone for writer in self.writers), BEGIN)
        for writer in self.writers:
            writer.kill()
        self.engine.end()
        return time.monotonic() - begun

    def row(self, joined, missing, ended):
        """Returns the figures of a row, each with its bound."""
        raw = sum((writer.unclean for writer in self.writers), unclean(self.engine.printed()))
        text = "\n".join([*[writer.text for writer in self.writers], self.engine.printed()])
        if raw or "Traceback" in text:
            print(f"    raw: {sorted({*raw})}; faults: {sorted({*FAULT.findall(text)})}")
        return {
            "own ms": (most(self.own()), OWN),
            "others ms": (most(self.others()), OTHERS) if self.attacker.is_timed else (None, None),
            "joined s": (joined, JOINED) if not self.attacker.is_apart else (None, None),
            "MB": (self.memory, MOST_MEMORY),
            "tracebacks": (text.count("Traceback"), 0),
            "raw": (len(raw), 0),
            "missing": (missing, 0),
            "ended s": (ended, ENDED),
            "script ms": (most(self.late), float("inf")),
        }


def most(figures):
    """Returns the figure than which one of a hundred is more at most."""
    return sorted(figures)[min(len(figures) - 1, len(figures) * 99 // 100)] if figures else float("inf")


def signs_of(mgr, log):
    """Returns the words that a log has; one that is not there has none."""
    try:
        return set(SIGN.findall(text_of(mgr, log)))
    except (OSError, subprocess.CalledProcessError):
        return set()


# ---- engines


class Directly:
    """An engine that all reach by its own port or path, or by what stands between and lies."""

    def __init__(self, mgr, folder, attacker, chance):
        self.attacker, self.liar = attacker, None
        super().__init__(mgr, folder, chance, 0.0, TEXT)
        if not isinstance(self, SharedHub):
            self.home(FIRST_NUMBER).mkdir()
            (self.home(FIRST_NUMBER) / "note").write_text(TEXT)

    def line(self, port):
        if not (self.attacker.beside or self.attacker.instead):
            return port
        self.liar = Liar(port, self.chance, self.attacker.beside, self.attacker.instead)
        return self.liar.port

    def ssh(self, _):
        pass

    def programs(self):
        return []

    def printed(self):
        return ""

    def end(self):
        if self.liar:
            self.liar.process.terminate()


class AtHub(Directly, SharedHub):
    def address(self, _):
        return f"--with {self.port}"

    def programs(self):
        return [self.hub.process.pid] if self.hub.process.poll() is None else []

    def printed(self):
        return "".join(f"{line}\n" for line in self.hub.lines())

    def end(self):
        super().end()
        self.hub.process.terminate()
        try:
            self.hub.process.wait(60)
        except subprocess.TimeoutExpired:
            pass  # The row says how long it was waited for.


class ByFolder(Directly, SharedFolder):
    pass


class ByRedis(Directly, SharedStream):
    def address(self, _):
        return f"--with {self.url(self.far)}"


class ByGit(Directly, SharedBranch):
    def open(self):
        self.path = self.folder / "shared.git"
        self.git("init", "--quiet", "--bare", "--initial-branch=notes", str(self.path), where=())
        self.places, self.disturbances = [self.path], ()


ENGINES = {"hub": AtHub, "dir": ByFolder, "redis": ByRedis, "git": ByGit}


# ---- the table


def told(figure):
    value, bound = figure
    if value is None:
        return "-"
    return f"{value:.0f}" + "!" * (value > bound)


def become_nobody():
    """Goes on as somebody whom modes bind, if root calls this, and that one may run this Python."""
    user = pwd.getpwnam(NOBODY)
    FOLDER.mkdir(parents=True)
    if os.geteuid():
        return
    try:
        subprocess.run([sys.executable, "-c", ""], user=NOBODY, check=True)
    except OSError:
        print(f"    {NOBODY} may not run {sys.executable}: no modes bind root")
        return
    os.chown(FOLDER, user.pw_uid, user.pw_gid)
    os.setgroups([])
    os.setgid(user.pw_gid)
    os.setuid(user.pw_uid)


def asked():
    """Reads the command line."""
    parser = argparse.ArgumentParser(description=__doc__, formatter_class=argparse.RawDescriptionHelpFormatter)
    parser.add_argument("mgr", metavar="MGR", help="a built mgr")
    names = [attacker.name for attacker in ATTACKERS]
    parser.add_argument("names", metavar="NAME", nargs="*", help=f"one of {', '.join([*ENGINES, *names])}")
    parser.add_argument("--seconds", metavar="N", type=float, default=SECONDS, help="for how long each attacks")
    parser.add_argument("--seed", metavar="S", default="0", help="what the attacks come of")
    made = parser.parse_args()
    if wrong := {*made.names} - {*ENGINES, *names}:
        parser.error(f"nobody is called {', '.join(sorted(wrong))}")
    made.chosen = [each for each in ATTACKERS if not made.names or {each.name, each.engine} & {*made.names}]
    return made


def main():
    words = asked()
    shutil.rmtree(FOLDER, ignore_errors=True)
    become_nobody()
    resource.setrlimit(resource.RLIMIT_AS, (LIMIT, LIMIT))
    signal.signal(signal.SIGTERM, lambda *_: sys.exit("ended"))
    rows = {}
    try:
        for attacker in words.chosen:
            if lacks := ENGINES[attacker.engine].lacks():
                print(f"{attacker.name}: left out: {lacks}")
                continue
            print(f"{attacker.name}: {attacker.act.__doc__}", flush=True)
            trial = Trial(os.path.abspath(words.mgr), attacker, words.seconds, words.seed)
            rows[attacker.name] = trial.run()
            stop_all()
    finally:
        stop_all()
    print()
    bad = [name for name, row in rows.items() if any("!" in told(figure) for figure in row.values())]
    for name, row in rows.items():
        if name == [*rows][0]:
            print(" " * WIDE + "".join(f"{what:>{NARROW}}" for what in row))
        print(f"{name:{WIDE}}" + "".join(f"{told(figure):>{NARROW}}" for figure in row.values()))
    if bad:
        sys.exit(f"beyond a bound: {', '.join(bad)}")
    print("All was seen as it should be.")


if __name__ == "__main__":
    main()
