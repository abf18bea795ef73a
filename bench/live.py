#!/usr/bin/env python3
"""Measures what writing together is like, with mgr-live in pseudo terminals, and beside it what else there is.

usage: live.py [--mgr MGR] [--keys N] [--idle N] [--size N] [PART..]. Prints a row a figure, with what is wanted of it.
From a key to a screen it is the time until the screen is sent what the key typed, a character that stands nowhere else.
`turns` is four who type ten keys a second in turn; `no pause` is one who types as soon as the own screen has the last
one, and `flood` the own keys of one while a peer sends as much as it can. Beside these stand crdt.el of Debian's
package elpa-crdt, four emacsclients of one Emacs, four clients of one tmux with mg, and mg, Emacs and mgr-live alone.
What is not installed is said, and left out. All figures are by the clock: what else the processors did is told at each
part's end.
"""

import argparse
import fcntl
import json
import os
import pathlib
import pty
import re
import select
import shutil
import signal
import socket
import statistics
import struct
import subprocess
import sys
import termios
import threading
import time

ROOT = pathlib.Path(__file__).resolve().parent.parent
sys.path.insert(0, str(ROOT / "scripts"))

import engines  # noqa: E402
from line import Line  # noqa: E402
from play.peers import HOST, free_port  # noqa: E402
from terminal import children  # noqa: E402

FOLDER = ROOT / "build" / "bench" / "live"
LIVE = [sys.executable, ROOT / "front" / "mgr-live"]
# The sizes of notes, and what is wanted of the median to the others.
SIZES, USUAL = {1_000: 30, 100_000: 50, 900_000: 100}, 100_000
WRITERS, KEYS, EACH, IDLE = 4, 300, 0.1, 60.0
ROWS, COLUMNS = 30, 100
FIRST_LINE = b"a line of the note"
LINE_BEGIN, NEXT_LINE, LEAVE, UNDO = b"\x01", b"\x0e", b"\x18\x03s", b"\x1f"
PASTE, PASTED = b"\x1b[200~", b"\x1b[201~"
CSI = re.compile(rb"\x1b\[[0-9;?]*[ -/]*[@-~]|\x1b[()][A-Z0-9]|\x1b[=>]")
CRDT = "/usr/share/emacs/site-lisp/elpa"
QUIET = "(setq inhibit-startup-screen t make-backup-files nil auto-save-default nil create-lockfiles nil)"
# Characters that no screen has beside the text: for what shows more than ASCII, and for what does not.
WIDE, NARROW = [chr(0x4E00 + i) for i in range(5000)], list("QZXJKVWY") * 1000


def text_of(size):
    lines = (FIRST_LINE.decode() + "\n") * WRITERS
    return lines + "".join(f"{i:7} the quick brown fox\n" for i in range(size // 28))


def note_of(size, name="1"):
    """Returns the path of a note of this size, in a folder of this name, which is all that there is."""
    shutil.rmtree(FOLDER, ignore_errors=True)
    folder = FOLDER / name
    folder.mkdir(parents=True)
    (folder / "note").write_text(text_of(size))
    return folder / "note"


# ---- screens


class Screen:
    """A program in a pseudo terminal, and what it sent since it was last cleared."""

    def __init__(self, command, folder, rows=ROWS, columns=COLUMNS, **variables):
        folder.mkdir(parents=True, exist_ok=True)
        words = [str(word) for word in command]
        named = {"XDG_STATE_HOME": folder / "state", "XDG_CACHE_HOME": folder / "cache", "HOME": folder}
        named |= {"LC_ALL": "C.UTF-8", "TERM": "xterm-256color", "NO_COLOR": "1"} | variables
        self.pid, self.master = pty.fork()
        if self.pid == 0:
            os.chdir(folder)
            fcntl.ioctl(0, termios.TIOCSWINSZ, struct.pack("HHHH", rows, columns, 0, 0))
            os.execvpe(words[0], words, os.environ | {name: str(value) for name, value in named.items()})
        self.shown = b""

    def read(self):
        try:
            self.shown += os.read(self.master, 65536)
        except OSError:
            pass

    def press(self, keys):
        while keys:
            keys = keys[os.write(self.master, keys[:4096]) :]

    def has(self, sign):
        return sign in CSI.sub(b"", self.shown)

    def end(self):
        """Has it leave; one that does not is killed."""
        self.press(LEAVE)
        end = time.monotonic() + 10
        while time.monotonic() < end:
            watch([self], 0.1)
            if os.waitpid(self.pid, os.WNOHANG)[0]:
                return
        self.kill()

    def kill(self):
        os.kill(self.pid, signal.SIGKILL)
        os.waitpid(self.pid, 0)


def watch(screens, seconds):
    """Reads what is shown for at most so long, and returns when something came."""
    ready, _, _ = select.select([screen.master for screen in screens], [], [], max(0.0, seconds))
    for screen in screens:
        if screen.master in ready:
            screen.read()


def rest(screens, seconds):
    """Reads what is shown for so long."""
    end = time.monotonic() + seconds
    while (left := end - time.monotonic()) > 0:
        watch(screens, left)


def await_all(screens, sign, seconds=180.0, all_screens=()):
    """Returns how many milliseconds it took until each of the screens was sent a sign."""
    begun, took = time.monotonic(), {}
    while len(took) < len(screens):
        if time.monotonic() > begun + seconds:
            sys.exit(f"{sign!r} is not shown to all: {[screen.shown[-300:] for screen in screens]}")
        watch(all_screens or screens, 0.5)
        for screen in screens:
            if screen not in took and screen.has(sign):
                took[screen] = 1000 * (time.monotonic() - begun)
    return [took[screen] for screen in screens]


def await_last(screen, sign):
    """Returns how many milliseconds it took until a screen was sent a character, however much came before it."""
    begun = time.monotonic()
    while not screen.has(sign):
        screen.shown = b""
        watch([screen], 0.5)
    return 1000 * (time.monotonic() - begun)


# ---- rows


def row(name, figures, *wanted):
    """Prints the median, the 99th of 100 and the worst of milliseconds, beside what is wanted of them."""
    figures = sorted(figures)
    seen = statistics.median(figures), figures[min(len(figures) - 1, len(figures) * 99 // 100)], figures[-1]
    said = zip(("median", "99 of 100", "worst"), seen, (*wanted, None, None, None))
    parts = [f"{what} {figure:7.1f}{aim(figure, want)}" for what, figure, want in said]
    print(f"    {name:34} {'  '.join(parts)} ms, of {len(figures)}", flush=True)


def aim(figure, wanted):
    if wanted is None:
        return ""
    return f" ({'well' if figure <= wanted else 'MORE'}, {wanted:g})"


def figure_row(name, figure, unit, wanted=None):
    print(f"    {name:34} {figure:9.2f} {unit}{aim(figure, wanted)}", flush=True)


def processor(pid):
    """Returns the seconds of processor that a process took so far, with the programs that it ran and that ended."""
    words = pathlib.Path(f"/proc/{pid}/stat").read_text().rsplit(")", 1)[1].split()
    return sum(map(int, words[11:15])) / os.sysconf("SC_CLK_TCK")


def machine():
    """Returns the seconds of processor that all took so far, of all processors."""
    words = pathlib.Path("/proc/stat").read_text().split("\n")[0].split()[1:]
    busy = sum(map(int, words)) - int(words[3]) - int(words[4])
    return busy / os.sysconf("SC_CLK_TCK")


class Load:
    """What the machine does beside what is measured."""

    def __init__(self):
        self.begun, self.busy = time.monotonic(), machine()

    def tell(self):
        seconds = time.monotonic() - self.begun
        used, count = (machine() - self.busy) / seconds, os.cpu_count()
        said = f"{used:.1f} of {count} processors were busy, load {os.getloadavg()[0]:.1f}"
        print(f"    {said}" + ": A BUSY MACHINE, no figures to keep" * (os.getloadavg()[0] > count / 2), flush=True)


# ---- what is typed


def in_turn(screens, signs, count, end=LINE_BEGIN):
    """Each types in turn; returns the milliseconds to the own screen, and to the last of the others."""
    own, others = [], []
    for i in range(count):
        writer = i % len(screens)
        for screen in screens:
            screen.shown = b""
        sign, begun = signs[i].encode(), time.monotonic()
        screens[writer].press(sign + end)
        took = await_all(screens, sign)
        own.append(took[writer])
        others.append(max(took))
        rest(screens, begun + EACH - time.monotonic())
    return own, others


def without_pause(screens, signs, count):
    """One types as soon as the own screen has the last one; returns the milliseconds to that, and to all others."""
    writer, *others = screens
    for screen in screens:
        screen.shown = b""
    typed, took, own = {}, {}, []
    end = time.monotonic() + 60
    at = 0
    while len(took) < count and time.monotonic() < end:
        if at < count and (not at or writer.has(signs[at - 1].encode())):
            if at:
                own.append(1000 * (time.monotonic() - typed[at - 1]))
            typed[at] = time.monotonic()
            writer.press(signs[at].encode() + LINE_BEGIN)
            writer.shown, at = b"", at + 1
        watch(screens, 0.2)
        for number in typed.keys() - took.keys():
            if all(screen.has(signs[number].encode()) for screen in others):
                took[number] = 1000 * (time.monotonic() - typed[number])
    return own, list(took.values())


def own_keys(screen, signs, count, pause=0.02):
    """Returns the milliseconds from each key to its echo."""
    own = []
    for i in range(count):
        screen.shown = b""
        screen.press(signs[i].encode())
        own += await_all([screen], signs[i].encode())
        if i % 40 == 39:
            screen.press(b"\r")
        rest([screen], pause)
    return own


# ---- writers at a hub


class Hub:
    """A mgr-hub with a note, and those who write at it, each by a line that counts."""

    def __init__(self, mgr, size, by_line=False):
        self.mgr, self.by_line = mgr, by_line
        self.note = note_of(size, "hub")
        self.hub = engines.Hub(mgr, self.note.parent, free_port())
        self.port = self.hub.port
        self.screens, self.lines, self.joined = [], [], []

    def join(self, count=WRITERS):
        for number in range(1, count + 1):
            self.lines += [Line(self.port)] * self.by_line
            port = self.lines[-1].port if self.by_line else self.port
            begun = time.monotonic()
            self.screens.append(front(self.mgr, number, f"{port}"))
            await_all(self.screens[-1:], FIRST_LINE)
            self.joined.append(1000 * (time.monotonic() - begun))
            await_all(self.screens[-1:], b" live")
        at_lines(self.screens)
        return self.screens

    def end(self):
        """Has all leave; returns the text that all have then."""
        end_all(self.screens)
        self.hub.end()
        notes = [self.note, *(FOLDER / str(i + 1) / "note" for i in range(len(self.screens)))]
        texts = {note.read_text() for note in notes}
        if len(texts) != 1:
            sys.exit(f"the texts differ: {list(map(len, texts))}")
        return texts.pop()

    def programs(self, kind):
        """Returns the processes of the hub or of the fronts, each with its mgr."""
        pids = [self.hub.process.pid] if kind == "hub" else [screen.pid for screen in self.screens]
        return [each for pid in pids for each in (pid, *children(pid))]


def front(mgr, number, address):
    words = ["note", *(["--with", address] if address else []), "--replica", str(number)]
    return Screen([*LIVE, *words], FOLDER / str(number), MGR=mgr)


def at_lines(screens):
    """Has each stand in a line of its own."""
    rest(screens, 1)
    for i, screen in enumerate(screens):
        screen.press(NEXT_LINE * i)
    rest(screens, 1)


def together(screens, signs, median, count):
    own, others = in_turn(screens, signs, count)
    row("turns, to the own screen", own, 2, None, 50)
    row("turns, to the three others", others, median, 150)
    own, others = without_pause(screens, signs[count:], count)
    row("no pause, to the own screen", own, 2, None, 50)
    row("no pause, to the three others", others, median, 150)


def usual(asked):
    """Returns the size of a note where one is enough."""
    return asked.size or USUAL


def sizes(asked):
    """Yields sizes of notes, and what is wanted of the median."""
    for size, median in SIZES.items():
        if asked.size in (None, size):
            print(f"  {size:,} characters")
            yield size, median


def hub(asked):
    """four at a hub"""
    for size, median in sizes(asked):
        served = Hub(asked.mgr, size)
        screens = served.join()
        row("joining", served.joined, 500 if size == USUAL else None)
        together(screens, WIDE, median, asked.keys)
        served.end()


def flood(asked):
    """own keys, while a peer of the hub sends as much as it can"""
    served = Hub(asked.mgr, usual(asked))
    screens = served.join(1)
    stop = threading.Event()
    flooding = threading.Thread(target=_flood, args=(served.port, stop))
    flooding.start()
    row("own keys", own_keys(screens[0], WIDE, asked.keys), 2, None, 50)
    stop.set()
    flooding.join()
    rest(screens, 5)
    served.end()


def _flood(port, stop):
    """Inserts characters under the number 77, as fast as they are taken, and reads what comes."""
    with socket.create_connection((HOST, port)) as link:
        link.sendall(b'{"op":"hello","version":1,"replica":77,"name":"flood","token":"f"}\n')
        for counter in range(1_000_000, 1_400_000, 100):
            lines = [{"char": "x", "id": [counter + i, 77], "op": "ins", "parent": [0, 0]} for i in range(100)]
            given = b"".join(json.dumps(line, separators=(",", ":")).encode() + b"\n" for line in lines)
            while given and not stop.is_set():
                ready, free, _ = select.select([link], [link], [], 0.1)
                if ready:
                    link.recv(65536)
                if free:
                    given = given[link.send(given, socket.MSG_DONTWAIT) :]


def quiet(asked):
    """four who do nothing for a minute, and then type ten keys a second each"""
    served = Hub(asked.mgr, usual(asked), True)
    screens = served.join()
    rest(screens, 5)
    _spent(served, "idle", lambda: rest(screens, asked.idle), 0.1, None, None)

    def type_all():
        for i in range(int(asked.idle / EACH)):
            begun = time.monotonic()
            for screen in screens:
                screen.press(b"k")
                rest(screens, EACH / WRITERS - 0.001)
            rest(screens, begun + EACH - time.monotonic())

    _spent(served, "four who type", type_all, 5, 5, 25)
    served.end()


def _spent(served, name, act, part, front_bytes, hub_bytes):
    """Tells what it cost to do something: of each process the part of a processor, and the bytes of the lines."""
    programs = {kind: served.programs(kind) for kind in ("hub", "front")}
    before = {pid: processor(pid) for pids in programs.values() for pid in pids}
    bytes_before, begun = [sum(line.bytes()) for line in served.lines], time.monotonic()
    act()
    seconds = time.monotonic() - begun
    for kind, pids in programs.items():
        spent = max(processor(pid) - before[pid] for pid in pids)
        figure_row(f"{name}: a process of a {kind}", 100 * spent / seconds, "% of a processor at most", part)
    passed = [(sum(line.bytes()) - old) / seconds for line, old in zip(served.lines, bytes_before)]
    figure_row(f"{name}: a front", max(passed) / 1000, "KB/s at most", front_bytes)
    figure_row(f"{name}: the hub", sum(passed) / 1000, "KB/s", hub_bytes)


def paste(asked):
    """50,000 characters pasted, and taken back by one C-_"""
    served = Hub(asked.mgr, usual(asked))
    screens = served.join(2)
    lines = "".join(f"{i:6} pasted line of the text\n" for i in range(50_000 // 32))
    took, back = [], []
    for i in range(min(5, asked.keys)):
        sign = chr(0x6E00 + i)
        for screen in screens:
            screen.shown = b""
        screens[0].press(PASTE + (lines + sign).encode() + PASTED)
        took.append(max(await_all(screens[:1], sign.encode(), all_screens=screens)))
        await_all(screens[1:], sign.encode(), all_screens=screens)
        rest(screens, 1)
        screens[0].shown = b""
        screens[0].press(UNDO)
        back.append(await_all(screens[:1], FIRST_LINE, all_screens=screens)[0])
        rest(screens, 1)
    row("a paste of 50 KB", took, 200)
    row("one C-_ takes it back", back)
    if served.end() != text_of(usual(asked)):
        sys.exit("one C-_ does not take it back")


def large(asked):
    """100,000 characters pasted by one who writes alone, on 200 rows of 500 columns"""
    words = text_of(100_000).replace("\n", " ")
    wide = "\n".join(words[i : i + 499] for i in range(0, len(words), 500))
    for name, text in (("lines of 28 characters", text_of(100_000)), ("lines of 499", wide), ("one line", words)):
        for how, begin, end in (("marked as a paste", PASTE, PASTED), ("as if it were typed", b"", b"")):
            note = note_of(1_000)
            screen = Screen([*LIVE, note, "--replica", "1"], note.parent, 200, 500, MGR=asked.mgr)
            await_all([screen], FIRST_LINE)
            rest([screen], 1)
            screen.shown = b""
            pressing = threading.Thread(target=screen.press, args=(begin + text.encode().replace(b"\n", b"\r") + end + b"@",))
            pressing.start()
            row(f"{name}, {how}", [await_last(screen, b"@")], 1000)
            pressing.join()
            screen.kill()


def redis(asked):
    """four by a stream of Redis"""
    if lacking := engines.SharedStream.lacks():
        print(f"    left out: {lacking}")
        return
    note_of(usual(asked))
    stream = engines.SharedStream(asked.mgr, FOLDER / "redis", None, 0.0)
    screens = begin_all(asked, stream.url(stream.port))
    together(screens, WIDE, 50, asked.keys)
    end_all(screens)
    stream.stop()


def git(asked):
    """four by a branch of git on this machine"""
    if lacks("git"):
        return
    note_of(usual(asked))
    subprocess.run(["git", "init", "--quiet", "--bare", FOLDER / "note.git"], check=True)
    screens = begin_all(asked, f"git:{FOLDER / 'note.git'}#notes")
    # What the first ones gave is committed.
    rest(screens, 31)
    took = []
    for writer, sign in zip(screens, WIDE):
        for screen in screens:
            screen.shown = b""
        writer.press(sign.encode() + LINE_BEGIN)
        took.append(max(await_all(screens, sign.encode())))
    row("to the three others", took, 32_000)
    end_all(screens)


def begin_all(asked, address):
    """Begins four; the first one brings the note, by a key: a plain text is nobody's before."""
    screens = []
    for number in range(1, WRITERS + 1):
        screens.append(front(asked.mgr, number, address))
        await_all(screens[-1:], FIRST_LINE, all_screens=screens)
        await_all(screens[-1:], b" live", all_screens=screens)
        screens[-1].press(b"x\x7f" * (number == 1))
        rest(screens, 1)
    at_lines(screens)
    return screens


def end_all(screens):
    """Has all leave, once nothing is shown any more."""
    shown = None
    while shown != (shown := [len(screen.shown) for screen in screens]):
        rest(screens, 4)
    for screen in screens:
        screen.end()


# ---- what else there is


def lacks(*programs):
    """Says which of these programs is not installed, if one is not."""
    missing = [program for program in programs if not shutil.which(program)]
    if missing:
        print(f"    left out: {', '.join(missing)} is not installed")
    return bool(missing)


def emacs(number, *forms, words=("-Q",)):
    return Screen(["emacs", "-nw", *words, "--eval", f"(progn {QUIET} {' '.join(forms)})"], FOLDER / str(number))


def crdt(asked):
    """four Emacs with crdt.el"""
    if lacks("emacs"):
        return
    if not list(pathlib.Path(CRDT).glob("crdt-*")):
        print("    left out: elpa-crdt is not installed")
        return
    folder = next(pathlib.Path(CRDT).glob("crdt-*"))
    loads = f"(add-to-list 'load-path \"{folder}\") (require 'crdt)"
    loads += " (setq crdt-ask-for-name nil crdt-ask-for-password nil)"
    for size, median in sizes(asked):
        note_of(size)
        port, joined = free_port(), []
        screens = [emacs(1, loads, f'(find-file "note") (crdt-share-buffer "all" {port})')]
        await_all(screens, FIRST_LINE)
        for number in range(2, WRITERS + 1):
            screens.append(emacs(number, loads, '(message "all is loaded")'))
            await_all(screens[-1:], b"all is loaded", all_screens=screens)
            rest(screens, 1)
            joined.append(connect(screens, f'(crdt-connect (url-generic-parse-url "tcp://{HOST}:{port}") "w{number}")'))
        row("joining", joined, 500 if size == USUAL else None)
        screens[0].press(b"\x1b<")
        at_lines(screens)
        together(screens, WIDE, median, asked.keys)
        for screen in screens:
            screen.kill()


def connect(screens, form):
    """Has the last of the screens connect, and open the note; returns the milliseconds to its text."""
    screen = screens[-1]
    screen.shown, begun = b"", time.monotonic()
    screen.press(b"\x1b:" + form.encode() + b"\r")
    await_all([screen], b" note", all_screens=screens)
    screen.press(b"\x1b<\r")
    await_all([screen], b"brown fox", all_screens=screens)
    took = 1000 * (time.monotonic() - begun)
    screen.shown = b""
    screen.press(b"\x181\x1b<\x0c")
    await_all([screen], FIRST_LINE, all_screens=screens)
    return took


def clients(command):
    """Returns four screens with a client each of one program that has the note."""
    screens = [Screen(command, FOLDER / str(number)) for number in range(1, WRITERS + 1)]
    await_all(screens, FIRST_LINE)
    return screens


def one_emacs(asked):
    """four emacsclients of one Emacs"""
    if lacks("emacs", "emacsclient"):
        return
    note, place = note_of(usual(asked)), FOLDER / "socket"
    subprocess.run(["emacs", "-Q", f"--daemon={place}", "--eval", f"(progn {QUIET})"], check=True, capture_output=True)
    screens = clients(["emacsclient", "-nw", "-s", place, note])
    at_lines(screens)
    together(screens, WIDE, 50, asked.keys)
    end = "(let (kill-emacs-hook) (kill-emacs))"
    subprocess.run(["emacsclient", "-s", place, "--eval", end], capture_output=True)


def one_tmux(asked):
    """four clients of one tmux, in which mg runs"""
    if lacks("tmux", "mg"):
        return
    note = note_of(usual(asked))
    tmux = ["tmux", "-u", "-L", f"bench-{os.getpid()}", "-f", "/dev/null"]
    subprocess.run([*tmux, "new-session", "-d", "-x", str(COLUMNS), "-y", str(ROWS), "mg", note], check=True)
    screens = clients([*tmux, "attach"])
    rest(screens, 1)
    own, others = in_turn(screens, NARROW, asked.keys, b"")
    row("turns, to the own screen", own, 2, None, 50)
    row("turns, to the three others", others, 50, 150)
    subprocess.run([*tmux, "kill-server"])


def alone(asked):
    """own keys of one who writes alone"""
    for name, command, signs in (
        ("mgr-live", [*LIVE, "note", "--replica", "1"], WIDE),
        ("mg", ["mg", "note"], NARROW),
        ("emacs -nw -Q", ["emacs", "-nw", "-Q", "--eval", f"(progn {QUIET})", "note"], WIDE),
    ):
        if lacks(str(command[0])):
            continue
        screen = Screen(command, note_of(usual(asked)).parent, MGR=asked.mgr)
        await_all([screen], FIRST_LINE)
        rest([screen], 1)
        row(name, own_keys(screen, signs, asked.keys), 2, None, 50)
        screen.kill()


PARTS = {part.__name__: part for part in (alone, large, hub, flood, quiet, paste, redis, git, crdt, one_emacs, one_tmux)}


def measure(parser, parts):
    """Measures the parts that the command line names, of these, and tells what else the processors did meanwhile."""
    parser.add_argument("--mgr", metavar="PATH", default=str(ROOT / "build" / "mgr"), help="another mgr")
    parser.add_argument("parts", metavar="PART", nargs="*", help=f"of {', '.join(parts)}; else all")
    asked = parser.parse_args()
    if not set(asked.parts) <= set(parts):
        parser.error(f"parts are {', '.join(parts)}")
    asked.mgr = os.path.abspath(asked.mgr)
    try:
        for name in asked.parts or parts:
            print(f"{name}: {parts[name].__doc__}", flush=True)
            load = Load()
            parts[name](asked)
            load.tell()
    finally:
        engines.stop_all()


def main():
    parser = argparse.ArgumentParser(description=__doc__, formatter_class=argparse.RawDescriptionHelpFormatter)
    parser.add_argument("--keys", metavar="N", type=int, default=KEYS, help="how many keys a row is measured with")
    parser.add_argument("--idle", metavar="N", type=float, default=IDLE, help="for how many seconds nothing is done")
    parser.add_argument("--size", metavar="N", type=int, choices=SIZES, help="only notes of so many characters")
    measure(parser, PARTS)


if __name__ == "__main__":
    main()
