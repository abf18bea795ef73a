"""Random sessions of two Emacs and one mgr-live at a hub, in which each character that is typed stands nowhere else."""

import contextlib
import fcntl
import json
import os
import pathlib
import pty
import random
import shutil
import signal
import socket
import struct
import subprocess
import termios
import threading
import time

from engines import Hub, await_that, start
from play.peers import free_port
from terminal import LIVE, ROOT, children, environment, text_of

EDITOR = ROOT / "editors" / "emacs"
CHANNEL = ROOT / "front" / "mgr-channel"
COMPILED = ROOT / "build" / "try-emacs" / "elisp"
# Characters from here on stand nowhere else; each who writes has so many of them.
LEAST, EACH = 0x20000, 0x3000
# Three undos may be waited for 120 seconds each.
PATIENCE, REST = 900, 60
# In so many sessions of all 1 MB is pasted. What redoes that takes minutes to all others on a busy machine.
LARGE, LARGE_REST = 0.1, 600
UP, DOWN, LEAVE, LEFT = b"\x10", b"\x0e", b"\x18\x03", b"\x1b[?1049l"
# An Emacs at a terminal ignores SIGPIPE, and so does this program; a batch Emacs leaves that signal as it finds it.
AS_AT_A_TERMINAL = {"restore_signals": False}


class Fault(Exception):
    """Something that is not as it has to be."""


def compiled():
    """Compiles mgr.el as a package is, and returns what the compiler said."""
    COMPILED.mkdir(parents=True, exist_ok=True)
    shutil.copy(EDITOR / "mgr.el", COMPILED)
    command = ["emacs", "-Q", "--batch", "-f", "batch-byte-compile", str(COMPILED / "mgr.el")]
    return subprocess.run(command, capture_output=True, text=True).stderr.strip()


def emacs_command(*words):
    """Returns the command of a batch Emacs that knows mgr.el and its writer."""
    folders = [word for folder in (EDITOR / "tests", COMPILED) for word in ("-L", folder)]
    return ["emacs", "-Q", "--batch", *folders, "--eval", f'(setq mgr-channel-program "{CHANNEL}")', *words]


class Emacs:
    """A batch Emacs that does what it is sent over a socket."""

    def __init__(self, mgr, folder, number, place, tools=""):
        """It joins at a place, as `--with` takes it; `tools` stands in front of its PATH."""
        self.folder, self.number, self.place = folder / str(number), number, place
        self.folder.mkdir()
        self.words = environment(mgr, self.folder)
        self.words["PATH"] = tools + self.words["PATH"]
        self.starts = 0
        self.typed, self.gone, self.faults, self.lacked = set(), set(), [], 0

    def begin(self, chance):
        """Begins it, and opens the note."""
        self.starts += 1
        path = self.folder / f"socket{self.starts}"
        listener = socket.socket(socket.AF_UNIX)
        listener.bind(str(path))
        listener.listen()
        first = LEAST + (2 * self.number + (self.starts > 1)) * EACH + 0x400 * max(0, self.starts - 2)
        served = f'(writer-serve "{path}" {first} "{chance.random()}")'
        with open(self.folder / "said", "a") as said:
            command = emacs_command("-l", "writer", "--eval", served)
            self.process = start(command, env=self.words, stdout=said, stderr=said, **AS_AT_A_TERMINAL)
        listener.settimeout(PATIENCE)
        self.link = listener.accept()[0]
        self.link.settimeout(PATIENCE)
        self.answers = self.link.makefile("r")
        self.ask(f'(writer-open "{self.folder / "note"}" (list "--with" "{self.place}"))')

    def ask(self, expression):
        """Returns what an expression gives."""
        self.send(expression)
        return self.answer()

    def send(self, expression):
        self.link.sendall(expression.replace("\n", " ").encode() + b"\n")

    def answer(self):
        try:
            line = self.answers.readline()
        except TimeoutError:
            raise Fault(f"Emacs {self.number} does not answer: {self.said()}") from None
        except ConnectionError:
            line = ""
        if not line:
            raise Fault(f"Emacs {self.number} ended with {self.process.wait(PATIENCE)}: {self.said()}")
        told = json.loads(line)
        if isinstance(told, dict) and "error" in told:
            raise Fault(f"Emacs {self.number}: {told['error']}")
        if isinstance(told, dict) and "typed" in told:
            self.note(told)
        return told

    def note(self, told):
        self.typed |= set(told["typed"])
        self.gone |= set(told["gone"])
        self.faults += told["faults"]

    def said(self):
        return (self.folder / "said").read_text()[-2000:]

    def programs(self):
        """Returns the numbers of mgr-channel and of its mgr."""
        for channel in children(self.process.pid):
            for mgr in children(channel):
                return channel, mgr
        return None

    def again(self):
        """Opens the note again, if its session ended; says whether the buffer had what the note lacked."""
        await_that("the session ends", lambda: not self.ask("(writer-told)")["live"], PATIENCE)
        told = self.ask("(writer-told)")
        self.lacked += told["lacks"]
        self.ask(f'(writer-open-again "{self.folder / "note"}" (list "--with" "{self.place}"))')

    def kill(self):
        os.kill(self.process.pid, signal.SIGKILL)
        self.process.wait()
        self.link.close()

    def leave(self):
        self.ask("(progn (mgr-leave) t)")
        self.send("(kill-emacs)")
        self.process.wait(PATIENCE)


class Typist:
    """A mgr-live in a pseudo terminal, by which somebody types."""

    def __init__(self, mgr, folder, port, chance):
        self.folder, self.chance = folder / "live", chance
        self.folder.mkdir()
        self.next = LEAST + 10 * EACH
        self.typed = set()
        words = [str(LIVE), str(self.folder / "note"), "--with", str(port)]
        environ = environment(mgr, self.folder) | {"TERM": "xterm", "COLUMNS": "80", "LINES": "24"}
        self.pid, self.master = pty.fork()
        if self.pid == 0:
            fcntl.ioctl(0, termios.TIOCSWINSZ, struct.pack("HHHH", 24, 80, 0, 0))
            os.execvpe(words[0], words, environ)
        self.shown = b""
        threading.Thread(target=self._read, daemon=True).start()
        await_that("mgr-live begins", lambda: b"live" in self.shown or b"Mg: " in self.shown, PATIENCE)

    def _read(self):
        try:
            while block := os.read(self.master, 65536):
                self.shown = (self.shown + block)[-20000:]
        except OSError:
            pass

    def type(self):
        """Types some characters somewhere."""
        keys = self.chance.choice((UP, DOWN, b"\x05", b"\x01", b"\x06\x06\x06", b"")) * self.chance.randint(1, 4)
        for _ in range(self.chance.randint(1, 8)):
            keys += chr(self.next).encode()
            self.typed.add(self.next)
            self.next += 1
        os.write(self.master, keys + self.chance.choice((b"", b" ", b"\r")))

    def leave(self):
        os.write(self.master, LEAVE)
        time.sleep(0.3)
        end = time.monotonic() + PATIENCE
        while time.monotonic() < end:
            if os.waitpid(self.pid, os.WNOHANG)[0]:
                # Another program may have this number soon.
                self.pid = None
                return
            # Once it has left the screen it asks nothing more. With 1 MB it may still take its time.
            if LEFT not in self.shown:
                with contextlib.suppress(OSError):
                    os.write(self.master, b"s")
            time.sleep(0.1)
        raise Fault(f"mgr-live does not end: {self.shown[-500:]!r}")


class Game:
    """A session of two Emacs and one mgr-live at a hub, made from a seed."""

    def __init__(self, mgr, folder, seed, kills=True):
        self.mgr, self.folder, self.seed, self.kills = mgr, folder, seed, kills
        self.chance = random.Random(seed)
        shutil.rmtree(folder, ignore_errors=True)
        folder.mkdir(parents=True)
        port = free_port()
        (folder / "hub").mkdir()
        text = "".join(self.chance.choice("abc de\n") for _ in range(self.chance.choice((0, 100, 1000))))
        (folder / "hub" / "note").write_text(text)
        self.hub, self.typist = Hub(mgr, folder / "hub", port), None
        self.writers = [Emacs(mgr, folder, number, port) for number in (1, 2)]
        for writer in self.writers:
            writer.begin(self.chance)
        self.typist = Typist(mgr, folder, port, self.chance)
        self.killed, self.is_large = [], self.chance.random() < LARGE

    def play(self, rounds):
        """Has all write at once, some times; now and then a program is killed, and 1 MB pasted."""
        large = self.chance.randrange(rounds)
        for number in range(rounds):
            for writer in self.writers:
                writer.send(f"(writer-steps {self.chance.randint(1, 12)})")
            self.typist.type()
            for writer in self.writers:
                writer.answer()
            if self.is_large and number == large:
                self.chance.choice(self.writers).ask("(writer-paste)")
            if self.kills and self.chance.random() < 0.1:
                self.kill()

    def kill(self):
        """Kills an Emacs, its mgr-channel or its mgr, while it writes."""
        writer, what = self.chance.choice(self.writers), self.chance.choice(("emacs", "mgr-channel", "mgr", "hub"))
        self.killed.append(what)
        programs = writer.programs()
        if what == "hub":
            self.hub.kill()
            time.sleep(self.chance.random())
            self.hub.begin()
        elif what == "emacs":
            writer.kill()
            if programs:
                await_that("mgr-channel ends", lambda: not pathlib.Path(f"/proc/{programs[0]}").exists(), PATIENCE)
            writer.begin(self.chance)
        elif programs:
            writer.send(f"(writer-steps {self.chance.randint(1, 12)})")
            time.sleep(self.chance.random() / 20)
            os.kill(programs[what == "mgr"], signal.SIGKILL)
            writer.answer()
            writer.again()

    def rest(self):
        """Waits until all have one text, for as long as a text changes, and returns it."""
        patience = LARGE_REST if self.is_large else REST
        end, last = time.monotonic() + patience, None
        while True:
            states = [writer.ask("(writer-state)") for writer in self.writers]
            files = [self.folder / name / "note" for name in ("hub", "live")]
            texts = [state["text"] for state in states] + [path.read_bytes().decode() for path in files if path.exists()]
            is_one = len(set(texts)) == 1 and all(state["rests"] for state in states)
            if is_one and texts == last:
                return texts[0]
            if texts != last:
                end, last = time.monotonic() + patience, texts
            if time.monotonic() > end:
                raise Fault(f"the texts stay apart: {differences(texts)}, {[state['shown'] for state in states]}")
            time.sleep(0.4)

    def check(self, text):
        """Looks for each character that was typed and that nobody deleted, and at what is left in files."""
        for writer in self.writers:
            writer.ask("(writer-told)")
        faults = [fault for writer in self.writers for fault in writer.faults]
        typed = set().union(self.typist.typed, *(writer.typed for writer in self.writers))
        gone = set().union(*(writer.gone for writer in self.writers))
        if missing := typed - gone - set(map(ord, text)):
            faults.append(f"missing: {len(missing)} of {len(typed)}: {''.join(map(chr, sorted(missing)))[:50]}")
        for writer in self.writers:
            writer.leave()
        self.typist.leave()
        self.hub.end()
        for name in ("1", "2", "live", "hub"):
            shown = text_of(self.mgr, self.folder / name / "note.ops")
            if shown != text or (self.folder / name / "note").read_bytes().decode() != text:
                faults.append(f"the files of {name} differ")
        if faults:
            raise Fault("; ".join(faults[:5]))

    def stop(self):
        """Ends what still runs."""
        for process in [self.hub.process, *(writer.process for writer in self.writers)]:
            if process.poll() is None:
                os.killpg(process.pid, signal.SIGKILL)
                process.wait()
        if pid := self.typist and self.typist.pid:
            os.kill(pid, signal.SIGKILL)
            os.waitpid(pid, 0)


def differences(texts):
    """Returns the sizes of texts, and where the first one differs from the others."""
    places = []
    for text in texts[1:]:
        at = next((i for i, (one, other) in enumerate(zip(texts[0], text)) if one != other), min(len(text), len(texts[0])))
        places.append((at, texts[0][at - 5 : at + 10], text[at - 5 : at + 10]))
    return [len(text) for text in texts], places


def play(mgr, folder, seed, rounds=12, kills=True):
    """Plays a game; returns what was killed in it, whether 1 MB was pasted, and how many characters were typed."""
    game = Game(mgr, folder, seed, kills)
    try:
        game.play(rounds)
        text = game.rest()
        game.check(text)
        return game.killed, game.is_large, sum(len(writer.typed) for writer in game.writers) + len(game.typist.typed)
    finally:
        game.stop()
