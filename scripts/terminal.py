"""A terminal of tmux with a shell in it, and somebody who types and looks.

tmux takes the place of a terminal. What somebody expects to see is waited for; what is not seen in
time ends the script, with the screen.
"""

import os
import pathlib
import shutil
import subprocess
import sys
import time

ROOT = pathlib.Path(__file__).resolve().parent.parent
LIVE = ROOT / "front" / "mgr-live"
BEHIND = 'echo "status $?"; stty -g | cmp - terminal && echo same terminal'
ROWS, COLUMNS = 10, 60
# What is said of a new note stands in the echo line, and for ten seconds.
NEW, SECONDS = "New: C-x C-s saves, C-x C-c leaves, C-_ undoes, C-h helps", 20


class Server:
    """A tmux of this script's own, which ends with it."""

    def __init__(self):
        if shutil.which("tmux") is None:
            sys.exit("tmux is not installed, and it takes the place of a terminal here")
        self.command = ["tmux", "-u", "-L", f"mgr-try-{os.getpid()}", "-f", "/dev/null"]

    def run(self, *words):
        """Returns what tmux answers."""
        return subprocess.run([*self.command, *words], check=True, capture_output=True, text=True).stdout

    def end(self):
        subprocess.run([*self.command, "kill-server"], stderr=subprocess.DEVNULL)


class Terminal:
    """A terminal with a shell, which begins in a folder."""

    def __init__(self, server, name, folder, words, rows=ROWS, columns=COLUMNS):
        """`words` are the variables of its environment."""
        self.server, self.name, self.folder, self.words = server, name, folder, words
        self.rows, self.columns = rows, columns
        self.mgr, self.live = words["MGR"], LIVE
        given = [word for key, value in words.items() for word in ("-e", f"{key}={value}")]
        size = ["-x", str(columns), "-y", str(rows)]
        server.run("new-session", "-d", "-s", name, *size, "-c", str(folder), *given, "exec sh")
        self.shell("PS1='$ '; stty -g >terminal")
        self.expect("the shell", (folder / "terminal").exists, True)

    def another(self, name):
        """Returns a further terminal in the same folder."""
        return Terminal(self.server, f"{self.name}-{name}", self.folder, self.words, self.rows, self.columns)

    def tmux(self, command, *words):
        return self.server.run(command, "-t", self.name, *words)

    def ask(self, question):
        """Returns what tmux says of the terminal."""
        return self.tmux("display", "-p", question).strip()

    def shown(self):
        """Returns the rows of the terminal."""
        rows = self.tmux("capture-pane", "-p").split("\n")[: self.rows]
        return [row.rstrip() for row in rows] + [""] * (self.rows - len(rows))

    def reversed_rows(self):
        """Returns which rows are drawn in reverse."""
        rows = self.tmux("capture-pane", "-p", "-e").split("\n")
        return [i for i, row in enumerate(rows) if "\x1b[7m" in row]

    def cursor(self):
        """Returns the row and the column of the cursor."""
        column, row = self.ask("#{cursor_x} #{cursor_y}").split()
        return int(row), int(column)

    def press(self, *keys):
        self.tmux("send-keys", *keys)

    def write(self, text):
        self.tmux("send-keys", "-l", text)

    def paste(self, text):
        """Pastes a text, marked as such where the program asked for that."""
        file = self.folder / "pasted"
        file.write_bytes(text)
        self.server.run("load-buffer", str(file))
        self.tmux("paste-buffer", "-p", "-r")
        file.unlink()

    def resize(self, rows, columns):
        self.tmux("resize-window", "-x", str(columns), "-y", str(rows))
        self.rows, self.columns = rows, columns

    def scribble(self, text):
        """Writes over the screen, as a program in the background does."""
        with open(self.ask("#{pane_tty}"), "w") as tty:
            tty.write(text)

    def shell(self, line):
        """Has the shell do a line, from an empty screen."""
        self.write(f"clear; {line}")
        self.press("Enter")

    def begin(self, words, before=""):
        """Starts mgr-live; after it the shell says its status and whether the terminal is as before."""
        self.shell(f"{before} {LIVE} {words}; {BEHIND}")

    def programs(self):
        """Returns the process numbers of mgr-live and of its mgr."""
        live = children(int(self.ask("#{pane_pid}")))[0]
        return live, [child for child in children(live) if " --live " in command_of(child)][0]

    def picture(self):
        print("\n".join("    | " + row for row in self.shown()))

    def fail(self, what, wanted, seen):
        print(f"NOT AS IT SHOULD BE: {what}\nwanted: {wanted}\nseen:   {seen}\nthe screen of {self.name}:")
        self.picture()
        sys.exit(1)

    def expect(self, what, look, wanted, seconds=SECONDS):
        """Waits until what is looked at is what is wanted."""
        end = time.monotonic() + seconds
        while (seen := look()) != wanted:
            if time.monotonic() > end:
                self.fail(what, wanted, seen)
            time.sleep(0.02)

    def see(self, what, rows, place=None, seconds=SECONDS):
        """Waits for rows, by their numbers, and for this place of the cursor; says what was seen.

        Whether a mode line says that its buffer is changed is not looked at: that ends by itself.
        """

        def look():
            shown = self.shown()
            return {i: unmarked(shown[i]) for i in rows}, place and self.cursor()

        self.expect(what, look, ({i: unmarked(row) for i, row in rows.items()}, place), seconds)
        print(f"{what}: " + ("; ".join(row for row in rows.values() if row) or f"cursor at {place}"))

    def left(self, what, *said):
        """Waits until mgr-live has ended and these lines stand on the shell's screen."""
        wanted = [*said, "same terminal"]
        self.expect(what, lambda: [row for row in self.shown() if row and not row.startswith("$")], wanted)
        self.expect(what + ", the shell's screen", lambda: self.ask("#{alternate_on}"), "0")
        print(f"{what}: {'; '.join(wanted)}")

    def wrapped(self, line):
        """Returns the rows that a line takes on the shell's screen."""
        return [line[i : i + self.columns].rstrip() for i in range(0, len(line), self.columns)]

    def leave(self):
        """Leaves; if it is asked what becomes of the text, that is put."""
        self.press("C-x", "C-c")
        ends = ("Leave: ", "status ", "same terminal")
        self.expect("left, or a question", lambda: any(row.startswith(ends) for row in self.shown()), True, 60)
        if any(row.startswith("Leave: ") for row in self.shown()):
            self.press("s")

    def quit(self, what):
        """Saves and leaves, which has to be well."""
        self.press("C-x", "C-s", "C-x", "C-c")
        self.left(what, "status 0")

    def expect_file(self, name, wanted):
        """A file has to have this text."""
        path = self.folder / name
        self.expect(f"the file {name}", lambda: path.read_bytes().decode() if path.exists() else None, wanted)
        print(f"    {name}: {wanted!r}")


def unmarked(row):
    """Returns a row as if its buffer were not changed."""
    return row.replace("-**-Mg: ", "----Mg: ", 1) if row.startswith("-**-Mg: ") else row


def mode_line(mark, place, name="notes", columns=COLUMNS, waiting=0):
    return f"-{mark}-Mg: {name} (fundamental) {place} W{waiting}".ljust(columns, "-")[:columns]


def children(pid):
    said = subprocess.run(["ps", "-o", "pid=", "--ppid", str(pid)], capture_output=True, text=True).stdout
    return [int(word) for word in said.split()]


def command_of(pid):
    return subprocess.run(["ps", "-o", "args=", "-p", str(pid)], capture_output=True, text=True).stdout


def state_of(pid):
    """Returns the letter of a process's state; one that was waited for is like one that was not."""
    try:
        return pathlib.Path(f"/proc/{pid}/stat").read_text().rsplit(")", 1)[1].split()[0]
    except FileNotFoundError:
        return "Z"


def is_gone(pid):
    return state_of(pid) == "Z"


def environment(mgr, folder):
    """Returns the variables of a shell that runs mgr-live, with a home of its own in a folder."""
    home = folder / "home"
    home.mkdir(parents=True, exist_ok=True)
    return {
        "MGR": os.path.abspath(mgr),
        "LC_ALL": "C.UTF-8",
        "PATH": os.environ["PATH"],
        "HOME": str(home),
        "XDG_STATE_HOME": str(folder / "state"),
    }


def text_of(mgr, log):
    """Returns the text of a log, by `mgr show`."""
    with open(log, "rb") as given:
        return subprocess.run([mgr, "show"], stdin=given, check=True, capture_output=True).stdout.decode()


def sent_to(terminal, keys):
    """Returns what mgr-live sends to the terminal for these keys, within a moment."""
    raw = terminal.folder / "raw"
    terminal.tmux("pipe-pane", f"cat >{raw}")
    time.sleep(0.2)
    terminal.press(*keys)
    time.sleep(0.4)
    terminal.tmux("pipe-pane")
    sent = raw.read_bytes()
    raw.unlink()
    return sent
