#!/usr/bin/env python3
"""Draws the pictures of `docs/pictures/` from what the program shows, and from the figures that are written down.

usage: pictures.py [--check] two-people MGR | figures | beside

`two-people` has two write in one note by a hub, in terminals of tmux: together, with the line of one cut, and with the
line back. Each of the three moments is drawn as the terminals show it; the time since when somebody is alone is always
drawn as 12:03. `figures` and `beside` draw what `docs/performance.md` says: of `mgr show` and keys, and of other editors
and Yjs. With --check nothing is written, and a picture whose text is not that of today ends the script with status 1.
"""

import re
import shutil
import subprocess
import sys

import drawing
import plain_ends  # noqa: F401
from drawing import CELL, DIM, PAD, Drawing
from line import Line
from play.peers import free_port
from terminal import ROOT, Server, Terminal, environment

PICTURES = ROOT / "docs" / "pictures"
FOLDER = ROOT / "build" / "pictures"
LIVE, HUB = (ROOT / "front" / name for name in ("mgr-live", "mgr-hub"))
ROWS, COLUMNS = 7, 52
SINCE = re.compile(r"since \d\d:\d\d")
# Numbers that have colours which are well told apart.
PEOPLE = {"Alice": 4, "Bob": 7}
FULL = "Saturday:"


# ---- two people


class Two:
    """A hub, and two who write at it: Alice directly, and Bob by a line that may be cut."""

    def __init__(self, server, mgr):
        shutil.rmtree(FOLDER, ignore_errors=True)
        self.server, self.port = server, free_port()
        self.line = Line(self.port)
        self.hub = self.start_hub(mgr)
        self.people = {name: self.terminal(mgr, name) for name in PEOPLE}

    def start_hub(self, mgr):
        folder = FOLDER / "hub"
        words = environment(mgr, folder)
        command = [HUB, "note", "--port", str(self.port), "--replica", "9"]
        hub = subprocess.Popen(command, cwd=folder, env=words, stdout=subprocess.PIPE, text=True)
        while "serves" not in hub.stdout.readline():
            if hub.poll() is not None:
                sys.exit("the hub has ended")
        return hub

    def terminal(self, mgr, name):
        folder = FOLDER / name
        folder.mkdir()
        return Terminal(self.server, name, folder, environment(mgr, folder), ROWS, COLUMNS)

    def begin(self, name):
        port = self.port if name == "Alice" else self.line.port
        self.people[name].begin(f"note --as {name} --replica {PEOPLE[name]} --with {port}")
        self.await_rows(name, "live")

    def await_rows(self, *wanted):
        """Waits until all of these stand on the screen of somebody, the first of them."""
        name, *parts = wanted
        shown = lambda: [part for part in parts if part not in "\n".join(self.people[name].shown())]  # noqa: E731
        self.people[name].expect(f"{name} sees {parts}", shown, [])

    def await_all(self, *parts):
        for name in self.people:
            self.await_rows(name, *parts)

    def end(self):
        self.hub.terminate()
        self.hub.wait()


def seen(terminal):
    """Returns the rows of a terminal as they are sent, without the row of messages, and the cursor."""
    rows = terminal.tmux("capture-pane", "-p", "-e", "-N").split("\n")[: ROWS - 1]
    return [SINCE.sub("since 12:03", row) for row in rows], terminal.cursor()


def settled(two):
    """Returns what each sees, once that has been the same for longer than what is new is shown in a colour."""
    look = lambda: {name: seen(terminal) for name, terminal in two.people.items()}  # noqa: E731
    last, count = look(), 0
    while count < 25:
        subprocess.run(["sleep", "0.1"])
        now = look()
        last, count = now, count + 1 if now == last else 0
    return last


def moments(two):
    """Plays what is drawn, and yields each moment: what is said of it, and what each sees."""
    alice, bob = two.people.values()
    two.begin("Alice")
    alice.write(FULL)
    two.begin("Bob")
    two.await_rows("Bob", FULL)
    alice.press("M->", "Enter")
    alice.write("oat milk")
    two.await_rows("Bob", "oat milk")
    bob.press("M->", "Enter")
    bob.write("rye bread")
    two.await_all("oat milk", "rye bread", "live: ")
    yield "1. Both write. Each sees where the other one is.", settled(two)
    two.line.cut()
    two.await_rows("Bob", "alone since")
    alice.write(", two litres")
    bob.press("M-b", "M-b")
    bob.write("some ")
    two.await_rows("Bob", "some rye")
    two.await_rows("Alice", "two litres")
    yield "2. Bob’s line is cut. Both write on.", settled(two)
    two.line.mend()
    two.await_all("two litres", "some rye bread", "live: ")
    yield "3. The line is back. Both have one text.", settled(two)


def drawn(played):
    """Returns the drawing of moments, one below the other, with both terminals side by side."""
    wide = CELL * COLUMNS + 2 * PAD
    high = drawing.LINE * (ROWS - 1) + 2 * PAD
    picture = Drawing(2 * wide + 3 * PAD, (high + 58) * len(played) + PAD, "Two people write one note")
    for number, (what, screens) in enumerate(played):
        top = (high + 58) * number + 26
        picture.words(PAD, top, what, "#1f2328", weight="bold")
        for column, (name, (rows, cursor)) in enumerate(screens.items()):
            left = PAD + (wide + PAD) * column
            picture.words(left + 2, top + 22, name, DIM)
            drawing.screen(picture, left, top + 28, rows, COLUMNS, cursor)
    return picture.svg()


def two_people(mgr):
    server = Server()
    try:
        two = Two(server, mgr)
        try:
            return drawn(list(moments(two)))
        finally:
            two.end()
    finally:
        server.end()


# ---- figures

OURS, THEIRS = "#2da44e", "#8c959f"


def row_of(what, size=""):
    """Returns the figure of a row of docs/performance.md, by its first cell and its size."""
    for line in (ROOT / "docs" / "performance.md").read_text().splitlines():
        cells = [cell.strip() for cell in line.strip("|").split("|")]
        if len(cells) > 2 and what in cells[0] and size in cells[1]:
            return cells[2]
    sys.exit(f"docs/performance.md has no row of {what} {size}")


def table(heading):
    """Returns the rows of a table of docs/performance.md, by what its first cell has; bold is left out."""
    lines = (ROOT / "docs" / "performance.md").read_text().replace("**", "").splitlines()
    begun = next(at for at, line in enumerate(lines) if line.startswith(f"| {heading}"))
    ended = next(at for at, line in enumerate(lines) if at > begun and not line.startswith("|"))
    return [[cell.strip() for cell in line.strip("|").split("|")] for line in lines[begun + 2 : ended]]


def figure(cell, place=0):
    """Returns a figure of a cell."""
    return float(re.findall(r"[\d.,]+", cell)[place].strip(",").replace(",", ""))


def pair(row, ours, theirs):
    """Returns a group of two bars, of the first figures of a row."""
    return row[0], [(ours, figure(row[1]), OURS), (theirs, figure(row[2]), THEIRS)]


def of_shapes():
    """Returns the groups of what a log takes mgr show, and a program in plain Rust, by its shape."""
    return [pair(row, "mgr show", "plain Rust, in pages") for row in table("1,000,000 operations")[:3]]


def of_keys():
    """Returns the groups of how long a key takes to the screen of who typed it."""
    at_hub, crdt, alone = row_of("a key, to the own screen").removesuffix(" ms").replace(" ms", "").split("; ")
    mgr, mg, emacs = map(float, alone.split(", "))
    together = [("mgr-live", float(at_hub), OURS), ("Emacs with crdt.el", float(crdt), THEIRS)]
    by_oneself = [("mgr-live", mgr, OURS), ("mg", mg, THEIRS), ("Emacs", emacs, THEIRS)]
    return [("four write together", together), ("one writes alone", by_oneself)]


def of_editors():
    """Returns the groups of what works take editors, in a text of 100,000 characters."""
    names = ("mgr-live", OURS), ("mg", THEIRS), ("Emacs", THEIRS)
    rows = table("A text of")[1:]
    return [(row[0], [(name, figure(cell, 1), colour) for (name, colour), cell in zip(names, row[1:])]) for row in rows]


def of_edits():
    """Returns the groups of what an author's edits take: in seconds, and in MB."""
    rows = table("One author")
    return [[pair(row, "mgr", "Yjs") for row in rows if f" {unit}" in row[1]] for unit in ("s", "MB")]


def drawing_of(title, *parts):
    """Returns a drawing of bars: a heading, groups and a unit of each part, one below the other."""
    high = sum(66 + sum(34 + 22 * len(members) for _, members in groups) for _, groups, _ in parts)
    picture, end = Drawing(720, high, title), 0
    for heading, groups, unit in parts:
        if end:
            picture.line((PAD, end + 4), (710, end + 4))
        picture.words(PAD, end + 30, heading, "#1f2328", weight="bold")
        end = drawing.bars(picture, PAD, end + 44, 330, groups, unit)
    return picture.svg()


def figures():
    return drawing_of(
        "What mgr takes beside other programs",
        ("Reading a log of 1,000,000 operations: seconds", of_shapes(), "s"),
        ("A key in a text of 100,000 characters: milliseconds to the own screen", of_keys(), "ms"),
    )


def beside():
    seconds, megabytes = of_edits()
    return drawing_of(
        "What mgr takes beside other editors, and beside Yjs",
        ("A text of 100,000 characters: milliseconds of processor", of_editors(), "ms"),
        ("One author's 259,778 edits: seconds", seconds, "s"),
        ("The same: MB that are kept", megabytes, "MB"),
    )


# What is drawn of docs/performance.md.
DRAWN = {"figures": figures, "beside": beside}


def main():
    words = [word for word in sys.argv[1:] if word != "--check"]
    if not words or words[0] not in ("two-people", *DRAWN) or len(words) != (2 if words[0] == "two-people" else 1):
        sys.exit(__doc__.split("\n\n")[1])
    name, checks = words[0], "--check" in sys.argv
    draw = DRAWN.get(name) or (lambda: two_people(words[1]))
    path = PICTURES / f"{name}.svg"
    if not checks:
        PICTURES.mkdir(exist_ok=True)
        path.write_text(draw())
        print(f"{path.relative_to(ROOT)} is drawn")
    elif not is_of_today(draw, path) and not is_of_today(draw, path):
        sys.exit(f"{path.relative_to(ROOT)} does not have the text of today: scripts/pictures.py {' '.join(words)}")
    else:
        print(f"{path.relative_to(ROOT)} has the text of today")


def is_of_today(draw, path):
    """Returns whether a picture has the text that is drawn now. A busy machine may be late once, so it is asked twice."""
    return drawing.texts(draw()) == drawing.texts(path.read_text())


if __name__ == "__main__":
    main()
