"""A note's files and what mgr-live does with them at the start."""

import json
import os
import re
import shutil
import signal

from terminal import BEHIND, mode_line, text_of


def made(terminal, text, then=None, name="notes"):
    """Makes a note with this text and its log; then another program writes another text."""
    (terminal.folder / name).write_text(text)
    terminal.begin(f"{name} --replica 1")
    terminal.see(f"a note {name}", {8: mode_line("**", "L1 C0", name)}, (0, 0))
    terminal.quit("saved")
    if then is not None:
        (terminal.folder / name).write_text(then)


DUMB = "mgr-live: TERM has to name a terminal that moves its cursor, such as xterm"
OLD = "one\ntwo\nthree\nfour\n"
NEW = "one\n2\nthree\nfour and a half\r\nfive\n"


def taking_the_file(terminal):
    """a text that another program changed, and which is gone on with"""
    made(terminal, OLD, NEW)
    log = (terminal.folder / "notes.ops").read_text()
    terminal.begin("notes --replica 1")
    terminal.expect("the question", lambda: "f or l?" in terminal.shown(), True)
    terminal.picture()
    terminal.write("x")
    terminal.press("Enter")
    terminal.expect("once more", lambda: terminal.shown().count("f or l?"), 1)
    terminal.write("f")
    terminal.press("Enter")
    terminal.see("f", {0: "one", 1: "2", 4: "five", 8: mode_line("--", "L1 C0")}, (0, 0))
    added = (terminal.folder / "notes.ops").read_text().removeprefix(log).splitlines()
    put, deleted = (sum(f'"op":"{op}"' in line for line in added) for op in ("ins", "del"))
    print(f"    the log has {put} insertions and {deleted} deletions more")
    terminal.expect("as few as that", lambda: (put, deleted), (1 + len(" and a half\r\nfive"), 3))
    terminal.leave()
    terminal.expect("left", lambda: any(row.endswith("status 0") for row in terminal.shown()), True)
    terminal.expect_file("notes", NEW)
    terminal.expect("the log", lambda: text_of(terminal.mgr, terminal.folder / "notes.ops"), NEW)
    terminal.expect("nothing is kept", lambda: sorted(path.name for path in terminal.folder.glob("notes*~")), [])


def keeping_the_file(terminal):
    """a text that another program changed, and which is kept beside the note"""
    made(terminal, OLD, NEW)
    terminal.begin("notes --replica 1")
    terminal.expect("the question", lambda: "f or l?" in terminal.shown(), True)
    terminal.write("l")
    terminal.press("Enter")
    terminal.see("l", {1: "two", 3: "four", 8: mode_line("--", "L1 C0")}, (0, 0))
    terminal.expect_file("notes~", NEW)
    terminal.expect_file("notes", OLD)
    terminal.write("!")
    terminal.press("C-x", "C-s", "C-x", "C-c")
    terminal.expect("left", lambda: any(row.endswith("status 0") for row in terminal.shown()), True)
    terminal.expect_file("notes", "!" + OLD)
    terminal.expect("nothing else is kept", lambda: [path.name for path in terminal.folder.glob("notes*~")], ["notes~"])


def by_the_command_line(terminal):
    """the same without a question, and a question that is left"""
    made(terminal, OLD, NEW)
    terminal.begin("notes --replica 1")
    terminal.expect("the question", lambda: "f or l?" in terminal.shown(), True)
    terminal.press("C-d")
    terminal.expect("C-d", lambda: "mgr-live: nothing was done" in terminal.shown(), True)
    terminal.expect_file("notes", NEW)
    terminal.begin("notes --replica 1 --take-file")
    terminal.see("--take-file", {1: "2", 8: mode_line("--", "L1 C0")}, (0, 0))
    terminal.leave()
    terminal.left("left", "status 0")
    (terminal.folder / "notes").write_text(OLD)
    terminal.begin("notes --replica 1 --keep-file")
    terminal.see("--keep-file", {1: "2", 8: mode_line("--", "L1 C0")}, (0, 0))
    terminal.leave()
    terminal.left("left", "status 0")
    terminal.expect_file("notes~", OLD)
    terminal.expect_file("notes", NEW)


def a_missing_part(terminal):
    """a log of which a part is missing"""
    made(terminal, "one two three\n")
    log = terminal.folder / "notes.ops"
    lines = log.read_text().splitlines(keepends=True)
    log.write_text("".join(line for i, line in enumerate(lines) if i != 3))
    (terminal.folder / "notes").write_text("one two three\n")
    terminal.begin("notes --replica 1 --keep-file")
    said = "A part of notes.ops is missing; notes~ has what stood there"
    terminal.see("the first frame", {0: "one", 8: mode_line("--", "L1 C0", waiting=10), 9: said})
    terminal.leave()
    terminal.left("left", "status 0")
    terminal.expect_file("notes~", "one two three\n")


def numbers(terminal):
    """numbers that are drawn and kept, while the log has them"""
    log, kept = terminal.folder / "notes.ops", terminal.folder / "state" / "mgr" / "copies"
    _write(terminal, "without a number", "", "a")
    _write(terminal, "once more", "a", "b")
    first = _numbers_in(log)
    terminal.expect("one number", lambda: [len(first), _kept_numbers(kept)], [1, first])
    beside = sorted(path.name for path in terminal.folder.glob("notes*"))
    terminal.expect("beside the note", lambda: beside, ["notes", "notes.ops"])
    log.rename(terminal.folder / "copy.ops")
    _write(terminal, "the log is lost", "ba", "c")
    second = _numbers_in(log)
    terminal.expect("another number", lambda: [len(second), _kept_numbers(kept)], [1, first + second])
    with open(log, "ab") as both:
        both.write((terminal.folder / "copy.ops").read_bytes())
    terminal.expect("both logs together", lambda: sorted(text_of(terminal.mgr, log)), list("aabbc"))
    (terminal.folder / "copy.ops").rename(log)
    terminal.begin("notes --keep-file")
    terminal.see("the old log, which is only read", {0: "ba"}, (0, 0))
    terminal.leave()
    terminal.left("left", "status 0")
    terminal.expect("no number more", lambda: _kept_numbers(kept), first + second)


def _write(terminal, what, text, more):
    """Opens the note, which has this text, and saves it with more before that."""
    terminal.begin("notes")
    terminal.expect(what, lambda: (terminal.shown()[0], terminal.cursor()), (text, (0, 0)))
    terminal.expect(what, lambda: terminal.shown()[8][:7], "-**-Mg:" if what == "the log is lost" else "----Mg:")
    terminal.write(more)
    terminal.quit(what)


def _numbers_in(log):
    return sorted(set(re.findall(r'"id":\[\d+,(\d+)\]', log.read_text())))


def _kept_numbers(kept):
    """Returns the numbers of the one copy that something is kept of."""
    (copy,) = kept.iterdir()
    return list(json.loads(copy.read_text())["counters"])


def a_refused_log(terminal):
    """a log that mgr refuses: it is left, and then mended"""
    made(terminal, OLD)
    log = terminal.folder / "notes.ops"
    damaged = log.read_text() + "no operation\n"
    log.write_text(damaged)
    lines = damaged.count("\n")
    for answer in ("q", "m"):
        terminal.begin("notes")
        terminal.expect("the question", lambda: "m or q?" in terminal.shown(), True)
        terminal.picture()
        terminal.write(answer)
        terminal.press("Enter")
        if answer == "q":
            said = f"mgr-live: notes.ops: line {lines}: Json: see `mgr mend notes`"
            terminal.expect("q", lambda: said in terminal.shown() and "status 1" in terminal.shown(), True)
            terminal.expect_file("notes.ops", damaged)
    said = "notes.ops.refused has what was left out; notes.ops~ has wha$"
    terminal.see("m", {0: "one", 8: mode_line("--", "L1 C0"), 9: said}, (0, 0))
    terminal.write("!")
    terminal.press("C-x", "C-s", "C-x", "C-c")
    terminal.expect("left", lambda: any(row.endswith("status 0") for row in terminal.shown()), True)
    terminal.expect_file("notes", "!" + OLD)
    terminal.expect_file("notes.ops~", damaged)
    terminal.expect_file("notes.ops.refused", "no operation\n")
    terminal.expect("another number", lambda: len(_numbers_in(log)), 2)


def an_absent_folder(terminal):
    """a note in a folder that is not there: what was written is kept apart, and the folder gets it once it is there"""
    folder = terminal.folder / "absent"
    terminal.begin("absent/notes")
    said = "Nothing can be saved: absent is not there"
    terminal.see("start", {8: mode_line("--", "L1 C0", "absent/notes"), 9: said}, (0, 0))
    terminal.write("words ")
    terminal.press("C-x", "C-c")
    asked = "Not saved: s tries again, d leaves and keeps it apart?"
    terminal.see("C-x C-c", {9: asked})
    terminal.press("s")
    terminal.see("s", {9: asked})
    terminal.press("d")
    terminal.expect("left", lambda: "status 0" in terminal.shown(), True)
    terminal.picture()
    folder.mkdir()
    terminal.begin("absent/notes")
    terminal.see("what was kept is there", {0: "words"}, (0, 0))
    terminal.write("more ")
    terminal.leave()
    terminal.expect("left", lambda: "status 0" in terminal.shown(), True)
    terminal.expect_file("absent/notes", "more words ")


def a_removed_folder(terminal):
    """a folder that is removed during an edit: what was written is kept apart, and it is said where"""
    for ending in ("d", "TERM"):
        folder = terminal.folder / ending
        folder.mkdir()
        terminal.shell(f"cd {ending}; {terminal.live} notes --replica 1; echo status $?; cd ..")
        terminal.see("start", {8: mode_line("--", "L1 C0")}, (0, 0))
        shutil.rmtree(folder)
        terminal.write(f"words before {ending}")
        if ending == "d":
            terminal.press("C-x", "C-c")
            terminal.see("C-x C-c", {9: "Not saved: s tries again, d leaves and keeps it apart?"})
            terminal.press("d")
        else:
            terminal.see("typed", {0: f"words before {ending}"})
            os.kill(terminal.programs()[0], signal.SIGTERM)
        wanted = f"status {0 if ending == 'd' else 143}"
        terminal.expect("left", lambda: wanted in terminal.shown(), True)
        terminal.picture()
        kept = list(terminal.folder.glob("state/mgr/guests/*/apart-*/notes.ops"))
        texts = [text_of(terminal.mgr, path) for path in kept]
        terminal.expect("what is kept", lambda: f"words before {ending}" in texts, True)
        shown = "".join(terminal.shown())
        terminal.expect("it is said where", lambda: any(str(path) in shown for path in kept), True)


def putting_back(terminal):
    """a text that another program writes during an edit, and which is put back as it was"""
    for name, before in (("notes", OLD), ("new", None)):
        if before:
            made(terminal, OLD)
        terminal.begin(f"{name} --replica 1")
        terminal.see("start", {8: mode_line("--", "L1 C0", name)}, (0, 0))
        terminal.write("typed ")
        terminal.expect_file(name, "typed " + (before or ""))
        (terminal.folder / name).write_text(NEW)
        terminal.press("C-x", "C-c")
        terminal.see("C-x C-c", {9: "Leave: s puts the text, d leaves its file as it was?"})
        terminal.press("d")
        terminal.expect("left", lambda: "status 0" in terminal.shown(), True)
        terminal.picture()
        terminal.expect_file(name, before)
        terminal.expect_file(f"{name}~", NEW)


def refusals(terminal):
    """what is no note, and wrong command lines"""
    (terminal.folder / "folder").mkdir()
    (terminal.folder / "large").write_text("x" * 1_000_001)
    (terminal.folder / "latin").write_bytes(b"caf\xe9")
    for words, said, status in [
        ("folder", "folder: is a folder", 1),
        ("large", "large: text: Full", 1),
        ("latin", "latin: text: not UTF-8", 1),
        ("--version", "mgr-live 0.1.0", 0),
    ]:
        said = said if status == 0 else f"mgr-live: {said}"
        terminal.begin(words)
        terminal.left(f"mgr-live {words}", *terminal.wrapped(said), f"status {status}")
    terminal.begin("")
    terminal.expect("mgr-live alone", lambda: "status 2" in terminal.shown(), True)
    terminal.expect("its usage", lambda: any(row.startswith("usage: mgr-live ") for row in terminal.shown()), True)
    terminal.begin("notes --replica 1", before="MGR=./nowhere")
    terminal.left("no mgr", "mgr-live: the program ./nowhere is not there", "status 3")
    terminal.begin("notes", before="TERM=dumb")
    terminal.left("a terminal that is dumb", *terminal.wrapped(DUMB), "status 3")
    terminal.shell(f"stty columns 19; {terminal.live} notes; stty columns {terminal.columns}; {BEHIND}")
    small = f"mgr-live: the terminal is too small: it has {terminal.rows} rows and 19 columns, and "
    terminal.left("19 columns", *terminal.wrapped(small + "3 rows and 20 columns are needed"), "status 0")


def open_twice(terminal):
    """a note that another mgr has open"""
    made(terminal, OLD)
    other = terminal.another("other")
    other.begin("notes --replica 2")
    other.see("open elsewhere", {0: "one"}, (0, 0))
    terminal.begin("notes --replica 1")
    said = f"mgr-live: notes: mgr-live (process {other.programs()[0]}) has it open"
    terminal.left("open once more", *terminal.wrapped(said), "status 3")
    other.leave()
    other.left("left", "status 0")


PARTS = (
    taking_the_file,
    keeping_the_file,
    by_the_command_line,
    a_missing_part,
    numbers,
    a_refused_log,
    an_absent_folder,
    a_removed_folder,
    putting_back,
    refusals,
    open_twice,
)
