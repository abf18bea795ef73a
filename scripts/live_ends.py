"""Ends of mgr-live, and saves without a key for them."""

import os
import random
import signal
import subprocess
import time

from terminal import BEHIND, is_gone, mode_line, state_of, text_of


def edit(terminal, words, keys):
    """Presses keys in a note of the terminal's folder, without a terminal."""
    command = [terminal.mgr, "edit", *words]
    subprocess.run(command, input=keys, cwd=terminal.folder, check=True, capture_output=True)


def ended_by_a_signal(terminal):
    """TERM while a prompt is open and two buffers are changed"""
    terminal.begin("notes --replica 1")
    terminal.see("start", {8: mode_line("--", "L1 C0")}, (0, 0))
    terminal.write("first")
    terminal.press("C-x", "C-f")
    terminal.write("other")
    terminal.press("Enter")
    terminal.write("second")
    terminal.press("C-x", "C-f", "n", "o")
    terminal.see("a prompt", {0: "second", 8: mode_line("**", "L1 C6", "other"), 9: "Find file: no"}, (9, 13))
    os.kill(terminal.programs()[0], signal.SIGTERM)
    terminal.left("TERM", "status 143")
    terminal.expect_file("notes", "first")
    terminal.expect_file("other", "second")


def ended_with_its_mgr(terminal):
    """signals to mgr-live and to its mgr, as at the end of a login"""
    for number in (signal.SIGTERM, signal.SIGHUP, signal.SIGINT, signal.SIGQUIT):
        name = number.name
        terminal.begin(f"{name} --replica 1")
        terminal.see("start", {8: mode_line("--", "L1 C0", name)}, (0, 0))
        terminal.write("not saved yet")
        terminal.see("typed", {0: "not saved yet"})
        for program in reversed(terminal.programs()):
            os.kill(program, number)
        terminal.left(name, f"status {128 + number}")
        terminal.expect_file(name, "not saved yet")


def files_that_may_not_grow(terminal):
    """a log that may not grow, with room for a shorter one elsewhere"""
    edit(terminal, ["notes", "--replica", "1"], b"a" * 200 + b"\x18h\x17\x18\x13")
    blocks = (terminal.folder / "notes.ops").stat().st_size // 1024 + 1
    terminal.shell(f"(ulimit -f {blocks}; exec {terminal.live} notes --replica 1); {BEHIND}")
    terminal.see("start", {8: mode_line("--", "L1 C0")}, (0, 0))
    terminal.write("words " * 20)
    terminal.press("C-x", "C-s")
    terminal.see("a save", {8: mode_line("**", "L1 C120"), 9: "File fault [Not saved: File fault]"})
    terminal.press("C-x", "C-c")
    terminal.see("a question", {9: "Not saved: s tries again, d leaves and keeps it apart?"})
    terminal.press("d")
    terminal.expect("left", lambda: "status 0" in terminal.shown(), True)
    found = [path.read_text() for path in terminal.folder.glob("state/mgr/guests/*/*/text")]
    terminal.expect("the state folder", lambda: found, ["words " * 20])


def mgr_is_killed(terminal):
    """a KILL of mgr, which loses what was not saved"""
    terminal.begin("notes --replica 1")
    terminal.see("start", {8: mode_line("--", "L1 C0")}, (0, 0))
    os.kill(terminal.programs()[1], signal.SIGKILL)
    terminal.left("mgr is killed", "mgr-live: signal 9 ended mgr", "status 137")


def typed_ahead(terminal):
    """TERM right after much that is typed"""
    terminal.begin("notes --replica 1")
    terminal.see("start", {8: mode_line("--", "L1 C0")}, (0, 0))
    text = "".join(f"{i:5} a line that was typed before the end\n" for i in range(2000))
    live = terminal.programs()[0]
    terminal.paste(text.encode())
    time.sleep(0.3)
    os.kill(live, signal.SIGTERM)
    terminal.left("TERM", "status 143")
    saved = (terminal.folder / "notes").read_text()
    print(f"    {len(saved)} of {len(text)} characters had been read from the terminal, and are saved")
    terminal.expect("what was read is a beginning", lambda: text.startswith(saved) and len(saved) > 1000, True)


def a_fault_of_the_front(terminal):
    """an exception in mgr-live itself"""
    broken = terminal.folder / "broken.py"
    broken.write_text(
        "import sys\n"
        f"sys.path.insert(0, {str(terminal.live.parent)!r})\n"
        "from mgr_front import live, session\n"
        "def fail(*_):\n"
        "    raise RuntimeError('made for this trial')\n"
        "session.Session.repaint = fail\n"
        f"sys.exit(live.main(sys.argv[1:], {str(terminal.live.parent)!r}))\n"
    )
    terminal.shell(f"python3 {broken} notes --replica 1 2>said; {BEHIND}")
    terminal.see("start", {8: mode_line("--", "L1 C0")}, (0, 0))
    terminal.write("not lost")
    terminal.press("C-l")
    terminal.left("an exception", "status 1")
    terminal.expect("it is told", lambda: "made for this trial" in (terminal.folder / "said").read_text(), True)
    terminal.expect_file("notes", "not lost")


def saved_by_itself(terminal):
    """a second without a key"""
    (terminal.folder / "read").write_text("only read")
    terminal.begin("notes --replica 1")
    terminal.see("start", {8: mode_line("--", "L1 C0")}, (0, 0))
    terminal.press("a", "C-x", "C-f")
    terminal.write("other")
    terminal.press("Enter", "b", "C-x", "C-f")
    terminal.write("read")
    terminal.press("Enter", "C-x", "b", "n", "Tab", "Enter", "c")
    terminal.see("two buffers with a log, and one without", {0: "ac", 8: mode_line("**", "L1 C2")}, (0, 2))
    terminal.expect_file("notes", "ac")
    terminal.expect_file("other", "b")
    terminal.expect("the one without", (terminal.folder / "read.ops").exists, False)
    terminal.see("nothing is said", {0: "ac", 9: ""}, (0, 2))
    terminal.leave()
    terminal.left("left", "status 0")


# Keys that mgr-live hands on as they are, some of which open prompts, begin others or end them. C-s and C-r are none:
# it keeps what a search does not find.
KEYS = [b"a", b"word ", b"c\r", b"\x7f", b"y", b"n", b"!", b"\x07", b"\x154", b"\x11"]
KEYS += [b"\x18b\r", b"\x18b", b"\x18\x13", b"\x182", b"\x18o", b"\x180", b"\x181", b"\x0b", b"\x19", b"\x17"]
KEYS += [b"\x00", b"\x1f", b"\x0c", b"\x01", b"\x05", b"\x02", b"\x06", "漢".encode(), "é".encode()]
LEAVE, SAVE_AND_NEXT = b"\xfe\x07", b"\x18\x13\x18b\r"


def seeded_keys(terminal):
    """keys by chance, in pieces, and TERM: the note is the one that mgr makes of them without mgr-live"""
    for seed in range(12):
        chance = random.Random(seed)
        keys = b"".join(chance.choice(KEYS) for _ in range(chance.randrange(5, 150)))
        for name in ("live", "edit"):
            (terminal.folder / name).mkdir(exist_ok=True)
            for path in (terminal.folder / name).iterdir():
                path.unlink()
        terminal.begin("live/n --replica 1")
        terminal.expect("start", lambda: terminal.shown()[8], mode_line("--", "L1 C0", "live/n"))
        rest = keys
        while rest:
            piece = rest[: chance.randrange(1, 30)]
            terminal.tmux("send-keys", "-H", *[f"{byte:02x}" for byte in piece])
            rest = rest[len(piece) :]
        time.sleep(0.3)
        os.kill(terminal.programs()[0], signal.SIGTERM)
        terminal.expect("TERM", lambda: "same terminal" in terminal.shown(), True)
        edit(terminal, ["edit/n", "--replica", "1"], keys + LEAVE + SAVE_AND_NEXT * 8)
        paths = [terminal.folder / name / "n" for name in ("live", "edit")]
        texts = [path.read_text() if path.exists() else "" for path in paths]
        terminal.expect(f"seed {seed}: {keys!r}", lambda: texts[0], texts[1])
        print(f"    {len(keys)} bytes of keys: {len(texts[0])} characters")


def hanging_up(terminal):
    """the terminal is closed, in a search, and where mgr-live is suspended"""
    for name in ("searching", "suspended"):
        other = terminal.another(name)
        other.begin(f"{name} --replica 1 2>said")
        other.see("start", {8: mode_line("--", "L1 C0", name)}, (0, 0))
        other.write("typed before the end")
        if name == "searching":
            other.press("C-r", "b")
            other.see("a search", {9: "I-search backward: b"})
        programs = other.programs()
        if name == "suspended":
            other.press("C-z")
            other.expect("C-z", lambda: state_of(programs[0]), "T")
        _close(other, name, programs)


def _close(terminal, name, programs):
    """Closes a terminal: both programs have to end then, with all saved and nothing said."""
    terminal.server.run("kill-session", "-t", terminal.name)
    end = time.monotonic() + 10
    while not all(map(is_gone, programs)) and time.monotonic() < end:
        time.sleep(0.05)
    text, said = ((terminal.folder / file).read_text() for file in (name, "said"))
    if text != "typed before the end" or text_of(terminal.mgr, terminal.folder / f"{name}.ops") != text or said:
        raise SystemExit(f"NOT AS IT SHOULD BE: the note is {text!r}, and mgr-live says {said}")
    print(f"{name}: both programs have ended, and the note is {text!r}")


PARTS = (
    ended_by_a_signal,
    ended_with_its_mgr,
    files_that_may_not_grow,
    mgr_is_killed,
    typed_ahead,
    a_fault_of_the_front,
    seeded_keys,
    saved_by_itself,
    hanging_up,
)
