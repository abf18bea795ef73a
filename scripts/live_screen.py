"""What mgr-live shows: texts, windows, searches, long lines, messages, other sizes."""

import os
import signal
import time

from terminal import COLUMNS, NEW, mode_line, sent_to

# For a key: a line of 9600 baud bears 24 times that in a second.
MOST_BYTES = 40


def typing(terminal):
    """text and the keys that move in it"""
    terminal.begin("notes --replica 1")
    terminal.see("start", {0: "", 8: mode_line("--", "L1 C0"), 9: NEW}, (0, 0))
    terminal.write("hello 漢字")
    terminal.press("Enter")
    terminal.write("second line")
    terminal.see("two lines", {0: "hello 漢字", 1: "second line", 8: mode_line("**", "L2 C11")}, (1, 11))
    terminal.press("Up")
    terminal.see("Up", {8: mode_line("**", "L1 C8")}, (0, 10))
    terminal.press("Left")
    terminal.see("Left, over a wide character", {8: mode_line("**", "L1 C7")}, (0, 8))
    terminal.press("Home")
    terminal.see("Home", {8: mode_line("**", "L1 C0")}, (0, 0))
    terminal.press("Right", "DC")
    terminal.see("Right, Delete", {0: "hllo 漢字", 8: mode_line("**", "L1 C1")}, (0, 1))
    terminal.press("C-_")
    terminal.see("C-_", {0: "hello 漢字", 8: mode_line("**", "L1 C2")}, (0, 2))
    terminal.press("End", "Down", "End")
    terminal.see("End, Down, End", {8: mode_line("**", "L2 C11")}, (1, 11))
    terminal.press("F5", "S-Right")
    terminal.see("F5 does nothing, and Shift-Right what Right does", {9: "End of buffer"}, (1, 11))
    terminal.press("C-x", "C-s")
    terminal.see("C-x C-s", {8: mode_line("--", "L2 C11"), 9: "Wrote notes"}, (1, 11))
    terminal.leave()
    terminal.left("C-x C-c", "status 0")
    terminal.expect_file("notes", "hello 漢字\nsecond line")


def windows(terminal):
    """two windows, and a search"""
    (terminal.folder / "notes").write_text("hello\nsecond line\n")
    terminal.begin("notes --replica 1")
    terminal.see("start", {0: "hello"}, (0, 0))
    terminal.press("Down", "C-x", "2")
    halves = {3: mode_line("**", "L2 C0"), 4: "hello", 8: mode_line("**", "L2 C0")}
    terminal.see("C-x 2", {1: "second line", **halves}, (1, 0))
    terminal.expect("mode lines in reverse", terminal.reversed_rows, [3, 8])
    terminal.picture()
    terminal.press("PPage")
    terminal.see("Page Up", {3: mode_line("**", "L1 C0")}, (0, 0))
    terminal.press("NPage", "C-x", "o")
    terminal.see("Page Down, C-x o", {3: mode_line("**", "L2 C0")}, (5, 0))
    terminal.press("C-x", "1", "M-<", "C-s")
    terminal.write("LINE")
    terminal.see("C-x 1, M-<, a search", {8: mode_line("**", "L2 C11"), 9: "I-search: LINE"}, (1, 11))
    terminal.press("C-g")
    terminal.see("C-g", {8: mode_line("**", "L1 C0"), 9: "Quit"}, (0, 0))
    terminal.quit("saved")


def long_lines(terminal):
    """lines that are longer than the terminal is wide"""
    terminal.begin("notes --replica 1")
    terminal.see("start", {8: mode_line("--", "L1 C0")}, (0, 0))
    line = "".join(chr(ord("a") + i % 26) for i in range(70))
    terminal.write(line)
    terminal.see("70 letters", {0: "$" + line[31:], 8: mode_line("**", "L1 C70")}, (0, 40))
    terminal.press("C-a")
    terminal.see("C-a", {0: line[:59] + "$"}, (0, 0))
    terminal.press("C-e", "Enter")
    terminal.write("x")
    terminal.see("the line above, once point left it", {0: line[:59] + "$", 1: "x"}, (1, 1))
    terminal.press("Enter")
    terminal.write("漢" * 40)
    terminal.see("wide characters, of which none is cut in two", {2: "$ " + "漢" * 24}, (2, 50))
    terminal.press("M-<")
    terminal.see("M-<", {2: "漢" * 29 + " $"}, (0, 0))
    terminal.press("C-x", "C-f")
    terminal.write("folder/" * 9)
    terminal.see("a long answer", {9: "$" + ("Find file: " + "folder/" * 9)[31:]}, (9, 44))
    terminal.press("C-g")
    terminal.picture()
    terminal.quit("saved")


def sizes(terminal):
    """a terminal whose size changes, and one that something else wrote on"""
    (terminal.folder / "notes").write_text("".join(f"line {i}\n" for i in range(1, 8)))
    terminal.begin("notes --replica 1")
    terminal.see("start", {0: "line 1", 6: "line 7"}, (0, 0))
    terminal.press("M->", "C-p")
    terminal.see("the last line", {6: "line 7"}, (6, 0))
    terminal.resize(5, 30)
    terminal.see("smaller", {0: "line 6", 1: "line 7", 3: "-**-Mg: notes (fundamental) L7"}, (1, 0))
    terminal.press("M-<", "C-s", "4")
    terminal.see("a search in it", {0: "line 3", 1: "line 4", 4: "I-search: 4"}, (1, 6))
    terminal.resize(7, 40)
    terminal.see("larger while it goes on", {0: "line 3", 4: "line 7", 6: "I-search: 4"}, (1, 6))
    terminal.press("Enter", "!", "C-x", "2")
    terminal.see("two windows", {0: "line 3", 1: "line 4!", 3: "line 3", 4: "line 4!"}, (1, 7))
    terminal.resize(1, 2)
    time.sleep(0.3)
    terminal.resize(12, 70)
    terminal.see("as small as can be, and larger", {0: "line 4!", 10: mode_line("**", "L4 C7", columns=70)}, (0, 7))
    terminal.press("C-_")
    terminal.see("what was typed is undone", {0: "line 4", 10: mode_line("**", "L4 C6", columns=70)}, (0, 6))
    terminal.resize(3, 20)
    terminal.see("3 rows of 20 columns", {0: "line 4", 1: "-**-Mg: notes (funda"}, (0, 6))
    terminal.resize(200, 500)
    terminal.see("200 rows of 500 columns", {0: "line 4", 198: mode_line("**", "L4 C6", columns=500)}, (0, 6))
    terminal.resize(10, COLUMNS)
    terminal.see("as it was", {0: "line 4", 8: mode_line("**", "L4 C6")}, (0, 6))
    terminal.scribble("\x1b[1;1HSOMETHING ELSE")
    terminal.see("something else writes on it", {0: "SOMETHING ELSE"})
    terminal.press("C-l")
    terminal.see("C-l", {0: "line 1", 3: "line 4"}, (3, 6))
    terminal.quit("saved")


def suspending(terminal):
    """C-z, and a program that is stopped and continued by others"""
    terminal.begin("notes --replica 1")
    terminal.see("start", {8: mode_line("--", "L1 C0")}, (0, 0))
    terminal.write("hello")
    terminal.see("typed", {0: "hello"}, (0, 5))
    terminal.press("C-z")
    terminal.expect("C-z, the shell's screen", lambda: terminal.ask("#{alternate_on}"), "0")
    terminal.expect("it is stopped", lambda: any("Stopped" in row for row in terminal.shown()), True)
    terminal.shell("stty -g | cmp - terminal && echo same terminal")
    terminal.expect("the terminal", lambda: "same terminal" in terminal.shown(), True)
    print("C-z: stopped, with the shell's screen and terminal")
    terminal.write("fg")
    terminal.press("Enter")
    terminal.see("fg", {0: "hello", 8: mode_line("**", "L1 C5"), 9: ""}, (0, 5))
    terminal.write("!")
    terminal.see("typed on", {0: "hello!"}, (0, 6))
    live = terminal.programs()[0]
    os.kill(live, signal.SIGSTOP)
    terminal.expect("the shell has the terminal", lambda: "topped" in "".join(terminal.shown()), True)
    os.kill(live, signal.SIGCONT)
    # Nobody has put the terminal back: the end of a line is C-j there.
    terminal.write("fg")
    terminal.press("C-j")
    terminal.see("continued", {0: "hello!"}, (0, 6))
    terminal.press("C-q", "C-z")
    terminal.see("C-q C-z", {0: "hello!^Z"}, (0, 8))
    terminal.press("C-x", "C-s", "C-x", "C-c")
    terminal.expect("the shell's screen", lambda: terminal.ask("#{alternate_on}"), "0")
    terminal.expect_file("notes", "hello!\x1a")


def messages(terminal):
    """messages, prompts after them, and the bell"""
    bells = terminal.folder / "bells"
    terminal.server.run("set-hook", "-g", "alert-bell", f"run-shell 'echo >>{bells}'")
    terminal.begin("notes --replica 1")
    terminal.see("start", {8: mode_line("--", "L1 C0")}, (0, 0))
    terminal.press("C-]")
    terminal.see("C-]", {9: "Undefined key"}, (0, 0))
    terminal.expect("the bell", lambda: bells.exists() and len(bells.read_text()), 1)
    terminal.press("C-x", "C-f", "n", "o", "Up")
    terminal.see("C-x C-f no Up", {9: "Find file: no [Undefined key]"}, (9, 13))
    terminal.write("w")
    terminal.see("typed on", {9: "Find file: now"}, (9, 14))
    terminal.press("PPage", "C-Left", "M-f")
    terminal.see("Page Up, C-Left, M-f", {9: "Find file: now [Undefined key]"}, (9, 14))
    terminal.press("C-g", "C-s", "z")
    terminal.see("a search that fails", {9: "Failing I-search: z"}, (0, 0))
    terminal.press("C-g", "C-g")
    terminal.see("C-g", {9: "Quit"}, (0, 0))
    rung = len(bells.read_text())
    print(f"the bell was rung {rung} times")
    terminal.quit("saved")


def little_is_sent(terminal):
    """what is sent for a key"""
    terminal.begin("notes --replica 1")
    terminal.see("start", {8: mode_line("--", "L1 C0")}, (0, 0))
    terminal.write("The quick brown fox jumps over the lazy dog.")
    terminal.see("typed", {8: mode_line("**", "L1 C44")})
    time.sleep(0.2)
    for what, key in [("a letter at the end", "x"), ("a motion", "C-b"), ("a letter before it", "y")]:
        sent = sent_to(terminal, [key])
        print(f"{what}: {len(sent)} bytes")
        if not 0 < len(sent) <= MOST_BYTES:
            terminal.fail(what, f"at most {MOST_BYTES} bytes", sent)
    terminal.quit("saved")


PARTS = (typing, windows, long_lines, sizes, suspending, messages, little_is_sent)
