"""Keys of a terminal, pasted text, and answers that are completed."""

import time

from terminal import mode_line


def erasing(terminal):
    """the byte that the terminal erases by"""
    terminal.shell("stty erase ^H; stty -g >terminal")
    terminal.begin("notes --replica 1")
    terminal.see("start", {8: mode_line("--", "L1 C0")}, (0, 0))
    terminal.write("helloo")
    terminal.press("C-h")
    terminal.see("C-h", {0: "hello", 8: mode_line("**", "L1 C5")}, (0, 5))
    terminal.press("C-q", "C-h")
    terminal.see("C-q C-h", {0: "hello^H", 8: mode_line("**", "L1 C6")}, (0, 7))
    terminal.press("C-x", "C-f", "a", "C-h", "b")
    terminal.see("in an answer", {9: "Find file: b"}, (9, 12))
    terminal.press("C-g")
    terminal.quit("saved")


def words(terminal):
    """words and the buffer by the control key, arguments and kills by the meta key"""
    terminal.begin("notes --replica 1")
    terminal.see("start", {8: mode_line("--", "L1 C0")}, (0, 0))
    terminal.write("one two  three")
    terminal.press("Enter")
    terminal.write("four")
    terminal.press("C-Home")
    terminal.see("C-Home", {8: mode_line("**", "L1 C0")}, (0, 0))
    terminal.press("C-Right", "C-Right")
    terminal.see("C-Right twice", {8: mode_line("**", "L1 C7")}, (0, 7))
    terminal.press("C-Left")
    terminal.see("C-Left", {8: mode_line("**", "L1 C4")}, (0, 4))
    terminal.press("C-End")
    terminal.see("C-End", {8: mode_line("**", "L2 C4")}, (1, 4))
    terminal.press("M-1", "M-2", "x")
    terminal.see("M-1 M-2 x", {1: "four" + "x" * 12}, (1, 16))
    terminal.press("C-_", "C-Home", "M-9", "C-f")
    terminal.see("M-9 C-f", {8: mode_line("**", "L1 C9")}, (0, 9))
    terminal.press("M-BSpace")
    terminal.see("M-DEL", {0: "one three", 1: "four"}, (0, 4))
    terminal.press("C-e", "C-b", "C-b", "M-BSpace")
    terminal.see("M-DEL within a word", {0: "one ee"}, (0, 4))
    terminal.press("C-y")
    terminal.see("C-y", {0: "one three"}, (0, 7))
    terminal.press("C-Home", "M-BSpace")
    terminal.see("M-DEL at the begin", {0: "one three", 9: "Beginning of buffer"}, (0, 0))
    terminal.quit("saved")


def lines(terminal):
    """C-x g"""
    (terminal.folder / "notes").write_text("".join(f"line {i}\n" for i in range(1, 20001)))
    terminal.begin("notes --replica 1")
    terminal.see("start", {0: "line 1"}, (0, 0))
    for number in ("12", "1", "19876"):
        terminal.press("C-x", "g")
        terminal.write(number)
        terminal.see("C-x g", {9: f"Goto line: {number}"}, (9, 11 + len(number)))
        terminal.press("Enter")
        terminal.see(f"line {number}", {8: mode_line("**", f"L{number} C0")})
        terminal.expect("the line", lambda: terminal.shown()[terminal.cursor()[0]], f"line {number}")
    terminal.press("C-x", "g")
    terminal.write("99999")
    terminal.press("Enter")
    terminal.see("a line beyond the last", {8: mode_line("**", "L20001 C0"), 9: ""})
    terminal.press("C-x", "g", "5", "C-g")
    terminal.see("C-g", {8: mode_line("**", "L20001 C0"), 9: ""})
    terminal.quit("saved")


def pasting(terminal):
    """pasted text, also if it looks like keys"""
    terminal.begin("notes --replica 1")
    terminal.see("start", {8: mode_line("--", "L1 C0")}, (0, 0))
    terminal.paste("y\r\tind\x18\x03\x1b[Aend 漢字\r\n".encode())
    terminal.see("pasted", {0: "y", 1: "        ind^X^C^[[Aend 漢字", 2: ""}, (2, 0))
    terminal.press("M-<")
    terminal.paste(b"yes ")
    terminal.see("pasted at the begin", {0: "yes y"}, (0, 4))
    terminal.press("C-s")
    terminal.paste("漢字\r".encode())
    terminal.see("pasted into a search", {9: "I-search: 漢字"})
    terminal.press("C-g")
    terminal.press("C-x", "h", "C-w")
    terminal.see("empty", {0: "", 8: mode_line("**", "L1 C0")}, (0, 0))
    long = "".join(f"{i:6} " + "word " * 10 + "\n" for i in range(1000))
    terminal.paste(long.encode())
    terminal.see("57,000 characters, in many reads", {8: mode_line("**", "L1001 C0")}, seconds=60)
    terminal.press("C-x", "C-s")
    note = terminal.folder / "notes"
    terminal.expect("the file", lambda: note.exists() and note.read_text(), long)
    terminal.leave()
    terminal.left("saved", "status 0")


def a_paste_without_its_end(terminal):
    """a paste whose end does not come"""
    terminal.begin("notes --replica 1")
    terminal.see("start", {8: mode_line("--", "L1 C0")}, (0, 0))
    terminal.write("\x1b[200~pasted ")
    terminal.see("it is shown as one", {9: "Pasting: C-g leaves it"})
    terminal.write("typed")
    # A C-g right after a text is one of it.
    time.sleep(0.3)
    terminal.press("C-g")
    terminal.see("C-g", {0: "pasted typed", 9: ""}, (0, 12))
    terminal.press("C-a")
    terminal.see("a key", {8: mode_line("**", "L1 C0")}, (0, 0))
    terminal.quit("saved")


def completing(terminal):
    """TAB in answers, and the home folder"""
    for name in ("alpha", "alphabet", "beta"):
        (terminal.folder / name).write_text(f"the text of {name}\n")
    (terminal.folder / "home" / "diary").write_text("dear diary\n")
    terminal.begin("alpha --replica 1")
    terminal.see("start", {0: "the text of alpha"}, (0, 0))
    terminal.press("C-x", "C-f", "a", "Tab")
    terminal.see("a TAB", {9: "Find file: alpha"}, (9, 16))
    terminal.press("Tab")
    terminal.see("TAB once more", {9: "Find file: alpha [alpha alphabet]"}, (9, 16))
    terminal.press("b", "Tab", "Enter")
    terminal.see("b TAB RET", {0: "the text of alphabet"}, (0, 0))
    terminal.press("C-x", "C-f")
    terminal.write("~/di")
    terminal.press("Tab")
    home = str(terminal.folder / "home" / "diary")
    terminal.expect("~/di TAB", lambda: terminal.shown()[9][-9:], home[-9:])
    terminal.press("C-g", "C-x", "C-f")
    terminal.write("~/diary")
    terminal.press("Enter")
    terminal.see("~/diary RET", {0: "dear diary"}, (0, 0))
    terminal.press("C-x", "b", "a", "Tab", "Tab")
    terminal.see("C-x b a TAB TAB", {9: "Switch to buffer: alpha [alpha alphabet]"}, (9, 23))
    terminal.press("Enter")
    terminal.see("RET", {0: "the text of alpha"}, (0, 0))
    terminal.press("M-x")
    terminal.write("replica-")
    terminal.press("Tab")
    terminal.see("M-x replica- TAB", {9: "M-x replica- [replica-exchange replica-serve]"}, (9, 12))
    terminal.press("C-g", "M-x", "u", "n", "Tab", "Enter")
    terminal.see("M-x un TAB RET", {9: "Nothing to undo"}, (0, 0))
    terminal.press("C-x", "C-f", "z", "Tab")
    terminal.see("nothing to complete", {9: "Find file: z [No match]"}, (9, 12))
    terminal.press("C-g", "M-%", "x", "Tab", "y")
    terminal.see("TAB where no name is asked for", {9: "Query replace: x        y"})
    terminal.press("C-g")
    terminal.leave()
    terminal.left("left", "status 0")


PARTS = (erasing, words, lines, pasting, a_paste_without_its_end, completing)
