#!/usr/bin/env python3
"""Has files fail under mgr: a disk that is full, a folder that takes no file, calls that fail or write too little.

The argument is a built mgr. Calls: each call of the system of a load and of a save is refused by strace in turn,
with EIO, ENOSPC, EINTR and ENOMEM; each of its writes to a file is cut short; and from a call on all of its name
are refused, over two saves, until strace is killed. The disk: a tmpfs of 1 MB, which root alone can mount,
has room for so many pages when a note is saved. The folder takes no new file between two saves; who calls
this as root has nobody do it. Each time the echo line has to say `File fault`, or the save has to be right:
a call that writes, syncs or gives a name and is refused is told. After it the log has each line of an
earlier save, and loads; the text is the old one or the new one, or, if it is written in place, perhaps a
part of it, which is told. The next save, with the fault gone, does what is left, and a last word is saved.
`make hostile` calls it. A row is a call, or a case; what this machine cannot do is said to be left out. It
ends with an error where something was lost, or not as it has to be.
"""

import collections
import multiprocessing
import os
import pathlib
import pwd
import re
import resource
import shutil
import signal
import subprocess
import sys
import tempfile
import time

import plain_ends  # noqa: F401
from notes import Notes, Shown, expect, put
from play.notation import keys_of, lines_of
from play.programs import Session, Unexpected, failing, limits, makes_calls_fail

ERRORS = ("EIO", "ENOSPC", "EINTR", "ENOMEM")
CALL = re.compile(r"^(?:\[pid +\d+\] |\d+ +)?(\w+)\((\d+)?")
SAVE = "C-x C-s"
SAVE_IS_READ, OF_A_NOTE = 'read(0, "\\30\\23"', '(AT_FDCWD, "note'
WROTE, FAULT, NOTHING_NEW = "Wrote note", "File fault", "No changes"

# What is said where the system itself has no memory, and how a load ends that is refused.
OUT = "Out of memory"
NO_LOAD = {(3, b"device fault\n"): "device fault", (4, b"out of memory\n"): "out of memory"}

# Calls that no save may pass over where they are refused, and such as a session needs for more than files.
TOLD = {"write", "fsync", "fdatasync", "rename", "renameat", "renameat2"}
SHARED = {"read", "write", "mmap", "munmap", "mremap", "brk", "madvise"}

PAGE = 4096
FREE_PAGES = (0, 1, 2, 3, 4, 6, 8, 16, 24, 32, 40)
NOBODY, NOGROUP = "nobody", "nogroup"
SECONDS = 60

# For how many microseconds strace holds a write before it is done and after it.
HELD = 300000

# ---- what is saved

# A name, files and links to begin with, keys that are typed and saved, what another program then writes, and
# the keys that are typed before the save that is looked at.
Case = collections.namedtuple("Case", "name files links first others then", defaults=({}, {}, "", {}, "M-> new"))
OLD = {"note": b"old", "note.ops": lines_of("o1.1<0.0 l2.1<1.1 d3.1<2.1")}
TORN = {**OLD, "note.ops": OLD["note.ops"] + b'{"id":[1,1],"op":"d'}
IN_PLACE = {"there": b"old", "note.ops": OLD["note.ops"]}
LONG = "M-> C-u 1500 x"
CASES = [
    Case("an append", OLD),
    Case("a second append", OLD, first=f"x {SAVE}"),
    Case("the first save, from no files", {}),
    Case("the first save of a text", {"note": b"old"}),
    Case("a whole log: the old one is torn", TORN),
    Case("a whole log: another one stands there", OLD, others={"note.ops": b""}, then=f"M-> new {SAVE}"),
    Case("a text that another program changed", OLD, first=f"x {SAVE}", others={"note": b"quince"}),
    Case("a text in place, behind a link", IN_PLACE, {"note": "there"}),
]
ON_A_DISK = [
    *CASES,
    Case("an append of 1500 letters", OLD, then=LONG),
    Case("1500 letters, from no files", {}, then=LONG),
    Case("1500 letters, a text in place", IN_PLACE, {"note": "there"}, then=LONG),
]


class Desk:
    """A folder in which a case is saved, again and again, and what is there before the save and after it."""

    def __init__(self, mgr, folder, case):
        self.mgr, self.folder, self.case, self.shown = mgr, folder, case, Shown(mgr)
        self.begin()
        expect("what a save says", WROTE, self.press(SAVE))
        self.high = Notes(folder)
        self.finish(WROTE)

    def begin(self, *under):
        """Begins a session, up to the save that is looked at."""
        self.load(*under)
        self.write()

    def load(self, *under):
        """Begins a session, up to its first frame or its end."""
        put(self.folder, self.case.files)
        for name, target in self.case.links.items():
            (self.folder / name).symlink_to(target)
        self.session = Session([*under, self.mgr], self.folder, ["note", "--replica", "1"], None)
        self.session.await_keys()

    def write(self):
        """Goes on up to the save that is looked at."""
        if self.case.first:
            self.press(self.case.first)
        for name, data in self.case.others.items():
            (self.folder / name).write_bytes(data)
        self.press(self.case.then)
        self.low = Notes(self.folder)

    def press(self, keys):
        """Presses keys; returns what the echo line says after them."""
        self.session.press(keys_of(keys))
        self.session.await_keys()
        if self.session.has_ended():
            raise Unexpected(f"mgr ends with {self.session.close()}, and says {self.session.error!r}")
        return self.session.frame()[-1]

    def finish(self, said):
        """Looks at what a save left, saves once more, and then a last word."""
        self.expect_kept(said)
        expect("what the next save says", NOTHING_NEW if said == WROTE else WROTE, self.press(SAVE))
        self.expect_new()
        expect("what the save of a last word says", WROTE, self.press(f"z {SAVE}"))
        expect("the end", (0, b""), (self.session.close(), self.session.error))
        self.expect_loaded()

    def expect_kept(self, said):
        """What is said is true, the log has what it had, and the text is the old or the new one."""
        if said not in (WROTE, FAULT, OUT):
            raise Unexpected(f"the echo line says {said!r}")
        if said == WROTE:
            self.expect_new()
        now = Notes(self.folder)
        lines, old, new = (set(whole_lines(it)) for it in (now, self.low, self.high))
        expect("what the log lost", set(), old - lines)
        expect("what nobody wrote", set(), lines - new)
        self.shown.text(b"".join(whole_lines(now)))
        self.expect_text(now, lines == new)
        self.expect_others()

    def expect_text(self, now, is_logged):
        """The text is the old one, or, once all of it is in the log, the new one; in place perhaps a part of it."""
        text, old, new = (it.files.get("note") for it in (now, self.low, self.high))
        if text == old:
            return
        expect("whether the log is written before the text", True, is_logged)
        expect("the text", new[: len(text)] if self.case.links else new, text)

    def expect_others(self):
        """What another program wrote stands in some file."""
        there = [path.read_bytes() for path in self.folder.iterdir() if path.is_file()]
        for name, data in self.case.others.items():
            expect(f"whether what another program wrote to {name} is kept", True, any(data in it for it in there))

    def expect_new(self):
        now = Notes(self.folder)
        expect("the lines of the log", self.high.lines("note.ops"), now.lines("note.ops"))
        expect("the text", self.high.files["note"], now.files["note"])
        expect("the text of the log", now.files["note"], self.shown.text(now.files["note.ops"]))
        self.expect_others()

    def expect_loaded(self):
        """The log shows the text, which has the last word, and no part of a file is left over."""
        now = Notes(self.folder)
        expect("the text of the log", now.files["note"], self.shown.text(now.files["note.ops"]))
        expect("whether the last word is saved", True, b"z" in now.files["note"])
        left = {path.name for path in self.folder.iterdir() if path.name.endswith((".ops.new", ".ops.text"))}
        expect("what is left over", set(), left)

    def end(self):
        if not self.session.process.stdout.closed:
            self.session.kill()


def whole_lines(notes):
    """Returns the lines of a log, without one that is torn."""
    return [line for line in notes.lines("note.ops") if line.endswith(b"\n")]


# ---- calls that are refused, and writes that are cut short

# A call of a save: its name, how many of that name there were with it, its descriptor, and its line.
Call = collections.namedtuple("Call", "name number file line")


def calls_of(desk):
    """Returns the calls of the desk's load, and those of its save."""
    trace = desk.folder.parent / "trace"
    desk.begin("strace", "-D", "-f", "-o", str(trace))
    expect("what a save says", WROTE, desk.press(SAVE))
    desk.session.close()
    lines = trace_of(trace)
    loads = min(i for i, line in enumerate(lines) if OF_A_NOTE in line)
    saves = max(i for i, line in enumerate(lines) if SAVE_IS_READ in line) + 1
    return calls_before_a_frame(lines, loads), calls_before_a_frame(lines, saves)


def calls_before_a_frame(lines, begin):
    """Returns the calls of a trace from a line on, up to the next frame."""
    seen, found = collections.Counter(), []
    for i, line in enumerate(lines):
        call = CALL.match(line)
        if not call:
            continue
        seen[call[1]] += 1
        if i >= begin and (call[1], call[2]) == ("write", "1"):
            return found
        if i >= begin:
            found.append(Call(call[1], seen[call[1]], call[2], line.split(" ", 1)[1].strip()))
    raise Unexpected("no frame is shown")


def trace_of(path):
    """Returns the lines of a trace, once it is whole."""
    end = time.monotonic() + SECONDS
    while "+++ exited" not in (text := path.read_text(errors="replace")):
        if time.monotonic() > end:
            raise Unexpected("strace writes no end of its trace")
        time.sleep(0.01)
    return text.splitlines()


def refuse(desk, call, error):
    """Has a call of the save refused; returns what was said."""
    desk.begin(*failing(call.name, f"{error}:when={call.number}"))
    said = desk.press(SAVE)
    if call.name in TOLD and error != "EINTR":
        expect(f"what is said where {call.name} is refused", OUT if error == "ENOMEM" else FAULT, said)
    desk.finish(said)
    return said


def refuse_load(desk, call, error):
    """Has a call of the load refused, which ends mgr or is passed over; returns what was said."""
    desk.load(*failing(call.name, f"{error}:when={call.number}"))
    if not desk.session.has_ended():
        desk.write()
        desk.finish(desk.press(SAVE))
        return "loaded"
    end = desk.session.close(), desk.session.error
    expect("whether that is an end", True, end in NO_LOAD)
    for name, data in desk.case.files.items():
        expect(name, data, (desk.folder / name).read_bytes())
    return NO_LOAD[end]


def refuse_on(desk, call, error):
    """Has that call and all of its name after it refused, over two saves, until strace is killed."""
    desk.begin(*failing(call.name, f"{error}:when={call.number}+"))
    said = desk.press(SAVE)
    if said != WROTE:
        desk.expect_kept(said)
        said = desk.press(SAVE)
    desk.expect_kept(said)
    status = pathlib.Path(f"/proc/{desk.session.process.pid}/status").read_text()
    os.kill(int(re.search(r"TracerPid:\s+(\d+)", status)[1]), signal.SIGKILL)
    desk.finish(said)
    return said


def cut_short(desk, call, kept):
    """Has a write to a file take so many bytes, or all but so many, and then take the rest; returns what was said."""
    held = f"inject=write:delay_enter={HELD}:delay_exit={HELD}:when={call.number}"
    desk.begin("strace", "-D", "-f", "-qq", "-o", "/dev/null", "-e", "trace=write", "-e", held)
    process = desk.session.process
    process.stdin.write(keys_of(SAVE))
    size, count = await_write(process.pid, int(call.file))
    most = size + (kept if kept > 0 else count + kept)
    resource.prlimit(process.pid, resource.RLIMIT_FSIZE, limits(most))
    await_size(process.pid, int(call.file), most)
    resource.prlimit(process.pid, resource.RLIMIT_FSIZE, limits(None))
    said = desk.press("")
    expect("what is said behind a short write", WROTE, said)
    desk.finish(said)
    return said


def await_write(pid, file):
    """Waits until a write to a file begins; returns the size of the file, and how many bytes are to be written."""
    end = time.monotonic() + SECONDS
    while time.monotonic() < end:
        words = pathlib.Path(f"/proc/{pid}/syscall").read_text().split()
        if words[:2] == ["1", hex(file)]:
            return os.stat(f"/proc/{pid}/fd/{file}").st_size, int(words[3], 16)
        time.sleep(0.001)
    raise Unexpected(f"no write to {file}")


def await_size(pid, file, size):
    end = time.monotonic() + SECONDS
    while os.stat(f"/proc/{pid}/fd/{file}").st_size != size:
        if time.monotonic() > end:
            raise Unexpected(f"no file becomes of {size} bytes")
        time.sleep(0.001)


# ---- a full disk, and a folder that takes no file


class Disk:
    """A tmpfs of 1 MB."""

    def __init__(self, folder):
        self.folder, self.filler = folder, folder / "filler"
        folder.mkdir()
        self.is_mounted = self._mount()

    def _mount(self):
        """Whether it can be mounted here."""
        words = ["mount", "-t", "tmpfs", "-o", "size=1m", "tmpfs", self.folder]
        try:
            return subprocess.run(words, capture_output=True).returncode == 0
        except OSError:
            return False

    def fill(self, pages):
        """Fills the disk, but for so many pages."""
        with open(self.filler, "wb", buffering=0) as file:
            try:
                while file.write(bytes(PAGE)):
                    pass
            except OSError:
                pass
            os.truncate(self.filler, max(0, file.tell() // PAGE - pages) * PAGE)

    def empty(self):
        self.filler.unlink()

    def unmount(self):
        if self.is_mounted:
            subprocess.run(["umount", self.folder], check=True)


def save_in(desk, disk, pages):
    """Saves where the disk has room for so many pages; returns what was said."""
    desk.begin()
    disk.fill(pages)
    said = desk.press(SAVE)
    desk.expect_kept(said)
    disk.empty()
    desk.finish(said)
    return said


def save_closed(desk, mode):
    """Saves where the folder has a mode that lets no file be made; returns what was said."""
    desk.begin()
    desk.folder.chmod(mode)
    try:
        said = desk.press(SAVE)
        desk.expect_kept(said)
    finally:
        desk.folder.chmod(0o755)
    desk.finish(said)
    return said


# ---- all of it


class Tally:
    """What was said by saves that were disturbed, and how many were not as they have to be."""

    def __init__(self):
        self.said, self.bad = collections.Counter(), 0

    def row(self, name, tries):
        """Prints a row of tries, each with its name."""
        told = []
        for label, attempt, desk, *more in tries:
            try:
                said = attempt(desk, *more)
                self.said[said] += 1
            except (Unexpected, OSError, subprocess.SubprocessError) as fault:
                said = f"BAD: {fault}"
                self.bad += 1
            finally:
                desk.end()
            told.append((label, said))
        print(f"{name[:57]:<58} {summary(told)}", flush=True)


def summary(told):
    """Returns what was said, with the labels that it was said at."""
    labels = collections.defaultdict(list)
    for label, said in told:
        labels[said].append(label)
    return "; ".join(f"{said} ({', '.join(at)})" for said, at in labels.items())


def try_calls(tally, mgr, root):
    """Refuses each call of each case's save."""
    for case in CASES:
        desk = Desk(mgr, root / "desk", case)
        loads, calls = calls_of(desk)
        print(f"\n{case.name}: {len(loads)} calls of a load, {len(calls)} of a save")
        for call in loads:
            tally.row(f"load: {call.line}", [(error, refuse_load, desk, call, error) for error in ERRORS])
        for call in calls:
            tally.row(call.line, [(error, refuse, desk, call, error) for error in ERRORS])
        for call in calls:
            if call.name == "write":
                tries = [(str(kept), cut_short, desk, call, kept) for kept in (1, 60, -1) if kept < written(call)]
                tally.row(f"short: {call.line}", tries)
        firsts = {call.name: call for call in reversed(calls) if call.name not in SHARED}
        for call in firsts.values():
            tally.row(f"from there on: {call.name}", [(error, refuse_on, desk, call, error) for error in ERRORS[:2]])


def written(call):
    """Returns how many bytes a write has."""
    return int(re.search(r"(\d+)\)\s+= ", call.line)[1])


def try_disk(tally, mgr, root):
    disk = Disk(root / "disk")
    if not disk.is_mounted:
        print("\nleft out: no tmpfs can be mounted here, which a disk that is full needs")
        return
    try:
        print("\na disk that is full, but for so many pages")
        for case in ON_A_DISK:
            desk = Desk(mgr, disk.folder / "desk", case)
            tally.row(case.name, [(str(pages), save_in, desk, disk, pages) for pages in FREE_PAGES])
    finally:
        disk.unmount()


def try_folder(tally, mgr, root):
    print("\na folder that takes no new file", flush=True)
    for case in CASES:
        desk = Desk(mgr, root / "desk", case)
        tally.row(case.name, [(f"{mode:o}", save_closed, desk, mode) for mode in (0o555,)])


def try_folder_as_nobody(results, mgr, root):
    """The same as that user, in a process of its own."""
    user = pwd.getpwnam(NOBODY)
    os.setgroups([])
    os.setgid(user.pw_gid)
    os.setuid(user.pw_uid)
    tally = Tally()
    try_folder(tally, mgr, root)
    results.put(tally)


def fork_folder(tally, mgr, root):
    """Tries the folder as somebody whom modes bind."""
    if os.geteuid():
        try_folder(tally, mgr, root)
        return
    shutil.chown(root, NOBODY, NOGROUP)
    forks = multiprocessing.get_context("fork")
    results = forks.SimpleQueue()
    child = forks.Process(target=try_folder_as_nobody, args=(results, mgr, root))
    child.start()
    theirs = results.get()
    child.join()
    tally.said += theirs.said
    tally.bad += theirs.bad


def main():
    if len(sys.argv) != 2:
        sys.exit("usage: failing_files.py MGR")
    begin, tally = time.monotonic(), Tally()
    with tempfile.TemporaryDirectory(prefix="mgr-failing-") as folder:
        root = pathlib.Path(folder)
        root.chmod(0o755)
        mgr = shutil.copy(sys.argv[1], root / "mgr")
        for name in ("own", "others"):
            (root / name).mkdir()
        if makes_calls_fail():
            try_calls(tally, mgr, root / "own")
        else:
            print("left out: there is no strace that may trace, which has calls fail")
        try_disk(tally, mgr, root)
        fork_folder(tally, mgr, root / "others")
    right, told = tally.said[WROTE] + tally.said["loaded"], tally.said.total()
    seconds = time.monotonic() - begin
    print(f"\n{told + tally.bad} loads and saves were disturbed in {seconds:.0f} seconds: {right} were right, and "
          f"{told - right} were told, and the next one did what was left.")
    if tally.bad:
        sys.exit(f"{tally.bad} are not as they have to be")
    print("Nothing was lost.")


if __name__ == "__main__":
    main()
