"""The programs of a scene: a session of `mgr edit` whose frames are looked at, and jobs."""

import fcntl
import functools
import json
import os
import pathlib
import re
import resource
import select
import signal
import struct
import subprocess
import tempfile
import termios
import time

SECONDS = 60

# The system's name of a process that waits for its first descriptor to be read from.
WAITS_FOR_KEYS = "0 0x0 "

# The same of one that is in a call which may be delayed.
DELAYED = {"flock": "73 ", "fsync": "74 "}

# The calls that are noted, and how a scene names them.
CHANGES = {"write": "write", "pwrite64": "write", "writev": "write", "fsync": "sync", "fdatasync": "sync"}
CHANGES |= {"rename": "rename", "renameat": "rename", "renameat2": "rename", "link": "link", "linkat": "link"}

# Of a line of strace the call and what it is about, if it was not refused; that begins with a file, or has names.
NOTED = re.compile(r"^(?:\d+ +)?(\w+)\((.*)\) += \d", re.MULTILINE)
OPENED = re.compile(r"\d+<(/[^>]*)>")
NAMES = re.compile(r'"([^"]*)"')

MODE_LINE = re.compile(r"(-\*\*-|----)Mg: (\S*) \(fund")


class Unexpected(Exception):
    """A program did what no line of a scene can be compared with."""


def start(command, folder, takes, memory=None, closed=None, **pipes):
    """Starts a program in a folder, which is given so many bytes of memory, may make files of so many, and
    has no such standard stream."""
    confine = lambda: _confine(takes, memory, closed)
    return subprocess.Popen(command, cwd=folder, bufsize=0, preexec_fn=confine, **pipes)


def _confine(takes, memory, closed):
    os.umask(0o022)
    # A writing that goes too far is then refused, and kills nobody.
    signal.signal(signal.SIGXFSZ, signal.SIG_IGN)
    resource.setrlimit(resource.RLIMIT_FSIZE, limits(takes))
    resource.setrlimit(resource.RLIMIT_AS, limits(memory))
    if closed is not None:
        os.close(closed)


def failing(call, fault):
    """Returns the words of a command under which that call of the system fails so, does nothing and answers so, or ends it."""
    quiet = ["-f", "-qq", "-o", "/dev/null", "-e", f"trace={call}"]
    # The program is the child then, and what traces it stands apart.
    how = "retval" if fault[0].isdigit() else "signal" if fault.startswith("SIG") else "error"
    return ["strace", "-D", *quiet, "-e", f"inject={call}:{how}={fault}"]


def delaying(call, number):
    """Returns the words of a command under which the call of that number takes a second."""
    quiet = ["-f", "-qq", "-o", "/dev/null", "-e", f"trace={call}"]
    return ["strace", "-D", *quiet, "-e", f"inject={call}:delay_enter=1000000:when={number}"]


def noting(path):
    """Returns the words of a command under which the calls that change files, or wait for the device, are noted in a file."""
    return ["strace", "-D", "-f", "-qq", "-y", "-o", path, "-e", f"trace={','.join(CHANGES)}"]


def noted(path, folder):
    """Returns the calls that were noted and not refused, as `write NAME` or `rename NAME NAME`, one after the other.

    What is written to no file is left out, and what is written to one in parts is one call.
    """
    calls = []
    for name, about in NOTED.findall(pathlib.Path(path).read_text()):
        of, opened = CHANGES[name], OPENED.match(about)
        if of in ("rename", "link"):
            calls.append(" ".join([of, *NAMES.findall(about)]))
        elif opened and calls[-1:] != [call := f"{of} {os.path.relpath(opened[1], folder)}"]:
            calls.append(call)
    return calls


def makes_calls_fail():
    """Whether there is a strace that may trace."""
    return ends_well((*failing("getpid", "EIO"), "true"))


@functools.cache
def ends_well(command):
    """Whether this machine can run a command, and it ends well."""
    try:
        return not subprocess.run(command, capture_output=True).returncode
    except OSError:
        return False


def limits(takes):
    return (resource.RLIM_INFINITY if takes is None else takes, resource.RLIM_INFINITY)


class Session:
    """A `mgr edit` that is traced, with each frame that it showed.

    The command may have words in front of mgr, of what runs it.
    """

    SWITCH = "--trace"

    def __init__(self, command, folder, words, takes):
        words = [*words]
        for name, value in ("--rows", "6"), ("--cols", "60"):
            if name not in words:
                words += [name, value]
        self.rows = int(words[words.index("--rows") + 1])
        pipes = {"stdin": subprocess.PIPE, "stdout": subprocess.PIPE, "stderr": subprocess.PIPE}
        self.process = start([*command, "edit", *words, self.SWITCH], folder, takes, **pipes)
        self.shown = b""
        self.error = b""

    def press(self, keys):
        """Hands keys to mgr, and waits until it waits for more, or for a peer."""
        try:
            self.process.stdin.write(keys)
        except BrokenPipeError:
            raise Unexpected("mgr takes no more keys") from None
        self._settle()

    def settle(self, is_done):
        """Waits until something is so."""
        end = time.monotonic() + SECONDS
        while not is_done():
            if time.monotonic() > end:
                raise Unexpected(f"mgr goes on for {SECONDS} seconds")
            self._read(0.001)
        if self.has_ended():
            while self._read(0):
                pass

    def _settle(self):
        self.settle(lambda: self.has_ended() or self._has_read_all() and self._sleeps())

    def await_keys(self):
        """Waits until mgr waits for keys alone, not for a peer."""
        self.settle(lambda: self.has_ended() or self._has_read_all() and self.reads_keys())

    def _has_read_all(self):
        left = fcntl.ioctl(self.process.stdin, termios.FIONREAD, b"\0" * 4)
        return not struct.unpack("i", left)[0]

    def _syscall(self):
        try:
            return pathlib.Path(f"/proc/{self.process.pid}/syscall").read_text()
        except OSError:
            return ""

    def reads_keys(self):
        return self._syscall().startswith(WAITS_FOR_KEYS) and self._has_shown_all()

    def await_delay(self, call):
        """Waits until that call is delayed: what is traced stops in others for moments alone."""
        end, stopped = time.monotonic() + SECONDS, None
        while stopped is None or time.monotonic() - stopped < 0.1:
            if self.has_ended() or time.monotonic() > end:
                raise Unexpected("no call of mgr is delayed")
            is_there = self._state() == "t" and self._syscall().startswith(DELAYED[call])
            stopped = (stopped or time.monotonic()) if is_there else None
            time.sleep(0.002)

    def _sleeps(self):
        return self._state() == "S" and self._has_shown_all()

    def _has_shown_all(self):
        return not select.select([self.process.stdout], [], [], 0)[0]

    def _state(self):
        try:
            return pathlib.Path(f"/proc/{self.process.pid}/stat").read_text().rpartition(") ")[2][0]
        except OSError:
            return ""

    def await_stop(self):
        """Waits until mgr has heard that it is to stop."""
        while self._state() not in ("T", "t", "Z", ""):
            time.sleep(0.001)

    def has_ended(self):
        return self.process.poll() is not None

    def _read(self, seconds):
        """Takes what is shown, if anything is within these seconds, and returns that."""
        if self.process.stdout.closed or not select.select([self.process.stdout], [], [], seconds)[0]:
            return b""
        more = os.read(self.process.stdout.fileno(), 1 << 20)
        self.shown += more
        return more

    def close(self):
        """Ends the keys, and waits for the end; returns the status."""
        if not self.process.stdout.closed:
            shown, self.error = self.process.communicate(timeout=SECONDS)
            self.shown += shown
        return self.process.wait(SECONDS)

    def kill(self):
        self.process.kill()
        self.close()

    def disk_takes(self, most):
        """From now on each file may grow to so many bytes, or to any size."""
        resource.prlimit(self.process.pid, resource.RLIMIT_FSIZE, limits(most))

    def lines(self):
        return self.shown.split(b"\n")[:-1]

    def frames(self):
        """Returns the rows of each frame that was shown."""
        lines = self.lines()
        ends = range(self.rows, len(lines) + 1, self.rows)
        return [lines[end - self.rows : end] for end in ends]

    def count(self):
        """Returns how many frames were shown."""
        return len(self.frames())

    def frame(self):
        """Returns the rows of the frame that was shown last."""
        frames = self.frames()
        if not frames:
            raise Unexpected(f"mgr shows no frame, and says {self.close() and self.error!r}")
        return [row.decode() for row in frames[-1]]

    def cursor(self):
        """Returns the row and the column of the cursor in that frame."""
        raise Unexpected("a traced session does not say where its cursor stands")

    def mode_lines(self):
        """Returns, for each window, the row of its mode line and whether it is changed, and its name."""
        found = [(at, MODE_LINE.match(row)) for at, row in enumerate(self.frame()[:-1])]
        return [(at, it[1] == "-**-", it[2]) for at, it in found if it]


class Live(Session):
    """A `mgr edit` for a front: statuses, and the frames and the operations after them."""

    SWITCH = "--live"

    def _parts(self):
        """Returns each status that is whole, the rows of its frame, or none where nothing of it changed, and its
        lines of operations."""
        parts, lines = [], self.lines()
        while lines:
            status = json.loads(lines[0])
            rows = 1 + status["rows"]
            end = rows + status["operations"]
            if len(lines) < end:
                break
            parts.append((status, lines[1:rows], lines[rows:end]))
            lines = lines[end:]
        return parts

    def frames(self):
        return [rows for _, rows, _ in self._parts() if rows]

    def statuses(self):
        return [status for status, _, _ in self._parts()]

    def status(self):
        """Returns the status that was written last."""
        statuses = self.statuses()
        if not statuses:
            raise Unexpected(f"mgr writes no status, and says {self.close() and self.error!r}")
        return statuses[-1]

    def told(self):
        """Returns the lines of all operations that were told."""
        return b"".join(line + b"\n" for _, _, lines in self._parts() for line in lines)

    def cursor(self):
        return tuple(self.status()["cursor"])


class Job:
    """A program that reads its input and ends.

    So many bytes of its output are taken out of a pipe at a time, or it goes to a file. Else it is confined
    as `start` says.
    """

    def __init__(self, command, folder, given, most=None, **confined):
        with tempfile.TemporaryFile() as output:
            pipes = {"stdin": given.reader(), "stdout": subprocess.PIPE if most else output, "stderr": subprocess.PIPE}
            process = start(command, folder, **confined, **pipes)
            given.feed(process)
            if most:
                _take(process, most, output)
            self.error = process.communicate(timeout=SECONDS)[1]
            output.seek(0)
            self.output = output.read()
        self.status = process.returncode


def _take(process, most, output):
    """Takes what a program writes, so many bytes at a time, and has a write that waits for that be cut short."""
    while taken := os.read(process.stdout.fileno(), most):
        output.write(taken)
        process.send_signal(signal.SIGSTOP)
        if process.returncode is None:
            os.waitid(os.P_PID, process.pid, os.WSTOPPED | os.WEXITED | os.WNOWAIT)
            process.send_signal(signal.SIGCONT)
