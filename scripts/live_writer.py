"""A live session of `mgr edit` that is watched: what it was given, what it told, and what its log has."""

import collections
import functools
import json
import os
import resource
import select
import subprocess
import time

from notes import expect
from play.programs import Unexpected, limits

NAME = "note"
ROWS, COLUMNS = 6, 40
SECONDS = 60
BLOCK = 65536
MOMENT = 0.002
# After that long an append that was due has failed.
SECONDS_OF_AN_APPEND = 0.2
# No status has such a byte.
FILLER = bytes(4096)

REPORT, NEWLINE = b"\xff", b"\n"
INSERTED, DELETED = "ins", "del"

# What may become of a report that is a report: the live buffer is not open, text comes where none is taken, or a
# splice comes late.
ALLOWED = {"Closed", "Busy", "Stale", "Range"}

# What operations of others leave as it is.
LEFT = ("begun", "message", "mode", "prompt", "keys")

# A status that is whole, and the lines of operations after it.
Part = collections.namedtuple("Part", "status lines")


@functools.lru_cache(1 << 16)
def operations(line):
    """Returns the operations of a line, each as its kind and identifier, with the sign and parent of an insertion.

    A line that is none, as a torn one, has none.
    """
    try:
        told = json.loads(line)
        counter, replica = told["id"]
    except (ValueError, KeyError, TypeError):
        return ()
    kind = told["op"]
    if kind == "ins":
        return (((INSERTED, counter, replica), (told["char"], *told["parent"])),)
    if kind == "run":
        parents = [tuple(told["parent"]), *((counter + at, replica) for at in range(len(told["text"]) - 1))]
        signs = enumerate(zip(told["text"], parents))
        return tuple(((INSERTED, counter + at, replica), (sign, *parent)) for at, (sign, parent) in signs)
    return tuple(((DELETED, counter + at, replica), None) for at in range(told.get("count", 1)))


def operations_of(lines):
    """Returns the operations of lines; two insertions with one identifier have to be the same."""
    found = {}
    for line in lines:
        for key, value in operations(line):
            if found.setdefault(key, value) != value:
                raise Unexpected(f"{key} is {value}, and was {found[key]}")
    return found


def report(**members):
    """Returns the bytes of a report."""
    line = json.dumps(members, separators=(",", ":"), sort_keys=True, ensure_ascii=False)
    return REPORT + line.encode() + NEWLINE


class Parts:
    """The statuses of what is read bit by bit."""

    def __init__(self):
        self.rest, self.lines, self.status = b"", [], None

    def take(self, written):
        """Returns the statuses that are whole with these bytes."""
        *lines, self.rest = (self.rest + written).split(NEWLINE)
        return [part for line in lines if (part := self._take(line))]

    def _take(self, line):
        if self.status is None:
            self.status = json.loads(line)
        else:
            self.lines.append(line)
        rows = self.status["rows"]
        if len(self.lines) < rows + self.status["operations"]:
            return None
        part = Part(self.status, self.lines[rows:])
        self.status, self.lines = None, []
        return part

    def begun(self):
        """Returns the lines of operations that are whole, of a status that is not."""
        return self.lines[self.status["rows"] :] if self.status else []


class Writer:
    """A session in a folder, which may be killed and begun again, and a model of what it may not lose."""

    def __init__(self, mgr, folder, replica):
        self.mgr, self.folder, self.replica = mgr, folder, replica
        folder.mkdir(exist_ok=True)
        self.log = folder / f"{NAME}.ops"
        # All operations that were told, and lines that nobody was handed yet.
        self.told, self.news = {}, []
        self.counts = collections.Counter()
        self.process = self.status = None
        self.is_limited = self.is_closed = False
        self.transcript = []

    # ---- begin and end

    def begin(self, *words):
        """Begins a session, and takes its first status."""
        size = ["--rows", str(ROWS), "--cols", str(COLUMNS)]
        command = [self.mgr, "edit", NAME, "--replica", str(self.replica), "--live", *size, *words]
        pipes = {"stdin": subprocess.PIPE, "stdout": subprocess.PIPE, "stderr": subprocess.PIPE}
        # A writing that goes too far is refused then, and kills nobody.
        self.process = subprocess.Popen(command, cwd=self.folder, bufsize=0, restore_signals=False, **pipes)
        os.set_blocking(self.process.stdin.fileno(), False)
        self.parts, self.waiting = Parts(), []
        self.keys = self.reports = 0
        # Whether the next status is a second one, whether a writing may have failed by then, and whether the log was
        # opened in a closed folder, so that one failed since.
        self.is_second = self.may_fail = self.was_opened_closed = self.is_forgiven = False
        # What was typed, and what was told of it, since all was told; and the text by the changes that were told.
        self.typed, self.inserted = collections.Counter(), collections.Counter()
        self.text, self.changes = ([], 0) if "--changes" in words else (None, 0)
        self.transcript.append((words, [], []))
        had = bool(self.logged())
        self.settle()
        expect("whether a log was loaded", had, self.status["loaded"])

    def end(self):
        """Ends the keys, and waits for the end, which has to be well."""
        self.process.stdin.close()
        self._read_all()
        said = self.process.stderr.read()
        expect(f"the end of {self.replica}", (0, b""), (self.process.wait(SECONDS), said))
        self._close()

    def kill(self):
        """Kills the session where it stands. What it told before counts, as if a front had read it."""
        self.process.kill()
        self.process.wait()
        self._read_all()
        self._note_told(self.parts.begun())
        if self.is_settled():
            self.expect_typed_is_told()
        self._close()

    def _read_all(self):
        """Takes note of all that comes up to the end of what is told."""
        while written := self._read():
            self.waiting += self.parts.take(written)
        while self.waiting:
            self._note(self.waiting.pop(0))

    def _close(self):
        for pipe in (self.process.stdin, self.process.stdout, self.process.stderr):
            pipe.close()
        self.process = self.status = None

    def stop(self):
        """Ends what still runs, once something was not as it should be."""
        if self.process:
            self.process.kill()
            self.process.wait()
            self._close()

    # ---- what it is given

    def send(self, *pieces):
        """Hands keys and reports to the session, in pieces with a moment between, and reads meanwhile what comes."""
        self.is_forgiven = False
        for at, part in enumerate(b"".join(pieces).split(REPORT)):
            self.keys += len(part.partition(NEWLINE)[2] if at else part)
            self.reports += bool(at)
        for at, piece in enumerate(pieces):
            time.sleep(MOMENT if at else 0)
            self._write(piece)

    def _write(self, given):
        self.transcript[-1][1].append(given)
        stdin, stdout = self.process.stdin.fileno(), self.process.stdout
        while given:
            ready, writable, _ = select.select([stdout], [stdin], [], SECONDS)
            if not (ready or writable):
                raise Unexpected(f"{self.replica} takes nothing for {SECONDS} seconds")
            if writable:
                given = given[os.write(stdin, given[:BLOCK]) :]
            elif ready:
                self._take_written()

    def _read(self):
        while written := os.read(self.process.stdout.fileno(), BLOCK):
            # What filled the pipe is left out.
            if told := written.replace(FILLER[:1], b""):
                self.transcript[-1][2].append(told)
                return told
        return b""

    def _take_written(self):
        written = self._read()
        if not written:
            said = self.process.stderr.read()
            raise Unexpected(f"{self.replica} has ended with {self.process.wait(SECONDS)}, and says {said!r}")
        self.waiting += self.parts.take(written)

    # ---- what it says

    def next_status(self):
        """Waits for the next status, and takes note of it."""
        end = time.monotonic() + SECONDS
        while not self.waiting:
            if not select.select([self.process.stdout], [], [], max(0, end - time.monotonic()))[0]:
                raise Unexpected(f"{self.replica} tells nothing for {SECONDS} seconds: {self.keys} keys and {self.reports} reports")
            self._take_written()
        self._note(self.waiting.pop(0))
        return self.status

    def is_settled(self):
        """Whether all keys and reports are answered, and told."""
        status = self.status
        return status and (status["keys"], status["reports"], status["more"]) == (self.keys, self.reports, False)

    def settle(self):
        """Waits until all is answered."""
        while not self.is_settled():
            self.next_status()
        return self.status

    def await_append(self, size):
        """Fills the pipe, so that the session says nothing more, and waits until the log has another size than before."""
        pipe = os.open(f"/proc/self/fd/{self.process.stdout.fileno()}", os.O_WRONLY | os.O_NONBLOCK)
        try:
            while os.write(pipe, FILLER):
                pass
        except BlockingIOError:
            os.close(pipe)
        end = time.monotonic() + SECONDS_OF_AN_APPEND
        while self.log_size() == size and time.monotonic() < end:
            time.sleep(0)

    def _note(self, part):
        """Takes note of a status: of what it refused, how the text changed, and what it told."""
        old, self.status, status = self.status, part.status, part.status
        self.was_opened_closed |= self.is_closed and bool(status["live"]) and not (old and old["live"])
        for number, fault in status["refused"]:
            self.counts[fault] += 1
            if fault not in ALLOWED:
                raise Unexpected(f"report {number} of {self.replica} is refused: {fault}")
        if self.text is not None:
            self._change(status["changes"])
        elif "changes" in status:
            raise Unexpected("changes are told, and were not asked for")
        live = status["live"]
        if part.lines and live and live["unsaved"]:
            raise Unexpected(f"{len(part.lines)} lines are told, and {live['unsaved']} operations are in no log")
        self._note_saved(status)
        self._note_told(part.lines)

    def _note_saved(self, status):
        """A writing may fail where there is no room, and one that failed counts up to the next that does not. A log that
        was opened while it took no writing fails once more."""
        has_failed, live = status["saved"] == "file", status["live"]
        if status["saved"] not in ("none", "ok", "file") or has_failed and not (self.may_fail or self.was_opened_closed):
            raise Unexpected(f"{self.replica} says that a writing ended with {status['saved']}, and there is room")
        if self.is_second:
            self.counts["writings that failed"] += has_failed
            if has_failed and live and live["unsaved"] and not self.is_limited:
                self._forgive(live)
            self.was_opened_closed = False
        self.is_second = status["more"]
        self.may_fail = self.is_limited or has_failed

    def _forgive(self, live):
        if not self.was_opened_closed:
            raise Unexpected(f"a writing of {self.replica} fails, and there is room: {live}")
        self.is_forgiven = True

    def _change(self, changes):
        for change in changes:
            if not 0 <= change["lo"] <= change["hi"] <= len(self.text):
                raise Unexpected(f"a change of {len(self.text)} characters is {change}")
            self.text[change["lo"] : change["hi"]] = change["text"]
        self.changes += len(changes)

    def _note_told(self, lines):
        """What is told has to be in the log at this moment."""
        if not lines:
            return
        told, logged = operations_of(lines), self.logged()
        for key, value in told.items():
            if key not in logged or logged[key] != value:
                raise Unexpected(f"{self.replica} told {key} {value}, and its log has {logged.get(key, 'nothing')}")
        for key, value in told.items():
            if key[0] == INSERTED:
                expect("the replica of what is told", self.replica, key[2])
                self.inserted[value[0]] += 1
        self.told |= told
        self.news += lines
        self.counts["operations told"] += len(told)

    def expect_typed_is_told(self, is_made=False):
        """If all is in the log, each character that was typed is told. So it has to be where something was made just
        now, and there is room."""
        live = self.status["live"]
        if live and live["unsaved"] and (self.is_limited or self.is_forgiven or not is_made):
            return
        if untold := self.typed - self.inserted:
            raise Unexpected(f"{self.replica} did not tell {dict(untold)}, which was typed, and says {live}")
        self.typed.clear()
        self.inserted.clear()

    # ---- its log

    def log_size(self):
        try:
            return self.log.stat().st_size
        except FileNotFoundError:
            return 0

    def logged(self):
        """Returns the operations of the log as it stands: those of its whole lines, and of the rest if it is one."""
        try:
            return operations_of(self.log.read_bytes().split(NEWLINE))
        except FileNotFoundError:
            return {}

    def expect_kept(self):
        """All that was told at any time is in the log."""
        logged = self.logged()
        lost = [key for key, value in self.told.items() if logged.get(key, 0) != value]
        if lost:
            raise Unexpected(f"the log of {self.replica} lost {len(lost)} operations that were told, as {lost[0]}")

    def own(self, lines):
        """Returns the insertions of this replica in lines, without what they insert."""
        return {key for key in operations_of(lines) if key[0] == INSERTED and key[2] == self.replica}

    # ---- a disk that is full

    def limit(self, more):
        """No file may become larger than the log is, and so many bytes more."""
        resource.prlimit(self.process.pid, resource.RLIMIT_FSIZE, limits(max(0, self.log_size() + more)))
        self.is_limited = self.may_fail = True

    def close_folder(self):
        """No file may be made in the folder, nor the log be written to."""
        if self.log.exists():
            self.log.chmod(0o444)
        self.folder.chmod(0o555)
        self.is_limited = self.is_closed = self.may_fail = True

    def lift(self):
        """There is room again."""
        self.folder.chmod(0o755)
        if self.log.exists():
            self.log.chmod(0o644)
        if self.process:
            resource.prlimit(self.process.pid, resource.RLIMIT_FSIZE, limits(None))
        self.is_limited = self.is_closed = False

    # ---- jobs

    def job(self, *words, given=b""):
        """Returns what a job over the note writes, which has to be done."""
        done = subprocess.run([self.mgr, *words], cwd=self.folder, input=given, capture_output=True, timeout=SECONDS)
        expect(f"the end of {' '.join(words)} of {self.replica}", (0, b""), (done.returncode, done.stderr))
        return done.stdout

    def missing_at(self, other):
        """Returns the lines that this log has and another one lacks, by claims."""
        if not self.log.exists():
            return []
        if not other.log.exists():
            return [line for line in self.log.read_bytes().splitlines() if operations(line)]
        return self.job("missing", NAME, given=other.job("claims", NAME)).splitlines()
