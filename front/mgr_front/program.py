"""The program mgr: where it is, and what its commands say of a note."""

import json
import os
import shutil
import subprocess
from collections.abc import Callable, Sequence
from dataclasses import dataclass

from mgr_front.channels import Apart
from mgr_front.notes import Note, Refused, found
from mgr_front.options import Options
from mgr_front.saying import REFUSED, stop

# What mgr is asked to fill: a terminal has fewer columns, and the rows are cut for it.
COLUMNS = 500
# What mgr says if it opens nothing since a file is locked or cannot be read.
DEVICE = "device fault"
# The programs that begin an mgr and have it keep a note open.
FRONTS = "mgr-live", "mgr-channel", "mgr-hub"


@dataclass(frozen=True)
class Log:
    """What mgr says of the log of a note."""

    bytes: int
    operations: int
    waiting: int
    # Whether the text that stands beside it is that of the log: "same", "other" or "unread".
    text: str
    # The greatest counter of each replica.
    counters: dict[int, int]


def guarded(folder: str, options: Options, work: Callable[[str, Options], int]) -> int:
    """Does something with mgr, and says why it cannot be done; `folder` is where the front's programs stand."""
    beside = os.path.join(folder, "mgr")
    mgr = shutil.which(os.environ.get("MGR") or (beside if os.path.isfile(beside) else "mgr"))
    if mgr is None:
        stop(f"the program {os.environ.get('MGR') or 'mgr'} is not there")
    try:
        return work(mgr, options)
    except Refused as refused:
        stop(str(refused), refused.status)
    except Apart as apart:
        stop(str(apart))
    except OSError as error:
        stop(f"{error.filename or options.name}: {error.strerror}")


def ask(mgr: str, note: Note, *words: str, logs: Sequence[str] = ()) -> bytes:
    """Returns what a command of mgr writes of a note, and of logs; `Refused` says why it does not do it."""
    done = subprocess.run([mgr, *words, "--", note.name, *logs], input=b"", capture_output=True)
    if done.returncode:
        said = done.stderr.decode("utf-8", "replace")
        raise Refused(explained(done.returncode, said, note, False), shell_status(done.returncode))
    return done.stdout


def log_of(mgr: str, note: Note) -> Log | None:
    """Returns what mgr says of a note's log, if there is one; `Refused` if it reads none."""
    if not note.has_log:
        return None
    told = json.loads(ask(mgr, note, "log", "--json"))
    counters = {each["replica"]: each["counter"] for each in told["replicas"]}
    return Log(told["bytes"], told["operations"], told["waiting"], told["text"], counters)


def text_of(mgr: str, note: Note) -> str:
    """Returns the text of a note's log."""
    return ask(mgr, note, "show").decode()


def made_by(mgr: str, log: bytes) -> str:
    """Returns the text that the lines of a log make."""
    return subprocess.run([mgr, "show"], input=log, capture_output=True).stdout.decode("utf-8", "replace")


def edit(mgr: str, note: Note, replica: int, keys: bytes = b"") -> int:
    """Gives keys and reports to a live session in a note, and returns its status."""
    command = [mgr, "edit", "--live", "--strict", "--replica", str(replica), "--", note.name]
    return subprocess.run(command, input=keys, capture_output=True).returncode


def holder(note: Note) -> tuple[str, int]:
    """Returns which program has a note open, and its process, as far as this machine says; else "" and 0."""
    files = {os.stat(path).st_ino for path in (note.log, f"{note.log}.new") if os.path.exists(path)}
    for line in (found("/proc/locks") or b"").decode().splitlines():
        _, kind, _, _, process, file, *_ = line.split()
        if kind == "FLOCK" and int(file.rpartition(":")[2]) in files:
            parent = int((found(f"/proc/{process}/stat") or b") ? 0").rpartition(b")")[2].split()[1])
            words = os.fsdecode(found(f"/proc/{parent}/cmdline") or b"").split("\0")
            fronts = [name for word in words if (name := os.path.basename(word)) in FRONTS]
            return (fronts[0], parent) if fronts else ("mgr", int(process))
    return "", 0


def shell_status(status: int) -> int:
    """Returns what a shell has for a status; one below 0 is a signal."""
    return status if status >= 0 else 128 - status


def explained(status: int, said: str, note: Note, was_open: bool) -> str:
    """Returns why mgr ended: what it said, with the file that it said it of if it opened nothing."""
    said = said.strip().removeprefix(f"{note.log}: ")
    if status < 0:
        return f"signal {-status} ended mgr"
    if was_open or not said:
        return said or f"mgr ended with status {status}"
    if said == DEVICE:
        who, process = holder(note)
        other = f"{who} (process {process})" if who else "another mgr"
        return f"{note.name}: {other} has it open" + ", or a file of it cannot be read" * (not who)
    if status == REFUSED and note.has_log:
        return f"{note.log}: {said}: see `mgr mend {note.name}`"
    return f"{note.name}: {said}"
