"""A branch of a git repository that carries a note's log, by a bare clone in the user's cache: no tree is touched."""

import glob
import os
import random
import shutil
import signal
import socket
import subprocess
import tempfile
import time
from contextlib import suppress
from typing import IO

from mgr_front.channels import Apart, Post, State, shown
from mgr_front.channels.worker import Worker
from mgr_front.copies import digest, user
from mgr_front.shared import SharedNote, joined, text_of

# Seconds between two commits, and between two looks at the branch: soon after a change, and later; how long soon is.
COMMITS, SOON, LATER, LIVELY = 30.0, 2.0, 60.0, 600.0
# Seconds before another push if others pushed, and how often it is tried.
AGAIN, TRIES = (0.1, 1.0), 10
# Seconds for which nothing may come of a command, between two looks at that, and for one that nobody looks at.
LONGEST, LOOK, ORPHAN = 60, 0.5, 3600
# Git's own variables, as within a hook, name another repository.
FOREIGN = ("GIT_DIR", "GIT_WORK_TREE", "GIT_INDEX_FILE", "GIT_OBJECT_DIRECTORY", "GIT_COMMON_DIR", "GIT_NAMESPACE")
# Git fetches no files but those that it reads, if the other side agrees; and what it says if that does not give them.
LAZY = ("remote.mgr.promisor=true", "remote.mgr.partialclonefilter=blob:none")
NOT_GIVEN = "from promisor remote"
# The command that reads nothing of the clone.
LOOK_UP = "ls-remote"
# What git adds to why it could not reach a repository.
ADVICE = ("fatal: Could not read from remote", "Please make sure you have", "and the repository exists.")
# How a line begins that speaks of a branch that was not pushed.
NOT_PUSHED = "!\t"
UNBORN = "main"


class Outrun(Apart):
    """A push was refused, as when another one was quicker."""


class Away(Apart):
    """The repository does not say what it has."""


def fault_of(said: bytes) -> Apart:
    """Returns why git did not do it: the reason of a push that was refused, else its last line."""
    lines = said.decode("utf-8", "replace").splitlines()
    refused = [line.rpartition("\t")[2] for line in lines if line.startswith(NOT_PUSHED)]
    if refused:
        return Outrun(shown(refused[0]))
    reasons = [line for line in lines if line.strip() and not line.startswith(ADVICE)]
    return Apart(shown([*reasons[-1:], *lines[-1:], "git says nothing"][0]))


class GitBranch(Worker):
    """A note that is carried by the tip of a branch."""

    def __init__(self, note: SharedNote, post: Post, place: str, person: str = "") -> None:
        """`place` is a path or a URL, with `#` and a branch or not; `person` the writer in commits, else git's own."""
        super().__init__(note, post)
        place, _, self.branch = place.partition("#")
        path = os.path.expanduser(place)
        self.url = os.path.abspath(path) if os.path.exists(path) else place
        self.person, self.file = person, os.path.basename(note.log)
        cache = os.environ.get("XDG_CACHE_HOME", "")
        cache = cache if os.path.isabs(cache) else os.path.expanduser("~/.cache")
        self.clone = os.path.join(cache, "mgr", "git", digest(self.url.encode()))
        self.ref = f"refs/mgr/{digest(os.path.realpath(note.log).encode())}"
        # Whether the clone lacks files, and whether it was made anew since all was well.
        self.is_lazy, self.is_renewed = True, False
        # The tip that was taken last, its log and the claims of that, and whether the note has more.
        self.tip: str | None = None
        self.tip_log = self.claims = b""
        self.is_ahead = False
        self.changed = self.next_look = self.next_commit = 0.0

    def join(self) -> None:
        """Joins, with a new clone if the old one is spoiled: it is a cache."""
        try:
            self._join()
        except Away:
            raise
        except Apart as apart:
            if self.is_lazy and NOT_GIVEN in apart.state.why:
                self.is_lazy = False
            elif self.is_renewed or not self._is_spoiled():
                raise
            self.is_renewed = True
            self.say(State("alone", f"{apart}: git's cache is made anew"))
            shutil.rmtree(self.clone, ignore_errors=True)
            self._join()
        self.is_renewed = False

    def _join(self) -> None:
        self.tip = None
        self._open()
        self._look()
        if self.is_ahead:
            self._commit()

    def turn(self) -> float:
        if time.monotonic() >= self.next_look:
            self._look()
        self.is_ahead = self.is_ahead or bool(self.told)
        if self.is_ahead:
            self._commit()
        return min(self.next_look, self.next_commit if self.is_ahead else self.next_look) - time.monotonic()

    def _look(self) -> None:
        """Takes what the tip has, if it is another one, also one that was forced back."""
        ref = f"refs/heads/{self.branch}"
        found = self._word(LOOK_UP, "mgr", ref).splitlines()
        tip = next((line.split("\t")[0] for line in found if line.endswith(f"\t{ref}")), "")
        if tip != self.tip:
            self.tip = tip
            if tip:
                fetch = ("fetch", "--progress", "--no-tags", "--no-write-fetch-head", "mgr")
                self._git(*fetch, f"+{ref}:{self.ref}")
                self.tip = self._word("rev-parse", "--verify", self.ref)
            entry = self._word("ls-tree", self.tip, "--", self.file) if tip else ""
            self.tip_log = self._git("cat-file", "blob", entry.split()[2]) if entry else b""
            given, self.claims = self.compare(self.tip_log)
            self.is_ahead = bool(given)
            self.changed = time.monotonic()
        is_lively = time.monotonic() < self.changed + LIVELY
        self.next_look = time.monotonic() + (SOON if is_lively else LATER)

    def _commit(self) -> None:
        """Has the branch have all that the note has, unless the last commit is not long ago, and nobody leaves."""
        if time.monotonic() < self.next_commit and not self.is_leaving:
            return
        count = len(self.told)
        for tries in range(TRIES, 0, -1):
            lines = self.note.missing(self.claims)
            try:
                if lines:
                    self._push(joined(self.note.mgr, self.tip_log + text_of(lines)))
                self.passed(count)
                self.is_ahead = False
                return
            except Outrun:  # Others were quicker.
                if tries == 1:
                    raise
            time.sleep(random.uniform(*AGAIN))
            self._look()

    def _push(self, log: bytes) -> None:
        """Has the branch have a commit on the tip, with this log beside all else that stands there, never by force."""
        file = os.fsencode(self.file)
        message = b"%b: what %b wrote" % (file, os.fsencode(self.person))
        quoted = file.replace(b"\\", rb"\\").replace(b'"', rb"\"").replace(b"\n", rb"\n")
        commit = [
            b"commit " + self.ref.encode(),
            b"committer " + self._git("var", "GIT_COMMITTER_IDENT").strip(),
            b"data %d\n%b" % (len(message), message),
            *[b"from %b" % (self.tip or "").encode()] * bool(self.tip),
            b'M 100644 inline "%b"' % quoted,
            b"data %d\n%b" % (len(log), log),
        ]
        self._git("fast-import", "--quiet", "--force", given=b"\n".join(commit))
        self._git("push", "--progress", "--porcelain", "mgr", f"{self.ref}:refs/heads/{self.branch}")
        self._git("gc", "--auto", "--quiet")
        self.tip, self.tip_log = self._word("rev-parse", "--verify", self.ref), log
        self.claims = self.note.claims_of(log)
        self.changed = time.monotonic()
        self.next_commit = self.changed + COMMITS

    def _open(self) -> None:
        """Makes the clone if it is not there, and asks for the names of the writer and of the branch."""
        if not os.path.isdir(self.clone):
            caches = os.path.dirname(self.clone)
            os.makedirs(caches, mode=0o700, exist_ok=True)
            # A clone is there once all of it is.
            with tempfile.TemporaryDirectory(dir=caches) as folder:
                made = os.path.join(folder, "clone")
                self._git("init", "--quiet", "--bare", "--template=", made)
                os.rename(made, self.clone)
        self._git("rev-parse")
        if not self.person:
            self.person = self._word("config", "--default", user(), "user.name")
        if not self.branch:
            head = self._word(LOOK_UP, "--symref", "mgr", "HEAD")
            self.branch = head.partition("ref: refs/heads/")[2].partition("\t")[0] or UNBORN

    def _is_spoiled(self) -> bool:
        """Whether the clone was left locked, or lacks what it should have."""
        with suppress(Apart):
            self._git("fsck", "--progress")
            return bool(glob.glob(os.path.join(glob.escape(self.clone), "**", "*.lock"), recursive=True))
        return True

    def _git(self, *words: str, given: bytes = b"") -> bytes:
        """Runs git apart from the terminal, on which it asks nothing, and returns what it writes."""
        kept = {name: value for name, value in os.environ.items() if name not in FOREIGN}
        kept.setdefault("EMAIL", f"{user()}@{socket.gethostname()}")
        kept |= {"GIT_COMMITTER_NAME": self.person} if self.person else {}
        kept |= {"GIT_TERMINAL_PROMPT": "0", "LC_ALL": "C"}
        settings = [word for each in (f"remote.mgr.url={self.url}", *LAZY * self.is_lazy) for word in ("-c", each)]
        command = ["timeout", "--signal=KILL", str(ORPHAN), "git", f"--git-dir={self.clone}", *settings, *words]
        # In files, not by pipes: who leaves leaves git to its end.
        with tempfile.TemporaryFile() as taken, tempfile.TemporaryFile() as told, tempfile.TemporaryFile() as said:
            taken.write(given)
            taken.seek(0)
            git = subprocess.Popen(command, env=kept, stdin=taken, stdout=told, stderr=said, start_new_session=True)
            why = ended(git, said, os.path.join(self.clone, "objects", "pack"))
            told.seek(0)
            said.seek(0)
            came, faults = told.read(), said.read()
        if not git.returncode:
            return came
        fault = Apart(f"git {words[0]}: {why}") if why else fault_of(came + faults or b"status %d" % git.returncode)
        raise Away(fault.state.why) if words[0] == LOOK_UP else fault

    def _word(self, *words: str) -> str:
        return self._git(*words).decode().strip()


def ended(git: "subprocess.Popen[bytes]", said: IO[bytes], packs: str) -> str:
    """Waits for the end of git, which is killed if nothing comes for too long; returns what ended it, if not itself."""
    before, until = 0, time.monotonic() + LONGEST
    while git.poll() is None:
        with suppress(subprocess.TimeoutExpired):
            git.wait(LOOK)
        seen = os.fstat(said.fileno()).st_size
        with suppress(OSError), os.scandir(packs) as files:
            seen += sum(file.stat().st_size for file in files)
        if seen != before:
            before, until = seen, time.monotonic() + LONGEST
        elif time.monotonic() > until:
            os.killpg(git.pid, signal.SIGKILL)
            git.wait()
            return f"nothing came for {LONGEST} seconds"
    return f"signal {-git.returncode} ended it" if git.returncode < 0 else ""
