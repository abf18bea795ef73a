"""The program mgr-hub: a note in which many write at the same time, each with a copy of their own."""

import os
import select
import socket
import tempfile
import time
from collections import deque
from collections.abc import Container, Sequence
from contextlib import suppress
from typing import IO, Any

from mgr_front import meeting
from mgr_front.channels import CONFLICT, FAULTS, Apart, shown
from mgr_front.channels.presence import ALIVE, place_of
from mgr_front.copies import Copy, digest
from mgr_front.editor import Editor
from mgr_front.guests import take_back
from mgr_front.lookups import Lookup, Steps
from mgr_front.notes import KeptFiles, Note, Refused
from mgr_front.opening import differ, mend
from mgr_front.options import Options, hub_parser
from mgr_front.peers import ALL, Credit, Peer
from mgr_front.printing import log
from mgr_front.program import edit, guarded, holder, log_of, shell_status
from mgr_front.saving import REST, SAVE
from mgr_front.saying import speak_for, stop, tell
from mgr_front.screen import write_all
from mgr_front.shared import SharedNote, text_of
from mgr_front.signals import JOIN, Signals
from mgr_front.statuses import Status
from mgr_front.wire import MOST_CLAIMS, VERSION, Broken, claims_said, weight

ROWS = 3
# So many others at most, and so many of them who have not said who they are.
MOST_PEERS, MOST_UNKNOWN = 200, 8
# No more descriptors can be waited for, and so many are left for looking up.
MOST_OPEN, SPARE = 1024, 12
# So many characters are heard of all together before mgr has answered them.
TURN = 16384
# So many answers are looked up at once; larger ones pass as runs, and none is larger. So much is held for all.
LOOKUPS, LARGE, MOST_ANSWER, MOST_HELD = 2, 1 << 15, 1 << 25, 3 << 24
# Seconds between two savings, and until mgr is said to save at the end.
REST_AFTER, PATIENCE = 1.0, 5.0
# Seconds between two looks whether a note is still open elsewhere.
LOOK = 1.0
# Two places of a peer that come within so many seconds are one; and that nobody is let in is said once in so many.
MOVE, QUIET = 0.1, 60.0


class Hub:
    """A mgr that has the note, and all who write in it."""

    def __init__(self, editor: Editor, note: SharedNote, listeners: Sequence[socket.socket], signals: Signals) -> None:
        self.editor, self.note, self.listeners, self.signals = editor, note, listeners, signals
        self.peers: list[Peer] = []
        # What mgr was given of whom, by the numbers of reports, and what it took and has not saved.
        self.given: deque[tuple[int, Peer, bytes]] = deque()
        self.unsaved: list[bytes] = []
        self.saving: tuple[int, int] | None = None
        self.fails = False
        self.rested = self.signed = time.monotonic()
        # What is looked up in the log for whom; None stands for all.
        self.lookups: dict[Peer | None, Lookup] = {}
        # How much is heard in this turn, and how much whoever was heard last had said before.
        self.room, self.said, self.credit = 0, 0, Credit(ALL)
        # How many others there may be by the descriptors that are left; when one is let in again if that failed.
        left = min(os.sysconf("SC_OPEN_MAX"), MOST_OPEN) - len(os.listdir("/proc/self/fd"))
        self.most, self.open_at = min(MOST_PEERS, left - SPARE), -QUIET
        self.kept = KeptFiles()
        self.kept.since(note.name)

    def run(self) -> None:
        """Goes on until a signal comes, or mgr ends."""
        try:
            while self.signals.first is None and not self.editor.is_over:
                self._step()
        finally:
            for lookup in self.lookups.values():
                lookup.end()
            for peer in self.peers:
                peer.link.close()

    def _step(self) -> None:
        """Does what is ready. More is heard once mgr has answered all before, first of those who have said least."""
        now, heard = time.monotonic(), [peer for peer in self.peers if peer.is_heard and self.editor.is_answered]
        has_more = self.credit.renew(now)
        due = [peer for peer in heard if peer.credit.renew(now) or has_more]
        heard, is_late = due, len(due) < len(heard)
        listeners = self.listeners if now > self.open_at else ()
        reading = [self.signals.woken, self.editor.written, *self.lookups.values(), *listeners, *heard]
        writing = [*[peer for peer in self.peers if peer.waiting], *[self.editor.keys] * bool(self.editor.waiting)]
        came = {peer for peer in heard if peer.lines}
        rest = 0.0 if came else MOVE if is_late else REST_AFTER if self.unsaved or self.peers or not listeners else ALIVE
        ready, free, _ = select.select(reading, writing, [], rest)
        if self.editor.keys in free:
            self.editor.write()
        for status in self.editor.read() if self.editor.written in ready else ():
            self._note(status)
        for listener in self.listeners:
            if listener in ready:
                self._accept(listener)
        came.update(peer for peer in heard if peer in ready)
        self.room, share = TURN, TURN // (len(came) or 1)
        for peer in sorted(self.peers, key=lambda peer: peer.said):
            if peer in self.peers:
                self._serve(peer, share * (peer in came), peer in free)
        self._rest()
        self._look_up(ready)

    def _accept(self, listener: socket.socket) -> None:
        """Lets one more in. If those are too many who have not said who they are, the first of them goes."""
        unknown = [peer for peer in self.peers if not peer.replica]
        if unknown and (len(unknown) >= MOST_UNKNOWN or len(self.peers) >= self.most):
            self._drop(unknown[0], "")
        try:
            link, why = listener.accept()[0], f"{self.most} are here"
            if len(self.peers) < self.most:
                self.peers.append(Peer(link))
                return
            link.close()
        except OSError as error:
            why = str(error.strerror)
        now = time.monotonic()
        if now > self.open_at + QUIET:
            log(f"nobody else is let in: {why}")
        self.open_at = now + REST_AFTER

    def _serve(self, peer: Peer, share: int, is_free: bool) -> None:
        """Hears so much of a peer and writes to it what can be now; one that breaks is left."""
        try:
            if is_free:
                peer.write()
            if share and self.room > 0:
                self._take_turn(peer, share)
            if peer.is_leaving and not any(giver is peer for _, giver, _ in self.given):
                peer.cut("bye")
            peer.check(time.monotonic())
        except OSError as error:
            self._drop(peer, str(error.strerror or error))

    def _take_turn(self, peer: Peer, share: int) -> None:
        """Hears so much of a peer, while there is room. Who said nothing for long has no more of it than others."""
        self.said = peer.said = max(self.said, peer.said)
        for told in peer.take():
            self._hear(peer, told)
            size = weight(told)
            peer.said += size
            self.room -= size
            credit = peer.credit if peer.credit.left > 0 else self.credit
            credit.left -= size
            if credit.left <= 0 or self.room <= 0 or peer.said > self.said + share or not peer.is_heard:
                return

    def _others(self, peer: Peer) -> list[Peer]:
        return [other for other in self.peers if other is not peer and other.replica]

    def _drop(self, peer: Peer, why: str) -> None:
        """Leaves a peer."""
        self.peers.remove(peer)
        peer.link.close()
        if peer in self.lookups:
            self.lookups.pop(peer).end()
        for other in self._others(peer) if peer.replica else ():
            other.say("leave", replica=peer.replica)
        if peer.replica and (peer.is_leaving or not peer.is_cut):
            log(f"{peer.title} left" + f": {why}" * bool(why and not peer.is_leaving))

    def _hear(self, peer: Peer, told: dict[str, Any] | bytes) -> None:
        """Does what a peer asks for; gives mgr its operations."""
        now = time.monotonic()
        if not peer.replica:
            self._greet(peer, told)
        elif isinstance(told, bytes):
            self.given.append((self.editor.report(told), peer, told))
        elif (place := place_of(told)) and now > peer.moved + MOVE:
            peer.moved = now
            for other in self._others(peer):
                other.say("place", replica=peer.replica, name=peer.name, place=place)
        elif told["op"] == "claims":
            peer.request = told["claims"]
        elif told["op"] == "bye":
            peer.is_leaving = True
        elif told["op"] == "refused":
            log(f"{peer.title}: {shown(str(told.get('why')))}")
            peer.cut("bye")

    def _greet(self, peer: Peer, told: dict[str, Any] | bytes) -> None:
        """Lets a peer in, unless somebody else has its number, and gives it what is not in the log yet."""
        try:
            peer.greet(told)
            for other in self._others(peer):
                if other.replica == peer.replica and other.token == peer.token:
                    self._drop(other, "it joins again")
            if peer.replica in (self.note.replica, *[other.replica for other in self._others(peer)]):
                raise Broken(f"the number {peer.replica} is in use by somebody who writes now")
        except Broken as broken:
            peer.replica = 0
            peer.cut("refused", str(broken))
            return
        peer.say("hello", version=VERSION)
        peer.pass_on(text_of(self.unsaved))
        log(f"{peer.title} joined")

    def _look_up(self, ready: Container[object]) -> None:
        """Goes on with what is looked up in the log, and begins it for those who were answered longest ago."""
        asking = [peer for peer in self.peers if peer.request and not peer.asked and peer not in self.lookups]
        for asked in sorted(asking, key=lambda peer: peer.answered)[: max(0, LOOKUPS - len(self.lookups))]:
            self.lookups[asked] = Lookup(self.note.mgr, self._answer(asked))
        for peer, lookup in [*self.lookups.items()]:
            try:
                if (lookup in ready or not lookup.process) and lookup.go_on():
                    del self.lookups[peer]
            except (Apart, OSError) as fault:
                self.lookups.pop(peer).end()
                if peer:
                    self._drop(peer, f"the log was not read: {fault}")

    def _answer(self, peer: Peer) -> Steps:
        """Looks up what a peer lacks of the log, by its claims, and then what that has, in short."""
        lacked: IO[bytes] = tempfile.TemporaryFile()
        # The log does not have this yet, and if the peer took too little it may have missed that.
        claims, peer.request, unsaved = peer.request, b"", text_of(self.unsaved)
        if self.note.note.has_log:
            lacked.write(claims)
            lacked.flush()
            lacked = yield ["missing", "--", self.note.name], lacked
        if lacked.seek(0, os.SEEK_END) > LARGE:
            lacked = yield ["join", "-"], lacked
        with lacked:
            if lacked.seek(0, os.SEEK_END) > MOST_ANSWER:
                raise Apart("more is missing than can be told")
            lacked.seek(0)
            claims = yield from self._claims()
            peer.answer(lacked.read() + unsaved)
            peer.answer(claims_said(claims))
            peer.answered = time.monotonic()

    def _claims(self) -> Steps:
        """Looks up what the log has, in short, and returns as much of it as anybody takes."""
        name = self.note.name if self.note.note.has_log else "-"
        with (yield ["claims", "--", name], tempfile.TemporaryFile()) as claims:
            return claims.read(MOST_CLAIMS + 1)

    def _note(self, status: Status) -> None:
        """Passes on what mgr took, and takes note of what it saved."""
        while self.given and self.given[0][0] <= status.reports:
            number, peer, line = self.given.popleft()
            if number in status.refused:
                self._refuse(peer, status.refused[number])
                continue
            self.unsaved.append(line)
            for other in self._others(peer):
                other.pass_on(line + b"\n")
        if self.saving and status.reports >= self.saving[0] and not status.more:
            if status.saved == "ok":
                del self.unsaved[: self.saving[1]]
                for said in self.kept.since(self.note.name):
                    log(f"saved, and {said}")
            elif not self.fails:
                log(f"not saved: {status.saved}")
            self.fails, self.saving = status.saved != "ok", None

    def _refuse(self, peer: Peer, fault: str) -> None:
        """mgr did not take something of a peer: nothing more of it is taken, and both are told."""
        if peer.is_cut:
            return
        why = f"{fault}: {FAULTS.get(fault, 'the hub did not take a line')}"
        log(f"{peer.title}: {why}")
        peer.cut("conflict" if fault == CONFLICT else "refused", f"{peer.title}: {why}")

    def _rest(self) -> None:
        """Saves, and gives signs of life, from time to time."""
        now = time.monotonic()
        if self.unsaved and not self.saving and now > self.rested + REST_AFTER:
            self.rested, self.saving = now, (self.editor.report(REST), len(self.unsaved))
        if now > self.signed + ALIVE and self.peers:
            self.signed = now
            self.lookups.setdefault(None, Lookup(self.note.mgr, self._sign()))
        if sum(peer.held for peer in self.peers) > MOST_HELD:
            self._drop(max(self.peers, key=lambda peer: peer.held), "too much is held for it")

    def _sign(self) -> Steps:
        """Gives a sign of life, with what the log has if all is saved."""
        claims = yield from self._claims()
        for peer in self.peers:
            if peer.replica:
                peer.say("alive", digest=None if self.unsaved else digest(claims))


def awaited(note: Note) -> socket.socket | None:
    """Waits until no other program has a note open. An mgr-live is asked to join, by the listener that is returned."""
    listener, asked = None, 0
    while (other := holder(note))[1]:
        listener, is_live = listener or meeting.listen(note.name), other[0] == "mgr-live"
        if other[1] != asked:
            asked, asks = other[1], ", which is asked to join" * is_live
            log(f"{note.name} is open in {other[0]} (process {asked}){asks}: this waits for it")
            with suppress(OSError):
                os.kill(asked, JOIN if is_live else 0)
        time.sleep(LOOK)
    return listener


def serve(mgr: str, options: Options) -> int:
    """Keeps a note for others until a signal comes, and returns the status."""
    note, port = Note(options.name), options.port
    note.check()
    if meeting.is_served(note.name):
        raise Refused(f"another hub has {note.name}")
    listener = awaited(note)
    number, signals = _opened(mgr, note, options), Signals()
    try:
        listeners = [socket.create_server((meeting.HOST, port), backlog=meeting.BACKLOG)] if port else []
    except OSError as error:
        stop(f"port {port}: {os.strerror(error.errno or 0)}")
    editor = Editor(mgr, ["--replica", str(number), "--", note.name], ROWS)
    try:
        # Once mgr has the note it has the lock: a socket that is there is a stale one.
        while not (editor.is_settled or editor.is_over):
            list(editor.read())
        if not editor.is_over:
            listeners.append(listener or meeting.listen(note.name))
            log(_served(note, port))
            Hub(editor, SharedNote(mgr, note, number), listeners, signals).run()
    finally:
        if not editor.end(PATIENCE):
            log("mgr saves: this waits for it")
            editor.end()
        if len(listeners) > bool(port):
            meeting.leave(note.name)
    if fault := editor.fault(note):
        tell(fault)
    return shell_status(editor.process.returncode)


def _served(note: Note, port: int | None) -> str:
    """Returns what is said at the start: how one joins."""
    path = os.path.realpath(note.name)
    elsewhere = f"`mgr-live note --with {socket.gethostname()}:{path}` elsewhere"
    said = f"serves {path}: join by `mgr-live {note.name}` here, {elsewhere}"
    return said + f"; port {port} is open to anybody on this machine" * (port is not None)


def join(path: str) -> int:
    """Passes standard input on to the hub that has a note, and to standard output what that says."""
    try:
        link = meeting.connect(path)
    except Refused as refused:
        stop(str(refused))
    except OSError:
        stop(f"no hub of this machine has {path}")
    link.settimeout(None)
    with link:
        while True:
            ready, _, _ = select.select([0, link], [], [])
            for source in ready:
                block = os.read(0, 65536) if source == 0 else link.recv(65536)
                if not block:
                    return 0
                write_all(block, link.fileno() if source == 0 else 1)


def main(words: Sequence[str], folder: str) -> int:
    """Serves as the command line says, and returns the status; `folder` is where mgr-hub stands."""
    options = hub_parser().parse_args(words)
    speak_for("mgr-hub")
    return join(options.name) if options.joins else guarded(folder, options, serve)


def _opened(mgr: str, note: Note, options: Options) -> int:
    """Does what is to be done before a note is served, and returns the number of this copy."""
    if said := take_back(mgr, note):
        tell(said)
    found, copy = log_of(mgr, note), Copy(note.name)
    number = options.replica or copy.number(found)
    if not (options.replica or found):
        copy.keep_number(number)  # The text is written under it.
    if not found and os.path.exists(note.name) and edit(mgr, note, number, SAVE):
        raise Refused(f"{note.name}: a log of it cannot be made")
    if found and differ(mgr, note, found, number):
        tell("; ".join([f"{note.name} was not what its log says", *mend(mgr, note)[0]]))
    return number
