"""A hub beside a program that takes the place of mgr, and those who write at it."""

import contextlib
import os
import pathlib
import signal
import socket
import subprocess
import sys
import threading
import time
import unittest
from collections.abc import Callable, Mapping
from unittest import mock

from context import TESTS, InFolder

from mgr_front import hub, meeting
from mgr_front.channels import Event, Present, State, Took
from mgr_front.channels.hub import Hub as Channel
from mgr_front.channels.hub import Way, by_note, by_port
from mgr_front.editor import Editor
from mgr_front.hub import Hub
from mgr_front.notes import Note
from mgr_front.shared import SharedNote
from mgr_front.signals import Signals
from mgr_front.wire import VERSION, said


def line(counter: int, replica: int = 1, char: str = "a") -> bytes:
    return b'{"char":"%b","id":[%d,%d],"op":"ins","parent":[0,0]}' % (char.encode(), counter, replica)


class Hubs(InFolder):
    """Tests with a hub that runs in a thread, at its note's socket and at a port."""

    def setUp(self) -> None:
        super().setUp()
        self.open = contextlib.ExitStack()
        self.addCleanup(self.open.close)
        self.open.enter_context(mock.patch.dict(os.environ, {"XDG_STATE_HOME": str(self.folder / "state")}))
        self.printed: list[str] = []
        self.open.enter_context(mock.patch.object(hub, "log", self.printed.append))
        self.path = str(self.folder / "note")
        self.begin()
        self.addCleanup(self.end)

    def begin(self) -> None:
        editor = Editor(self.mgr, ["--", self.path], 3)
        while not editor.is_settled:
            list(editor.read())
        tcp = socket.create_server((meeting.HOST, 0))
        self.port = tcp.getsockname()[1]
        self.listeners = [tcp, meeting.listen(self.path)]
        self.woken, self.waker = os.pipe()
        self.signals = mock.Mock(spec=Signals, first=None, woken=self.woken)
        self.hub = Hub(editor, SharedNote(self.mgr, Note(self.path), 9), self.listeners, self.signals)
        self.thread = threading.Thread(target=self.hub.run)
        self.thread.start()

    def end(self) -> None:
        """Ends the hub as a signal does, and its mgr."""
        self.signals.first = 15
        os.write(self.waker, b"!")
        self.thread.join(10)
        self.assertFalse(self.thread.is_alive())
        self.assertTrue(self.hub.editor.end(10))
        for listener in self.listeners:
            listener.close()
        meeting.leave(self.path)

    def expect(self, look: Callable[[], object], wanted: object, seconds: float = 60) -> None:
        """Waits until what is looked at is what is wanted."""
        until = time.monotonic() + seconds
        while (seen := look()) != wanted:
            self.assertLess(time.monotonic(), until, f"{seen!r} is not {wanted!r}")
            time.sleep(0.005)

    def log(self) -> list[bytes]:
        path = pathlib.Path(self.path + ".ops")
        return path.read_bytes().splitlines() if path.exists() else []


class Writer:
    """One who writes at a hub, with a note of its own that takes all at once."""

    def __init__(self, test: Hubs, name: str, replica: int, way: Way, *lines: bytes) -> None:
        folder = test.folder / name
        folder.mkdir(exist_ok=True)
        self.note = SharedNote(test.mgr, Note(str(folder / "note")), replica)
        self.events: list[Event] = []
        self.add(lines)
        self.channel = Channel(self.note, self.post, way, name)
        self.channel.start()
        test.addCleanup(self.channel.close, 1.0)

    def add(self, lines: "tuple[bytes, ...]") -> None:
        with open(self.note.log, "ab") as log:
            log.write(b"".join(each + b"\n" for each in lines))

    def post(self, event: Event) -> None:
        if isinstance(event, Took):
            self.add(event.lines)
        self.events.append(event)

    def write(self, *lines: bytes) -> None:
        self.add(lines)
        self.channel.tell(lines)

    def state(self) -> str:
        states = [event.word for event in self.events if isinstance(event, State)]
        return states[-1] if states else ""

    def why(self) -> str:
        return [event.why for event in self.events if isinstance(event, State)][-1]

    def who(self) -> Mapping[int, object]:
        return [event.who for event in self.events if isinstance(event, Present)][-1]

    def lines(self) -> set[bytes]:
        return set(pathlib.Path(self.note.log).read_bytes().splitlines())


class TestWriters(Hubs):
    def join(self, name: str, replica: int, *lines: bytes) -> Writer:
        way = by_note(self.path) if replica % 2 else by_port(self.port)
        writer = Writer(self, name, replica, way, *lines)
        self.expect(writer.state, "live")
        return writer

    def test_what_one_writes_the_others_and_the_hub_get(self) -> None:
        writers = [self.join(name, replica) for name, replica in (("alice", 1), ("bob", 2), ("carol", 3))]
        wanted = {line(i, writer.note.replica) for i in range(1, 40) for writer in writers}
        for i in range(1, 40):
            for writer in writers:
                writer.write(line(i, writer.note.replica))
        for writer in writers:
            self.expect(writer.lines, wanted)
        self.expect(lambda: set(self.log()), wanted)
        self.assertEqual(len(self.log()), len(wanted))

    def test_who_joins_gives_and_gets_what_is_missing(self) -> None:
        alice = self.join("alice", 1, line(1), line(2))
        self.expect(lambda: len(self.log()), 2)
        bob = self.join("bob", 2, line(1), line(5, 2))
        for writer in (alice, bob):
            self.expect(writer.lines, {line(1), line(2), line(5, 2)})

    def test_a_word_that_is_not_saved_yet_is_not_missing_for_who_joins(self) -> None:
        with mock.patch.object(hub, "REST_AFTER", 60):
            alice = self.join("alice", 1)
            alice.write(line(1))
            self.expect(lambda: len(self.hub.unsaved), 1)
            os.unlink(self.path + ".ops")
            self.expect(self.join("bob", 2).lines, {line(1)})

    def test_after_a_break_all_is_one_again(self) -> None:
        alice = self.join("alice", 1)
        self.end()
        self.expect(alice.state, "alone")
        alice.write(line(1))
        self.begin()
        self.expect(alice.state, "live")
        self.expect(self.log, [line(1)])
        self.end()
        self.begin()

    def test_leaving_waits_until_all_is_taken(self) -> None:
        alice = self.join("alice", 1)
        alice.write(*[line(i) for i in range(1, 2000)])
        self.assertTrue(alice.channel.close(10))
        self.assertEqual(len(self.log()), 1999)
        self.expect(lambda: self.printed, ["alice (1) joined", "alice (1) left"])

    def test_who_is_where(self) -> None:
        # It comes without anything else that is to be done.
        self.open.enter_context(mock.patch("mgr_front.channels.hub.LOOK", 600))
        alice, bob = self.join("alice", 1), self.join("bob", 2)
        alice.channel.show_place((4, 1, 2))
        self.expect(lambda: bob.who().get(1), ("alice", (4, 1, 2)))
        carol = self.join("carol", 3)
        self.expect(carol.who, {1: ("alice", (4, 1, 2)), 2: ("bob", (0, 0, 0))})
        self.assertTrue(alice.channel.close(60))
        self.expect(bob.who, {3: ("carol", (0, 0, 0))})
        self.end()
        self.expect(bob.who, {})
        self.begin()

    def test_a_number_in_use_is_tried_again_until_it_is_not(self) -> None:
        self.open.enter_context(mock.patch.multiple("mgr_front.channels.worker", MOST_PAUSE=0.1, FIRST_PAUSE=0.1))
        alice = self.join("alice", 1)
        for replica in (9, 1):
            other = Writer(self, f"other{replica}", replica, by_note(self.path))
            self.expect(other.state, "alone")
            self.assertIn(f"number {replica} is in use", other.why())
        self.assertTrue(alice.channel.close(10))
        self.expect(other.state, "live")

    def test_one_that_was_killed_joins_again_while_its_line_is_still_there(self) -> None:
        made = "Hub(SharedNote('mgr', Note(sys.argv[1]), 1), lambda event: None, lambda is_first: None)"
        program = f"import sys; from test_hub import Channel as Hub, Note, SharedNote; print({made}.token, flush=True); input()"
        command = [sys.executable, "-c", program, str(self.folder / "alice" / "note")]

        def begin() -> "tuple[subprocess.Popen[str], str]":
            """Begins a program that writes in this copy, and returns the token that it has."""
            begun = subprocess.Popen(command, cwd=TESTS, stdin=subprocess.PIPE, stdout=subprocess.PIPE, text=True)
            assert begun.stdout
            return begun, begun.stdout.readline().strip()

        (first, known), (second, other) = begin(), begin()
        self.assertNotEqual(known, other)
        away = socket.create_connection((meeting.HOST, self.port), 60)
        away.sendall(said("hello", version=VERSION, replica=1, name="alice", token=known))
        self.expect(lambda: self.printed, ["alice (1) joined"])
        for each in (first, second):
            each.kill()
            each.communicate()
        with away:
            self.join("alice", 1)
        self.assertEqual(self.printed, ["alice (1) joined", "alice (1) left: it joins again", "alice (1) joined"])

    def test_a_conflict_is_told_to_both(self) -> None:
        alice = self.join("alice", 1)
        alice.write(line(1, 13))
        self.expect(alice.state, "conflict")
        self.assertIn("alice (1)", alice.why())
        self.expect(lambda: any("Conflict" in each and "alice" in each for each in self.printed), True)

    def test_another_note_gives_nothing_away(self) -> None:
        alice = self.join("alice", 1)
        alice.write(line(1, 99))
        self.expect(lambda: len(self.log()), 1)
        other = Writer(self, "other", 2, by_note(self.path), line(7, 2))
        self.expect(other.state, "refused")
        self.assertEqual((self.log(), other.lines()), ([line(1, 99)], {line(7, 2)}))
        self.assertEqual(set(other.note.refused), {line(1, 99)})
        self.expect(lambda: "other (2): another note" in self.printed, True)


class Strangers(Hubs):
    """Tests with those who speak for themselves."""

    def stranger(self, *said: bytes) -> socket.socket:
        link = self.open.enter_context(socket.create_connection((meeting.HOST, self.port), 60))
        link.sendall(b"".join(said))
        return link

    def answer(self, link: socket.socket) -> bytes:
        """Returns all that a stranger is told up to the end."""
        came = b""
        with contextlib.suppress(ConnectionError):
            while block := link.recv(65536):
                came += block
        return came

    def hello(self, **members: object) -> bytes:
        return said("hello", **{"version": VERSION, "replica": 5, "name": "eve", "token": "t", **members})


class TestStrangers(Strangers):
    """Those who say something else: nobody waits for them."""

    def test_other_versions_and_numbers_are_refused(self) -> None:
        for members, wanted in [({"version": 2}, b"version"), ({"replica": 0}, b"number"), ({"replica": "x"}, b"hello")]:
            answered = self.answer(self.stranger(self.hello(**members)))
            self.assertTrue(answered.startswith(b'{"op":"refused"') and wanted in answered, answered)

    def test_what_is_no_operation_ends_it(self) -> None:
        for last in (b'{"op":"rest"}\n', b'{"op":"paste","text":"x"}\n', b"x" * 70000):
            link = self.stranger(self.hello(replica=6), last + line(1) + b"\n")
            if last.startswith(b"{"):
                link.shutdown(socket.SHUT_WR)
            self.answer(link)
        self.assertEqual(self.hub.editor.status.frame[0].replace("a", ""), "")

    def test_others_do_not_wait_for_one_that_takes_nothing(self) -> None:
        self.open.enter_context(mock.patch("mgr_front.wire.STUCK", 600))
        slow = self.stranger(self.hello())
        # Else the system takes more and more for it.
        slow.setsockopt(socket.SOL_SOCKET, socket.SO_RCVBUF, 65536)
        alice, bob = (Writer(self, name, replica, by_note(self.path)) for name, replica in (("alice", 1), ("bob", 2)))
        for writer in (alice, bob):
            self.expect(writer.state, "live")
        text = b'{"id":[%d,1],"op":"run","parent":[0,0],"text":"' + b"x" * 4000 + b'"}'
        for i in range(600):
            alice.write(text % (1 + 4000 * i))
        self.expect(lambda: len(bob.lines()), 600)
        came = b""
        while b'{"op":"behind"}\n' not in came:
            came += (block := slow.recv(1 << 20))
            self.assertTrue(block)
        self.assertLess(len(came), 2_000_000)
        for i in range(600, 1200):
            alice.write(text % (1 + 4000 * i))
        self.expect(lambda: len(bob.lines()), 1200)
        # Nobody else has anything to take now.
        with mock.patch("mgr_front.wire.STUCK", 0.5):
            self.expect(lambda: self.printed[-1:], ["eve (5) left: nothing is taken"])

    def test_one_that_floods_is_left(self) -> None:
        flood = self.stranger(self.hello())
        with mock.patch.multiple("mgr_front.peers", FLOOD=10_000, RATE=10_000):
            with contextlib.suppress(ConnectionError):
                while True:
                    flood.sendall((line(1) + b"\n") * 1000)
            self.expect(lambda: self.printed[-1:], ["eve (5) left: it says too much"])

    def test_one_that_drips_or_says_nothing_is_left(self) -> None:
        with mock.patch("mgr_front.peers.FIRST", 0.2):
            self.assertEqual(self.answer(self.stranger(b'{"op":')), b"")

    def test_who_joins_again_takes_its_own_place(self) -> None:
        first = self.stranger(self.hello())
        self.expect(lambda: self.printed, ["eve (5) joined"])
        second = self.stranger(self.hello())
        self.assertIn(b"hello", self.answer(first))
        self.expect(lambda: self.printed[-1], "eve (5) joined")
        second.close()


class TestCrowds(Strangers):
    """What others do does not keep anybody who writes."""

    def slow(self, command: str, begins: str = "sleep 0.2") -> pathlib.Path:
        """Has mgr do something before this command; returns a file that has a line for each time, its process."""
        begun = self.folder / "begun"
        begun.touch()
        path = pathlib.Path(self.mgr)
        does = f'if [ "$1" = {command} ]; then echo $$ >> {begun}; {begins}; fi\n'
        path.write_text(path.read_text().replace("exec", does + "exec"))
        return begun

    def crowd(self, count: int, *said: bytes) -> list[socket.socket]:
        return [self.stranger(self.hello(replica=100 + i), *said) for i in range(count)]

    def live(self, seconds: float = 60) -> Writer:
        alice = Writer(self, "alice", 1, by_note(self.path))
        self.expect(alice.state, "live", seconds)
        return alice

    def test_requests_of_one_do_not_keep_others(self) -> None:
        self.live().write(line(1))
        self.expect(lambda: len(self.log()), 1)
        begun = self.slow("missing")
        asks = said("claims", text='{"op":"claims","version":1}\n', more=False)
        self.stranger(self.hello(), asks * 100)
        self.expect(lambda: begun.read_text() > "", True)
        begins = time.monotonic()
        bob = Writer(self, "bob", 2, by_note(self.path))
        self.expect(bob.state, "live")
        self.assertLess(time.monotonic() - begins, 5)

    def test_what_nobody_will_read_is_not_looked_up(self) -> None:
        self.live().write(line(1))
        self.expect(lambda: len(self.log()), 1)
        asks = said("claims", text='{"op":"claims","version":1}\n', more=False)
        begun = self.slow("missing", "exec sleep 60")
        for ends in (lambda link: link.shutdown(socket.SHUT_RDWR), lambda _: self.end()):
            link = self.stranger(self.hello(), asks)
            self.expect(lambda: len(begun.read_text()) > 0, True)
            process = pathlib.Path("/proc", begun.read_text().strip())
            self.assertTrue(process.exists())
            ends(link)
            self.expect(process.exists, False, 5)
            begun.write_text("")
        self.begin()

    def test_who_has_most_held_for_it_is_left(self) -> None:
        with mock.patch.object(hub, "MOST_HELD", 100_000):
            pieces = [said("claims", text="x" * 10_000, more=True) * count for count in (4, 7)]
            self.stranger(self.hello(replica=6), pieces[0])
            self.assertTrue(self.answer(self.stranger(self.hello(replica=7), pieces[1])))
            self.expect(lambda: self.printed[-1:], ["eve (7) left: too much is held for it"])
            self.live()

    def test_a_word_comes_before_what_many_others_say(self) -> None:
        crowd = self.crowd(10)
        alice = self.live()
        process = self.hub.editor.process.pid
        os.kill(process, signal.SIGSTOP)
        for link in crowd:
            link.sendall(b"".join(line(i, 2) + b"\n" for i in range(1, 201)))
        alice.write(line(1))
        time.sleep(0.5)
        os.kill(process, signal.SIGCONT)
        self.expect(lambda: len(self.log()), 2001)
        # What mgr was given before, and a turn of another.
        self.assertLess(self.log().index(line(1)), 500)

    def test_those_who_say_nothing_give_way(self) -> None:
        with mock.patch.object(hub, "MOST_PEERS", 10):
            self.end()
            self.begin()
            silent = [self.stranger() for _ in range(30)]
            self.live(5)
            self.expect(lambda: len(self.hub.peers) <= hub.MOST_UNKNOWN + 1, True)
            self.assertEqual(self.answer(silent[0]), b"")

    def test_who_has_joined_stays(self) -> None:
        with mock.patch.object(hub, "MOST_PEERS", 5):
            self.end()
            self.begin()
            crowd = self.crowd(5)
            self.expect(lambda: len(self.printed), 5)
            self.assertEqual(self.answer(self.stranger(self.hello())), b"")
            self.stranger(self.hello())
            self.expect(lambda: self.printed[5:], ["nobody else is let in: 5 are here"])
            self.assertEqual(len(self.hub.peers), len(crowd))
            crowd[0].close()
            self.live(10)


class TestMeeting(Hubs):
    def test_the_socket_is_the_persons_alone(self) -> None:
        place = pathlib.Path(meeting.folder(), meeting.socket_name(self.path))
        self.assertEqual((place.stat().st_mode & 0o777, place.parent.stat().st_mode & 0o777), (0o600, 0o700))
        self.assertTrue(meeting.is_served(self.path))
        os.symlink(self.path, self.folder / "link")
        self.assertEqual(meeting.socket_name(str(self.folder / "link")), meeting.socket_name(self.path))

    def test_a_stale_one_gives_way(self) -> None:
        self.end()
        stale = meeting.listen(self.path)
        stale.close()
        self.assertFalse(meeting.is_served(self.path))
        self.begin()
        self.assertTrue(meeting.is_served(self.path))

    def test_a_long_path(self) -> None:
        with mock.patch.dict(os.environ, {"XDG_STATE_HOME": str(self.folder / ("x" * 150))}):
            with meeting.listen(self.path):
                self.assertTrue(meeting.is_served(self.path))

    def test_joining_by_standard_input(self) -> None:
        program = f"import context, sys; from mgr_front.hub import join; sys.exit(join({self.path!r}))"
        hello = said("hello", version=VERSION, replica=5, name="eve", token="t")
        command = [sys.executable, "-c", program]
        with subprocess.Popen(command, cwd=TESTS, stdin=subprocess.PIPE, stdout=subprocess.PIPE) as process:
            assert process.stdin and process.stdout
            process.stdin.write(hello)
            process.stdin.flush()
            self.assertEqual(process.stdout.readline(), said("hello", version=VERSION))
            process.stdin.close()
            self.assertEqual(process.wait(10), 0)
        self.end()
        done = subprocess.run(command, cwd=TESTS, input=hello, capture_output=True)
        self.assertEqual((done.returncode, b"no hub" in done.stderr), (3, True))
        self.begin()


class TestScarcity(Hubs):
    """A hub as a program of its own, which lacks something."""

    def begin(self) -> None:
        """Begins no other hub."""

    def end(self) -> None:
        """Ends none."""

    def serve(self, out: int, before: str = "true") -> "subprocess.Popen[bytes]":
        """Begins the program after something in a shell, and waits until it serves."""
        program = f"import context, sys; from mgr_front.hub import main; sys.exit(main([{self.path!r}], ''))"
        command = ["sh", "-c", f'{before}; exec "$0" "$@"', sys.executable, "-c", program]
        process = subprocess.Popen(command, cwd=TESTS, env={**os.environ, "MGR": self.mgr}, stdout=out)
        self.addCleanup(process.wait)
        self.addCleanup(process.kill)
        self.expect(lambda: meeting.is_served(self.path), True)
        return process

    def greet(self, replica: int) -> socket.socket:
        link = self.open.enter_context(meeting.connect(self.path))
        with contextlib.suppress(BrokenPipeError):
            link.sendall(said("hello", version=VERSION, replica=replica, name="eve", token="t"))
        return link

    def hears(self, link: socket.socket, op: bytes) -> bool:
        """Whether somebody is told this before the end."""
        came = b""
        with contextlib.suppress(ConnectionError):
            while b'"op":"%b"' % op not in came and (block := link.recv(65536)):
                came += block
        return b'"op":"%b"' % op in came

    def test_few_descriptors(self) -> None:
        process = self.serve(subprocess.DEVNULL, "ulimit -n 32")
        first = self.greet(1)
        self.assertTrue(self.hears(first, b"hello"))
        for link in [self.greet(replica) for replica in range(2, 60)]:
            link.close()
        first.sendall(line(1) + b"\n" + said("claims", text='{"op":"claims","version":1}\n', more=False))
        self.assertTrue(self.hears(first, b"claims"))
        self.expect(self.log, [line(1)])
        self.assertIsNone(process.poll())
        # Those who went made room.
        self.expect(lambda: self.hears(self.greet(7), b"hello"), True)

    def test_nobody_reads_what_it_prints(self) -> None:
        reader, writer = os.pipe()
        process = self.serve(writer)
        os.close(writer)
        # As much as the pipe takes, and the lines that wait.
        for i in range(2500):
            with self.greet(i + 1) as link:
                self.assertTrue(self.hears(link, b"hello"))
        process.terminate()
        self.assertEqual(process.wait(5), 0)
        os.close(reader)


class TestPrinting(unittest.TestCase):
    def log(self, out: int) -> "subprocess.CompletedProcess[bytes]":
        """Prints a line in a program of its own."""
        program = "import context; from mgr_front.printing import log; log('eve joined')"
        return subprocess.run([sys.executable, "-c", program], cwd=TESTS, stdout=out, stderr=subprocess.PIPE)

    def test_a_line(self) -> None:
        done = self.log(subprocess.PIPE)
        self.assertEqual((done.returncode, done.stdout[20:], done.stderr), (0, b"eve joined\n", b""))

    def test_where_it_cannot_be_printed(self) -> None:
        reader, writer = os.pipe()
        os.close(reader)
        self.addCleanup(os.close, writer)
        with open("/dev/full", "wb") as full:
            for out in (writer, full.fileno()):
                done = self.log(out)
                self.assertEqual((done.returncode, done.stderr), (0, b""))

    def test_what_finds_no_room_is_counted(self) -> None:
        lines = "import context, sys; from mgr_front.printing import log; [log('x' * 100) for _ in range(5000)]"
        command = [sys.executable, "-c", f"{lines}; sys.stdin.read()"]
        with subprocess.Popen(command, cwd=TESTS, stdin=subprocess.PIPE, stdout=subprocess.PIPE) as process:
            assert process.stdin and process.stdout
            time.sleep(1)
            printed: list[bytes] = []
            while b"dropped" not in (printed or [b""])[-1]:
                printed.append(process.stdout.readline())
            self.assertEqual(len(printed) - 1 + int(printed[-1].split()[0]), 5000)
            self.assertLess(len(printed), 2500)
            process.stdin.close()


if __name__ == "__main__":
    unittest.main()
