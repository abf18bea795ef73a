"""Lines between a hub and those who write at it."""

import os
import socket
import time
import unittest

import context  # noqa: F401

from mgr_front.peers import Peer
from mgr_front.wire import BLOCK, LONGEST, MOST_OPERATIONS, MOST_WAITING, SILENCE, STUCK, Broken, Wire, claims_said
from mgr_front.wire import in_runs, is_operation, operation, said, saying, weight

INSERTION, RUN = '{"char":"%s","id":[3,2],"op":"ins","parent":[1,1]}', '{"id":%s}'


class TestLines(unittest.TestCase):
    def test_deletions_of_neighbours_stand_in_one_line(self) -> None:
        def deletions(*numbers: int) -> list[bytes]:
            return [b'{"id":[%d,7],"op":"del"}' % number for number in numbers]

        insertion = b'{"char":"a","id":[9,7],"op":"ins","parent":[0,0]}'
        run = b'{"count":2,"id":[3,7],"op":"dels"}'
        self.assertEqual(in_runs([*deletions(3, 4), insertion, *deletions(5, 7)]), [run, insertion, *deletions(5, 7)])
        many = in_runs(deletions(*range(1, MOST_OPERATIONS + 3)))
        self.assertEqual(many, [b'{"count":%d,"id":[1,7],"op":"dels"}' % MOST_OPERATIONS, b'{"count":2,"id":[%d,7],"op":"dels"}' % (MOST_OPERATIONS + 1)])
        self.assertTrue(all(map(is_operation, many)))

    def test_deletions_that_are_none_take_nothing_with_them(self) -> None:
        lines = [b'{"id":[0,7],"op":"del"}', b'{"id":[1,7],"op":"del"}', b'{"id":[2,70000],"op":"del"}']
        self.assertEqual(in_runs(lines), lines)

    def test_operations(self) -> None:
        for line, wanted in (
            (INSERTION % "a", (3, 2, 1, "a")),
            (INSERTION % "漢", (3, 2, 1, "漢")),
            (INSERTION % '\\"', (3, 2, 1, '"')),
            (INSERTION % "\\\\", (3, 2, 1, "\\")),
            (INSERTION % "\\ud83d\\uDE00", (3, 2, 1, "😀")),
            (INSERTION % "\x7f", (3, 2, 1, "\x7f")),
            ('{"id":[9007199254740991,65535],"op":"del"}', (9007199254740991, 65535, 1, "")),
            (RUN % '[1,2],"op":"run","parent":[0,0],"text":"hello \\u0001\\"}"', (1, 2, 9, 'hello \x01"}')),
            (RUN % '[9007199254740990,2],"op":"run","parent":[9,9],"text":"ab"', (9007199254740990, 2, 2, "ab")),
            ('{"count":4096,"id":[1,2],"op":"dels"}', (1, 2, 4096, "")),
            (RUN % ('[1,2],"op":"run","parent":[0,0],"text":"%s"' % ("漢" * 4096)), (1, 2, 4096, "漢" * 4096)),
        ):
            self.assertEqual(operation(line.encode()), wanted, line)

    def test_what_counts_as_how_much(self) -> None:
        lines = (INSERTION % "a").encode(), b'{"count":4096,"id":[1,2],"op":"dels"}', b'{"id":[1,2],"op":"run","parent":[0,0],"text":"%b"}' % (b"x" * 4000)
        self.assertEqual([weight(line) // 1000 for line in lines], [0, 4, 4])
        self.assertLess(weight({"op": "bye"}), 100)

    def test_what_is_none(self) -> None:
        run = RUN % '[1,2],"op":"run","parent":[0,0],"text":"%s"'
        for line in (
            "", INSERTION % '"', '{"op":"rest"}', run % '","op":"paste","text":"', run % "a" + "\n", run % ("a" * LONGEST),
            INSERTION % "\\q", INSERTION % "\\u12", INSERTION % "\t", INSERTION % "\x00", INSERTION % "ab", INSERTION % "",
            INSERTION % "\\ud800", INSERTION % "\\ude00\\ud83d", run % "", run % ("a" * 4097), run % "x\ny",
            *[(INSERTION % "a").replace("[3,2]", id) for id in ("[03,2]", "[3,02]", "[0,2]", "[3,0]", "[3,65536]", "[9007199254740992,2]")],
            *[(INSERTION % "a").replace("[3,2]", id) for id in ("[1,2]", "[-3,2]", "[3.0,2]", "[3e0,2]", "[3,2,1]", "[3]", "[٣,2]", "[ 3,2]")],
            *[(INSERTION % "a").replace("[1,1]", of) for of in ("[0,1]", "[1,0]", "[3,1]", "[1,65536]", "[-0,-0]", "[00,0]")],
            RUN % '[9007199254740990,2],"op":"run","parent":[0,0],"text":"abc"', '{"count":0,"id":[1,2],"op":"dels"}',
            '{"count":4097,"id":[1,2],"op":"dels"}', '{"count":2,"id":[9007199254740991,2],"op":"dels"}',
            '{"count":1,"id":[1,2],"op":"del"}', '{"id":[1,2],"op":"dels"}', '{"id":[1,2],"op":"ins","parent":[0,0]}',
            '{"char":"a","id":[1,2],"op":"del"}', '{"char":"a","id":[1,2],"op":"run","parent":[0,0],"text":"a"}',
            '{"id":[1,2],"op":"del"}}', '{"id":[1,2],"op":"del","x":0}', '\ufeff{"id":[1,2],"op":"del"}', "[" * 60000,
        ):
            self.assertIsNone(operation(line.encode()), line)
        for line in (b'{"char":"\xff","id":[3,2],"op":"ins","parent":[1,1]}', b'{"char":"\xed\xa0\x80","id":[3,2],"op":"ins","parent":[1,1]}'):
            self.assertIsNone(operation(line), line)

    def test_what_is_said(self) -> None:
        line = said("hello", name="漢\n").rstrip(b"\n")
        self.assertNotIn(b"\n", line)
        self.assertEqual(saying(line), {"op": "hello", "name": "漢\n"})
        self.assertEqual(saying(said("place", place=(1, 2, 3), digest=None)), {"op": "place", "place": [1, 2, 3], "digest": None})
        for broken in (
            b"", b"x", b'{"op":"x', b'{"op":"x","y":' + b"[" * 60000, b'{"op":"x","op":1}', b'{"op":"x","op":["x"]}', b'{"op":"\xff"}',
            b'{"op":"x","y":{}}', b'{"op":"x","y":[[1]]}', b'{"op":"x","y":1.0}', b'{"op":"x","y":NaN}', b'{"op":"x","y":-Infinity}',
            b'{"op":"x","y":' + b"9" * 5000 + b"}", b'{"op":"x"}[]', b'{"op":"\xed\xa0\x80"}',
        ):
            with self.assertRaises(Broken, msg=broken):
                saying(broken)


class TestWire(unittest.TestCase):
    def setUp(self) -> None:
        self.near, self.far = socket.socketpair()
        self.addCleanup(self.near.close)
        self.addCleanup(self.far.close)
        self.wire = Wire(self.near)

    def test_lines_whatever_the_sizes_of_the_reads(self) -> None:
        read: list[bytes] = []
        for byte in b"ab\n\nc\n":
            self.far.send(bytes([byte]))
            read += self.wire._lines()
        self.assertEqual(read, [b"ab", b"", b"c"])
        self.assertEqual(self.wire._lines(), [])

    def test_a_line_that_never_ends_and_an_end(self) -> None:
        self.far.send(b"x" * LONGEST)
        for _ in range(LONGEST // BLOCK):
            self.assertEqual(self.wire._lines(), [])
        self.far.send(b"x")
        with self.assertRaises(Broken):
            self.wire._lines()
        self.far.close()
        with self.assertRaises(Broken):
            self.wire._lines()

    def test_claims_come_whole(self) -> None:
        for size in (1, 16384, 100000):
            claims = os.urandom(size).hex().encode()
            came = [self.wire._whole(saying(line)) for line in claims_said(claims).splitlines()]
            self.assertEqual(came, [*[None] * (len(came) - 1), {"op": "claims", "claims": claims}])

    def test_claims_without_an_end_or_without_anything(self) -> None:
        with self.assertRaises(Broken):
            self.wire._whole({"op": "claims", "text": ""})
        with self.assertRaises(Broken):
            for _ in range(10000):
                self.wire._whole({"op": "claims", "text": "x" * 16384, "more": True})

    def test_who_takes_nothing_is_left(self) -> None:
        now = time.monotonic()
        self.wire.check(now + STUCK + 1)
        self.wire.pass_on(b"x\n")
        with self.assertRaises(Broken):
            self.wire.check(now + STUCK + 1)
        with self.assertRaises(Broken):
            Wire(self.near).check(now + SILENCE + 1)

    def test_who_takes_it_slowly_is_told_to_ask_again(self) -> None:
        peer, lines, said = Peer(self.near), (b"x" * 1023 + b"\n") * (MOST_WAITING // 1024 + 1), b'\n{"op":"behind"}\n'
        peer.answer(lines)
        peer.write()
        peer.check(peer.begun_at)
        self.assertGreater(len(peer.waiting), MOST_WAITING - BLOCK)
        for given, left in ((lines, 1023), (lines, 1023)):
            peer.pass_on(given)
            peer.check(peer.begun_at)
            self.assertEqual(peer.waiting, b"x" * left + said)

    def test_what_is_not_asked_for_comes_the_next_time(self) -> None:
        lines = [(INSERTION % char).encode() for char in "abc"]
        self.far.send(b"".join(line + b"\n" for line in lines))
        self.assertEqual([next(self.wire.take()), *self.wire.take()], lines)
        self.assertEqual([*self.wire.take()], [])

    def test_all_is_written_in_order(self) -> None:
        self.wire.answer(b"".join(b"%d\n" % i for i in range(50000)))
        self.wire.pass_on(b"last\n")
        came = b""
        while self.wire.waiting:
            self.wire.write()
            came += self.far.recv(1 << 20)
        self.assertEqual(came, b"".join(b"%d\n" % i for i in range(50000)) + b"last\n")


if __name__ == "__main__":
    unittest.main()
