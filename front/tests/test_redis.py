"""A note that is carried by a stream of Redis. Without redis-server and python3-redis there is nothing to try."""

import os
import pathlib
import shutil
import socket
import subprocess
import time
import unittest
from typing import Any
from unittest import mock

from writers import WithWriters, Writer

from mgr_front.channels import Apart, presence, redis, stream
from mgr_front.channels.redis import RedisStream
from mgr_front.channels.stream import library, trim
from mgr_front.notes import Refused
from mgr_front.wire import said

HOST, SECRET = "127.0.0.1", "a word: @/"
QUOTED = "a%20word%3A%20%40%2F"
LINE = '{"char":"z","id":[50,9],"op":"ins","parent":[0,0]}\n'


def is_installed() -> bool:
    try:
        library()
    except Refused:
        return False
    return bool(shutil.which("redis-server"))


@unittest.skipUnless(is_installed(), "redis-server or python3-redis is not installed")
class TestRedis(WithWriters):
    settings: tuple[str, ...] = ()

    def setUp(self) -> None:
        super().setUp()
        with socket.create_server((HOST, 0)) as free:
            self.port = free.getsockname()[1]
        self.begin_server()
        self.url = f"redis://{HOST}:{self.port}/a/note"

    def begin_server(self, *words: str) -> None:
        words = ("--port", str(self.port), "--bind", HOST, "--dir", str(self.folder), "--save", "", *self.settings, *words)
        self.server = subprocess.Popen(["redis-server", *words], stdout=subprocess.DEVNULL)
        self.addCleanup(self.end_server)
        self.wait(True, self.answers)

    def answers(self) -> bool:
        try:
            return bool(self.client().ping())
        except Exception as fault:
            return "Authentication" in str(fault)

    def end_server(self) -> None:
        self.server.kill()
        self.server.wait()

    def client(self) -> Any:
        return library().Redis(HOST, self.port)

    def make(self, writer: Writer) -> RedisStream:
        return RedisStream(writer, writer.post, self.url, f"Writer {writer.replica}")


class TestStream(TestRedis):
    def test_two_who_write(self) -> None:
        one, other = self.pair()
        begun = time.monotonic()
        one.type("c")
        self.wait("abc", other.signs)
        self.assertLess(time.monotonic() - begun, 2)
        self.expect_well(one, other)

    def test_it_was_emptied(self) -> None:
        for empty in (lambda client: client.flushall(), lambda client: client.delete("a/note")):
            with self.subTest():
                one, other = self.pair()
                empty(self.client())
                one.type("c")
                self.wait("abc", other.signs)
                third = self.begin(3, self.make)
                self.wait("abc", third.signs)
                for writer in (one, other, third):
                    self.close(writer)
                    os.unlink(writer.log)
                self.client().flushall()

    def test_it_was_trimmed(self) -> None:
        one, other = self.pair()
        for sign in "cdef":
            one.type(sign)
        self.wait("abcdef", other.signs)
        self.client().xtrim("a/note", maxlen=1, approximate=False)
        other.type("g")
        self.wait("abcdefg", one.signs)
        third = self.begin(3, self.make)
        self.wait("abcdefg", third.signs)

    def test_an_older_state(self) -> None:
        one, other = self.pair()
        older = self.client().dump("a/note")
        one.type("c")
        self.wait("abc", other.signs)
        self.client().restore("a/note", 0, older, replace=True)
        other.type("d")
        self.wait("abcd", one.signs)
        third = self.begin(3, self.make)
        self.wait("abcd", third.signs)

    def test_it_is_killed_and_begun_again_without_what_it_had(self) -> None:
        one, other = self.pair()
        self.end_server()
        one.type("c")
        self.wait("alone", one.word)
        self.begin_server()
        self.wait("abc", other.signs)
        self.wait("live", one.word)
        third = self.begin(3, self.make)
        self.wait("abc", third.signs)

    def test_it_is_trimmed_by_us(self) -> None:
        one, other = self.pair()
        for sign in "cde":
            one.type(sign)
        self.wait("abcde", other.signs)
        trim(self.url, self.program)
        self.assertEqual(self.client().xlen("a/note"), 1)
        other.type("f")
        self.wait("abcdef", one.signs)
        self.assertLess(self.client().xlen("a/note"), 4)
        third = self.begin(3, self.make)
        self.wait("abcdef", third.signs)

    def test_somebody_writes_while_it_is_trimmed(self) -> None:
        self.pair()
        joined = stream.joined

        def slowly(*given: Any) -> bytes:
            self.client().xadd("a/note", {"lines": LINE})
            return joined(*given)

        with mock.patch.object(stream, "joined", slowly):
            trim(self.url, self.program)
        self.assertEqual(self.client().xlen("a/note"), 2)
        third = self.begin(3, self.make)
        self.wait("abz", third.signs)

    def test_what_another_client_adds(self) -> None:
        one, other = self.pair()
        paste = '{"op":"paste","text":"words"}\n'
        self.client().xadd("a/note", {"lines": f"no line\n{paste}{LINE}"})
        self.client().xadd("a/note", {"else": "x"})
        one.type("c")
        for writer in (one, other):
            self.wait("abcz", writer.signs)
        third = self.begin(3, self.make)
        self.wait("abcz", third.signs)

    def test_others_say_nonsense(self) -> None:
        one, other = self.pair()
        for nonsense in (
            "x", "[]", '{"by":"y","op":"place","name":["A"],"place":"x"}', '{"by":"y","op":[]}', b"\xff", '{"op":"' + "[" * 100000,
            '{"op":"alive","digest":["x"]}', '{"op":"alive","digest":{"x":1}}', '{"op":"lines","lines":["x"]}', '{"op":"alive","digest":NaN}',
        ):
            self.client().publish("a/note:live", nonsense)
        one.type("c")
        self.wait("abc", other.signs)
        self.assertEqual([state.word for state in other.states], ["joining", "live", "live"][: len(other.states)])

    def test_an_entry_without_the_end_of_its_line(self) -> None:
        one, _ = self.pair()
        self.client().xadd("a/note", {"lines": "no line"})
        one.type("c")
        third = self.begin(3, self.make)
        self.wait("abc", third.signs)
        self.assertEqual(one.signs(), "abc")

    def test_half_a_character_is_none(self) -> None:
        one, other = self.pair()
        for line in (LINE.replace("z", "\\ud800"), LINE.replace("50", "51")):
            self.client().publish("a/note:live", said("lines", by="y", lines=line))
        self.client().publish("a/note:live", '{"op":"lines","by":"y","lines":"' + LINE.strip().replace('"', '\\"').replace("z", "\\ud800") + '"}')
        for writer in (one, other):
            self.wait("abz", writer.signs)
            self.wait(True, lambda: any(" that are no operations" in state.why for state in writer.states))

    def test_who_is_where(self) -> None:
        one, other = self.pair()
        assert one.channel and other.channel
        one.channel.show_place((1, 1, 1))
        self.wait(("Writer 1", (1, 1, 1)), lambda: other.present[-1].who.get(1))
        third = self.begin(3, self.make)
        self.wait({1: ("Writer 1", (1, 1, 1)), 2: ("Writer 2", (0, 0, 0))}, lambda: third.present[-1].who)
        self.close(one)
        self.wait([3], lambda: list(other.present[-1].who))

    def test_where_claims_differ_all_is_compared(self) -> None:
        with mock.patch.object(presence, "ALIVE", 0.5), mock.patch.object(redis, "UNDER_WAY", 0.0):
            one, other = self.pair()
            # Something was lost between the channel and a log.
            made = LINE.strip().encode()
            one.save([made])
            self.wait("abz", other.signs)

    def test_another_version(self) -> None:
        self.client().set("a/note:generation", "2 x")
        self.expect_apart("refused")
        self.assertEqual(self.client().xlen("a/note"), 0)

    def test_a_key_that_is_no_stream(self) -> None:
        self.client().set("a/note", "x")
        self.expect_apart("alone", "WRONGTYPE")

    def test_no_server(self) -> None:
        self.end_server()
        one = self.expect_apart("alone", "refused")
        with self.assertRaises(Apart):
            trim(self.url, self.program)
        self.begin_server()
        self.wait("live", one.word)

    def test_lines_of_many_bytes(self) -> None:
        one, other = self.pair()
        one.type("x" * 4000)
        self.wait(4002, lambda: len(other.lines()))


class TestPassword(TestRedis):
    settings = ("--requirepass", SECRET)

    def test_a_password(self) -> None:
        self.url = f"redis://:{QUOTED}@{HOST}:{self.port}/note"
        self.pair()

    def test_none(self) -> None:
        self.expect_apart("alone", "Authentication")

    def test_one_of_the_environment(self) -> None:
        with mock.patch.dict(os.environ, REDISCLI_AUTH=SECRET):
            self.pair()


@unittest.skipUnless(shutil.which("openssl"), "openssl is not installed")
class TestEncryption(TestRedis):
    def begin_server(self, *words: str) -> None:
        key, made = str(self.folder / "key"), str(self.folder / "certificate")
        names = ["-subj", "/CN=localhost", "-addext", "subjectAltName=DNS:localhost"]
        command = ["openssl", "req", "-x509", "-newkey", "rsa:2048", "-nodes", "-days", "1", "-keyout", key, "-out", made]
        subprocess.run([*command, *names], check=True, capture_output=True)
        self.certificate, self.key = pathlib.Path(made), key
        with socket.create_server((HOST, 0)) as free:
            self.secure = free.getsockname()[1]
        secure = ("--tls-port", str(self.secure), "--tls-cert-file", made, "--tls-key-file", key)
        super().begin_server(*secure, "--tls-ca-cert-file", made, "--tls-auth-clients", "no", *words)

    def test_one_that_is_known(self) -> None:
        self.url = f"rediss://localhost:{self.secure}/note"
        with mock.patch.dict(os.environ, SSL_CERT_FILE=str(self.certificate)):
            self.pair()

    def test_one_that_is_not_known(self) -> None:
        self.url = f"rediss://localhost:{self.secure}/note"
        self.expect_apart("alone", "certificate verify failed")

    def test_another_machine(self) -> None:
        self.url = f"rediss://{HOST}:{self.secure}/note"
        with mock.patch.dict(os.environ, SSL_CERT_FILE=str(self.certificate)):
            one = self.begin(1, self.make, "a")
            self.wait("alone", one.word)
            self.assertIn("certificate verify failed", one.states[-1].why)


if __name__ == "__main__":
    unittest.main()
