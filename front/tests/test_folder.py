"""A note that is carried by a folder: what the files of its writers become, and what is read of them."""

import errno
import os
import resource
import shutil
import time
import unittest
from unittest import mock

from writers import WithWriters, Writer

from mgr_front.channels import folder
from mgr_front.channels.folder import Folder, whole_lines

LINE = b'{"char":"z","id":[50,9],"op":"ins","parent":[0,0]}'


class TestLines(unittest.TestCase):
    def test_whole_lines(self) -> None:
        cases = ((b"", b""), (b"a", b""), (b"a\n", b"a\n"), (b"a\nb", b"a\n"), (b"a\nb\0\0\nc\n", b"a\n"), (b"\0\0", b""))
        for data, lines in cases:
            self.assertEqual(whole_lines(data), lines)


class TestFolder(WithWriters):
    def setUp(self) -> None:
        super().setUp()
        self.shared = self.folder / "shared"
        self.shared.mkdir()
        self.assertEqual((folder.LEAST_POLL, folder.MOST_POLL), (0.5, 5.0))
        sooner = mock.patch.object(folder, "LEAST_POLL", 0.05)
        sooner.start()
        self.addCleanup(sooner.stop)

    def make(self, writer: Writer) -> Folder:
        return Folder(writer, writer.post, str(self.shared))

    def own(self, writer: Writer) -> str:
        assert isinstance(writer.channel, Folder)
        return str(self.shared / writer.channel.own)

    def test_two_who_write(self) -> None:
        one, other = self.pair()
        one.type("c")
        self.wait("abc", other.signs)
        self.assertEqual(len(os.listdir(self.shared)), 2)
        self.expect_well(one, other)

    def test_one_who_comes_back_goes_on_in_its_file(self) -> None:
        one, other = self.pair()
        self.close(other)
        own = os.listdir(self.shared)
        other.type("c")
        self.open(other, self.make)
        self.wait("abc", one.signs)
        self.assertEqual(sorted(os.listdir(self.shared)), sorted(own))

    def test_what_is_told_is_passed_on_at_the_end(self) -> None:
        one, other = self.pair()
        for sign in "cdefgh":
            one.type(sign)
        self.close(one)
        self.wait("abcdefgh", other.signs)

    def test_emptied(self) -> None:
        one, other = self.pair()
        for name in os.listdir(self.shared):
            (self.shared / name).unlink()
        third = self.begin(3, self.make)
        self.wait("ab", third.signs)
        one.type("c")
        self.wait("abc", third.signs)
        self.wait("abc", other.signs)

    def test_an_older_state(self) -> None:
        one, other = self.pair()
        shutil.copytree(self.shared, self.folder / "older")
        one.type("c")
        other.type("d")
        for writer in (one, other):
            self.wait("abcd", writer.signs)
        shutil.copytree(self.folder / "older", self.shared, dirs_exist_ok=True)
        third = self.begin(3, self.make)
        self.wait("abcd", third.signs)

    def test_half_lines_and_nuls_wait(self) -> None:
        one, _ = self.pair()
        name = self.shared / ("0" * 32 + ".ops")
        name.write_bytes(LINE[:20])
        one.type("c")
        self.wait(True, lambda: "0" * 32 + ".ops" in one.channel.files)  # type: ignore[union-attr]
        name.write_bytes(LINE + b"\n" + b"\0" * 20)
        self.wait("abcz", one.signs)
        name.write_bytes(LINE + b"\n" + LINE.replace(b"50", b"51").replace(b"z", b"y") + b"\n")
        self.wait("abcyz", one.signs)

    def test_an_own_file_that_ends_in_half_a_line(self) -> None:
        one, other = self.pair()
        own = self.own(one)
        self.close(one)
        with open(own, "ab") as file:
            file.write(LINE[:30])
        one.type("c")
        self.open(one, self.make)
        self.wait("abc", other.signs)
        self.assertEqual(self.own(one), own)
        with open(own, "rb") as file:
            self.assertNotIn(LINE[:30], file.read())

    def test_where_another_one_writes_to_the_own_file(self) -> None:
        one, other = self.pair()
        own = self.own(one)
        with open(own, "ab") as file:
            file.write(LINE + b"\n")
        self.wait("abz", one.signs)
        one.type("c")
        self.wait("abcz", other.signs)
        self.assertNotEqual(self.own(one), own)
        self.assertEqual(len(os.listdir(self.shared)), 3)

    def test_lines_that_are_none_are_left_out_and_said(self) -> None:
        (self.shared / ("1" * 32 + ".ops")).write_bytes(LINE + b"\nno line\n" + LINE.replace(b"50", b"51") + b"\n")
        one = self.begin(1, self.make)
        self.wait("zz", one.signs)
        self.wait("live", one.word)
        self.assertEqual(one.states[-1].why, "left out: 1 line is no operation")

    def test_a_line_that_is_none_in_a_file_that_is_known(self) -> None:
        one, other = self.pair()
        with open(self.own(other), "ab") as file:
            for line in (b'{"char":"\\q","id":[1,77],"op":"ins","parent":[0,0]}', b"\xff\x01", LINE.replace(b"50", b"04")):
                file.write(line + b"\n")
        self.wait("left out: lines that are no operations (3)", lambda: one.states[-1].why)
        one.type("c")
        self.wait("abc", other.signs)

    def test_a_file_that_cannot_be_read(self) -> None:
        ill, opened = "4" * 32 + ".ops", os.open

        def fail(path: str, *words: int, **more: int) -> int:
            if path == str(self.shared / ill) and os.stat(path).st_size < 100:
                raise PermissionError(errno.EACCES, os.strerror(errno.EACCES))
            return opened(path, *words, **more)

        with mock.patch("os.open", side_effect=fail):
            one, other = self.pair()
            (self.shared / ill).write_bytes(LINE + b"\n")
            for writer in (one, other):
                self.wait(f"left out: {ill}: Permission denied", lambda: writer.states[-1].why)
            one.type("c")
            self.wait("abc", other.signs)
            # It is looked at again once it looks different.
            with open(self.shared / ill, "ab") as file:
                file.write(LINE.replace(b"50", b"51").replace(b"z", b"y") + b"\n" + LINE[:20])
            for writer in (one, other):
                self.wait("abcyz", writer.signs)
                self.assertEqual([state.word for state in writer.states], ["joining", "live", "live", "live"][: len(writer.states)])

    def test_the_own_file_cannot_be_read(self) -> None:
        one, other = self.pair()
        own = self.own(one)
        self.close(one)
        opened = os.open
        with mock.patch("os.open", side_effect=lambda path, *words, **more: opened("/" if path == own else path, *words, **more)):
            self.open(one, self.make)
            one.type("c")
            self.wait("abc", other.signs)
            self.assertNotEqual(self.own(one), own)
        self.assertEqual((self.shared / os.path.basename(own)).read_bytes().count(b"\n"), 1)

    def test_files_that_are_too_large(self) -> None:
        sparse, large, endless = (self.shared / (sign * 32 + ".ops") for sign in "567")
        for path, size in ((sparse, 6 << 30), (large, 3 << 20), (endless, 1 << 20)):
            with open(path, "wb") as file:
                file.write(LINE + b"\n")
                if path == sparse:
                    file.truncate(size)
                else:
                    file.write(b"x" * size)
        with mock.patch.object(folder, "MOST", 2 << 20):
            begun = resource.getrusage(resource.RUSAGE_SELF).ru_maxrss
            one = self.begin(1, self.make)
            self.wait("live", one.word)
            self.assertEqual(
                one.states[-1].why, f"left out: {large.name}: more than a note can have; {endless.name}: a line that is too long"
            )
            one.type("b")
            self.wait("bz", one.signs)
            begun_at = time.process_time()
            for _ in range(10):
                os.utime(sparse)
                assert isinstance(one.channel, Folder)
                self.assertEqual(one.channel._read(sparse.name, folder.stamp_of(os.stat(sparse))), b"")
            self.assertLess(time.process_time() - begun_at, 0.5)
            self.assertLess(resource.getrusage(resource.RUSAGE_SELF).ru_maxrss - begun, 100 << 10)

    def test_what_is_no_log_is_not_read(self) -> None:
        (self.shared / "note.ops").write_bytes(LINE + b"\n")
        os.mkfifo(self.shared / ("2" * 32 + ".ops"))
        (self.shared / ("3" * 32 + ".ops")).symlink_to(self.shared / "note.ops")
        one = self.first()
        self.assertEqual(one.signs(), "a")

    def test_another_note_is_refused_or_adopted(self) -> None:
        one = self.first()
        self.close(one)
        other = self.begin(2, self.make, "b")
        self.wait("refused", other.word)
        self.assertEqual(other.signs(), "b")
        other.adopts = True
        self.open(other, self.make)
        self.wait("ab", other.signs)

    def test_a_number_under_which_others_have_more(self) -> None:
        one, other = self.pair()
        one.type("c")
        self.wait("abc", other.signs)
        self.close(one)
        # The log is put back to an older state; what else it lacks does not matter.
        lines = one.lines()
        with open(one.log, "wb") as file:
            file.write(lines[0] + b"\n")
        self.open(one, self.make)
        self.wait("refused", one.word)
        self.assertEqual(one.states[-1].why, "others have words of the number 1 that this log lacks")
        self.assertEqual(one.signs(), "a")
        with open(one.log, "ab") as file:
            file.write(lines[-1] + b"\n")
        self.open(one, self.make)
        self.wait("abc", one.signs)

    def test_an_absent_folder(self) -> None:
        self.shared.rmdir()
        one = self.expect_apart("alone", f"{self.shared}: No such file or directory")
        assert one.channel
        self.assertTrue(one.channel.close(5))
        self.shared.mkdir()
        self.open(one, self.make)
        self.wait("live", one.word)

    def test_it_polls_slower_where_nothing_happens(self) -> None:
        one = self.first()
        assert isinstance(one.channel, Folder)
        channel = one.channel
        self.wait(True, lambda: channel.poll > 0.2)
        one.type("b")
        self.wait(True, lambda: channel.poll < 0.1)


if __name__ == "__main__":
    unittest.main()
