"""A note that is carried by a branch of git: its commits, its tips, and what git refuses."""

import os
import re
import pathlib
import shutil
import stat
import subprocess
import threading
import time
import unittest
from unittest import mock

from writers import WithWriters, Writer

from mgr_front.channels import State, git
from mgr_front.channels.git import GitBranch, fault_of

QUICK = {"COMMITS": 0.3, "SOON": 0.1, "LATER": 0.2, "AGAIN": (0.01, 0.2)}
IDENTITY = {"GIT_CONFIG_GLOBAL": os.devnull, "GIT_CONFIG_NOSYSTEM": "1"}


class TestFaults(unittest.TestCase):
    def test_what_git_says_last(self) -> None:
        cases = (
            (b"", "git says nothing"),
            (b"fatal: unable to access 'https://x/': Could not resolve host: x\n", "Could not resolve host: x"),
            (
                b"ssh: connect to host x port 22: Connection refused\nfatal: Could not read from remote repository.\n\n"
                b"Please make sure you have the correct access rights\nand the repository exists.\n",
                "ssh: connect to host x port 22: Connection refused",
            ),
            (b"To x\n!\ta:refs/heads/b\t[rejected] (fetch first)\nerror: failed to push some refs\n", "[rejected] (fetch first)"),
        )
        for said, wanted in cases:
            self.assertTrue(fault_of(said).state.why.endswith(wanted), said)


class TestGit(WithWriters):
    def setUp(self) -> None:
        super().setUp()
        settings = mock.patch.dict(os.environ, IDENTITY)
        settings.start()
        self.addCleanup(settings.stop)
        sooner = mock.patch.multiple(git, **QUICK)
        sooner.start()
        self.addCleanup(sooner.stop)
        self.shared = self.folder / "shared.git"
        self.git("init", "--quiet", "--bare", "--initial-branch=notes", str(self.shared))
        self.branch = "notes"

    def git(self, *words: str, folder: "pathlib.Path | None" = None) -> str:
        """Runs git; in the repository that is shared, once that is there."""
        where = ["-C", str(folder or self.shared)] if self.shared.exists() else []
        author = ["-c", "user.name=Else", "-c", "user.email=else@example.org"]
        return subprocess.run(["git", *where, *author, *words], check=True, capture_output=True, text=True).stdout.strip()

    def make(self, writer: Writer) -> GitBranch:
        return GitBranch(writer, writer.post, f"{self.shared}#{self.branch}", f"Writer {writer.replica}")

    def signs(self) -> str:
        """Returns the characters of the tip's log, in the order of its lines."""
        return "".join(re.findall(r'"(?:char|text)":"([^"]*)"', self.tip()))

    def tip(self) -> str:
        return self.git("show", f"{self.branch}:note.ops")

    def authors(self) -> list[str]:
        return self.git("log", "--reverse", "--format=%an|%cn", self.branch).splitlines()

    def test_two_who_write(self) -> None:
        one, other = self.pair()
        one.type("c")
        self.wait("abc", other.signs)
        self.assertEqual(self.authors(), ["Writer 1|Writer 1", "Writer 2|Writer 2", "Writer 1|Writer 1"])
        self.assertEqual(self.git("rev-list", "--merges", self.branch), "")
        self.expect_well(one, other)

    def test_commits_are_apart_but_the_last_one(self) -> None:
        with mock.patch.object(git, "COMMITS", 600):
            one = self.begin(1, self.make, "a")
            self.wait("live", one.word)
            for sign in "bcd":
                one.type(sign)
            other = self.begin(2, self.make)
            self.wait("a", other.signs)
            self.assertEqual(len(self.authors()), 1)
            self.close(one)
            self.wait("abcd", other.signs)
        self.assertEqual(len(self.authors()), 2)

    def test_many_who_push_at_once(self) -> None:
        begun = [Writer(self.program, self.folder / str(number), number) for number in range(1, 5)]
        begun[0].type("a")
        self.open(begun[0], self.make)
        self.wait("live", begun[0].word)
        for writer in begun[1:]:
            self.open(writer, self.make)
        for writer in begun:
            self.wait("a", writer.signs)
        threads = [threading.Thread(target=writer.type, args=["bcde"[at]]) for at, writer in enumerate(begun)]
        for thread in threads:
            thread.start()
        for thread in threads:
            thread.join()
        for writer in begun:
            self.wait("abcde", writer.signs)
            self.assertEqual(writer.states, [State("joining"), State("live")])
        self.assertEqual(self.git("rev-list", "--merges", self.branch), "")

    def test_what_a_forced_push_removed_comes_back(self) -> None:
        one, other = self.pair()
        first = self.git("rev-list", "--max-parents=0", self.branch)
        self.git("update-ref", f"refs/heads/{self.branch}", first)
        one.type("c")
        self.wait("abc", other.signs)
        third = self.begin(3, self.make)
        self.wait("abc", third.signs)

    def test_a_branch_that_was_removed(self) -> None:
        one, other = self.pair()
        self.git("update-ref", "-d", f"refs/heads/{self.branch}")
        one.type("c")
        self.wait("abc", other.signs)

    def test_what_else_stands_there_stays(self) -> None:
        clone = self.folder / "clone"
        self.git("clone", "-q", str(self.shared), str(clone))
        (clone / "below").mkdir()
        (clone / "below" / "note.ops").write_text("below")
        (clone / "text").write_text("text")
        self.git("add", ".", folder=clone)
        self.git("commit", "-qm", "else", folder=clone)
        self.git("push", "-q", "origin", "HEAD:notes", folder=clone)
        self.first()
        self.wait(["below/note.ops", "note.ops", "text"], lambda: self.git("ls-tree", "-r", "--name-only", "notes").split())
        self.assertEqual(self.git("show", "notes:below/note.ops"), "below")
        self.assertFalse((clone / "note.ops").exists())

    def test_the_branch_that_is_the_head(self) -> None:
        self.branch = ""
        one = self.first()
        # A repository without a commit names no head.
        self.assertEqual(self.git("branch", "--format=%(refname:short)"), "main")
        self.close(one)
        self.git("symbolic-ref", "HEAD", "refs/heads/main")
        self.git("branch", "else", "main")
        self.git("symbolic-ref", "HEAD", "refs/heads/else")
        one.type("b")
        self.open(one, self.make)
        self.wait(2, lambda: len(self.git("rev-list", "else").split()))
        self.assertEqual(len(self.git("rev-list", "main").split()), 1)

    def test_a_persons_own_working_tree_is_not_touched(self) -> None:
        own = self.folder / "own"
        self.git("init", "-q", "--initial-branch=main", str(own))
        (own / "file").write_text("text")
        self.git("add", ".", folder=own)
        self.git("commit", "-qm", "else", folder=own)
        self.shared = own
        self.first()
        self.assertEqual(self.git("status", "--porcelain"), "")
        self.assertEqual(self.git("ls-tree", "--name-only", "notes"), "note.ops")
        self.branch = "main"
        other = self.begin(2, self.make, "b")
        self.wait("alone", other.word)
        self.assertEqual(other.states[-1].why, "[remote rejected] (branch is currently checked out)")
        self.assertEqual((self.git("status", "--porcelain"), sorted(os.listdir(own))), ("", [".git", "file"]))

    def test_a_repository_that_is_not_there(self) -> None:
        self.shared = self.folder / "absent"
        self.expect_apart("alone", f"fatal: '{self.shared}' does not appear to be a git repository")

    def test_a_log_that_is_spoiled_is_said_and_stays(self) -> None:
        one, other = self.pair()
        for writer in (one, other):
            self.close(writer)
        clone = self.folder / "clone"
        self.git("clone", "-q", str(self.shared), str(clone))
        (clone / "note.ops").write_text(f"<<<<<<< ours\n{self.tip()}\n")
        self.git("commit", "-qam", "else", folder=clone)
        self.git("push", "-q", folder=clone)
        one.type("c")
        self.open(one, self.make)
        self.wait("alone", one.word)
        self.assertIn("line 1: Json", one.states[-1].why)
        self.assertTrue(self.tip().startswith("<<<<<<<"))

    def test_a_conflict(self) -> None:
        one, other = self.pair()
        self.close(one)
        with open(one.log, "ab") as file:
            file.write(b'{"char":"x","id":[9,7],"op":"ins","parent":[0,0]}\n')
        other.save([b'{"char":"y","id":[9,7],"op":"ins","parent":[0,0]}'])
        other.type("c")
        self.wait(True, lambda: '"y"' in self.tip())
        self.open(one, self.make)
        self.wait("conflict", one.word)
        self.assertNotIn('"x"', self.tip())

    def test_git_within_a_hook_of_another_repository(self) -> None:
        with mock.patch.dict(os.environ, GIT_DIR=str(self.folder / "else"), GIT_INDEX_FILE="else"):
            self.pair()
        self.assertFalse((self.folder / "else").exists())

    # ---- the clone, which is a cache

    def clone(self, cache: str = "cache") -> pathlib.Path:
        return next((self.folder / cache / "mgr" / "git").iterdir())

    def reopen(self, writer: Writer) -> list[State]:
        """Returns how one stands who joins again, up to where all is well."""
        writer.states.clear()
        self.open(writer, self.make)
        self.wait("live", writer.word)
        return writer.states

    def test_a_clone_that_is_spoiled_is_made_anew_once(self) -> None:
        def no_clone(clone: pathlib.Path) -> None:
            shutil.rmtree(clone)
            clone.mkdir()

        def no_head(clone: pathlib.Path) -> None:
            (clone / "HEAD").write_text("")

        def locked(clone: pathlib.Path) -> None:
            (clone / f"{one_ref}.lock").touch()

        def corrupt(clone: pathlib.Path) -> None:
            for path in clone.glob("objects/??/*"):
                path.chmod(stat.S_IRWXU)
                path.write_bytes(b"")

        one = self.first()
        assert isinstance(one.channel, GitBranch)
        one_ref, known = one.channel.ref, "a"
        for spoil, sign in ((no_clone, "b"), (no_head, "c"), (locked, "d"), (corrupt, "e")):
            with self.subTest(spoil.__name__):
                self.close(one)
                spoil(self.clone())
                one.type(sign)
                words = [state.word for state in self.reopen(one)]
                self.assertEqual(words, ["joining", "alone", "live"])
                self.assertIn("git's cache is made anew", one.states[1].why)
                known += sign
                self.wait(True, lambda: sign in self.signs())
        self.assertEqual(len(list(self.clone().parent.iterdir())), 1)

    def test_a_clone_that_could_not_be_made_is_made_once_it_can_be(self) -> None:
        caches = self.folder / "cache" / "mgr" / "git"
        caches.parent.mkdir(parents=True)
        caches.write_text("a file where the folder has to be")
        one = self.expect_apart("alone")
        caches.unlink()
        self.wait("live", one.word)
        self.assertEqual(self.authors(), ["Writer 1|Writer 1"])

    def test_a_fault_of_the_others_leaves_the_clone(self) -> None:
        one = self.first()
        made = self.clone().stat().st_ino
        self.close(one)
        self.shared.rename(self.folder / "away")
        self.open(one, self.make)
        self.wait("alone", one.word)
        (self.folder / "away").rename(self.shared)
        self.wait("live", one.word)
        self.assertEqual((self.clone().stat().st_ino, len(one.states)), (made, 5), one.states)

    def with_a_file_beside(self) -> str:
        """Puts another file into the branch, and returns its name as an object."""
        folder = self.folder / "clone"
        self.git("clone", "-q", str(self.shared), str(folder))
        (folder / "beside").write_bytes(os.urandom(100_000))
        self.git("add", ".", folder=folder)
        self.git("commit", "-qm", "else", folder=folder)
        self.git("push", "-q", "origin", "HEAD:notes", folder=folder)
        return self.git("rev-parse", "HEAD:beside", folder=folder)

    def has(self, name: str, cache: str) -> bool:
        """Whether the clone in a cache has an object; this git fetches nothing."""
        command = ["git", f"--git-dir={self.clone(cache)}", "cat-file", "-e", name]
        return not subprocess.run(command, capture_output=True).returncode

    def test_only_the_files_of_notes_are_fetched(self) -> None:
        for allowed, version, wanted in (("true", "2", False), ("false", "2", True), ("true", "0", True)):
            with self.subTest(allowed=allowed, version=version):
                self.setUp()
                self.git("config", "uploadpack.allowFilter", allowed)
                (self.folder / "settings").write_text(f"[protocol]\nversion = {version}\n")
                beside = self.with_a_file_beside()
                with mock.patch.dict(os.environ, GIT_CONFIG_GLOBAL=str(self.folder / "settings")):
                    # On one machine both go by one clone.
                    one = self.first()
                    with mock.patch.dict(os.environ, XDG_CACHE_HOME=str(self.folder / "another")):
                        other = self.begin(2, self.make)
                    for sign in "bcd":
                        self.wait("live", other.word)
                        self.wait("a", lambda: other.signs()[:1])
                        other.type(sign)
                        self.wait(True, lambda: sign in self.signs())
                    self.wait("abcd", one.signs)
                    self.assertEqual([self.has(beside, name) for name in ("cache", "another")], [wanted] * 2)
                    self.assertEqual(self.git("ls-tree", "--name-only", "notes").split(), ["beside", "note.ops"])
                    self.close(one)
                    self.close(other)

    # ---- git that is slow, silent or ended

    def test_the_time_of_git_runs_while_nothing_comes(self) -> None:
        path, found = self.folder / "git", shutil.which("git")
        cases = (
            ("for i in 1 2 3 4 5 6 7 8; do echo $i >&2; sleep 0.25; done", "live", ""),
            ("sleep 30", "alone", "git fetch: nothing came for 1 seconds"),
            ("kill -9 $$", "alone", "git fetch: signal 9 ended it"),
            ("exit 7", "alone", "status 7"),
        )
        self.close(self.first())
        for number, (done, word, why) in enumerate(cases, 2):
            with self.subTest(done), mock.patch.object(git, "LONGEST", 1):
                path.write_text(f'#!/bin/sh\ncase " $* " in *" fetch "*) {done};; esac\nexec {found} "$@"\n')
                path.chmod(stat.S_IRWXU)
                with mock.patch.dict(os.environ, PATH=f"{self.folder}:{os.environ['PATH']}"):
                    one = self.begin(number, self.make)
                    self.wait(word, one.word)
                    self.assertEqual(one.states[-1].why, why)
                    begun = time.monotonic()
                    one.channel and one.channel.close(0.1)
                    self.assertLess(time.monotonic(), begun + 1)


if __name__ == "__main__":
    unittest.main()
