"""The completions of bash, zsh and fish, each by its shell; of zsh, what the file hands to `_arguments`."""

import argparse
import os
import pathlib
import re
import shutil
import subprocess
import tempfile
import unittest

import context  # noqa: F401

from mgr_front.options import channel_parser, hub_parser, parser

FILE = pathlib.Path(__file__).resolve().parent.parent / "completions.bash"
FISH, ZSH = FILE.with_suffix(".fish"), FILE.with_suffix(".zsh")
MANUAL = FILE.parent.parent / "docs" / "mgr.1"
# The last word is the one that is completed.
CALL = 'source "$1"; shift; COMP_WORDS=("$@"); COMP_CWORD=$(($# - 1)); _mgr "$1"; printf "%s\\n" "${COMPREPLY[@]}"'

# The program, and the words that stand at its line up to the one that is completed.
ZSH_CALL = '_arguments() { print -l -- "$@" }; compadd() { print -l -- "$@" }; service=$2; words=("${@:2}"); CURRENT=$(($# - 1)); source "$1"'
PROGRAMS = {"mgr-live": parser, "mgr-channel": channel_parser, "mgr-hub": hub_parser}
JOBS = ("edit", "show", "who", "log", "compact", "claims", "missing", "mend", "merge", "join")


def completed(*words: str, folder: str = ".") -> list[str]:
    """Returns what the last of these words may become."""
    command = ["bash", "--norc", "-c", CALL, "bash", str(FILE), *words]
    # Outside of a completion `compopt` is refused, and says so.
    said = subprocess.run(command, cwd=folder, stdout=subprocess.PIPE, stderr=subprocess.DEVNULL, text=True)
    return sorted(set(said.stdout.split("\n")) - {""})


def options_of(made: argparse.ArgumentParser) -> list[str]:
    return sorted(word for action in made._actions for word in action.option_strings if word.startswith("--"))


def lines_of(*command: str) -> list[str]:
    return subprocess.run(command, stdout=subprocess.PIPE, stderr=subprocess.DEVNULL, text=True).stdout.split("\n")


def options_of_job(job: str) -> list[str]:
    """Returns the options that bash completes after a job of mgr; a merge has its own after a hyphen alone."""
    return [word for word in completed("mgr", job, "note", "--") if word.startswith("--")]


@unittest.skipIf(shutil.which("fish") is None, "fish is not installed")
class TestFish(unittest.TestCase):
    def offered(self, line: str) -> list[str]:
        found = lines_of("fish", "--no-config", "-c", f"source {FISH}; complete -C '{line}'")
        return sorted({line.split("\t")[0] for line in found} - {""})

    def test_options(self) -> None:
        for program, made in PROGRAMS.items():
            self.assertEqual(self.offered(f"{program} --"), options_of(made()), program)
        for job in JOBS:
            self.assertEqual(set(self.offered(f"mgr {job} note --")), {*options_of_job(job), "--help"}, job)
        self.assertEqual(self.offered("mgr co"), ["compact"])


@unittest.skipIf(shutil.which("zsh") is None, "zsh is not installed")
class TestZsh(unittest.TestCase):
    def offered(self, *words: str) -> list[str]:
        found = lines_of("zsh", "-f", "-c", ZSH_CALL, "zsh", str(ZSH), *words)
        return sorted({name for line in found for name in re.findall(r"^(?:\([^)]*\))?(--\w[\w-]*)", line)})

    def test_options(self) -> None:
        for program, made in PROGRAMS.items():
            self.assertEqual(self.offered(program, "--"), options_of(made()), program)
        for job in JOBS:
            self.assertEqual(set(self.offered("mgr", job, "note", "--")), {*options_of_job(job), "--help"}, job)
        self.assertEqual(self.offered("mgr", ""), ["--help", "--version"])


@unittest.skipIf(shutil.which("bash") is None, "bash is not installed")
class TestCompletions(unittest.TestCase):
    def test_options(self) -> None:
        self.assertEqual(completed("mgr-live", "--"), options_of(parser()))
        self.assertEqual(completed("mgr-channel", "--"), options_of(channel_parser()))
        self.assertEqual(completed("mgr-hub", "note", "--"), options_of(hub_parser()))
        told = {f"--{name}" for name in re.findall(r"Fl -(\w+)", MANUAL.read_text())}
        self.assertEqual(completed("/usr/bin/mgr", "edit", "note", "--"), sorted(told - {"--adopt", "--dels", "--json", "--lines"} | {"--help"}))
        self.assertEqual(completed("mgr-live", "--ta"), ["--take-file"])

    def test_jobs(self) -> None:
        self.assertEqual(completed("mgr", "e"), ["edit"])
        self.assertEqual(completed("mgr", "c"), ["claims", "compact"])
        self.assertEqual(completed("mgr", "m"), ["mend", "merge", "missing"])
        self.assertEqual(completed("mgr", "compact", "--"), ["--dels", "--help"])
        self.assertEqual(completed("mgr", "show", "--"), ["--help", "--lines"])
        self.assertEqual(completed("mgr", "show", "note", "--lines", ""), [])
        self.assertEqual(completed("mgr", "log", "--"), ["--help", "--json"])
        self.assertEqual(completed("mgr", "who", "--"), ["--help", "--lines"])
        self.assertEqual(completed("mgr", "claims", "--"), ["--help"])
        self.assertEqual(completed("mgr", "missing", "--"), ["--help"])
        self.assertEqual(completed("mgr", "merge", "--"), ["--adopt", "--help"])
        self.assertEqual(completed("mgr", "mend", "--"), ["--help"])
        self.assertEqual(completed("mgr", "merge", "note", "note.ops", "--"), ["--adopt", "--help"])

    def test_values(self) -> None:
        for words in (["--replica", ""], ["--replica=", "="], ["--with", "host", ":", "7"], ["--with", ""]):
            self.assertEqual(completed("mgr-live", "note", *words), [])

    def test_names(self) -> None:
        with tempfile.TemporaryDirectory() as folder:
            for name in ("note", "note.ops", "note~", "no text.ops", "none.ops.new", "--odd"):
                pathlib.Path(folder, name).touch()
            os.mkdir(os.path.join(folder, "notes"))
            self.assertEqual(completed("mgr-live", "no", folder=folder), ["no text", "note", "notes"])
            self.assertEqual(completed("mgr", "join", "note", "note.", folder=folder), ["note.ops"])
            self.assertEqual(completed("mgr", "who", "--lines", "no", folder=folder), ["no text", "note", "notes"])
            self.assertEqual(completed("mgr", "merge", "--adopt", "no", folder=folder), ["no text", "note", "notes"])
            for words in (["note"], ["--adopt", "note"], ["note", "note.ops"]):
                self.assertEqual(completed("mgr", "merge", *words, "note.", folder=folder), ["note.ops"])
            for job in ("edit", "compact", "show", "log", "who", "claims", "missing", "merge", "mend"):
                self.assertEqual(completed("mgr", job, r"no\ t", folder=folder), ["no text"])
            self.assertEqual(completed("mgr-hub", '"no t', folder=folder), ["no text"])
            self.assertEqual(completed("mgr-live", "--", "--", folder=folder), ["--odd"])


if __name__ == "__main__":
    unittest.main()
