"""The command lines of mgr-live, mgr-channel and mgr-hub."""

import argparse
import os
import re
from argparse import ArgumentTypeError as Wrong
from collections.abc import Callable, Sequence
from urllib.parse import urlsplit

from mgr_front import VERSION
from mgr_front.notes import LOG

# The ways to others: a hub by a port, by ssh, or by its note on this machine; and engines, by what is before a colon.
PORTS, HOSTS, HERE = "port", "host", "here"
GIT, FOLDER, REDIS, SECURE_REDIS = "git", "dir", "redis", "rediss"
# A machine, by its name or, in brackets, an address of IPv6, with a login before it or not; and what follows.
WAY = re.compile(r"(?s)(?!-)([^:@\[\]]*@)?(?:\[((?!-)[^\[\]]+)\]|((?!-)[^:\[\]]+)):(.+)")

WAYS = (
    "write with all others at the mgr-hub that has NOTE on that machine, by ssh; or at a port of this one; or by "
    "git:REPOSITORY#BRANCH, dir:FOLDER, redis://HOST/KEY, rediss://HOST/KEY"
)
EPILOG = (
    "The text is in NAME, its operations in the log NAME.ops. C-x C-s saves, C-x C-c leaves. "
    "mgr(1) has the keys, the files and the statuses. The environment variable MGR names the program mgr."
)
CHANNEL = "mgr-channel", "Stands between an editor program and mgr, and takes and gives changes as lines of JSON."

# What a command line asks for: members by the names of its options.
Options = argparse.Namespace


def note_name(word: str) -> str:
    """Reads the name of a note; that of its log stands for it."""
    name = word.removesuffix(LOG)
    if not os.path.basename(name):
        raise Wrong("it is empty")
    return name


def number_to(most: int) -> Callable[[str], int]:
    """Returns a reader of numbers from 1 to this one."""

    def read(word: str) -> int:
        if not (word.isascii() and word.isdigit() and 1 <= int(word) <= most):
            raise Wrong(f"{word!r} is no number from 1 to {most}")
        return int(word)

    return read


def way(word: str) -> tuple[str, ...]:
    """Reads a way to others: its kind, and what follows; that is a machine and a note if it is by ssh."""
    if word.isdigit():
        return PORTS, str(number_to(65535)(word))
    found = WAY.fullmatch(word)
    if not found:
        raise Wrong(f"{word!r} is neither a port nor HOST:NOTE")
    user, address, name, rest = found.groups("")
    kind = user + address + name
    if kind in (REDIS, SECURE_REDIS):
        try:
            urlsplit(word).port
        except ValueError as error:
            raise Wrong(f"{kind}://HOST:PORT/KEY: {error}") from None
    return (kind, rest) if kind in (GIT, FOLDER, REDIS, SECURE_REDIS) else (HOSTS, kind, rest)


def _parser(program: str, description: str, epilog: str = "") -> argparse.ArgumentParser:
    """Returns what both programs take."""
    made = argparse.ArgumentParser(program, description=description, epilog=epilog, allow_abbrev=False)
    made.add_argument("name", metavar="NAME", type=note_name, help="the note, and the file of its text")
    made.add_argument("--version", action="version", version=f"%(prog)s {VERSION}")
    number = "the number of this copy, which no other copy of the note has; else it is drawn once, and kept"
    made.add_argument("--replica", metavar="N", type=number_to(65535), help=number)
    return made


def channel_parser(program: Sequence[str] = CHANNEL) -> argparse.ArgumentParser:
    """Returns what a program takes by which one writes in a note: it has a name, says what it does, and ends so."""
    made = _parser(*program)
    # Only mgr-live asks for a text that is put back.
    made.set_defaults(text=None, history=False)
    add, either = made.add_argument, made.add_mutually_exclusive_group().add_argument
    add("--with", dest="way", metavar="HOST:NOTE", type=way, default=("", ""), help=WAYS)
    add("--as", dest="person", metavar="NAME", default="", help="a name for others; else the login's")
    _switch(add, "--adopt", "adopts", "join with another note: both become one")
    _switch(either, "--take-file", "takes_file", "if text and log differ, bring the text's changes into the log")
    _switch(either, "--keep-file", "keeps_file", "go on with the log then, and keep the text as NAME~")
    return made


def _switch(add: Callable[..., object], word: str, name: str, said: str) -> None:
    add(word, dest=name, action="store_true", help=said)


def parser() -> argparse.ArgumentParser:
    made = channel_parser(("mgr-live", "Edits a note on a terminal, by `mgr edit`, with the keys of mg(1).", EPILOG))
    made.add_argument("--fill", metavar="F", type=number_to(9999), help="the fill column of M-q")
    _switch(made.add_argument, "--no-colour", "is_plain", "show others without colours")
    _switch(made.add_argument, "--trim", "trims", "only have the stream of Redis hold few lines")
    _switch(made.add_argument, "--history", "history", "show the texts that the note had; one may be put back")
    return made


def hub_parser() -> argparse.ArgumentParser:
    said = "Keeps a note for all who write in it at the same time, and passes on what each writes. TERM ends it."
    made = _parser("mgr-hub", said)
    port = "a port of this machine, too: anybody on it may read and write the note there"
    made.add_argument("--port", metavar="P", type=number_to(65535), help=port)
    made.add_argument("--join", dest="joins", action="store_true", help="connect standard input to the hub of NAME")
    return made


def read(words: Sequence[str]) -> Options:
    """Returns what these words ask for; ends the program if they are wrong, or ask for help."""
    made = parser()
    options = made.parse_args(words)
    if options.trims and options.way[0] not in (REDIS, SECURE_REDIS):
        made.error("--trim goes with --with redis://HOST/KEY")
    return options
