#!/usr/bin/env python3
"""Damages random logs and mends them, and looks whether each good line stays and each other byte is kept.

usage: mended_logs.py MGR [LOGS]. Each log is made from a seed, of single lines and runs in any order and spelling,
and then damaged: cut at any byte, also with another log after the cut; bytes flipped; identifiers doubled, with
another character or parent, alone and in runs; lines of no operation; newlines lost. What a line is, this program
judges by itself, by docs/lines.md. After `mgr mend` the log has to be, byte for byte, the lines that are
operations, of each identifier one insertion, and of a run that has another one its other operations; all else has
to stand after what stood in note.ops.refused; the old log has to be note.ops~; and the text has to be that of the
log. What stood under these names may not be lost, nor a text that mgr put before the damage, and modes stay. A
second mend, and one of a log in order, leaves the log as it is. Then the same lines in another order, and with
those compacted that can be, are mended to the same note: each takes the other's log, and has nothing new. Logs of
more than 1,000,000 identifiers are mended too: of these each line stays that a note has room for. `make hostile`
calls it. It ends with an error where one is not so.
"""

import collections
import functools
import json
import os
import pathlib
import random
import subprocess
import sys
import tempfile
from concurrent.futures import ThreadPoolExecutor

import compactions
import plain_ends
from compactions import GREATEST, MOST, SIGNS, deletion, insertion
from notes import expect
from play.programs import Unexpected

LOGS = 720
LARGE = 2
ROOM = 1000000
SECONDS = 60
LONGEST, DEEPEST = 65536, 127
UNTOUCHED = b"nothing to mend\n"

# ---- what a line is

MEMBERS = {
    "ins": {"char", "id", "op", "parent"},
    "del": {"id", "op"},
    "run": {"id", "op", "parent", "text"},
    "dels": {"count", "id", "op"},
}

# One operation: its identifier, the element that it inserts, if it does, and its line as it is written.
Operation = collections.namedtuple("Operation", "known inserted line")


class NoOperation(Exception):
    """A line is none."""


def require(holds):
    if not holds:
        raise NoOperation


def no_constant(word):
    raise NoOperation


def whole(digits):
    """Returns a whole number; -0 is none."""
    return float(digits) if digits.startswith("-") else int(digits)


def fraction(digits):
    """Returns what is no whole number; it may not be too large for one of 64 bits."""
    number = float(digits)
    require(abs(number) != float("inf"))
    return number


def depth(value):
    """Returns how many arrays and objects lie in one another."""
    inner = value.values() if isinstance(value, dict) else value if isinstance(value, list) else None
    return 0 if inner is None else 1 + max(map(depth, inner), default=0)


def pairs(members):
    """Returns the members of an object, of each name the last; the others have to be values too."""
    require(all(depth(value) < DEEPEST for _, value in members))
    return dict(members)


READER = json.JSONDecoder(
    parse_int=whole, parse_float=fraction, parse_constant=no_constant, object_pairs_hook=pairs, strict=True
)


def characters(text):
    """Returns the characters of a text, which has to be one, without halves of pairs."""
    require(type(text) is str and not any("\ud800" <= sign <= "\udfff" for sign in text))
    return text


def identifier(value, root=False):
    require(type(value) is list and len(value) == 2 and all(type(it) is int for it in value))
    require(root and value == [0, 0] or 1 <= value[0] <= GREATEST and 1 <= value[1] <= 65535)
    return tuple(value)


def elements(first, count):
    """Returns so many identifiers, of rising counters."""
    require(1 <= count <= MOST and first[0] + count - 1 <= GREATEST)
    return [(first[0] + number, first[1]) for number in range(count)]


def inserted(value, signs):
    """Returns the insertions of these characters, each after the one before."""
    parent = identifier(value["parent"], root=True)
    own = elements(identifier(value["id"]), len(signs))
    require(own[0][0] > parent[0])
    behind = [parent, *own]
    return [Operation(it, it, insertion(it, at, sign).encode()) for it, at, sign in zip(own, behind, signs)]


def deleted(value, count):
    require(type(count) is int)
    return [Operation(it, None, deletion(it).encode()) for it in elements(identifier(value["id"]), count)]


def operations_of(value):
    """Returns the operations of an object."""
    require(type(value) is dict and type(value.get("op")) is str and set(value) == MEMBERS.get(value["op"]))
    match value["op"]:
        case "ins":
            require(len(characters(value["char"])) == 1)
            return inserted(value, value["char"])
        case "run":
            return inserted(value, characters(value["text"]))
        case "del":
            return deleted(value, 1)
        case "dels":
            return deleted(value, value["count"])


@functools.lru_cache(4096)
def operations(line):
    """Returns the operations of a line; none if it is no operation."""
    try:
        require(len(line) <= LONGEST)
        return operations_of(READER.decode(line.decode()))
    except (NoOperation, ValueError, RecursionError):
        return []


# ---- what a mend makes of a log


class Mended:
    """The log that stays, and what is left out, in order."""

    def __init__(self, log):
        *lines, rest = log.split(b"\n")
        # What stands after the last newline is taken as a line is, if it is an operation.
        read = [(part, operations(part.removesuffix(b"\n"))) for part in [*(line + b"\n" for line in lines), rest]]
        self.stay = {}
        for _, inserted, line in (it for _, own in read for it in own):
            if inserted:
                self.stay[inserted] = min(line, self.stay.get(inserted, line))
        self.log, self.refused = b"", b""
        for part, own in read:
            self._take(part, own)
        self._fit()

    def _take(self, part, own):
        kept = [it.line for it in own if it.line == self.stay.get(it.inserted, it.line)]
        if own and len(kept) == len(own):
            self.log += part
        else:
            self.refused += part
            self.log += b"".join(kept)

    def _fit(self):
        """Leaves out each line for which there is no room, and ends the last one that stays."""
        known, stay, excess = set(), b"", b""
        for line in filter(None, self.log.split(b"\n")):
            new = {it.known for it in operations(line)} - known
            if len(known) + len(new) <= ROOM:
                known |= new
                stay += line + b"\n"
            else:
                excess += line + b"\n"
        if self.refused or excess:
            self.log, self.refused = stay, excess + self.refused

    def all_operations(self):
        return {it.line for line in self.log.splitlines() for it in operations(line)}


# ---- damaged logs

# The members of lines that are no operations, or hardly.
ODD = [
    *(b"", b"x", b"{}", b"[]", b"null", b"\xff\xfe", b"\xef\xbb\xbf" + b'{"id":[1,1],"op":"del"}'),
    *(b'{"op":"head","version":2}', b'{"count":0,"op":"end"}', b'{"block":[1,0],"del":[0,0],"ins":[0,1]}'),
    *(b'{"id":[1,1],"op":"del"} x', b'{"id":[1.0,1],"op":"del"}', b'{"id":[1e0,1],"op":"del"}', b'{"id":[-0,1],"op":"del"}'),
    *(b'{"id":[01,1],"op":"del"}', b'{"id":[0,1],"op":"del"}', b'{"id":[1,65536],"op":"del"}', b'{"id":[1,1,1],"op":"del"}'),
    *(b'{"id":[9007199254740992,1],"op":"del"}', b'{"id":[NaN,1],"op":"del"}', b'{"id":[true,1],"op":"del"}'),
    *(b'{"id":[1,1],"op":"del","x":1}', b'{"id":[1,1],"op":"dels"}', b'{"count":0,"id":[1,1],"op":"dels"}'),
    *(b'{"count":4097,"id":[1,1],"op":"dels"}', b'{"count":2,"id":[9007199254740991,1],"op":"dels"}'),
    *(b'{"char":"","id":[1,1],"op":"ins","parent":[0,0]}', b'{"char":"ab","id":[1,1],"op":"ins","parent":[0,0]}'),
    *(b'{"char":"\\ud800","id":[1,1],"op":"ins","parent":[0,0]}', b'{"char":"\t","id":[1,1],"op":"ins","parent":[0,0]}'),
    *(b'{"char":"a","id":[1,1],"op":"ins","parent":[1,2]}', b'{"char":"a","id":[1,1],"op":"ins","parent":[0,1]}'),
    *(b'{"id":[1,1],"op":"run","parent":[0,0],"text":""}', b'{"id":[1,1],"op":"run","parent":[0,0],"text":"%s"}' % (b"a" * 4097)),
    *(b'{"id":[1,1],"id":[2,1],"op":"ins","op":"del"}', b'{"id":1e400,"id":[2,1],"op":"del"}'),
    *(b'{"id":%s,"id":[2,1],"op":"del"}' % (b"[" * deep + b"]" * deep) for deep in (DEEPEST - 1, DEEPEST)),
    *(b'{"id":[1,1],"op":"del"}'.ljust(length) for length in (LONGEST, LONGEST + 1)),
]


class Damage:
    """A log as its lines, without their newlines, and what stands after the last one."""

    def __init__(self, seed):
        self.random = random.Random(seed)
        self.notes = compactions.Notes(seed)
        self.lines = [line[:-1].encode() for line in self.notes.lines]
        self.rest = b""
        for _ in range(self.random.randrange(5)):
            self.random.choice((self.cut, self.flip, self.double, self.double, self.odd, self.join, self.spell))()

    def log(self):
        return b"".join(line + b"\n" for line in self.lines) + self.rest

    def put(self, log):
        *self.lines, self.rest = log.split(b"\n")

    def place(self):
        return self.random.randrange(len(self.lines) + 1)

    def cut(self):
        """Leaves a beginning, and appends, now and then, lines of the log to the torn line."""
        log = self.log()
        behind = b"".join(line + b"\n" for line in self.lines[self.place() :]) if self.random.random() < 0.5 else b""
        self.put(log[: self.random.randrange(len(log) + 1)] + behind)

    def flip(self):
        log = bytearray(self.log())
        for _ in range(self.random.choice((1, 1, 2, 9)) if log else 0):
            log[self.random.randrange(len(log))] ^= 1 << self.random.randrange(8)
        self.put(bytes(log))

    def double(self):
        """Puts insertions of elements that are there, with other characters or parents."""
        if not self.notes.inserted:
            return
        counter, replica = self.random.choice(sorted(self.notes.inserted))
        first = max(1, counter - self.random.randrange(4)), replica
        above = [it for it in self.notes.inserted if it[0] < first[0]]
        parent = self.random.choice([(0, 0), *sorted(above)])
        length = self.random.choice((1, 1, 2, 5, 40))
        length = min(length, GREATEST + 1 - first[0])
        row = [(parent, self.random.choice(SIGNS))]
        row += [(None, self.random.choice(SIGNS)) for _ in range(length - 1)]
        self.lines.insert(self.place(), compactions.run(row, first)[:-1].encode())

    def odd(self):
        self.lines.insert(self.place(), self.random.choice(ODD))

    def join(self):
        """Loses a newline."""
        if len(self.lines) > 1:
            at = self.random.randrange(len(self.lines) - 1)
            self.lines[at : at + 2] = [self.lines[at] + self.lines[at + 1]]

    def spell(self):
        """Writes a line in another spelling, which is the same operation."""
        at = self.random.randrange(len(self.lines)) if self.lines else None
        if at is not None and operations(self.lines[at]):
            members = list(READER.decode(self.lines[at].decode()).items())
            self.random.shuffle(members)
            blanks = (" , ", "\t: "), (",", ":"), (", ", ": ")
            said = json.dumps(dict(members), separators=self.random.choice(blanks), ensure_ascii=self.random.random() < 0.7)
            self.lines[at] = said.encode() + self.random.choice((b"", b" ", b"\r"))

    def in_another_order(self):
        """Returns the log with its lines in another order."""
        lines = [*self.lines]
        if operations(self.rest):
            lines.append(self.rest)
        self.random.shuffle(lines)
        return b"".join(line + b"\n" for line in lines) + (b"" if operations(self.rest) else self.rest)

    def parted(self):
        """Returns lines that are operations and agree, and the others."""
        agree, others, known = [], [], {}
        for line in self.lines:
            own = operations(line)
            new = {it.inserted: it.line for it in own if it.inserted}
            if own and all(known.get(element, said) == said for element, said in new.items()):
                known |= new
                agree.append(line)
            else:
                others.append(line)
        return agree, others


# ---- what mgr makes of them


class Note:
    """A note in a folder of its own, under mend."""

    def __init__(self, mgr, folder, log, files=(), mode=0o600):
        self.mgr, self.folder, self.mode = mgr, folder, mode
        folder.mkdir()
        self.put("note.ops", log)
        for name, data in dict(files).items():
            self.put(name, data)

    def put(self, name, data):
        path = self.folder / name
        path.write_bytes(data)
        path.chmod(self.mode)

    def spoil(self, log):
        """Puts another log in the place of its lines.

        If that is refused it leaves its date, by which mgr knows the text as its own: what is mended has
        another date. One that is in order mgr takes for its own by its date, and then keeps no older text.
        """
        path = self.folder / "note.ops"
        dates = path.stat()
        path.write_bytes(log)
        if Mended(log).refused:
            os.utime(path, ns=(dates.st_atime_ns, dates.st_mtime_ns))

    def run(self, *words, given=b""):
        """Returns what a job writes, which has to be done."""
        done = subprocess.run([self.mgr, *words], cwd=self.folder, input=given, capture_output=True, timeout=SECONDS)
        expect(f"the status of {' '.join(words)}, which says {done.stderr},", 0, done.returncode)
        return done.stdout

    def files(self):
        return {path.name: path.read_bytes() for path in self.folder.iterdir()}

    def states(self):
        """Returns the mode, the number and the time of each file but the text."""
        found = {path.name: path.stat() for path in self.folder.iterdir() if path.name not in ("note", "note~")}
        return {name: (oct(it.st_mode), it.st_ino, it.st_mtime_ns) for name, it in found.items()}

    def mend(self):
        """Mends the log, and once more, and returns what that has to have made of it."""
        before = self.files()
        wanted = Mended(before["note.ops"])
        self._mend_once(before, wanted)
        expect("the modes", {oct(0o100000 | self.mode)}, {mode for mode, _, _ in self.states().values()})
        self._mend_once(self.files(), Mended(wanted.log))
        return wanted

    def _mend_once(self, before, wanted):
        states = self.states()
        said = self.run("mend", "note")
        expect("that a mend has nothing to do", not wanted.refused, said == UNTOUCHED)
        after, files = self._after(before, wanted), self.files()
        for name in sorted(after.keys() | files.keys()):
            expect(name, after.get(name), files.get(name))
        if not wanted.refused:
            expect("what a log in order is", states, self.states())

    def _after(self, files, wanted):
        """Returns the files after a mend: what stood under their names is kept."""
        after, text = dict(files), self.run("show", given=wanted.log)
        if wanted.refused:
            after["note.ops.~1~" if "note.ops~" in files else "note.ops~"] = files["note.ops"]
            refused = files.get("note.ops.refused", b"")
            # It begins on a line of its own.
            newline = b"" if refused.endswith(b"\n") or not refused else b"\n"
            after |= {"note.ops": wanted.log, "note.ops.refused": refused + newline + wanted.refused}
        if files.get("note", text) != text:
            after["note~"] = files["note"]
        return after | {"note": text}

    def takes(self, other):
        """A merge has nothing new, and both show the same."""
        expect("what a merge says", b"0 new operations\n", self.run("merge", "note", str(other.folder / "note.ops"), "--adopt"))
        expect("the text of the other", self.run("show", "note"), other.run("show", "note"))


def first_files(damage):
    """Returns files that a note has before it is mended, besides its log."""
    refused = damage.random.choice((b"a line of before\n", b"a line that was cut"))
    files = {"note": b"words of another program", "note.ops~": b"an old log", "note.ops.refused": refused}
    return {name: data for name, data in files.items() if damage.random.random() < 0.2}


def damaged_note(mgr, folder, damage):
    """Returns a note with the log; its text may be what mgr put of the log before it was damaged."""
    mode = damage.random.choice((0o600, 0o640, 0o644))
    if damage.random.random() < 0.5:
        return Note(mgr, folder, damage.log(), first_files(damage), mode)
    note = Note(mgr, folder, "".join(damage.notes.lines).encode(), mode=mode)
    note.run("mend", "note")
    note.spoil(damage.log())
    return note


def with_compacted(mgr, folder, damage):
    """Returns a note in which the lines that agree are compacted."""
    agree, others = damage.parted()
    note = Note(mgr, folder, b"".join(line + b"\n" for line in agree))
    note.run("compact", "note", *(["--dels"] if damage.random.random() < 0.5 else []))
    log = (folder / "note.ops").read_bytes() + b"".join(line + b"\n" for line in others) + damage.rest
    for path in folder.iterdir():
        path.unlink()
    note.put("note.ops", log)
    return note


def play(mgr, seed):
    """Returns how many lines were good, and how many bytes were left out."""
    damage = Damage(seed)
    with tempfile.TemporaryDirectory() as name:
        folder = pathlib.Path(name)
        notes = [
            damaged_note(mgr, folder / "one", damage),
            Note(mgr, folder / "two", damage.in_another_order()),
            with_compacted(mgr, folder / "three", damage),
        ]
        wanted = [note.mend() for note in notes]
        for note, other in zip(notes, notes[1:] + notes[:1]):
            note.takes(other)
    for it in wanted[1:]:
        expect("what stays of the same lines", wanted[0].all_operations(), it.all_operations())
    return wanted[0].log.count(b"\n"), len(wanted[0].refused)


def large_log(seed):
    """Returns a log for which there is hardly room: runs, deletions, lines that are known, and perhaps no operation."""
    chance, lines, count = random.Random(seed), [], 0
    most = ROOM + (1, 20000)[seed % 2]
    while count < most:
        length = min(chance.choice((1, 7, 500, MOST, MOST)), most - count)
        row = [((0, 0), "a"), *[(None, "b")] * (length - 1)]
        chosen = chance.choice((compactions.run(row, (count + 1, 1)), compactions.deletions((count + 1, 1), length)))
        lines.append(chosen.encode())
        count += length
    others = [deletion((at, 2)).encode() for at in range(1, chance.choice((2, 900)))]
    others += [insertion((at, 3), (0, 0), "c").encode() for at in range(1, 4)] + chance.sample(lines, 3)
    for line in others + [b"x\n"] * chance.randrange(2):
        lines.insert(chance.randrange(len(lines) // 2, len(lines) + 1), line)
    return b"".join(lines).removesuffix(chance.choice((b"", b"\n")))


def play_large(mgr, seed):
    """The same of a log of more identifiers than a note has room for."""
    with tempfile.TemporaryDirectory() as name:
        wanted = Note(mgr, pathlib.Path(name) / "one", large_log(seed)).mend()
    return wanted.log.count(b"\n"), len(wanted.refused)


def tried(mgr, seed, logs):
    try:
        return play(mgr, seed) if seed < logs else play_large(mgr, seed)
    except (Unexpected, OSError, subprocess.SubprocessError) as fault:
        raise Unexpected(f"log {seed}: {fault}") from fault


def main(mgr, logs=LOGS):
    mgr = str(pathlib.Path(mgr).resolve())
    with ThreadPoolExecutor(os.cpu_count()) as pool:
        try:
            counts = list(pool.map(lambda seed: tried(mgr, seed, int(logs)), range(int(logs) + LARGE)))
        except Unexpected as fault:
            sys.exit(str(fault))
    damaged = sum(bool(refused) for _, refused in counts)
    print(
        f"{len(counts)} random logs, {damaged} of them damaged, were mended: "
        f"{sum(good for good, _ in counts)} lines stay, and {sum(refused for _, refused in counts)} bytes are kept apart"
    )


if __name__ == "__main__":
    main(plain_ends.named_mgr(), *sys.argv[2:])
