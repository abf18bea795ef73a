#!/usr/bin/env python3
"""Plays random pairs and triples of live sessions that write in one note, and looks whether one note comes of it.

usage: live_pairs.py MGR [--count N] [--seed S]. A game is made from a seed: two or three `mgr edit --live`, each in a
folder of its own, are given keys, pastes, splices and `rest`, and what the others told: late, early, twice and in any
order. Some are killed: at once, as their first status comes, as their log grows, or as they have told; begun again
with the same number they get by `mgr claims` and `mgr missing` what they lack, and the others what was saved and not
told. Some find for a while no room for their files, or a closed folder. At the end each gets all, rests and ends.

What was told has to stand in the log of who told it at that moment, and from then on; each character that was typed
in a block whose second status came has to be told, and each told once there is room again; no report may be refused
but as `Busy`, `Closed`, `Range` or `Stale`; operations of others leave prompts and messages as they are; and at the
end all have the same operations and the same text, with nothing that waits or is missing: that of the changes too,
if these are told. If root calls it, nobody plays, whom modes bind. `make hostile` calls it. It prints one line,
or the games that are not as they have to be, with their folders.
"""

import argparse
import collections
import concurrent.futures
import json
import os
import pathlib
import pwd
import random
import shutil
import sys
import tempfile
import time

import plain_ends  # noqa: F401
from live_writer import LEFT, NAME, NEWLINE, REPORT, Writer, report
from notes import expect
from play.programs import Unexpected

GAMES = 1000
NOBODY, NOGROUP = "nobody", "nogroup"
# In so many rounds of claims all have to get all.
ROUNDS = 4

SIGNS = "abcdefghij klmnop qrs,.;(){}[]\"'\\<>=+-*_#@!?0123456789éßñ→漢字\U0001f600\u0301"
ENTER = b"\r"

# Keys that begin and end where keys are commands in the live buffer, and keys after which that is unsure.
MOVES = (b"\x06", b"\x02", b"\x01", b"\x05", b"\x0e", b"\x10", b"\x1bf", b"\x1bb", b"\x1b<", b"\x1b>", b"\x16", b"\x1bv")
MOVES += (b"\x00", b"\x18\x18", b"\x0c")
DELETIONS = (b"\x04", b"\x7f", b"\x0b", b"\x1bd", b"\x17", b"\x00\x06\x06\x06\x17", b"\x18h\x1bw", b"\x154\x04", b"\x7f\x7f\x7f")
YANKS = (b"\x19", b"\x0b\x19", b"\x0b\x0b\x19\x19", b"\x1bd\x19", b"\x00\x1bf\x1bw\x19")
UNDOS = (b"\x1f", b"\x18u", b"\x1f\x1f\x1f", b"\x1f\x06\x1f", b"\x1bxundo\r")
OTHERS = (b"\x14", b"\x1bu", b"\x1bl", b"\x1bc", b"\x1bq", b"\x0f", b"\x0a", b"\x182\x181", b"\x1bxno-such\r", b"\x1bxforward-char\r")
SAVES = (b"\x18\x13", b"\x1bxsave-buffer\r")
SEARCHES = (b"\x13a\r", b"\x12e\r", b"\x13ab\x07", b"\x13\x13\r", b"\x1b%a\rbb\r!", b"\x1b%e\r\ryn\r", b"\x1b%b\rq\rq")
OPEN = (b"\x1bx", b"\x1bxund", b"\x13", b"\x13a", b"\x12e", b"\x1b%", b"\x1b%a\r", b"\x1b%a\rc\r", b"\x18b", b"\x1b", b"\x18", b"\x11", b"\x15")
BUFFERS = (b"\x18\x06other\r", b"\x18\x06other\rsome\x18b\r", b"\x18\x06other\r\x18kother\r", b"\x182\x18o", b"\x182\x18\x06other\r\x18o")
BUFFERS += (b"\x18\x06other\r\x18knote\r", b"\x18\x13\x18\x06other\r\x18knote\r")
CANCEL, GO_BACK, OPEN_AGAIN = b"\x07\x07", b"\x18b" + NAME.encode() + ENTER, b"\x18\x06" + NAME.encode() + ENTER

# What is pressed, and how often of all.
KEYS = ((MOVES, 20), (DELETIONS, 14), (YANKS, 8), (UNDOS, 8), (OTHERS, 5), (SAVES, 3), (SEARCHES, 5), (OPEN, 3), (BUFFERS, 3))
UNSURE = {*OPEN, *BUFFERS}

# When a session is killed.
AT_ONCE, SHOWN, LOGGED, TOLD = "at once", "shown", "logged", "told"


class Block:
    """What a session is given at once, and which characters are sure to be typed by it in the live buffer."""

    def __init__(self, chance, writer):
        self.chance, self.writer = chance, writer
        status = writer.status
        plain = status["mode"] == "plain" and not status["begun"] and status["prompt"] is None
        self.is_plain = plain and bool(status["live"]) and status["buffer"]["name"] == NAME
        self.given, self.typed = [], collections.Counter()
        # How many reports there are with it, and the characters of those that may be refused.
        self.reports, self.doubtful = writer.reports, {}
        # Whether it has nothing but operations of others.
        self.is_of_others = True

    def add(self, keys):
        self.given.append(keys)
        self.is_of_others = False

    def type(self):
        text = "".join(self.chance.choices(SIGNS, k=self.chance.randint(1, 12)))
        keys = text.encode()
        if self.chance.random() < 0.2:
            text, keys = text + "\n", keys + ENTER
        if self.chance.random() < 0.05:
            text, keys = text + "zzz", keys + b"\x153z"
        if self.is_plain:
            self.typed.update(text)
        self.add(keys)

    def press(self):
        [keys] = self.chance.choices([kind for kind, _ in KEYS], [often for _, often in KEYS])
        keys = self.chance.choice(keys)
        self.add(keys)
        self.is_plain = self.is_plain and keys not in UNSURE

    def report(self, **members):
        self.reports += 1
        self.add(report(**members))

    def _text(self, longest):
        return "".join(self.chance.choices(SIGNS + "\n\t", k=self.chance.randint(0, longest)))

    def _pieces(self, text):
        """Yields a text in one piece or in some, with what says that more is to come."""
        while self.chance.random() < 0.3:
            at = self.chance.randint(0, len(text))
            yield text[:at], {"more": True}
            text = text[at:]
        yield text, {}

    def paste(self):
        before, text = self.reports, self._text(self.chance.choice((5, 60, 400)))
        for piece, more in self._pieces(text):
            self.report(op="paste", text=piece, **more)
        if self.is_plain:
            self.doubtful[range(before + 1, self.reports + 1)] = text

    def splice(self):
        """A splice of what the changes told; late, or beyond the text, now and then."""
        writer = self.writer
        size = len(writer.text or "")
        lo = self.chance.randint(0, size)
        span = {"base": writer.changes, "lo": lo, "hi": self.chance.randint(lo, min(size, lo + 9))}
        if self.chance.random() < 0.1:
            span["hi"] = size + self.chance.randint(1, 9)
        if self.chance.random() < 0.1:
            span["base"] = self.chance.randint(0, writer.changes + 1)
        before, text = self.reports, self._text(9)
        for piece, more in self._pieces(text):
            self.report(op="splice", text=piece, **span, **more)
        self.doubtful[range(before + 1, self.reports + 1)] = text

    def take(self, lines):
        """Operations of others."""
        for line in lines:
            self.reports += 1
            self.given.append(REPORT + line + NEWLINE)

    def show(self):
        """Another size, or places of others."""
        if self.chance.random() < 0.3:
            self.report(op="size", rows=self.chance.randint(1, 30), cols=self.chance.randint(1, 90))
            return
        known = [list(key[1:]) for key in self.writer.told] + [[0, 0], [9, 9]]
        self.report(op="places", places=self.chance.choices(known, k=self.chance.randint(0, 4)))

    def rest(self):
        self.report(op="rest")

    def within(self, more):
        """Puts these reports within the keys, wherever it is."""
        for line in more:
            at = self.chance.randrange(len(self.given) + 1)
            keys = self.given[at] if at < len(self.given) else b""
            if REPORT not in keys and keys:
                half = self.chance.randrange(len(keys))
                self.given[at : at + 1] = [keys[:half], REPORT + line + NEWLINE, keys[half:]]
            else:
                self.given.insert(at, REPORT + line + NEWLINE)
            # The numbers of those that may be refused are others then.
            self.doubtful = {}

    def pieces(self):
        """Returns what is given, now and then with a moment somewhere between."""
        given = b"".join(self.given)
        if self.chance.random() < 0.1 and len(given) > 1:
            at = self.chance.randrange(1, len(given))
            return given[:at], given[at:]
        return (given,)


class Game:
    """Sessions that write in one note, and what each told and the others did not hear."""

    def __init__(self, mgr, folder, seed):
        self.chance, self.counts = random.Random(seed), collections.Counter()
        count = self.chance.choice((2, 2, 3))
        self.writers = [Writer(mgr, folder / str(replica), replica) for replica in range(1, count + 1)]
        # For each that says and each that hears, what is under way, and what was given before.
        self.ways = {(one, other): [] for one in self.writers for other in self.writers}
        self.before = {way: [] for way in self.ways}
        if self.chance.random() < 0.2:
            (self.writers[0].folder / NAME).write_text("a text without a log\n漢")

    def play(self):
        for writer in self.writers:
            self.begin(writer)
        for _ in range(self.chance.choice((10, 25, 40))):
            self.step(self.chance.choice(self.writers))
        self.come_together()
        self.compare()

    def begin(self, writer):
        words = [word for word, often in (("--changes", 0.4), ("--runs", 0.3)) if self.chance.random() < often]
        writer.begin(*words)

    # ---- steps

    def step(self, writer):
        if self.chance.random() < 0.06:
            self.disturb(writer)
        part = self.chance.random()
        block = Block(self.chance, writer)
        if part < 0.3:
            block.take(self.lines_for(writer))
        elif part < 0.35:
            block.rest()
        elif not block.is_plain and part < (0.4 if writer.status["live"] else 0.7):
            block.add(self.way_back(writer))
        else:
            self.compose(block, writer)
        if not block.given:
            block.type()
        if self.chance.random() < 0.08:
            self.kill(writer, block)
        else:
            self.give(writer, block)
        self.hand_on(writer)

    def compose(self, block, writer):
        for _ in range(self.chance.choice((1, 1, 2, 4, 8))):
            does = (block.type, block.press, block.paste, block.splice, block.show, block.rest)
            [do] = self.chance.choices(does, (10, 10, 1, 2 if writer.text is not None else 0.2, 0.5, 0.3))
            do()
        if self.chance.random() < 0.3:
            block.within(self.lines_for(writer))

    def lines_for(self, writer):
        """Takes some of what is under way to a session, in any order, and with some that it was given before."""
        lines = []
        for way in self.ways:
            if way[1] is writer:
                wait, before = self.ways[way], self.before[way]
                taken = [wait.pop(self.chance.randrange(len(wait))) for _ in range(self.chance.randint(0, len(wait)))]
                doubled = self.chance.sample(before, min(len(before), self.chance.choice((0, 0, 1, 3))))
                before += taken
                lines += taken + doubled
        if self.chance.random() < 0.7:
            self.chance.shuffle(lines)
        return lines

    def way_back(self, writer):
        """Returns keys that lead to the live buffer, if they are commands."""
        return CANCEL + (GO_BACK if writer.status["live"] else OPEN_AGAIN)

    def give(self, writer, block):
        """Gives a block to a session, and looks at what comes of it."""
        old = writer.status
        self.send(writer, block)
        refused = self.settle(writer)
        typed = "".join(text for numbers, text in block.doubtful.items() if not refused & set(numbers))
        writer.typed.update(typed)
        writer.expect_typed_is_told(bool(typed or block.typed))
        if block.is_of_others:
            expect("what operations of others left", [old[it] for it in LEFT], [writer.status[it] for it in LEFT])

    def send(self, writer, block):
        self.counts["blocks"] += 1
        writer.typed.update(block.typed)
        writer.send(*block.pieces())

    def settle(self, writer):
        """Waits until all is answered; returns the numbers of the reports that were refused."""
        refused = set()
        while not writer.is_settled():
            refused |= {number for number, _ in writer.next_status()["refused"]}
        return refused

    def hand_on(self, writer):
        """What a session told is under way to the others, and now and then to itself."""
        lines, writer.news = writer.news, []
        for other in self.writers:
            if other is not writer or self.chance.random() < 0.1:
                self.ways[writer, other] += lines

    def disturb(self, writer):
        """The disk is full from here on, or the folder is closed, or there is room again."""
        if writer.is_limited:
            writer.lift()
            return
        self.counts["full disks"] += 1
        if self.chance.random() < 0.3:
            writer.close_folder()
        else:
            writer.limit(self.chance.choice((-100, 0, 0, 1, 30, 60, 200)))

    # ---- kills

    def kill(self, writer, block):
        """Gives a session a block, kills it meanwhile, and begins it again."""
        when = self.chance.choice((AT_ONCE, SHOWN, SHOWN, LOGGED, LOGGED, TOLD))
        size, told = writer.log_size(), len(writer.told)
        self.send(writer, block)
        if when == AT_ONCE:
            time.sleep(self.chance.choice((0, 0, 0.001, 0.003)))
        else:
            writer.next_status()
        if when == LOGGED and writer.status["more"]:
            writer.await_append(size)
        if when == TOLD:
            self.settle(writer)
        writer.kill()
        self.count_kill(size != writer.log_size(), told != len(writer.told))
        writer.lift()
        writer.expect_kept()
        if self.chance.random() < 0.5:
            # Nobody hears of what was told last.
            writer.news = []
        self.begin(writer)
        self.ask(writer)

    def count_kill(self, is_logged, is_told):
        self.counts["kills"] += 1
        self.counts["after the telling" if is_told else "between append and telling" if is_logged else "before an append"] += 1

    def ask(self, writer):
        """One that was begun again and the others get by claims what they lack."""
        for other in self.writers:
            if other is not writer:
                found = writer.missing_at(other)
                self.counts["untold"] += len(writer.own(found) - set(writer.told))
                self.ways[writer, other] += found
                self.ways[other, writer] += other.missing_at(writer)

    # ---- the end

    def come_together(self):
        """All get all, until nothing is missing anywhere."""
        for writer in self.writers:
            writer.lift()
            self.go_back(writer)
        for _ in range(ROUNDS):
            for writer in self.writers:
                self.give_all(writer)
            lacked = 0
            for way in self.ways:
                if way[0] is not way[1]:
                    missing = way[0].missing_at(way[1])
                    lacked += len(missing)
                    self.ways[way] += missing
            if not lacked:
                return
        raise Unexpected(f"{lacked} lines are missing after {ROUNDS} rounds of claims")

    def go_back(self, writer):
        """Leads a session to the live buffer, which may have been removed."""
        for _ in range(2):
            writer.send(self.way_back(writer))
            writer.settle()
        # So that each has a log: who only opened a text has none.
        writer.send(b".")
        writer.settle()
        expect(f"the buffer of {writer.replica}", NAME, writer.status["buffer"]["name"])

    def give_all(self, writer):
        lines = [line for way, wait in self.ways.items() if way[1] is writer for line in wait]
        for way in self.ways:
            if way[1] is writer:
                self.ways[way] = []
        self.chance.shuffle(lines)
        given = b"".join(REPORT + line + NEWLINE for line in lines)
        writer.send(given + report(op="rest"))
        live = writer.settle()["live"]
        expect(f"what is unsaved of {writer.replica} at rest", (0, False), (live["unsaved"], live["changed"]))
        self.hand_on(writer)

    def compare(self):
        """All have ended with one note."""
        for writer in self.writers:
            writer.end()
            self.counts += writer.counts
            writer.expect_kept()
        texts = [writer.job("show", NAME) for writer in self.writers]
        logs = [writer.logged() for writer in self.writers]
        for writer, text, log in zip(self.writers, texts, logs):
            name = writer.replica
            expect(f"the text of {name}, and not of 1,", texts[0], text)
            expect(f"operations of one of {name} and 1", [], sorted(logs[0].items() ^ log.items())[:5])
            expect(f"the file of {name}", text, (writer.folder / NAME).read_bytes())
            expect(f"what waits of {name}", 0, json.loads(writer.job("log", NAME, "--json"))["waiting"])
            if writer.text is not None:
                expect(f"the text by the changes of {name}", text.decode(), "".join(writer.text))
            self.counts["operations"] += len(log)


def keep(game, folder):
    """Keeps what the sessions were given and told, beside their files."""
    for writer in game.writers:
        writer.stop()
        for number, (words, given, told) in enumerate(writer.transcript):
            for name, pieces in (("given", given), ("told", told)):
                (folder / f"{writer.replica}.{number}.{name}").write_bytes(b"".join(pieces))


def play(mgr, root, seed):
    """Plays a game; returns what was counted, or what was not as it has to be."""
    folder = pathlib.Path(tempfile.mkdtemp(prefix=f"{seed}-", dir=root))
    game = Game(mgr, folder, seed)
    try:
        game.play()
    except Exception as fault:
        keep(game, folder)
        return f"seed {seed}: {type(fault).__name__}: {fault}; it is in {folder}"
    shutil.rmtree(folder)
    return game.counts


def become_nobody():
    """Modes bind root nowhere."""
    if os.geteuid() == 0:
        user = pwd.getpwnam(NOBODY)
        os.setgroups([])
        os.setgid(user.pw_gid)
        os.setuid(user.pw_uid)
    os.umask(0o022)


def summary(count, came):
    counts = sum(came, collections.Counter())
    parts = [f"{counts[name]:,} {name}" for name in ("blocks", "operations told", "full disks", "writings that failed", "kills")]
    kills = [f"{counts[name]} {name}" for name in ("before an append", "between append and telling", "after the telling")]
    refused = [f"{counts[name]} {name}" for name in ("Busy", "Closed", "Range", "Stale")]
    return (
        f"{count} random games of two or three live sessions: {', '.join(parts)} ({', '.join(kills)}), behind which "
        f"{counts['untold']:,} insertions that were saved and not told were found by claims; refused {', '.join(refused)}: "
        "one text of each, no conflict, nothing told that no log had, and no key lost that was told"
    )


def main():
    parser = argparse.ArgumentParser(description=__doc__, formatter_class=argparse.RawDescriptionHelpFormatter)
    parser.add_argument("mgr", metavar="MGR", help="a built mgr")
    parser.add_argument("--count", metavar="N", type=int, default=GAMES, help="how many games")
    parser.add_argument("--seed", metavar="S", type=int, default=0, help="the seed of the first one; those of the others follow")
    asked = parser.parse_args()
    root = pathlib.Path(tempfile.mkdtemp(prefix="mgr-live-pairs-"))
    root.chmod(0o777)
    # Where any user may run it.
    mgr = shutil.copy(asked.mgr, root / "mgr")
    os.chmod(mgr, 0o755)
    seeds = range(asked.seed, asked.seed + asked.count)
    with concurrent.futures.ProcessPoolExecutor(os.cpu_count(), initializer=become_nobody) as pool:
        came = list(pool.map(play, [str(mgr)] * asked.count, [root] * asked.count, seeds))
    faults = [it for it in came if isinstance(it, str)]
    for fault in faults[:20]:
        print(fault)
    if faults:
        sys.exit(f"{len(faults)} of {asked.count} games are not as they have to be")
    shutil.rmtree(root)
    print(summary(asked.count, came))


if __name__ == "__main__":
    main()
