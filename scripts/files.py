#!/usr/bin/env python3
"""Does to the files of a note what other programs do while `mgr edit` has it, and looks for each word.

The argument is a built mgr. Each scene is played in a folder of its own under build/files: the log
or the text of a note is removed, replaced, written into or put after another while it is edited; a
note is opened twice; mgr is killed; a log ends within a line; a text or a folder takes no writing.
Each word that a save said `Wrote` of, and each that another program wrote, then has to be in some
file: in a text, or in the text that `mgr show` gives of a log. What the echo line says, the
statuses, the files and their modes have to be as they should too. If root calls it, the scenes
are played once more as nobody, whom modes bind. `make files` calls it. It prints a row a scene and
user, with how many of those words are left, and ends with an error where one is not as it has to be.
"""

import collections
import multiprocessing
import os
import pathlib
import pwd
import random
import re
import shutil
import subprocess
import sys
import time

import plain_ends  # noqa: F401
from session import COLUMNS, ROWS, SAVE, SECONDS, Session, Unexpected, end_all

FOLDER = pathlib.Path(__file__).resolve().parent.parent / "build" / "files"
NOBODY, NOGROUP = "nobody", "nogroup"
FIND, KILL_BUFFER = b"\x18\x06", b"\x18k\r"
ROUNDS = 100


def log_of(word):
    """Returns the log of a replica 2 that typed a word and a newline."""
    line = '{"char":"%s","id":[%d,2],"op":"ins","parent":[%d,%d]}\n'
    return "".join(line % (char, i + 1, i, 2 if i else 0) for i, char in enumerate([*word, "\\n"])).encode()


# What other programs write, by the words for it in steps; any other word is a text. The peer's log is
# longer than those that it is written into.
PEER, TORN = log_of("boysenberries"), b'{"id":[1,1],"op":"d'
DATA = {"nothing": None, "peer": PEER, "bare": PEER[:-1], "torn": TORN}


def expect(what, wanted, seen):
    if seen != wanted:
        raise Unexpected(f"{what} is {repr(seen)[:200]}, and not {repr(wanted)[:200]}")


def words_of(mgr, path):
    """Returns the words of a text, or of the text of a log: that of its whole lines, if it is torn."""
    data = path.read_bytes()
    if ".ops" not in path.name:
        return set(re.findall(r"\w+", data.decode(errors="replace")))
    for lines in (data, data[: data.rfind(b"\n") + 1]):
        ran = subprocess.run([mgr, "show"], input=lines, capture_output=True, timeout=SECONDS)
        if ran.returncode == 0:
            return set(re.findall(r"\w+", ran.stdout.decode()))
    return set()


def words_left(mgr, folder):
    """Returns the words of all texts and logs in a folder."""
    return set().union(*(words_of(mgr, path) for path in folder.rglob("*") if path.is_file()))


def shows_frame(editor):
    """Whether a session shows its first frame; if not, it has to have been refused."""
    try:
        editor.settle()
    except Unexpected as what:
        expect(f"the status of a session that ended ({what})", 3, editor.process.returncode)
        return False
    return True


class Place:
    """A folder for a scene, its session, and the words that may not be lost. Public methods are steps."""

    def __init__(self, mgr, folder):
        self.mgr, self.folder, self.data, self.safe = mgr, folder, dict(DATA), set()

    def _begin(self, name):
        self.editor, self.name, self.typed = Session(self.mgr, self.folder, 1, name=name), name, set()
        return self.editor

    def _press(self, keys, said):
        expect("what is said", said, self.editor.press(keys))

    def _words(self, name):
        return words_of(self.mgr, self.folder / name)

    # ---- sessions

    def open(self, name="note", *said):
        expect("what is said", " ".join(said), self._begin(name).settle())

    def type(self, word):
        self._press(word.encode() + b"\r", "")
        self.typed.add(word)

    def save(self, *said):
        """Saves, which says this, or else `Wrote`: then the text has what is shown."""
        self._press(SAVE, " ".join(said) or f"Wrote {self.name}")
        if not said:
            self.safe |= self.typed
            expect("what the text lacks", set(), set(self.editor.text().split()) - self._words(self.name))

    def write(self, *words):
        for word in words:
            self.type(word)
            self.save()

    def find(self, name, *said):
        """C-x C-f. If it says nothing, the buffer is current."""
        self._press(FIND + name.encode() + b"\r", " ".join(said))
        self.name = self.name if said else name

    def remove(self):
        """C-x k RET."""
        self._press(KILL_BUFFER, "")

    def shows(self, *words):
        expect("what is shown", set(words), set(self.editor.text().split()))

    def end(self):
        self.editor.end()

    def kill(self):
        self.editor.kill()

    def edit(self, *words):
        """Writes words, each in a session of its own."""
        for word in words:
            self.open()
            self.write(word)
            self.end()

    def later(self, *words):
        """Further sessions: under each name before `shows` one shows the words after it."""
        middle = words.index("shows")
        for name in words[:middle]:
            self.open(name)
            self.shows(*words[middle + 1 :])
            self.end()

    def refuse(self, *names):
        """A second session under each name is refused."""
        for name in names:
            words = ["edit", name, "--replica", "1", "--rows", str(ROWS), "--cols", str(COLUMNS)]
            ran = subprocess.run([self.mgr, *words], cwd=self.folder, input=b"", capture_output=True, timeout=SECONDS)
            expect(f"the end for {name}", (3, "device fault"), (ran.returncode, ran.stderr.decode().strip()))

    def _race(self, name, leaver):
        """Two begin at once, and one that is there leaves meanwhile; returns those that show the note."""
        racers = [self._begin(name)]
        if leaver:
            # At some moment of the beginning of the first one.
            time.sleep(random.random() / 200)
            leaver.process.stdin.close()
        racers.append(self._begin(name))
        shown = [editor for editor in racers if shows_frame(editor)]
        if leaver:
            leaver.end()
        return shown

    def race(self, leaving=False):
        """Races for a note that is there and for a new one in turn. Who has it writes a word."""
        saved = collections.defaultdict(set)
        for number in range(ROUNDS):
            name, word = f"new{number}" if number % 2 else "note", f"w{number}"
            if leaving:
                self.open(name)
            shown = self._race(name, self.editor if leaving else None)
            if len(shown) == 2:
                said = [editor.press(word.encode() + SAVE) for editor in shown]
                raise Unexpected(f"two show {name} in round {number}, and their saves say {said}")
            if shown:
                [self.editor] = shown
                self.write(word)
                self.end()
                saved[name].add(word)
        for name, words in saved.items():
            expect(f"what the log of {name} lacks", set(), words - self._words(f"{name}.ops"))

    # ---- other programs

    def other(self, name, how, what="nothing"):
        """A file goes, loses its last byte, is written anew or made longer in place, or replaced by a rename."""
        path, data = self.folder / name, self.data.get(what, f"{what}\n".encode())
        if how == "goes":
            path.unlink()
        elif how == "loses":
            os.truncate(path, path.stat().st_size - 1)
        elif how == "becomes":
            path.with_name("beside").write_bytes(data)
            path.with_name("beside").rename(path)
        else:
            with open(path, {"is": "wb", "gets": "ab"}[how]) as file:
                file.write(data)
        self.safe |= self._words(name) if path.exists() else set()

    def link(self, name, target, hard=""):
        """A link, symbolic where nothing else is said; the target's folder is made."""
        (self.folder / target).parent.mkdir(exist_ok=True)
        if hard:
            os.link(self.folder / target, self.folder / name)
        else:
            (self.folder / name).symlink_to(target)

    def chmod(self, name, mode, *owners):
        (self.folder / name).chmod(int(mode, 8))
        if owners:
            shutil.chown(self.folder / name, *owners)

    # ---- the files

    def copy(self, name, what):
        """Gives a name to what a file has now, or to nothing."""
        path = self.folder / name
        self.data[what] = path.read_bytes() if path.exists() else None

    def has(self, name, what):
        self.copy(name, "seen")
        expect(f"what {name} has", self.data.get(what, f"{what}\n".encode()), self.data["seen"])

    def reads(self, name, *words):
        expect(f"what {name} reads", set(words), self._words(name))

    def mode(self, name, mode, *owners):
        path = self.folder / name
        expect(f"the mode of {name}", mode, f"{path.stat().st_mode & 0o7777:o}")
        if owners:
            expect(f"owner and group of {name}", owners, (path.owner(), path.group()))

    def files(self, *names):
        """These are all that there are, a symbolic link with its target."""
        seen = set()
        for path in self.folder.rglob("*"):
            target = f"->{os.readlink(path)}" if path.is_symlink() else ""
            seen.add(f"{path.relative_to(self.folder)}{target}")
        expect("what files there are", set(names), seen)


# ---- the scenes

# What is done, the steps, each a method of a place and its words, and the users who take them.
ALL, ROOT, ORDINARY = "all", "root", "ordinary"
Scene = collections.namedtuple("Scene", "name steps users", defaults=(ALL,))

THREE = "later note shows fig plum pear"
SINCE = {"loaded": "edit fig; copy note.ops older; edit plum; open",
         "saved": "edit fig; copy note.ops older; open; write plum"}
# What other programs do to a log, for which the first save is refused, or is not.
CHANGES = {"removed": "goes", "replaced by an older one": "becomes older", "made an older one in place": "is older",
           "made a longer one of a peer": "is peer", "given a peer's without its last newline": "gets bare"}
REFUSED = "copy note.ops changed; type pear; save File fault; has note.ops changed; save; end; has note.ops~ changed"
TAKEN = "other note.ops gets peer; write pear; end; has note.ops~ nothing"

NAMES = "./note HERE/note alias/note"
LINKED = f"{NAMES} link hard"
LINKS = "link alias .; link link note; link hard note hard"
NOT_FOUND = "; ".join(f"find {name} File fault" for name in NAMES.split())
LINKED_NOT_FOUND = f"{NOT_FOUND}; find link File fault; find hard File fault"

# A text that others change twice, in place and by a rename.
WAYS = {"in place, by rename": ("is", "becomes"), "by rename, in place": ("becomes", "is")}
LIVE = "open; other note {} quince; write plum; has note~ quince; other note {} medlar; write pear; end"
APART = "other note {} quince; edit plum; has note~ quince; other note {} medlar; edit pear"
CHANGED = {"since loaded and put": f"edit fig; {LIVE}", "the same, no log at first": f"other note is fig; {LIVE}",
           "between sessions": f"edit fig; {APART}"}
COPIES = f"has note.~1~ medlar; files note note.ops note~ note.~1~; {THREE}"

TORN_OPEN = f"open note Torn log: {len(TORN)} bytes left out; write plum; end"
KEPT = "has note.ops~ old; mode note.ops 640; later note shows fig plum"
PARTS = "other note.ops.new is torn; other note.ops.text is torn"
UNPUT = "chmod note 444; open; type plum; save File fault; save File fault; end; reads note fig; mode note 444"
BOTH = "reads note.ops fig plum; later note shows fig plum"
MODES = "edit fig; mode note {0}; mode note.ops {1}; edit plum; mode note {0}; mode note.ops {1}"

SCENES = [
    *[Scene(f"log, since {when}: {name}", f"{begin}; other note.ops {how}; {REFUSED}; {THREE}")
      for name, how in CHANGES.items() for when, begin in SINCE.items()],
    *[Scene(f"log, since {when}: given a peer's", f"{begin}; {TAKEN}; {THREE} boysenberries")
      for when, begin in SINCE.items()],
    Scene("open twice: a note that is there",
          f"edit fig; {LINKS}; open; refuse note {LINKED}; {LINKED_NOT_FOUND}; end; "
          f"files alias->. link->note hard note note.ops; later note {LINKED} shows fig; edit plum"),
    Scene("open twice: a new note",
          f"link alias .; open; refuse note {NAMES}; {NOT_FOUND}; end; later note {NAMES} shows; files alias->."),
    Scene("open twice: a new note, then saved",
          f"open; write fig; {LINKS}; refuse note {LINKED}; {LINKED_NOT_FOUND}; write plum; end; "
          f"later note {NAMES} link shows fig plum"),
    Scene("a text of mode 444, and its log", f"edit fig; {UNPUT}; {BOTH}", ORDINARY),
    Scene("a text of mode 444 without a log", f"other note is fig; {UNPUT}; mode note.ops 644; {BOTH}", ORDINARY),
    Scene("a text of mode 444, and its log",
          f"edit fig; chmod note 444; edit plum; reads note fig plum; mode note 444; {BOTH}", ROOT),
    *[Scene(f"text, {when}: {order}", f"{steps.format(*ways)}; {COPIES}")
      for when, steps in CHANGED.items() for order, ways in WAYS.items()],
    Scene("nobody else writes: from no files", f"edit fig plum pear; files note note.ops; {THREE}"),
    Scene("nobody else writes: from a text",
          f"other note is date; edit fig plum pear; files note note.ops; {THREE} date"),
    Scene("modes: no files", MODES.format("644", "600")),
    *[Scene(f"modes: a text of {text}", f"other note is date; chmod note {text}; {MODES.format(text, log)}")
      for text, log in (("600", "600"), ("640", "640"), ("755", "644"))],
    Scene("a text of nobody's, saved by root",
          f"edit fig; chmod note 640 {NOBODY} {NOGROUP}; edit plum; mode note 640 {NOBODY} {NOGROUP}", ROOT),
    Scene("a log that is torn",
          f"edit fig; other note.ops gets torn; chmod note.ops 640; copy note.ops old; {TORN_OPEN}; {KEPT}"),
    Scene("a log without its last newline",
          f"edit fig; other note.ops loses; chmod note.ops 640; copy note.ops old; edit plum; {KEPT}"),
    Scene("killed before a save and behind one: a note",
          "edit fig; open; type lost; kill; open; shows fig; write plum; type lost; kill; "
          f"open; shows fig plum; write pear; end; {THREE}"),
    Scene("killed before a save and behind one: a new note",
          "open; type lost; kill; open; shows; write plum; type lost; kill; "
          "open; shows plum; write pear; end; later note shows plum pear"),
    Scene("parts left over: a note", f"edit fig; other note.ops gets torn; {PARTS}; {TORN_OPEN}; {BOTH}"),
    Scene("parts left over: a new note", f"{PARTS}; edit plum; later note shows plum"),
    Scene(f"two begin at once, {ROUNDS} times", "edit fig; race"),
    Scene(f"two begin at once while another leaves, {ROUNDS} times", "edit fig; race leaving"),
    Scene("a folder of mode 555: a text without a log",
          "other note is fig; chmod . 555; later note shows fig; open; type plum; save File fault; end; "
          "files note; reads note fig", ORDINARY),
    Scene("a folder of mode 555: a text and its log",
          f"edit fig; chmod . 555; edit plum; files note note.ops; {BOTH}", ORDINARY),
    Scene("a text behind a symbolic link",
          "link note there/text; other note is fig; edit plum pear; reads there/text fig plum pear; "
          f"files note->there/text note.ops there there/text; {THREE}"),
    Scene("a buffer that is removed, and found again",
          "edit fig; open; find other; write plum; remove; refuse other; find ./other File fault; find other; "
          "shows plum; write pear; end; later other shows plum pear"),
]


def play(mgr, folder, scene):
    """Plays a scene; returns what was wrong, and the words that are left and that are lost."""
    place, faults, step = Place(mgr, folder), [], ""
    folder.mkdir()
    try:
        for step in scene.steps.split("; "):
            verb, *words = step.split()
            getattr(place, verb)(*(word.replace("HERE", str(folder)) for word in words))
        step = "at the end"
        parts = {path.name for path in folder.iterdir() if path.name.endswith((".ops.new", ".ops.text"))}
        expect("what is left over", set(), parts)
    except (Unexpected, OSError, subprocess.SubprocessError) as what:
        faults.append(f"{step}: {what}")
    finally:
        end_all()
        folder.chmod(0o755)
    left = place.safe & words_left(mgr, folder)
    return faults, left, place.safe - left


def play_all(mgr, folder):
    """Plays all scenes as the user who runs this; returns how many were not as they have to be."""
    user, bad = pwd.getpwuid(os.geteuid()).pw_name, 0
    scenes = [scene for scene in SCENES if scene.users in (ALL, ORDINARY if os.geteuid() else ROOT)]
    for number, scene in enumerate(scenes, 1):
        faults, left, lost = play(mgr, folder / str(number), scene)
        faults += [f"{word} is lost" for word in sorted(lost)]
        words = f"{len(left)} of {len(left | lost)}"
        print(f"{scene.name:<58} {user:<8} {words:<11} {'; '.join(faults) or 'well'}", flush=True)
        bad += bool(faults)
    return bad


def play_as_nobody(mgr, folder):
    """Plays all scenes as that user, in a process that then ends with how many were wrong."""
    user = pwd.getpwnam(NOBODY)
    os.setgroups([])
    os.setgid(user.pw_gid)
    os.setuid(user.pw_uid)
    sys.exit(play_all(mgr, folder))


def main():
    if len(sys.argv) != 2:
        sys.exit("usage: files.py MGR")
    os.umask(0o022)
    shutil.rmtree(FOLDER, ignore_errors=True)
    for folder in ("own", NOBODY):
        (FOLDER / folder).mkdir(parents=True)
    # Where any user may run it.
    mgr = shutil.copy(sys.argv[1], FOLDER / "mgr")
    os.chmod(mgr, 0o755)
    print(f"{'what is done':<58} {'by':<8} {'words left':<11}")
    bad = play_all(mgr, FOLDER / "own")
    if os.geteuid() == 0:
        shutil.chown(FOLDER / NOBODY, NOBODY, NOGROUP)
        child = multiprocessing.get_context("fork").Process(target=play_as_nobody, args=(mgr, FOLDER / NOBODY))
        child.start()
        child.join()
        bad += abs(child.exitcode)
    if bad:
        sys.exit(f"{bad} are not as they have to be")
    print("No word was lost, and all was as it has to be.")


if __name__ == "__main__":
    main()
