#!/usr/bin/env python3
"""Shares a note in the ways that need no exchange: by git, by a sync tool, from one plain text.

The argument is a built mgr. Alice is replica 1 and Bob replica 2. Each step is said, with the text
that came out; the first one that shows something else ends the script. Further words name the parts
that are tried; without them all are. Clones are set up by the lines of examples/git/README. `make
try-sharing` calls it, and no test waits for it: it needs git.
"""

import os
import pathlib
import re
import shutil
import subprocess
import sys

import plain_ends  # noqa: F401

ROOT = pathlib.Path(__file__).resolve().parent.parent
FOLDER = ROOT / "build" / "try-sharing"
EXAMPLE = ROOT / "examples" / "git"
ALICE, BOB, IDEA, STASH, IMPORT = 1, 2, 3, 4, 999

SAVE = "\x18\x13"
END, WORD, UPPER, KILL, YANK, DELETE = "\x1b>", "\x1bf", "\x1bu", "\x0b", "\x19", "\x04"

# Nothing of what this person has set up for git is to change what is seen. The driver and the hook
# of the page call the mgr that is tried.
ENVIRONMENT = {
    **os.environ,
    "GIT_CONFIG_GLOBAL": os.devnull,
    "GIT_CONFIG_NOSYSTEM": "1",
    "HERE": str(EXAMPLE),
    "LC_ALL": "C.UTF-8",
    "PATH": f"{FOLDER / 'bin'}:{os.environ['PATH']}",
}
IN_REPOSITORY, IN_CLONE, WAYS_OUT = re.findall(r"(?:^ {4}.*\n)+", (EXAMPLE / "README").read_text(), re.M)


def fail(what, wanted, seen):
    sys.exit(f"NOT AS IT SHOULD BE: {what}\nwanted: {wanted!r}\nseen:   {seen!r}")


def expect(what, wanted, seen):
    """What is seen has to be what is wanted; says it."""
    if seen != wanted:
        fail(what, wanted, seen)
    print(f"    {what}: {seen!r}")


def run(folder, *words, given="", status=0):
    """Runs a program in a folder; returns what it writes, and what it says."""
    done = subprocess.run(words, cwd=folder, env=ENVIRONMENT, input=given.encode(), capture_output=True)
    written, said = done.stdout.decode(), done.stderr.decode()
    if done.returncode != status:
        fail(" ".join(words), f"status {status}", f"{done.returncode}: {written}{said}")
    return written, said


def mgr(folder, *words, **how):
    return run(folder, "mgr", *words, **how)[0]


def git(clone, *words, **how):
    return "".join(run(clone, "git", *words, **how))


def log_of(note):
    return note.with_name(note.name + ".ops")


def text_of(note):
    """Returns the text of a note, which its log has to make too."""
    text, made = note.read_text(), mgr(note.parent, "show", note.name)
    if text != made:
        fail(f"the text of {note}", made, text)
    return text


def press(note, replica, keys):
    """Edits a note, and saves it; returns its text."""
    size = ["--rows", "9", "--cols", "60"]
    frame = mgr(note.parent, "edit", note.name, "--replica", str(replica), *size, given=keys + SAVE)
    echo = frame.rstrip("\n").rsplit("\n", 1)[-1]
    if echo != f"Wrote {note.name}":
        fail(f"a save of {note}", f"Wrote {note.name}", echo)
    return text_of(note)


def joined(*notes, status=0):
    """Returns the text of the logs of notes together, or why they are refused."""
    written, said = run(FOLDER, "mgr", "join", *map(str, map(log_of, notes)), status=status)
    return said if status else mgr(FOLDER, "show", given=written)


def kept(*folders):
    return [path.name for folder in folders for path in folder.iterdir() if path.name.endswith(("~", ".refused"))]


def folder_of(*names):
    folder = FOLDER.joinpath(*names)
    folder.mkdir(parents=True)
    return folder


# Each part about git has a folder of its own, with what is shared, and Alice's and Bob's clone.


def clone(folder, name, setup):
    git(folder, "clone", "-q", "shared.git", name)
    for key, value in (("name", name), ("email", f"{name}@example.org")):
        git(folder / name, "config", f"user.{key}", value)
    run(folder / name, "sh", "-e", "-c", setup)
    return folder / name


def two_clones(part, setup=IN_CLONE):
    """Alice writes a note, and Bob gets it; returns the two clones."""
    folder = folder_of(part)
    git(folder, "init", "-q", "--bare", "--initial-branch=main", "shared.git")
    alice = clone(folder, "alice", setup)
    run(alice, "sh", "-e", "-c", IN_REPOSITORY)
    press(alice / "note", ALICE, "Buy milk\r")
    commit(alice)
    push(alice)
    bob = clone(folder, "bob", setup)
    mgr(bob, "merge", "note")
    return alice, bob


def remade(clone):
    """Has the hook make the text of the note, as by hand; returns it."""
    run(clone, ".git/hooks/post-merge")
    return text_of(clone / "note")


def commit(clone):
    git(clone, "add", "-A")
    git(clone, "commit", "-q", "-m", "An edit")


def push(clone):
    git(clone, "push", "-q", "origin", "HEAD")


def pull(clone, how="--no-rebase", **seen):
    return git(clone, "pull", "-q", "--no-edit", how, **seen)


def both_write(alice, bob, torn=""):
    """Alice writes in front, and shares it, and Bob at the end; the log of one may be committed torn."""
    press(alice / "note", ALICE, "Alice ")
    press(bob / "note", BOB, f"{END}Bob\r")
    for each in (alice, bob):
        if each.name == torn:
            log_of(each / "note").write_bytes(log_of(each / "note").read_bytes()[:-20])
        commit(each)
    push(alice)


def by_git():
    """two clones, by merges and by rebases"""
    alice, bob = two_clones("by-git")
    expect("what git has", [".gitattributes", ".gitignore", "note.ops"], git(bob, "ls-files").split())
    expect("Bob's text", "Buy milk\n", text_of(bob / "note"))
    for number, (one, other) in enumerate([(alice, bob), (bob, alice)] * 2):
        for _ in range(2):
            press(alice / "note", ALICE, f"{number}")
            press(bob / "note", BOB, f"{END}{number}\r")
            commit(alice)
            commit(bob)
        push(other)
        pull(one, "--rebase" if number < 2 else "--no-rebase")
        push(one)
        pull(other)
        if text_of(alice / "note") != text_of(bob / "note"):
            fail("both texts", text_of(alice / "note"), text_of(bob / "note"))
    expect("both texts", "33221100Buy milk\n0\n0\n1\n1\n2\n2\n3\n3\n", text_of(alice / "note"))
    expect("kept beside them", [], kept(alice, bob))
    expect("not committed", "", git(alice, "status", "--porcelain"))


def branches():
    """a branch, an older commit and a stash, each under a number of its own"""
    alice, _ = two_clones("branches")
    note = alice / "note"
    git(alice, "checkout", "-q", "-b", "idea")
    press(note, IDEA, "idea ")
    commit(alice)
    git(alice, "checkout", "-q", "main")
    expect("on main", "Buy milk\n", text_of(note))
    press(note, ALICE, "main ")
    commit(alice)
    git(alice, "merge", "-q", "--no-edit", "idea")
    expect("both branches", "idea main Buy milk\n", text_of(note))
    git(alice, "checkout", "-q", "HEAD^^")
    expect("an older commit", "Buy milk\n", text_of(note))
    git(alice, "checkout", "-q", "main")
    expect("main again", "idea main Buy milk\n", text_of(note))
    press(note, STASH, "stash ")
    git(alice, "stash", "-q")
    expect("after a stash the hook is run by hand", "idea main Buy milk\n", remade(alice))
    press(note, ALICE, "more ")
    commit(alice)
    git(alice, "stash", "pop", "-q")
    expect("so it is where that comes back", "stash more idea main Buy milk\n", remade(alice))


def changed_text():
    """a text that another program changed before the merge"""
    alice, bob = two_clones("changed-text")
    both_write(alice, bob)
    (bob / "note").write_text("written by another program\n")
    expect("the hook says of", "./note", pull(bob).splitlines()[-1].split(": ")[0])
    expect("Bob's text stays", "written by another program\n", (bob / "note").read_text())
    expect("his log has both", "Alice Buy milk\nBob\n", mgr(bob, "show", "note"))


def reverts():
    """git's revert of the last edit of a log, and of one before it"""
    alice, _ = two_clones("reverts")
    for last, wanted in (("HEAD", "one Buy milk\n"), ("HEAD^", "two one Buy milk\n")):
        git(alice, "checkout", "-q", "-B", "main", "origin/main")
        for word in ("one ", "two "):
            press(alice / "note", ALICE, word)
            commit(alice)
        git(alice, "revert", "--no-edit", last)
        expect(f"a revert of {last}", wanted, remade(alice))


def fault_of(said):
    """Returns why the driver refused a merge, as git passes it on."""
    return re.findall(r"^\.merge_file_\w+: line \d+: (\w+)$", said, re.M)[-1]


def conflicts():
    """a branch under the number of another one, and logs that were committed torn"""
    alice, _ = two_clones("conflicts")
    for branch in ("idea", "main"):
        git(alice, "checkout", "-q", "-B", branch, "origin/main")
        press(alice / "note", ALICE, f"{branch} ")
        commit(alice)
    expect("one number in two branches", "Conflict", fault_of(git(alice, "merge", "idea", status=1)))
    expect("    the note is that of main", "main Buy milk\n", text_of(alice / "note"))
    other = git(alice, "show", ":3:note.ops")
    expect("    and the other text", "idea Buy milk\n", mgr(alice, "show", given=other))
    commit(alice)
    (way_out,) = re.findall(r"Torn +(.*)", WAYS_OUT)
    for torn, wanted in (("alice", "AliceBuy milk\nBob\n"), ("bob", "Alice Buy milk\nBob")):
        alice, bob = two_clones(f"torn-{torn}")
        both_write(alice, bob, torn)
        expect(f"torn by {torn}", "Torn", fault_of(pull(bob, status=1)))
        run(bob, "sh", "-c", way_out)
        commit(bob)
        expect("    mended, and merged", wanted, text_of(bob / "note"))


def without_driver():
    """clones that have no driver: git's markers, and its union"""
    alice, bob = two_clones("markers", "")
    both_write(alice, bob)
    pull(bob, status=1)
    expect("git's markers", 3, len(re.findall("^(?:<{7}|={7}|>{7})", log_of(bob / "note").read_text(), re.M)))
    mgr(bob, "mend", "note")
    commit(bob)
    expect("    without them", "Alice Buy milk\nBob\n", text_of(bob / "note"))
    for torn, wanted in (("nobody", "Alice Buy milk\nBob\n"), ("bob", "Alice Buy milk\nBob")):
        alice, bob = two_clones(f"union-{torn}", "echo '*.ops merge=union' >>.git/info/attributes")
        both_write(alice, bob, torn)
        pull(bob)
        mgr(bob, "mend", "note")
        expect(f"git's union, torn by {torn}", wanted, text_of(bob / "note"))


def by_sync():
    """a folder that a sync tool keeps alike, in which each has a log of their own"""
    folder = folder_of("sync")
    alice, bob = folder / "note.alice", folder / "note.bob"
    press(alice, ALICE, "Buy milk\r")
    shutil.copy(log_of(alice), log_of(bob))
    press(bob, BOB, f"{END}Call the baker\r")
    expect("Bob begins with a copy of Alice's log", "Buy milk\nCall the baker\n", text_of(bob))
    expect("Alice goes on", "Buy oat milk\n", press(alice, ALICE, f"{WORD} oat"))
    for number in range(3):
        for one, other in ((alice, bob), (bob, alice)):
            mgr(folder, "merge", one.name, log_of(other).name)
        expect("both take over the other's lines", text_of(alice), text_of(bob))
        press(alice, ALICE, f"{END}Alice {number}\r")
        press(bob, BOB, f"Bob {number}: ")
    arriving(alice, bob)
    whole = "Bob 2: Bob 1: Bob 0: Buy oat milk\nCall the baker\nAlice 0\nAlice 1\nAlice 2\n"
    expect("at last", whole, text_of(alice))
    expect("kept beside them", [], kept(folder))


def arriving(alice, bob):
    """Bob's log comes in pieces: of each its whole lines are taken."""
    lines = log_of(bob).read_bytes()
    for length in (*range(len(lines) - 150, len(lines), 10), len(lines)):
        log_of(bob).write_bytes(lines[:length])
        mgr(alice.parent, "merge", alice.name, log_of(bob).name)
        text_of(alice)
    print("    a log that comes in pieces is taken as it comes")


def imported(part, texts, numbers):
    """Alice and Bob have a plain text each; each makes it a note, under these numbers."""
    notes = [folder_of(part, name) / "note" for name in ("alice", "bob")]
    for note, text, number in zip(notes, texts, numbers):
        note.write_text(text)
        press(note, number, "")
    return notes


def from_one_text():
    """a plain text that both have already, imported under one number"""
    text = "one foo\ntwo\n"
    alice, bob = imported("one-number", (text, text), (IMPORT, IMPORT))
    expect("both logs are alike, byte for byte", True, log_of(alice).read_bytes() == log_of(bob).read_bytes())
    expect("Alice writes on under her own number", "one foo\nAlice two\n", press(alice, ALICE, "\x0eAlice "))
    expect("Bob under his", "Bob one foo\ntwo\n", press(bob, BOB, "Bob "))
    expect("the text of both logs", "Bob one foo\nAlice two\n", joined(alice, bob))
    alice, bob = imported("two-numbers", (text, text), (ALICE, BOB))
    expect("imported under two numbers it stands there twice", text + text, joined(alice, bob))
    alice, bob = imported("two-texts", (text, text.replace("foo", "far")), (IMPORT, IMPORT))
    said = joined(alice, bob, status=1)
    expect("under one number, but the texts differ", "Conflict\n", said.split(": ")[-1])
    alice, bob = imported("longer", (text, text + "three\n"), (IMPORT, IMPORT))
    expect("one text goes on where the other ends", text + "three\n", joined(alice, bob))


def both_edit(part, text, keys):
    """Both have one text, and press the same keys apart; returns the text of one and the text of both."""
    notes = imported(part, (text, text), (IMPORT, IMPORT))
    texts = [press(note, number, keys) for note, number in zip(notes, (ALICE, BOB))]
    return texts[0], joined(*notes)


def one_word_twice():
    """two who do the same to one word or one line"""
    for what, text, keys, wanted in (
        ("M-u foo, by both", "foo\n", UPPER, ("FOO\n", "FFOOOO\n")),
        ("both put in the letter that lacks", "fo\n", "\x06o", ("foo\n", "fooo\n")),
        ("both write another word in place of one", "red\n", DELETE * 3 + "blue", ("blue\n", "blueblue\n")),
        ("both delete a word", "one two\n", "\x1bd", (" two\n", " two\n")),
        ("both move a line to the end", "one\ntwo\n", KILL * 2 + END + YANK, ("two\none\n", "two\none\none\n")),
    ):
        seen = both_edit(what.replace(" ", "-"), text, keys)
        expect(f"{what}: each has, and both together", wanted, seen)
    text = "one\ntwo\n"
    alice, bob = imported("one-moves", (text, text), (IMPORT, IMPORT))
    press(alice, ALICE, KILL * 2 + END + YANK)
    press(bob, BOB, WORD + "!")
    expect("Alice moves a line, and Bob writes into it: that stays where the line was", "!two\none\n", joined(alice, bob))


PARTS = {
    part.__name__: part
    for part in (by_git, branches, changed_text, reverts, conflicts, without_driver, by_sync, from_one_text, one_word_twice)
}


def main():
    if len(sys.argv) < 2 or not set(sys.argv[2:]) <= set(PARTS):
        sys.exit(f"usage: try_sharing.py MGR [PART..], where PART is one of {', '.join(PARTS)}")
    if shutil.which("git") is None:
        sys.exit("git is not installed")
    shutil.rmtree(FOLDER, ignore_errors=True)
    folder_of("bin").joinpath("mgr").symlink_to(os.path.abspath(sys.argv[1]))
    for name in sys.argv[2:] or PARTS:
        print(f"\n{name}: {PARTS[name].__doc__}")
        PARTS[name]()
    print("\nAll was seen as it should be.")


if __name__ == "__main__":
    main()
