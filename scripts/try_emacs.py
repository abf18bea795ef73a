#!/usr/bin/env python3
"""Tries mgr.el in batch Emacs.

usage: try_emacs.py MGR [PART..] [--sessions N] [--seed S] [--jobs J]. `tests` compiles and checks it, and runs its
tests. `places` has two Emacs write by ssh, a folder, git and Redis. `sessions` has two and one mgr-live write in one
note at a hub, at random, while programs are killed: one text has to come of it, with each character that nobody
deleted, and no undo may take what another wrote. J of them are played at once; 500 are a long evening. `keys` measures
how long a key takes to the other's buffer, and what the mode costs. Without a part all are tried. It says what is not
installed. `make try-emacs` calls it, and no test waits for it.
"""

import argparse
import concurrent.futures
import glob
import multiprocessing
import os
import random
import shutil
import signal
import statistics
import subprocess
import sys
import time

from emacs_sessions import AS_AT_A_TERMINAL, COMPILED, EDITOR, Emacs, Fault, compiled, emacs_command, play
from engines import ENGINES, Hub, Sshd, await_that, fail, stop_all
from play.peers import free_port
from terminal import ROOT, environment

FOLDER = ROOT / "build" / "try-emacs"
SESSIONS, KEYS, EACH = 12, 150, 0.1
# After so many sessions it is said how many are played.
SAID = 25
PLACES = "hub", "dir", "git", "redis"
SIZES, LARGE = (1_000, 100_000), 900_000
# Of package-lint: an old one does not know newer Emacs.
UNKNOWN = "uninstallable in all released Emacs versions"
PACKAGES = "/usr/share/emacs/site-lisp/elpa-src", "~/.emacs.d/elpa"
NEEDED = {"emacs": "emacs-nox", "ps": "procps"}


def lacking():
    """Returns what has to be installed first."""
    return [package for program, package in NEEDED.items() if shutil.which(program) is None]


def batch(*words):
    """Returns what a batch Emacs says."""
    return subprocess.run(["emacs", "-Q", "--batch", *words], capture_output=True, text=True)


def lint():
    """Has package-lint look at mgr.el, and returns what it says; None if it is not installed."""
    folders = [folder for place in PACKAGES for folder in glob.glob(os.path.expanduser(place) + "/package-lint-[0-9]*")]
    if not folders:
        return None
    said = batch("-L", folders[0], "-l", "package-lint", "-f", "package-lint-batch-and-exit", str(EDITOR / "mgr.el"))
    lines = (said.stdout + said.stderr).splitlines()
    return "\n".join(line for line in lines if "mgr.el:" in line and UNKNOWN not in line)


def tests(mgr, options):
    """mgr.el is compiled and checked, and its tests are run"""
    shutil.rmtree(COMPILED, ignore_errors=True)
    checked = batch("--eval", f'(checkdoc-file "{EDITOR / "mgr.el"}")').stderr.strip()
    for what, said in (("the compiler", compiled()), ("checkdoc", checked), ("package-lint", lint())):
        if said:
            fail(f"{what} says: {said}")
        print(f"{what}: {'nothing' if said == '' else 'left out: elpa-package-lint is not installed'}")
    folder = FOLDER / "tests"
    folder.mkdir(parents=True)
    command = emacs_command("-l", "mgr-tests", "-f", "ert-run-tests-batch-and-exit")
    done = subprocess.run(command, env=environment(mgr, folder), capture_output=True, text=True, **AS_AT_A_TERMINAL)
    print(*[line for line in done.stderr.splitlines() if line.startswith("Ran ")], sep="\n")
    if done.returncode:
        fail(done.stderr[-5000:])


def sessions(mgr, options):
    """random sessions of two Emacs and one mgr-live at a hub"""
    compiled()
    seeds = range(options.seed, options.seed + options.sessions)
    # Forked ones would try the same ports.
    with concurrent.futures.ProcessPoolExecutor(options.jobs, multiprocessing.get_context("spawn")) as pool:
        ended = []
        for end in pool.map(session, [mgr] * len(seeds), seeds):
            ended.append(end)
            if len(ended) % SAID == 0:
                print(f"{len(ended)} are played, {ended.count(())} with faults", flush=True)
    if faults := [seed for seed, end in zip(seeds, ended) if not end]:
        fail(f"{len(faults)} of {options.sessions} sessions: {faults}")
    killed, pasted, typed = (sum(each) for each in zip(*ended))
    print(f"{options.sessions} sessions: {typed:,} characters were typed that stand nowhere else, {killed} programs killed")
    print(f"in {pasted} of them 1 MB was pasted")


def session(mgr, seed):
    """Plays one; returns how many programs were killed, 1 MB pasted, and characters typed; nothing after a fault."""
    folder = FOLDER / "sessions" / str(seed)
    try:
        killed, is_large, typed = play(mgr, folder, seed)
    except (Fault, SystemExit, OSError, subprocess.SubprocessError) as fault:
        print(f"session {seed}, in {folder}: {type(fault).__name__}: {fault}", flush=True)
        return ()
    shutil.rmtree(folder)
    return len(killed), is_large, typed


def places(mgr, options):
    """two Emacs at a hub by ssh, by a folder, a branch of git and a stream of Redis"""
    compiled()
    for kind in PLACES:
        if lacks := ENGINES[kind].lacks():
            print(f"{kind}: left out: {lacks}")
            continue
        shutil.rmtree(FOLDER / kind, ignore_errors=True)
        engine, chance = ENGINES[kind](mgr, FOLDER / kind, random.Random(1), 0), random.Random(options.seed)
        # The third and the fourth come to a hub by ssh.
        ways = {number: engine.address(number).split()[1] for number in (3, 4)}
        if kind == "hub" and not Sshd.is_there():
            print("ssh: left out: openssh-server is not installed")
        writers = [Emacs(mgr, engine.folder, number, way, engine.tools) for number, way in ways.items()]
        for writer in writers:
            writer.begin(chance)
        for _ in range(3):
            for writer in writers:
                writer.ask("(writer-steps 3)")
        await_that(f"one text comes of {kind}", lambda: is_one(writers), pause=0.5)
        end_pair(engine, *writers)
        print(f"{', '.join(ways.values())}: both Emacs have one text", flush=True)


def is_one(writers):
    """Whether all have one text, and all that they made is kept."""
    states = [writer.ask("(writer-state)") for writer in writers]
    typed = set().union(*(writer.typed - writer.gone for writer in writers))
    for writer in writers:
        writer.ask("(writer-told)")
        if writer.faults:
            fail(writer.faults)
    texts = {state["text"] for state in states}
    return len(texts) == 1 and all(state["rests"] for state in states) and typed <= set(map(ord, min(texts)))


def row(name, figures, wanted):
    """Prints the median, the 99th of 100 and the worst of milliseconds, beside what is wanted of them."""
    figures = sorted(1000 * figure for figure in figures)
    seen = statistics.median(figures), figures[min(len(figures) - 1, len(figures) * 99 // 100)], figures[-1]
    print(f"{name}: median {seen[0]:.1f} ms, 99 of 100 {seen[1]:.1f}, at most {seen[2]:.1f}; wanted: {wanted}", flush=True)


def pair(mgr, folder, text):
    """Returns a hub with this text, and two Emacs that write there."""
    shutil.rmtree(folder, ignore_errors=True)
    (folder / "hub").mkdir(parents=True)
    (folder / "hub" / "note").write_text(text)
    port = free_port()
    hub, writers = Hub(mgr, folder / "hub", port), [Emacs(mgr, folder, number, port) for number in (1, 2)]
    for writer in writers:
        writer.begin(random.Random(1))
        end = time.monotonic() + 60
        while writer.ask("(list :size (buffer-size))")["size"] != len(text):
            if time.monotonic() > end:
                fail("the text does not come")
            time.sleep(0.1)
    return hub, *writers


def keys(mgr, options):
    """how long a key takes"""
    compiled()
    for size in SIZES:
        hub, one, other = pair(mgr, FOLDER / f"keys{size}", lines_of(size))
        other.ask("(progn (advice-add 'mgr--put :before #'writer-note-came) t)")
        one.ask("(progn (goto-char (/ (point-max) 2)) t)")
        began = {}
        for sign in range(0x30000, 0x30000 + KEYS):
            began[sign] = one.ask(f"(writer-key {sign})")["begun"]
            time.sleep(EACH)
        time.sleep(2)
        took = [other.ask(f"(writer-when {sign})")["came"] - begun for sign, begun in began.items()]
        if min(took) < 0:
            fail("a key did not come")
        row(f"a key in one Emacs, to the other's buffer, {size:,} characters", took, "30 ms, 150 ms")
        end_pair(hub, one, other)
    text = lines_of(LARGE)
    hub, one, other = pair(mgr, FOLDER / f"keys{LARGE}", text)
    (FOLDER / "text").write_text(text)
    read = f'(with-temp-buffer (insert-file-contents "{FOLDER / "text"}") (buffer-string))'
    plain = other.ask(f"(writer-plain-keys {read} 300)")["seconds"]
    mode = one.ask("(writer-keys 300)")["seconds"]
    took = f"{1000 * mode:.2f} ms with the mode, {1000 * plain:.2f} without"
    print(f"a key in {LARGE:,} characters: {took}; wanted: at most 2 ms more")
    end_pair(hub, one, other)


def lines_of(size):
    return "".join(f"{i:7} the quick brown fox\n" for i in range(size // 28))


def end_pair(hub, *writers):
    for writer in writers:
        writer.leave()
    hub.end()


PARTS = {part.__name__: part for part in (tests, places, sessions, keys)}


def main():
    made = argparse.ArgumentParser(description=__doc__, formatter_class=argparse.RawDescriptionHelpFormatter)
    made.add_argument("mgr")
    made.add_argument("parts", nargs="*", metavar="PART", help=", ".join(PARTS))
    made.add_argument("--sessions", type=int, default=SESSIONS)
    made.add_argument("--seed", type=int, default=1)
    made.add_argument("--jobs", type=int, default=1)
    options = made.parse_args()
    if not set(options.parts) <= set(PARTS):
        made.error(f"a PART is one of {', '.join(PARTS)}")
    if packages := lacking():
        sys.exit(f"not installed: apt-get install {' '.join(packages)}")
    shutil.rmtree(FOLDER, ignore_errors=True)
    signal.signal(signal.SIGTERM, lambda *_: sys.exit("ended"))
    try:
        for name in options.parts or PARTS:
            print(f"\n{name}: {PARTS[name].__doc__}", flush=True)
            PARTS[name](os.path.abspath(options.mgr), options)
    finally:
        stop_all()
    print("\nAll was seen as it should be.")


if __name__ == "__main__":
    main()
