#!/usr/bin/env python3
"""Kills saves of `mgr edit` at each call of the system, and loads again.

The argument is a built mgr. A save is run once under strace to list its calls, from the last key
that is read to the end; then once for each of them, and killed just before it. After each kill
the log has to be the old one or the new one, byte for byte, the text too, and the new text only
beside the new log; and what is loaded then has to show the old text or the new one. `make crash`
calls it. It prints a row a call, and ends with an error where one is not as it has to be.

A compaction, merges and mends are killed before each of their calls likewise: then the log has to be the old one
or the new one; the old one with a beginning of what is appended too, if that is more than one write takes. A log
that was replaced has to be kept beside the new one, and what a mend left out of it in notes.ops.refused. Done once
more, the job has to end as if it had not been killed; if a merge then leaves the older text, after a mend.

A kill is no power cut: that what was synced is on the device, and that a write that was begun is
there in part, it cannot show. So the cuts of what is appended are tried by hand, one for each
length: each loads, and shows a beginning of what was typed.
"""

import collections
import os
import pathlib
import re
import shutil
import subprocess
import sys

import plain_ends  # noqa: F401

FOLDER = pathlib.Path(__file__).resolve().parent.parent / "build" / "crash"
SAVE = b"\x18\x13"
CALL = re.compile(r"^(?:\[pid +\d+\] |\d+ +)?(\w+)\(")
ROWS, COLUMNS = 6, 60

# What stood there before, as keys that were typed and saved or as files; the keys of the save; and
# the texts before and after it.
Case = collections.namedtuple("Case", "name files typed keys old new")
TORN = b'{"id":[1,1],"op":"d'
CASES = [
    Case("append to a log", {}, b"old" + SAVE, b"\x1b>new" + SAVE, "old", "oldnew"),
    Case("first save, no files", {}, b"", b"new" + SAVE, "", "new"),
    Case("first save of a text without a log", {"notes": b"old"}, b"", b"\x1b>new" + SAVE, "old", "oldnew"),
    Case("a log that ended torn, as a whole", {}, b"old" + SAVE, b"\x1b>new" + SAVE, "old", "oldnew"),
]


class Trial:
    """A folder in which saves are run, one after another, from the same files."""

    def __init__(self, mgr, case):
        self.mgr, self.case = mgr, case
        self.before = dict(case.files)
        if case.typed:
            self.put_files()
            self.edit(case.typed)
            self.before = self.files()
        if case.name.startswith("a log that ended torn"):
            self.before["notes.ops"] += TORN

    def put_files(self):
        shutil.rmtree(FOLDER, ignore_errors=True)
        FOLDER.mkdir(parents=True)
        for name, data in self.before.items():
            (FOLDER / name).write_bytes(data)

    def files(self):
        return {path.name: path.read_bytes() for path in FOLDER.iterdir()}

    def edit(self, keys, *strace):
        words = [*strace, self.mgr, "edit", "notes", "--replica", "1", "--rows", str(ROWS), "--cols", str(COLUMNS)]
        return subprocess.run(words, cwd=FOLDER, input=keys, capture_output=True)

    def calls(self):
        """Returns the save's calls, each with how many of its name came before it, and the files."""
        self.put_files()
        trace = FOLDER.parent / "crash.trace"
        ran = self.edit(self.case.keys, "strace", "-f", "-o", trace)
        if ran.returncode:
            sys.exit(f"{self.case.name}: mgr ended with status {ran.returncode}: {ran.stderr.decode()}")
        lines = trace.read_text(errors="replace").splitlines()
        begins = max(i for i, line in enumerate(lines) if "read(0, " in line and "\\30\\23" in line)
        seen, found = collections.Counter(), []
        for i, line in enumerate(lines):
            call = CALL.match(line)
            if call:
                seen[call[1]] += 1
                if i > begins:
                    found.append((call[1], seen[call[1]], line.split(" ", 1)[1]))
        return found, self.files()

    def kill_at(self, name, number):
        self.put_files()
        self.edit(self.case.keys, "strace", "-f", "-o", "/dev/null", "-e", f"inject={name}:signal=KILL:when={number}")
        return self.files()

    def shown(self):
        """Returns the status of loading the files that are there, and the first row of the frame."""
        ran = self.edit(b"")
        return ran.returncode, ran.stdout.decode().split("\n")[0]


def faults_of(trial, after, left):
    """Returns what of the files that a kill left, and of what they load, is wrong."""
    case, faults, new = trial.case, [], {}
    for name in ("notes.ops", "notes"):
        found, old = left.get(name), trial.before.get(name)
        new[name] = found == after[name]
        if not new[name] and found != old:
            faults.append(f"{name} is neither")
    if new["notes"] and not new["notes.ops"]:
        faults.append("the text is before its log")
    status, row = trial.shown()
    if status or row != (case.new if new["notes.ops"] else case.old):
        faults.append(f"loads as {row!r}, status {status}")
    return faults, new


def run(mgr, case):
    """Kills the case's save at each call; returns how many were not as they have to be."""
    trial, bad = Trial(mgr, case), 0
    calls, after = trial.calls()
    print(f"\n{case.name}: {len(calls)} calls\n{'killed before':<58} {'log':<5} {'text':<5}")
    for name, number, line in calls:
        left = trial.kill_at(name, number)
        faults, new = faults_of(trial, after, left)
        words = ["new" if new[file] else "old" for file in ("notes.ops", "notes")]
        print(f"{line[:57]:<58} {words[0]:<5} {words[1]:<5} {'; '.join(faults) or 'well'}")
        bad += bool(faults)
    return bad


# A log with a row of insertions and a deletion, and its text.
ROW = 3000
LOG = b"".join(
    b'{"char":"a","id":[%d,1],"op":"ins","parent":[%d,%d]}\n' % (at, at - 1, at > 1) for at in range(1, ROW + 1)
) + b'{"id":[2,1],"op":"del"}\n'
ROW_TEXT = b"a" * (ROW - 1)


def other_log(count):
    """Returns the lines of that log, and so many insertions of replica 2 in front of all."""
    return LOG + b"".join(b'{"char":"b","id":[%d,2],"op":"ins","parent":[0,0]}\n' % (ROW + at) for at in range(1, count + 1))


# Jobs on the log of a note: their words, and the files before them.
Job = collections.namedtuple("Job", "name words files")
NOTE = {"notes.ops": LOG, "notes": ROW_TEXT}
CONFLICT = b'{"char":"A","id":[7,1],"op":"ins","parent":[6,1]}\nno line\n'
JOBS = [
    Job("a compaction", ["compact", "notes"], {"notes.ops": LOG}),
    Job("a merge", ["merge", "notes", "other"], NOTE | {"other": other_log(2)}),
    Job("a merge into a new note", ["merge", "notes", "other"], {"other": other_log(2)}),
    Job("a merge of more than a block", ["merge", "notes", "other"], NOTE | {"other": other_log(ROW)}),
    Job("a mend of a torn log", ["mend", "notes"], NOTE | {"notes.ops": LOG + TORN}),
    Job("a mend of a refused log", ["mend", "notes"], NOTE | {"notes.ops": LOG + CONFLICT, "notes.ops.refused": b"before\n"}),
]
BLOCK = 65536


class JobTrial:
    """A folder in which a job is run, again and again, from the same files."""

    def __init__(self, mgr, job):
        self.mgr, self.job = mgr, job
        self.trace = FOLDER.parent / "crash.trace"
        self.after = self.run(job.files, "strace", "-f", "-o", self.trace)
        if self.after == job.files:
            sys.exit(f"{job.name} changes no file")
        self.grows = self.after["notes.ops"].startswith(job.files.get("notes.ops", b""))

    def run(self, files, *strace):
        """Runs the job over these files, and returns those that it leaves."""
        shutil.rmtree(FOLDER, ignore_errors=True)
        FOLDER.mkdir(parents=True)
        for name, data in files.items():
            (FOLDER / name).write_bytes(data)
        subprocess.run([*strace, self.mgr, *self.job.words], cwd=FOLDER, capture_output=True)
        return {path.name: path.read_bytes() for path in FOLDER.iterdir()}

    def calls(self):
        """Returns the job's calls, each with how many of its name came before it."""
        names = [call[1] for call in map(CALL.match, self.trace.read_text(errors="replace").splitlines()) if call]
        seen = collections.Counter()
        for name in names:
            seen[name] += 1
            yield name, seen[name]

    def killed_at(self, name, number):
        return self.run(self.job.files, "strace", "-f", "-o", "/dev/null", "-e", f"inject={name}:signal=KILL:when={number}")

    def is_begun(self, log):
        """Whether a log is the old one with a beginning of what is appended, which one write does not hold."""
        old, new = self.job.files.get("notes.ops"), self.after["notes.ops"]
        grows = old is not None and new.startswith(old) and len(new) - len(old) > BLOCK
        return grows and log is not None and log.startswith(old) and new.startswith(log)

    def faults_of(self, left):
        """Yields what of the files that a kill left is wrong."""
        old, after = self.job.files, self.after
        log, new = left.get("notes.ops"), left.get("notes.ops") == after["notes.ops"]
        if not new and log != old.get("notes.ops") and not self.is_begun(log):
            yield "the log is neither"
        if new and not self.grows and left.get("notes.ops~") != old["notes.ops"]:
            yield "the old log is not kept"
        if left.get("notes") not in (old.get("notes"), after.get("notes")):
            yield "the text is neither"
        if left.get("notes") != old.get("notes") and not new:
            yield "the text is before its log"
        if new and left.get("notes.ops.refused") != after.get("notes.ops.refused"):
            yield "what is refused is not kept"
        if not left.get("notes.ops.refused", b"").startswith(old.get("notes.ops.refused", b"")):
            yield "what was refused before is gone"
        if any(left.get(name) != data for name, data in old.items() if name == "other"):
            yield "another file changed"

    def faults_of_another(self, left):
        """Yields what of the files is wrong, if the job is done once more over those that a kill left."""
        again = self.run(left)
        if again.get("notes") != self.after.get("notes"):
            # A merge with nothing new leaves an older text, and says so; a mend puts that of the log.
            subprocess.run([self.mgr, "mend", "notes"], cwd=FOLDER, capture_output=True)
            again = {path.name: path.read_bytes() for path in FOLDER.iterdir()}
        # A log that was torn is written as a whole, in an order of its own.
        if lines_of(again) != lines_of(self.after):
            yield "done once more, the log is another"
        if again.get("notes") != self.after.get("notes"):
            yield "done once more, the text is another"
        # What is refused may stand there twice, the first time in part.
        before, refused = (files.get("notes.ops.refused", b"") for files in (self.job.files, self.after))
        found = again.get("notes.ops.refused", b"")
        if not (found.startswith(before) and found.endswith(refused[len(before) :])):
            yield "done once more, what is refused is another"


def lines_of(files):
    """Returns the lines of the log, in the order of their bytes."""
    return sorted(files.get("notes.ops", b"").splitlines())


def run_job(mgr, job):
    """Kills a job at each call; returns how many were not as they have to be."""
    trial, bad, count = JobTrial(mgr, job), 0, 0
    for name, number in trial.calls():
        left = trial.killed_at(name, number)
        faults = [*trial.faults_of(left), *trial.faults_of_another(left)]
        count += 1
        if faults:
            print(f"{job.name} that is killed before {name} {number}: {'; '.join(faults)}")
            bad += 1
    print(f"\n{job.name}: {count} calls, {bad} of them not well")
    return bad


def cut_appends(mgr):
    """Cuts what is appended to a log at each length; returns how many loads were wrong."""
    trial, bad = Trial(mgr, CASES[0]), 0
    trial.put_files()
    trial.edit(CASES[0].keys)
    whole, kept = trial.files()["notes.ops"], len(trial.before["notes.ops"])
    for length in range(kept, len(whole) + 1):
        trial.before["notes.ops"] = whole[:length]
        trial.put_files()
        status, row = trial.shown()
        lines = whole[kept:length].decode().split("\n")
        # A last line without its newline counts if it is an operation.
        typed = len(lines) - 1 + lines[-1].endswith("}")
        if status or row != "old" + "new"[:typed]:
            print(f"cut at {length} bytes: {row!r}, status {status}")
            bad += 1
    print(f"\nwhat is appended, cut at each of {len(whole) - kept + 1} lengths: {bad or 'none'} wrong")
    return bad


def main():
    if len(sys.argv) != 2:
        sys.exit("usage: crash.py MGR")
    if shutil.which("strace") is None:
        sys.exit("strace is not installed, and kills the saves")
    mgr = os.path.abspath(sys.argv[1])
    bad = sum(run(mgr, case) for case in CASES) + sum(run_job(mgr, job) for job in JOBS) + cut_appends(mgr)
    if bad:
        sys.exit(f"{bad} are not as they have to be")
    print("All loaded the old or the new.")


if __name__ == "__main__":
    main()
