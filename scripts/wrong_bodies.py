#!/usr/bin/env python3
"""Tries the wrong bodies that the gate leaves out: the prover must refuse each.

They stand in crates/NAME/wrong, in the form of those in crates/NAME/must-fail, which the gate tries.
The arguments are names of crates; without any, all are tried. It works in a copy of the tree, in
mgr-wrong-bodies of the folder for temporary files, whose proofs are kept for the next run. Several
edits are tried in one check: as many as are of different functions, each of which must then be
refused for itself. What is not refused so is tried once more, alone. A body that gives up for a
refusal of memory that nobody answered is proved; an edit with a line `by: made_refusals` has such
a body, which scripts/made_refusals.py must find.

It prints what became of each, and at last how many were refused, of these how many only for a name
that the edit takes away from a proof, which shows little of a contract, and ends with an error
unless all were.
"""

import collections
import dataclasses
import pathlib
import re
import shutil
import subprocess
import sys
import tempfile

import plain_ends  # noqa: F401
from made_refusals import makings

TOP = pathlib.Path(__file__).resolve().parent.parent
TREE = pathlib.Path(tempfile.gettempdir()) / "mgr-wrong-bodies"
SOURCES = ("src", "specs", "proofs")
FUNCTION = re.compile(r"^ *(?:pub(?:\([\w ]+\))? )?(?:const )?fn (\w+)", re.M)
# What is refused for itself, and not for a call of what is.
REFUSED = re.compile(r"^fn \S*?(\w+): (not proved|no proof: expected answers)", re.M)
REASON = re.compile(r"^\./proofs/(?:\S*/)?(\w+)/\w+\.antt:\d+:\d+: error: (.*)", re.M)
# A goal that is left open, where it stands.
OPEN = re.compile(r"^note: (src/\S+):(\d+):\d+: it is not proved", re.M)
GONE = re.compile(r"has no field|is not in scope|has no `|was not admitted|was not checked")


@dataclasses.dataclass
class Edit:
    """A wrong body: the file that it is of, what replaces what there, the functions that this stands in, and whether
    it makes a refusal of memory."""

    path: pathlib.Path
    pairs: list
    functions: set
    makes: bool

    def __str__(self):
        return f"{self.path.parent.parent.name}/{self.path.stem}"

    def applied(self, texts, crate):
        """Returns the texts of files with this edit; none where a text to replace is not there once."""
        texts = dict(texts)
        for file, old, new in self.pairs:
            text = texts.get(file) or (crate / file).read_text()
            if text.count(old) != 1:
                return None
            texts[file] = text.replace(old, new)
        return texts


def function_at(text, old):
    """Returns the name of the function that a text stands in; none outside of all."""
    place = text.find(old)
    heads = list(FUNCTION.finditer(text, 0, place + len(old)))
    return heads[-1][1] if place >= 0 and heads else None


def read_edit(path, crate):
    file, old, pairs, functions, makes = None, None, [], set(), False
    for line in path.read_text().splitlines():
        word, _, rest = line.partition(": " if not line.startswith("new:") else ":")
        if word == "file":
            file = rest.strip()
        elif word == "by":
            makes = rest.strip() == "made_refusals"
        elif word == "old":
            old = rest
        elif word == "new":
            pairs.append((file, old, rest.removeprefix(" ")))
            functions.add(function_at((crate / file).read_text(), old))
    return Edit(path, pairs, functions, makes)


def copy_tree():
    """Makes the copy what the tree is, but for edits and what was proved."""
    TREE.mkdir(exist_ok=True)
    for name in ("crates.txt", "HANDLES"):
        shutil.copy(TOP / name, TREE / name)
    for crate in sorted((TOP / "crates").iterdir()):
        for folder in SOURCES:
            shutil.rmtree(TREE / "crates" / crate.name / folder, ignore_errors=True)
            if (crate / folder).is_dir():
                shutil.copytree(crate / folder, TREE / "crates" / crate.name / folder)


def rounds(edits, crate):
    """Parts edits into lists that can be tried in one check: no two of a list are of one function."""
    left = list(edits)
    while left:
        texts, taken, later, named = {}, [], [], set()
        for edit in left:
            fits = not taken or None not in edit.functions | named and not edit.functions & named
            changed = edit.applied(texts, crate) if fits else None
            if changed is None:
                later.append(edit)
            else:
                texts, named = changed, named | edit.functions
                taken.append(edit)
        if not taken:
            sys.exit(f"{later[0]}: what it replaces does not stand once in its file")
        yield taken, texts
        left = later


def check(crate, texts):
    """Returns what the prover says of the copy of a crate with these texts in place of its own."""
    folder = TREE / "crates" / crate.name
    for file, text in texts.items():
        (folder / file).write_text(text)
    how = {"stdin": subprocess.DEVNULL, "stdout": subprocess.PIPE, "stderr": subprocess.STDOUT}
    ran = subprocess.run(["rt", "check"], cwd=folder, text=True, errors="replace", **how)
    for file in texts:
        shutil.copy(crate / file, folder / file)
    return ran.stdout


def function_on(text, line):
    """Returns the name of the function that a line of a text stands in; none above the first."""
    heads = list(FUNCTION.finditer("".join(text.splitlines(keepends=True)[:line])))
    return heads[-1][1] if heads else None


def refused(said, texts, crate):
    """Returns of each function that is refused for itself whether that is for more than a name that is gone: for a
    reason of another kind, or a goal that is left open. The texts are what the prover read in place of the crate's."""
    found = {name: how != "not proved" for name, how in REFUSED.findall(said)}
    for file, line in OPEN.findall(said):
        name = function_on(texts.get(file) or (crate / file).read_text(), int(line))
        if name in found:
            found[name] = True
    for name, reason in REASON.findall(said):
        if name in found and not GONE.search(reason):
            found[name] = True
    return found


def verdict(edit, found):
    """Returns what became of an edit in a check that refused these functions; none where its own is not among them."""
    own = [found[name] for name in edit.functions & found.keys()]
    if None in edit.functions:
        own = list(found.values())
    return None if not own else "refused" if any(own) else "refused only for a name that is gone"


def tried(crate, edits):
    """Yields each edit of a crate with what became of it."""
    for edit in edits:
        if edit.makes:
            yield edit, looked_at(crate, edit)
    for taken, texts in rounds([edit for edit in edits if not edit.makes], crate):
        found = refused(check(crate, texts), texts, crate)
        for edit in taken:
            yield edit, verdict(edit, found) or alone(crate, edit)


def looked_at(crate, edit):
    """Returns what the look for refusals of memory says of an edit."""
    texts = edit.applied({}, crate)
    if texts is None:
        sys.exit(f"{edit}: what it replaces does not stand once in its file")
    for file, text in texts.items():
        if more := set(makings(text)) - set(makings((crate / file).read_text())):
            return f"refused, by what is made at {file}:{min(more)}"
    return "NOT REFUSED"


def alone(crate, edit):
    """Tries an edit by itself, where it may be refused at any function."""
    texts = edit.applied({}, crate)
    said = check(crate, texts)
    found = refused(said, texts, crate)
    if found:
        return f"refused, at {', '.join(sorted(found))}"
    print(said)
    return "NOT REFUSED" if "logic=proved" in said else "NOT TRIED: the prover did not come to it"


def crates(names):
    """Returns the crates of these names, or all, in the order of crates.txt, each with its edits."""
    listed = re.findall(r"^(\w+):", (TOP / "crates.txt").read_text(), re.M)
    for name in listed:
        crate = TOP / "crates" / name
        edits = [read_edit(path, crate) for path in sorted((crate / "wrong").glob("*.edit"))]
        if edits and name in (names or listed):
            yield crate, edits


def main():
    copy_tree()
    counts = collections.Counter()
    for crate, edits in crates(sys.argv[1:]):
        for edit, word in tried(crate, edits):
            print(f"{edit}: {word}", flush=True)
            counts[word.partition(",")[0].partition(":")[0]] += 1
    told = ", ".join(f"{count} {word}" for word, count in counts.most_common())
    print(f"{counts.total()} wrong bodies: {told}")
    if any(not word.startswith("refused") for word in counts) or not counts:
        sys.exit("not all were refused")


if __name__ == "__main__":
    main()
