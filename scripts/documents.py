#!/usr/bin/env python3
"""Says which links and which names in backquotes of the documents lead nowhere, and which words are not to stand there.

A link leads to a file, and to a heading where it names one. Of what stands in backquotes these are
names: a path of this repository, or of one of its crates; a target of make; an option, which the
sources have to know; a word, or words with `::` between them, which stand in the sources. In a
table of contracts, as `Taker::apply`: `exact`, `same`, each name before a colon is a public call or
a type of the sources, and each one behind it a clause, or a call, of these. Exits with 1 where one
is not there.

Then it looks at the words of documents and manuals: how many there are, which phrases stay away, whether the newest
version of CHANGELOG.md is that of the program, whether the figures that are drawn are those of docs/performance.md,
and, if codespell is installed, how they are spelled.
"""

import pathlib
import re
import shutil
import subprocess
import sys

import contracts
import drawing
import pictures
import plain_ends  # noqa: F401

ROOT = pathlib.Path(__file__).resolve().parent.parent
DOCUMENTS = [*sorted(ROOT.glob("*.md")), *sorted((ROOT / "docs").glob("*.md"))]
MANUALS = sorted((ROOT / "docs").glob("*.1"))
# At most so many words: in one document, and in all of docs/.
MOST = {"README.md": 1000, "docs": 24_000}
# What is said in plainer words, by what takes its place.
PHRASES = {
    r"behind": "after",
    r"(as|only|but|except|even) where": "if",
    r"(in|for) want of": "without",
    r"want of memory": "out of memory",
    r"tells": "says, reports",
    r"a begin|line begin|begin of": "beginning",
    r"in order to": "to",
    r"utili[sz]e": "use",
    r"whereby|therein|thereof|hereby|heretofore": "by which, in it, of it",
    r"deeds?|slang": "what is done",
    r"simply|obviously|of course|easily": "nothing",
}
KNOWN_WORDS = "crate,crates,nd,fo,neight"
SOURCES = ("*", "bench/*", "crates/**/*", "docs/mgr.1", "editors/**/*", "examples/**/*", "front/*", "scripts/*")
ENDINGS = (".md", ".py", ".sh", ".rs", ".rt", ".antt", ".edit", ".txt")
WORDS = re.compile(r"[A-Za-z_]\w*(?:::\w+)*")
PATH = re.compile(r"\.?\w[\w.*-]*(?:/[\w.*-]+)*/?")
PART = re.compile(r"((?:`[\w:]+`(?:, )?)+)(?:: ((?:`[\w:]+`(?:, )?)+))?")


def source_words():
    """Returns the words of the sources, of their file names, and of the examples in documents."""
    paths = {path for pattern in SOURCES for path in ROOT.glob(pattern) if "out" not in path.parts and path not in DOCUMENTS}
    texts = [path.read_text(errors="replace") for path in paths if path.is_file() and path.suffix != ".edit"]
    texts += ["\n".join(re.findall(r"^    .*$", path.read_text(), re.M)) for path in DOCUMENTS]
    return {word for text in texts + [path.name for path in paths] for word in re.findall(r"\w+", text)}


def is_path(text):
    places = (".", "docs", "crates", "crates/*", "crates/*/specs", "scripts/packing")
    return bool(PATH.fullmatch(text)) and any(True for place in places for _ in ROOT.glob(f"{place}/{text}"))


def fault_of_name(text, words):
    """Returns what is wrong with a text in backquotes, if it is a name."""
    first, *rest = text.split()
    if is_path(first):
        return None
    if first == "make" and rest:
        return None if re.search(rf"^{re.escape(rest[0])}:", (ROOT / "Makefile").read_text(), re.M) else "no target"
    if first.startswith(("scripts/", "bench/", "crates/", "docs/", "front/", "examples/")) or first.endswith(ENDINGS):
        return "no file"
    if first.startswith("--") and len(first) > 2:
        return None if set(re.split("[-=]", first[2:])) <= words else "no option"
    if WORDS.fullmatch(text):
        known = set(text.split("::")) <= words or text.endswith("_") and any(word.startswith(text) for word in words)
        return None if known else "no name of the sources"
    return None


def link_fault(target, document):
    if "://" in target:
        return None
    file, _, anchor = target.partition("#")
    path = document.parent / file if file else document
    if not path.exists():
        return "no file"
    titles = re.findall(r"^#+ (.*)$", path.read_text(), re.M) if anchor else ()
    slugs = [re.sub(r"[^\w -]", "", title).lower().replace(" ", "-") for title in titles]
    return None if not anchor or anchor in slugs else "no heading"


def contract_names():
    """Returns the heads of the calls by name, and the names of the calls by the type they are of."""
    heads, members = {}, {}
    for crate in contracts.listed_crates():
        for _, name, head, _ in contracts.calls_of(contracts.CRATES / crate):
            for each in {name, name.split("::")[-1]}:
                heads.setdefault(each, []).append(head)
            if "::" in name:
                members.setdefault(name.split("::")[0], []).append((name.split("::")[1], head))
    return heads, members


def faults_of_contracts(cell, heads, members):
    """Yields what is wrong in a cell of a table of contracts."""
    for calls, clauses in PART.findall(cell):
        asked, stated = re.findall(r"`([\w:]+)`", clauses), set()
        for call in re.findall(r"`([\w:]+)`", calls):
            of_type = members.get(call, [])
            texts = heads.get(call, []) + [head for _, head in of_type]
            own = {name for name, _ in of_type} | set(re.findall(r"\bensures (\w+)\b", "\n".join(texts)))
            if asked and call not in heads and call not in members:
                yield call, "no public call"
            elif asked and not own & set(asked):
                yield call, f"none of {', '.join(asked)}"
            stated |= own
        for clause in asked:
            if clause not in stated:
                yield clause, f"no clause of {calls.strip(', ')}"


def faults():
    words, (heads, members) = source_words(), contract_names()
    for document in DOCUMENTS:
        is_of_contracts = False
        for number, line in enumerate(re.sub(r"^(```|    ).*?$", "", document.read_text(), flags=re.M).splitlines(), 1):
            for target in re.findall(r"\]\(([^)\s]+)\)", line):
                if fault := link_fault(target, document):
                    yield document, number, target, fault
            for text in re.findall(r"`([^`]+)`", line):
                if text.strip() and (fault := fault_of_name(text, words)):
                    yield document, number, text, fault
            is_of_contracts = line.startswith("|") and (is_of_contracts or bool(re.match(r"\|[^|]*\| *(Clauses?|Contracts?) *\|", line)))
            if is_of_contracts and line.count("|") > 2:
                for text, fault in faults_of_contracts(line.split("|")[2], heads, members):
                    yield document, number, text, fault


def word_faults():
    """Yields which phrases stand in documents and manuals that stay away, outside of code."""
    for document in [*DOCUMENTS, *MANUALS]:
        text = re.sub(r"^(```.*?^```|    .*?)$", lambda code: "\n" * code[0].count("\n"), document.read_text(), flags=re.M | re.S)
        for number, line in enumerate(text.splitlines(), 1):
            for phrase, better in PHRASES.items():
                if found := re.search(rf"\b({phrase})\b", re.sub(r"`[^`]*`", "", line), re.I):
                    yield document, number, found[0], f"better: {better}"


def faults_of_bounds():
    """Yields which documents have more words than they may."""
    for name, most in MOST.items():
        path = ROOT / name
        texts = [path] if path.is_file() else [*path.glob("*.md"), *path.glob("*.1")]
        if (words := sum(len(text.read_text().split()) for text in texts)) > most:
            yield path, 1, name, f"{words} words, and at most {most}"


def faults_of_versions():
    """Yields whether programs, changes and pictures differ from one another."""
    newest = re.search(r"^## ([\d.]+)", (ROOT / "CHANGELOG.md").read_text(), re.M)[1]
    for name in ("front/mgr_front/__init__.py", "crates/mgr_args/src/command.rt"):
        if not re.search(rf'VERSION(: &str)? = "{re.escape(newest)}[" ]', (ROOT / name).read_text()):
            yield ROOT / "CHANGELOG.md", 1, newest, f"not the version of {name}"
    for name, draw in pictures.DRAWN.items():
        path = pictures.PICTURES / f"{name}.svg"
        if not path.exists() or drawing.texts(draw()) != drawing.texts(path.read_text()):
            yield path, 1, "figures", f"not those of docs/performance.md: scripts/pictures.py {name}"


def spelling_faults():
    """Yields what codespell finds, if it is installed."""
    if shutil.which("codespell") is None:
        print("codespell is not installed: nobody looked at the spelling")
        return
    done = subprocess.run(["codespell", "-L", KNOWN_WORDS, *DOCUMENTS, *MANUALS], capture_output=True, text=True)
    for line in done.stdout.splitlines():
        path, number, said = line.split(":", 2)
        yield pathlib.Path(path), int(number), said.strip(), "spelling"


def main():
    found = [*faults(), *word_faults(), *faults_of_bounds(), *faults_of_versions(), *spelling_faults()]
    for document, number, text, fault in found:
        print(f"{document.relative_to(ROOT)}:{number}: `{text}`: {fault}", file=sys.stderr)
    if found:
        sys.exit(1)
    print("the documents: each link and each name in backquotes is there, and no phrase that stays away")


if __name__ == "__main__":
    main()
