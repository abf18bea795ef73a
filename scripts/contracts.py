#!/usr/bin/env python3
"""Prints the contracts of the public calls as they stand in the sources.

Without an argument: every call of the crates, in the order of crates.txt, tests and benches left out,
below its file. With names (`run_keys`, `Editor::press`): these calls alone, and below each
the definitions of specs/ that its clauses reach, and those that these reach, by file, and how many
they are. They are found by name, so that a variable with the name of a definition counts as the
definition. What the sources declare, types and how these are seen, is not followed. After names
`--down-to mg_plain,mg_keys` prints these definitions themselves, down to those of these crates and of
the crates below them.
With `--without-clause mgr_port`: the functions of that crate that have no clause, of their own or of a
trait, and how many they are.
With --claim: what is to be read to audit the claim of README.md, part by part in docs/promises.md, which are the definitions that the
contracts of its table reach, by file; and after them, by file, those that no such contract reaches.
"""

import pathlib
import re
import signal
import sys
import textwrap

import plain_ends  # noqa: F401

CRATES = pathlib.Path(__file__).resolve().parent.parent / "crates"
CALL = re.compile(r"^( *)(pub )?(?:const )?fn (\w+)", re.M)
FUNCTION = re.compile(r"^( *)(?:pub(?:\(crate\))? )?(?:const )?fn (\w+)", re.M)
OWNER = re.compile(r"^(?:pub (?:trait (?P<trait>\w+))|trait |impl\b(?P<impl>[^{]*))", re.M)
CLAUSE = re.compile(r"\b(?:requires|ensures)(?:\s+[\w-]+)?\s*$")
DEFINITION = re.compile(r"(?:  )?(?:(?:abbrev|unfoldable)(?: pub)?|pub (?:record|data)) (\w+)|pub (\w+) :")
USE = re.compile(r"^ *(?:pub )?(?:ghost )?use Rattle\.(\w+)\.specs\.(\w+)(?:\.\{([^}]*)\}| as (\w+))", re.M)
WORD = re.compile(r"(?<![\w.])[^\W\d]\w*(?:\.[^\W\d]\w*)*(?! *=\s)")


def without_comments(text, mark):
    return re.sub(mark + r"[^\n]*", lambda found: " " * len(found[0]), text)


def type_of(heading):
    """Returns the type, or the trait, that the functions below a heading are of."""
    header = (heading["impl"] or "").replace("->", "")
    while "<" in header:
        header = re.sub(r"<[^<>]*>", "", header)
    return heading["trait"] or (re.findall(r"\w+", header) or [None])[-1]


def head_and_clauses(text, start):
    """Returns where the head of a function ends, at its body or a semicolon, and its clauses."""
    depth, clauses = 0, []
    for place in range(start, len(text)):
        sign = text[place]
        if depth == 0 and (sign == ";" or sign == "{" and not CLAUSE.search(text, start, place)):
            break
        if depth == 0 and sign == "{":
            clauses.append(place)
        depth += (sign in "([{") - (sign in ")]}")
    return place, text[clauses[0]:place] if clauses else ""


def calls_of(crate):
    """Yields of each public call the file, the name, the head as it stands and the clauses."""
    root = crate / "src" / "lib.rt"
    exported = re.findall(r"\w+", " ".join(re.findall(r"^pub use [^;]*", root.read_text(), re.M))) if root.is_file() else []
    # A program exports nothing: what its parts call of one another is all that is public there.
    is_program = not root.is_file()
    for path in sorted((crate / "src").rglob("*.rt")):
        whole = path.read_text()
        text = without_comments(whole, "//")
        for call in CALL.finditer(text):
            headings = [heading for heading in OWNER.finditer(text, 0, call.start())] if call[1] else []
            owner = type_of(headings[-1]) if headings else None
            end, clauses = head_and_clauses(text, call.start())
            meets = headings and (headings[-1]["trait"] or " for " in (headings[-1]["impl"] or "") and clauses)
            if (call[2] or meets) and (owner in exported or is_program or not headings):
                yield path, f"{owner}::{call[3]}" if owner else call[3], whole[call.start():end].rstrip(), clauses


def print_without_clause(crate):
    found, count = [], 0
    for path in sorted((CRATES / crate / "src").rglob("*.rt")):
        text = without_comments(path.read_text(), "//")
        for function in FUNCTION.finditer(text):
            headings = [heading for heading in OWNER.finditer(text, 0, function.start())] if function[1] else []
            is_of_a_trait = headings and " for " in (headings[-1]["impl"] or "")
            count += 1
            if not is_of_a_trait and not head_and_clauses(text, function.start())[1]:
                found.append(f"{path.stem}: {function[2]}")
    print(*found, sep="\n")
    print(f"{len(found)} of {count} functions of {crate} have no clause")


def scope_of(text):
    """Returns what the names of a file are: (crate, file, name), without a name for a whole file."""
    scope = {}
    for crate, stem, names, alias in USE.findall(text):
        if alias:
            scope[alias] = (crate, stem, None)
        for name, other in re.findall(r"([^\s,]+)(?: as (\w+))?", names):
            scope[other or name] = (crate, stem, name)
    return scope


def read_specs(crate, stem, files):
    """Returns the text of each definition of a file of specs/, and what its names are."""
    path = CRATES / crate / "specs" / f"{stem}.antt"
    if path not in files:
        text = without_comments(path.read_text(), "--") if path.is_file() else ""
        found, scope, module, current = {}, scope_of(text), "", None
        for line in text.splitlines():
            if re.match(r"\S", line):
                module, current = (line, None) if line.startswith("module") else ("", current)
            if head := DEFINITION.match(line):
                current = head[1] or head[2]
                found[current] = module + "\n"
                scope[current] = (crate, stem, current)
            elif current and (maker := re.match(r" +(\w+) :", line)):
                scope.setdefault(maker[1], (crate, stem, current))
            if current and not USE.match(line):
                found[current] += re.sub(r"^ +pub \w+ :", "", line) + "\n"
        files[path] = (found, scope)
    return files[path]


def reached_by(text, scope):
    """Returns the definitions that a text reaches, as (crate, file, name)."""
    reached, texts, files = set(), [(text, scope)], {}
    while texts:
        text, scope = texts.pop()
        for word in WORD.findall(text):
            first, second = (word + ".").split(".")[:2]
            place = scope.get(first)
            while place:
                crate, stem, name = place[0], place[1], place[2] or second
                found, inner = read_specs(crate, stem, files)
                if name in found and (crate, stem, name) not in reached:
                    reached.add((crate, stem, name))
                    texts.append((found[name], inner))
                place = None if name in found else inner.get(name)
    return reached


def print_files(definitions):
    files = {}
    for crate, stem, name in sorted(definitions):
        files.setdefault(f"crates/{crate}/specs/{stem}.antt", []).append(name)
    for file, names in files.items():
        print(f"  {file}: {', '.join(names)}")
    print(f"  {len(definitions)} definitions in {len(files)} files")


def texts_of(path):
    """Returns each definition of a file of specs/ as it stands, with the comment above it."""
    found, above, current = {}, [], None
    for line in path.read_text().splitlines():
        if head := DEFINITION.match(line):
            current = head[1] or head[2]
            found[current] = [*above, line]
        elif not line.strip():
            current = None
        elif line.lstrip().startswith("--"):
            above.append(line)
            continue
        elif current:
            found[current] += [*above, line]
        above = []
    return found


def below(crates):
    """Returns these crates and all below them."""
    lines = (CRATES.parent / "crates.txt").read_text()
    uses = {crate: others.split() for crate, others in re.findall(r"^(\w+):([^\n]*)", lines, re.M)}
    found, left = set(), list(crates)
    while left:
        crate = left.pop()
        if crate in uses and crate not in found:
            found.add(crate)
            left += uses[crate]
    return found


def print_texts(definitions, ended):
    """Prints the definitions themselves, those of the uppermost crates first, down to these crates."""
    crates = listed_crates()
    files = {(crate, stem) for crate, stem, _ in definitions if crate not in ended}
    for crate, stem in sorted(files, key=lambda file: (-crates.index(file[0]), file[1])):
        path = CRATES / crate / "specs" / f"{stem}.antt"
        print(f"  ---- {path.relative_to(CRATES.parent)}\n")
        for name, lines in texts_of(path).items():
            if (crate, stem, name) in definitions:
                print(textwrap.indent(textwrap.dedent("\n".join(lines)), "  "), end="\n\n")


def listed_crates():
    names = re.findall(r"^(\w+):", (CRATES.parent / "crates.txt").read_text(), re.M)
    return [name for name in names if not re.match(r"test_|bench_|\w+_test$", name)]


def claimed():
    """Returns the contracts that the table of the claim names, as (crate, name)."""
    rows = re.findall(r"^\|[^|]*\|([^|]*)\|([^|]*)\|$", (CRATES.parent / "docs/promises.md").read_text(), re.M)
    ticked = re.compile(r"`([\w:]+)`")
    return {(crate, name) for names, crates in rows for crate in ticked.findall(crates) for name in ticked.findall(names)}


def print_claim():
    named, reached, every = claimed(), set(), set()
    for crate in listed_crates():
        for path, name, _, clauses in calls_of(CRATES / crate):
            if {(crate, name), (crate, name.split("::")[-1])} & named:
                reached |= reached_by(clauses, scope_of(path.read_text()))
        for path in (CRATES / crate / "specs").glob("*.antt"):
            every |= {(crate, path.stem, name) for name in read_specs(crate, path.stem, {})[0]}
    reached &= every
    print("reached by the contracts of the claim:")
    print_files(reached)
    print("\nreached by none of them:")
    print_files(every - reached)


def main():
    words, printed, last = sys.argv[1:], set(), None
    if words == ["--claim"]:
        return print_claim()
    if words[:1] == ["--without-clause"] and len(words) == 2 and words[1] in listed_crates():
        return print_without_clause(words[1])
    ended = below(words.pop(words.index("--down-to") + 1).split(",")) if "--down-to" in words[:-1] else None
    asked = set(words) - {"--down-to"}
    for crate in listed_crates():
        for path, name, head, clauses in calls_of(CRATES / crate):
            if asked and not {name, name.split("::")[-1]} & asked:
                continue
            if path != last:
                print(f"\n{path.relative_to(CRATES.parent)}")
            print(f"\n  {name}\n{textwrap.indent(textwrap.dedent(head), '    ')}")
            last, printed = path, printed | {name, name.split("::")[-1]}
            if asked:
                print()
                reached = reached_by(clauses, scope_of(path.read_text()))
                if ended is None:
                    print_files(reached)
                else:
                    print_texts(reached, ended)
    if asked - printed:
        sys.exit(f"no public call: {', '.join(sorted(asked - printed))}")


if __name__ == "__main__":
    # Who reads it may stop early, as `head` does.
    signal.signal(signal.SIGPIPE, signal.SIG_DFL)
    main()
