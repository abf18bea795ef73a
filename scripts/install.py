#!/usr/bin/env python3
"""Installs mgr, or removes it: the one list of what goes where, for `make install` and for `make dist`.

usage: install.py put|remove FOLDER=PATH.., with the folders that the Makefile names, and DESTDIR, which is put before them.
"""

import pathlib
import shutil
import sys

import plain_ends  # noqa: F401

TOP = pathlib.Path(__file__).resolve().parent.parent
FRONT = TOP / "front"
PROGRAMS = ("mgr-live", "mgr-channel", "mgr-hub")
# A script of the front finds its modules by this line, and a manual names documents by this folder.
INSTALLED, DOCUMENTS = "INSTALLED = ", ".Pa share/doc/mgr/"

# The files that are copied as they are, by their folders, each under its own name or under the one that is given.
FILES = {
    "MANDIR": {"man1/mgr.1": "docs/mgr.1", "man1/mgr-live.1": "docs/mgr-live.1"},
    "DOCDIR": {"guide.md": "docs/guide.md", "commands.md": "docs/commands.md"},
    "COMPDIR": {"mgr": "front/completions.bash"},
    "ZSHDIR": {"_mgr": "front/completions.zsh"},
    "FISHDIR": {"mgr.fish": "front/completions.fish"},
    "LISPDIR": {"mgr.el": "editors/emacs/mgr.el"},
}
LINKS = {
    "MANDIR": {f"man1/{name}.1": "mgr-live.1" for name in ("mgr-channel", "mgr-hub")},
    "COMPDIR": {name: "mgr" for name in PROGRAMS},
    "FISHDIR": {f"{name}.fish": "mgr.fish" for name in PROGRAMS},
}
# Where modules are that an earlier version may have had and this one has not.
MODULES = ("mgr_front", "mgr_front/channels")


class Place:
    """The folders that files go to, below DESTDIR if one is named."""

    def __init__(self, words):
        self.folders = dict(word.split("=", 1) for word in words)
        self.root = self.folders.pop("DESTDIR", "")

    def __call__(self, folder, name=""):
        return pathlib.Path(self.root + self.folders[folder]) / name

    def files(self):
        """Yields each file that is copied: what it is, and where it goes."""
        for folder, names in FILES.items():
            yield from ((TOP / source, self(folder, name)) for name, source in names.items())
        for module in MODULES:
            yield from ((path, self("DATADIR", module) / path.name) for path in sorted((FRONT / module).glob("*.py")))

    def links(self):
        for folder, names in LINKS.items():
            yield from ((self(folder, name), target) for name, target in names.items())

    def programs(self):
        return [self("BINDIR", name) for name in ("mgr", *PROGRAMS)]


def fresh(path):
    """Makes room for a file: one that runs goes on as it was."""
    path.parent.mkdir(parents=True, exist_ok=True)
    path.unlink(missing_ok=True)
    return path


def put(place, mgr=TOP / "build" / "mgr"):
    """Copies all that is installed."""
    for module in MODULES:
        for old in place("DATADIR", module).glob("*.py"):
            old.unlink()
    for source, target in place.files():
        text = source.read_text()
        if target.suffix == ".1":
            text = text.replace(DOCUMENTS, f".Pa {place.folders['DOCDIR']}/")
        fresh(target).write_text(text)
        target.chmod(0o644)
    for link, target in place.links():
        fresh(link).symlink_to(target)
    shutil.copyfile(mgr, fresh(place("BINDIR", "mgr")))
    for name in PROGRAMS:
        lines = (FRONT / name).read_text().splitlines(keepends=True)
        known = [f'{INSTALLED}"{place.folders["DATADIR"]}"\n' if line.startswith(INSTALLED) else line for line in lines]
        fresh(place("BINDIR", name)).write_text("".join(known))
    for program in place.programs():
        program.chmod(0o755)


def remove(place):
    """Removes what `put` copied, and of the folders those that are mgr's own and empty then."""
    for path in [*place.programs(), *(target for _, target in place.files()), *(link for link, _ in place.links())]:
        path.unlink(missing_ok=True)
    shutil.rmtree(place("DATADIR", "mgr_front"), ignore_errors=True)
    for folder in (place("DATADIR"), place("DOCDIR")):
        if folder.is_dir() and not any(folder.iterdir()):
            folder.rmdir()


def main():
    if len(sys.argv) < 2 or sys.argv[1] not in ("put", "remove"):
        sys.exit(__doc__.split("\n\n")[1].strip())
    try:
        {"put": put, "remove": remove}[sys.argv[1]](Place(sys.argv[2:]))
    except OSError as fault:
        sys.exit(f"install.py: {fault.filename}: {fault.strerror}")


if __name__ == "__main__":
    main()
