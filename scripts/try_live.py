#!/usr/bin/env python3
"""Runs mgr-live in a terminal of tmux, types, and looks at what the terminal shows.

The argument is a built mgr. Each step is said, with what was seen; the first one that shows
something else ends it, with the screen. `make try-live` calls it, and no test waits for it: it
needs tmux, which takes the place of a terminal and of somebody at it. Further words name the parts
that are tried; without them all are.
"""

import shutil
import sys

import live_ends
import live_files
import live_keys
import live_screen
import plain_ends  # noqa: F401
from terminal import ROOT, Server, Terminal, environment

FOLDER = ROOT / "build" / "try-live"
PARTS = {
    part.__name__: part for module in (live_screen, live_keys, live_files, live_ends) for part in module.PARTS
}


def attempt(server, mgr, name, part):
    """Runs one part, in a folder and a terminal of its own."""
    print(f"\n{name}: {part.__doc__}")
    folder = FOLDER / name
    folder.mkdir(parents=True)
    terminal = Terminal(server, name, folder, environment(mgr, folder))
    part(terminal)


def main():
    if len(sys.argv) < 2 or not set(sys.argv[2:]) <= set(PARTS):
        sys.exit(f"usage: try_live.py MGR [PART..], where PART is one of {', '.join(PARTS)}")
    shutil.rmtree(FOLDER, ignore_errors=True)
    server = Server()
    try:
        for name in sys.argv[2:] or PARTS:
            attempt(server, sys.argv[1], name, PARTS[name])
    finally:
        server.end()
    print("\nAll was seen as it should be.")


if __name__ == "__main__":
    main()
