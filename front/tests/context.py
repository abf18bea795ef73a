"""Makes the package known to the tests, wherever they are begun, and a program that takes the place of mgr."""

import json
import pathlib
import stat
import sys
import tempfile
import unittest
from collections.abc import Sequence

TESTS = pathlib.Path(__file__).resolve().parent
sys.path.insert(0, str(TESTS.parent))

BUFFER = {"changed": False, "name": "note", "unsaved": 0, "waiting": 0}
# The members of a status at the start, but for how many rows and operations stand after it.
MEMBERS: dict[str, object] = {"begun": False, "buffer": BUFFER, "cursor": [0, 0], "keys": 0, "live": BUFFER}
MEMBERS |= {"loaded": True, "message": "", "mode": "plain", "more": False, "places": [], "point": [0, 0, 0, 0]}
MEMBERS |= {"prompt": None, "refused": [], "reports": 0, "saved": "none", "windows": [[1, "note"]]}
OPERATION = '{"char":"a","id":[1,7],"op":"ins","parent":[0,0]}'


def written(frame: Sequence[str] = (), operations: int = 0, **members: object) -> bytes:
    """Returns a status as mgr writes it, with a frame and so many operations after it."""
    told = MEMBERS | {"rows": len(frame), "operations": operations} | members
    lines = [json.dumps(told, separators=(",", ":"), sort_keys=True), *frame, *[OPERATION] * operations]
    return "".join(f"{line}\n" for line in lines).encode()


class InFolder(unittest.TestCase):
    """A test with a folder of its own, in which stands a program in the place of mgr."""

    def setUp(self) -> None:
        folder = tempfile.TemporaryDirectory()
        self.addCleanup(folder.cleanup)
        self.folder = pathlib.Path(folder.name)
        program = self.folder / "mgr"
        program.write_text(f'#!/bin/sh\nexec {sys.executable} {TESTS / "fake_mgr.py"} "$@"\n')
        program.chmod(stat.S_IRWXU)
        self.mgr = str(program)

    def put(self, **files: str) -> None:
        """Writes files, whose names have `_` in place of a point."""
        for name, text in files.items():
            (self.folder / name.replace("_", ".")).write_text(text)

    def text(self, name: str) -> str:
        return (self.folder / name).read_text()

    def names(self) -> list[str]:
        """Returns the names of the files, but for that of the program."""
        return sorted(path.name for path in self.folder.iterdir() if path.name != "mgr")
