"""What stands in a folder with notes: texts, and logs with their lines and the texts that they show."""

import re
import shutil
import subprocess

from play.programs import Unexpected

SECONDS = 60

# The names of texts and logs, without those that are kept or are still to get their name.
NOTE = re.compile(r"\w+(\.ops)?$")


def put(folder, files):
    """Makes a folder that has these files alone."""
    shutil.rmtree(folder, ignore_errors=True)
    folder.mkdir()
    for name, data in files.items():
        (folder / name).write_bytes(data)


def expect(what, wanted, came):
    if came != wanted:
        raise Unexpected(f"{what} is {repr(came)[:300]}, and not {repr(wanted)[:300]}")


class Notes:
    """The texts and logs of a folder as they stand: the bytes of each."""

    def __init__(self, folder):
        paths = [path for path in folder.iterdir() if NOTE.match(path.name) and path.is_file()]
        self.files = {path.name: path.read_bytes() for path in paths}

    def lines(self, name):
        """Returns the lines of a log, in order of their bytes."""
        return sorted(self.files.get(name, b"").splitlines(keepends=True))

    def logs(self):
        return {name for name in self.files if name.endswith(".ops")}

    def texts(self):
        return set(self.files) - self.logs()


class Shown:
    """The texts of logs, by `mgr show`; each log is shown once."""

    def __init__(self, mgr):
        self.mgr, self.known = mgr, {}

    def text(self, log):
        """Returns the text of a log; one that is refused or torn is a fault."""
        if log not in self.known:
            ran = subprocess.run([self.mgr, "show"], input=log, capture_output=True, timeout=SECONDS)
            if ran.returncode:
                raise Unexpected(f"mgr show of a log ends with {ran.returncode}, and says {ran.stderr!r}")
            self.known[log] = ran.stdout
        return self.known[log]
