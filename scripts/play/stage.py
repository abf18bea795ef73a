"""The stage of one scene: each person's folder, and what runs in it."""

import os
import pathlib
import shutil
import tempfile

from play.inputs import Whole
from play.notation import text_of
from play.peers import free_port

MOST_TOLD = 2000


class Difference(Exception):
    """Something that came, and something else that was wanted."""

    def __init__(self, wanted, came):
        super().__init__(f"wanted {brief(wanted)}", f"came   {brief(came)}")


def brief(text):
    """Returns a text, or the begin of a long one and its length."""
    return text if len(text) <= MOST_TOLD else f"{text[:MOST_TOLD]}.. ({len(text)} signs)"


class LeftOut(Exception):
    """What a scene needs is not on this machine."""


class Person:
    """A folder, the session in it, and the job that was done there last."""

    def __init__(self, folder):
        self.folder = folder
        self.session = None
        self.job = None
        # The status and the standard error of what ended last.
        self.ended = None
        # Whether anything was begun: files are put before, and compared after it.
        self.has_begun = False
        # How large each file may become.
        self.takes = None
        # What sessions and jobs run under: words of a command.
        self.under = []
        # Where their calls are noted.
        self.noted = None
        # At its `start`, or at `keys`: which call of the session is delayed, and what is done meanwhile, as a line of a scene.
        self.meanwhile = {}
        self.await_job()

    def await_job(self):
        """The next job reads nothing, and nothing confines it."""
        self.input = Whole(b"")
        # How many bytes there is room for of what it writes, how many are taken at a time, and how much
        # memory it is given; and which of its standard streams is closed.
        self.room = self.most = self.memory = self.closed = None


class Stage:
    """All that a scene is played on, under a folder that goes with it."""

    def __init__(self, mgr):
        self.mgr = mgr
        self.root = tempfile.mkdtemp(prefix="mgr-scene-")
        self.people = {}
        self.peer = None
        # What another program has locked.
        self.locked = None
        self.compared = 0
        self._port = None
        self.meet("one")

    def meet(self, name, beside=None):
        """Has a person of that name go on, in a folder of its own or of another."""
        if name not in self.people:
            folder = self.people[beside].folder if beside else pathlib.Path(self.root, name)
            folder.mkdir(exist_ok=True)
            self.people[name] = Person(folder)
        self.person = self.people[name]

    @property
    def port(self):
        """The port at which all meet."""
        if self._port is None:
            self._port = free_port()
        return self._port

    def sessions(self):
        return [it.session for it in self.people.values() if it.session]

    def path(self, name):
        return os.path.join(self.person.folder, text_of(name).decode())

    def compare(self, wanted, came, written=str):
        self.compared += 1
        if wanted != came:
            raise Difference(written(wanted), written(came))

    def strike(self):
        """Ends what still runs, and takes the folder away."""
        for session in self.sessions():
            session.kill()
        if self.peer:
            self.peer.end()
        if self.locked:
            self.locked.close()
        for person in self.people.values():
            # It may be one that nobody may write.
            os.chmod(person.folder, 0o700)
        shutil.rmtree(self.root)
