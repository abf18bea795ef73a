"""Where a hub and those who write at it meet: a socket for each note in the person's own state folder, or a port."""

import os
import socket
from collections.abc import Iterator
from contextlib import contextmanager, suppress

from mgr_front.copies import digest, own_folder
from mgr_front.notes import HERE, Refused

HOST = "127.0.0.1"
BACKLOG = 64
SECONDS = 5.0


def socket_name(path: str) -> str:
    """Returns the name of the socket of a note, by the path of its text."""
    return digest(os.fsencode(os.path.realpath(os.path.join(HERE, path))))[:32]


def folder(makes: bool = False) -> str:
    return own_folder("hubs", makes=makes)


@contextmanager
def _place(path: str) -> Iterator[str]:
    """Gives the path of a note's socket, by a short name of its folder: the system takes no long one."""
    opened = os.open(folder(), os.O_RDONLY | os.O_DIRECTORY)
    try:
        yield f"/proc/self/fd/{opened}/{socket_name(path)}"
    finally:
        os.close(opened)


def listen(path: str) -> socket.socket:
    """Returns a listener for this note, for its owner alone; whoever has the note takes the place of a stale one."""
    folder(makes=True)
    leave(path)
    made = socket.socket(socket.AF_UNIX)
    with _place(path) as place:
        made.bind(place)
        os.chmod(place, 0o600)
    made.listen(BACKLOG)
    return made


def leave(path: str) -> None:
    """Removes the socket of this note."""
    with suppress(OSError, Refused):
        os.unlink(os.path.join(folder(), socket_name(path)))


def connect(path: str) -> socket.socket:
    """Returns a connection to the hub of a note of this machine; `OSError` if there is none."""
    made = socket.socket(socket.AF_UNIX)
    made.settimeout(SECONDS)
    try:
        with _place(path) as place:
            made.connect(place)
    except (OSError, Refused):
        made.close()
        raise
    return made


def is_served(path: str) -> bool:
    """Whether a hub of this machine has a note."""
    try:
        connect(path).close()
        return True
    except OSError:
        return False
