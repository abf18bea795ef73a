"""What threads post for a loop that waits on descriptors."""

import os
from collections import deque
from contextlib import suppress
from typing import Generic, TypeVar

Letter = TypeVar("Letter")


class Mailbox(Generic[Letter]):
    """Letters in their order, and a descriptor that is ready while there are some."""

    def __init__(self) -> None:
        self.letters: deque[Letter] = deque()
        self.woken, self.waker = os.pipe2(os.O_NONBLOCK | os.O_CLOEXEC)

    def post(self, letter: Letter) -> None:
        """Adds a letter; any thread may do so."""
        self.letters.append(letter)
        with suppress(BlockingIOError, BrokenPipeError):  # Whoever waits is woken already, or waits no more.
            os.write(self.waker, b"!")

    def take(self) -> list[Letter]:
        """Returns all that came."""
        with suppress(BlockingIOError):
            os.read(self.woken, 65536)
        return [self.letters.popleft() for _ in range(len(self.letters))]
