"""What a program says for itself on standard error, and what it asks on the terminal."""

import sys
from collections.abc import Callable, Sequence
from contextlib import suppress
from typing import NoReturn

from mgr_front.cells import clean
from mgr_front.screen import write_all

# Statuses of the front's own: a text that is refused; a failed device, or none.
REFUSED, FAILED = 1, 3

# Who says and asks, and what asks in place of the terminal.
speaker = "mgr-live"
chooser: Callable[[str, Sequence[str], str], str] | None = None


def speak_for(program: str, choose: Callable[[str, Sequence[str], str], str] | None = None) -> None:
    """Has this program say what is said, and this ask what is asked, if it is not asked on the terminal."""
    global speaker, chooser
    speaker, chooser = program, choose


def tell(what: str) -> None:
    # If the terminal is gone, so is whoever would read this.
    with suppress(OSError):
        write_all(clean(f"{speaker}: {what}\n", "\n").encode(), to=2)


def stop(what: str, status: int = FAILED) -> NoReturn:
    tell(what)
    sys.exit(status)


def answer(asked: str) -> str:
    """Returns the line that is answered; ends the program if the answers end."""
    try:
        return input(asked).strip()
    except UnicodeDecodeError:
        return ""
    except (EOFError, KeyboardInterrupt):
        print()
        stop("nothing was done")


def choice(question: str, *letters: str, default: str = "") -> str:
    """Asks for one of these letters until it is given. An empty answer is the default, if there is one."""
    if chooser:
        return chooser(question, letters, default)
    print(clean(question, "\n"), end="")
    asked = f"{', '.join(letters[:-1])} or {letters[-1]}? "
    while (answered := answer(asked).lower() or default) not in letters:
        pass
    return answered
