"""The steps of whoever writes by an editor program, each of some commands of mgr, and which of them an undo takes back.

An undo of mgr takes back the newest command, and in a run of undos the one before that; each is a command in turn,
which a later one takes back. So whatever is to be undone is a place in the list of all commands: back to before that.
"""

# What an undo asks for: the step before, be it an undo; the newest step that stands; or the last undo itself.
UNDO, ONLY, REDO = "undo", "only", "redo"


class Steps:
    """How many commands there were, and where steps begin."""

    def __init__(self) -> None:
        self.count = 0
        self.begins: list[int] = []
        # Where the steps begin that stand, and undos that can be taken back.
        self.standing: list[int] = []
        self.undos: list[int] = []
        # In a run of undos, which command was taken back last.
        self.run: int | None = None

    def edited(self, joins: bool) -> None:
        """Takes note of a command, which may be of the step before if that is none of undos."""
        if not (joins and self.standing and self.begins[-1] == self.standing[-1] and self.run is None):
            self.begins.append(self.count)
            self.standing.append(self.count)
            self.undos.clear()
        self.count += 1
        self.run = None

    def target(self, kind: str, goes_on: bool) -> int | None:
        """Returns back to before which command an undo goes, if there is one; `goes_on` says that a run does."""
        if kind == UNDO:
            top = self.run if goes_on and self.run is not None else self.count
            return max((begin for begin in self.begins if begin < top), default=None)
        found = self.standing if kind == ONLY else self.undos
        return found[-1] if found else None

    def go_back(self, target: int) -> tuple[bool, int]:
        """Begins a step of undos; returns whether a new run of them has to begin, and how many they are."""
        is_new = self.run is None or target >= self.run
        top = self.count if is_new or self.run is None else self.run
        if target in self.standing[-1:]:
            self.undos.append(self.count)
            self.standing.pop()
        elif target in self.undos[-1:]:
            self.standing.append(self.count)
            self.undos.pop()
        else:
            self.standing.append(self.count)
            self.undos.clear()
        self.begins.append(self.count)
        self.run = target
        return is_new, top - target
