"""Reads files of scenes.

A scene begins with a line `# TITLE`. Each line after it is a word and what it is about. If the
first is `rows`, its columns are named there, the indented lines below it are the rows, with ` / `
between cells, and the scene is played once for each of them, with `<column>` as the cell says.
"""

import re
from dataclasses import dataclass, field

from play.notation import Unreadable


@dataclass
class Step:
    """A word of a scene, what it is about, and where it stands."""

    line: int
    word: str
    about: str


@dataclass
class Scene:
    title: str
    file: str
    line: int
    columns: list[str] = field(default_factory=list)
    rows: list[tuple[int, list[str]]] = field(default_factory=list)
    steps: list[Step] = field(default_factory=list)

    def plays(self):
        """Returns each play of the scene: the line to be named, and its steps."""
        if not self.columns:
            return [(self.line, self.steps)]
        return [(line, self._filled(cells)) for line, cells in self.rows]

    def _filled(self, cells):
        of = dict(zip(self.columns, cells))
        fill = lambda about: re.sub(r"<(\w+)>", lambda found: of.get(found[1], found[0]), about)
        return [Step(step.line, step.word, fill(step.about)) for step in self.steps]


class Misread(Unreadable):
    """A line of a file that can't be read."""

    def __init__(self, file, line, why):
        super().__init__(f"{file}:{line}: {why}")


def scenes_of(path):
    """Returns the scenes of a file."""
    scenes = []
    for number, line in enumerate(path.read_text(encoding="utf-8").split("\n"), 1):
        if line.startswith("# "):
            scenes.append(Scene(line[2:].strip(), str(path), number))
        elif line.strip():
            if not scenes:
                raise Misread(path, number, "no scene has begun")
            _add(scenes[-1], number, line)
    if not scenes:
        raise Misread(path, 1, "there is no scene")
    for scene in scenes:
        if scene.columns and not scene.rows:
            raise Misread(path, scene.line, "a table has no row")
    return scenes


def _add(scene, number, line):
    word, _, about = line.strip().partition(" ")
    if line[0] == " ":
        _add_row(scene, number, line)
    elif word == "rows":
        if scene.columns or scene.steps:
            raise Misread(scene.file, number, "rows come first, and once")
        scene.columns = cells_of(about)
    else:
        scene.steps.append(Step(number, word, about.strip()))


def _add_row(scene, number, line):
    cells = cells_of(line)
    if not scene.columns or scene.steps or len(cells) != len(scene.columns):
        raise Misread(scene.file, number, f"{len(cells)} cells stand where {len(scene.columns)} columns are")
    scene.rows.append((number, cells))


def cells_of(line):
    return [cell.strip() for cell in re.split(r" /(?= )", f" {line.strip()} ")]
