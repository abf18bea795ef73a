"""Plays scenes, side by side, and says what differs."""

import os
from concurrent.futures import ThreadPoolExecutor
from dataclasses import dataclass

from play.notation import Unreadable
from play.programs import Unexpected
from play.stage import LeftOut, Stage
from play.words import WORDS, end_all


@dataclass
class Outcome:
    """What a play came to: how much was compared, and what differed, in lines that name their place."""

    compared: int
    faults: list[str]
    # Why it was not played to its end, though nothing differed.
    left_out: str = ""


def play_all(mgr, scenes):
    """Plays each scene, and each row of it, and returns what they came to, in order."""
    plays = [(scene, line, steps) for scene in scenes for line, steps in scene.plays()]
    with ThreadPoolExecutor(os.cpu_count()) as pool:
        return list(pool.map(lambda it: play(mgr, *it), plays))


def play(mgr, scene, line, steps):
    """Plays a scene once."""
    stage = Stage(mgr)
    try:
        faults = _faults(stage, scene, line, steps)
    except LeftOut as why:
        return Outcome(0, [], f"{scene.file}:{line}: left out: {why}")
    finally:
        stage.strike()
    if not faults and not stage.compared:
        faults = [f"{scene.file}:{line}: nothing is compared"]
    return Outcome(stage.compared, faults)


def _faults(stage, scene, line, steps):
    """Does each step up to one at which something differs, and returns what to say of it."""
    for step in steps:
        try:
            _do(stage, step)
        except LeftOut:
            raise
        except Exception as fault:  # Whatever it was, the other scenes go on.
            return _told(scene, line, step, fault)
    try:
        end_all(stage)
    except Unexpected as fault:
        return _told(scene, line, steps[-1], fault)
    return []


def _do(stage, step):
    if step.word not in WORDS:
        raise Unreadable(f"there is no word {step.word}")
    WORDS[step.word](stage, step.about)


def _told(scene, line, step, fault):
    at = f"{scene.file}:{step.line}"
    if line != scene.line:
        at += f" (row {line})"
    return [f"{at}: {step.word}: {it}" for it in fault.args or [fault]] + [f"    in: {scene.title}"]
