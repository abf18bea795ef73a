"""The words of a scene, and what each does or compares."""

from play.words import files, jobs, looks, meeting, reports  # noqa: F401 (each fills the table)
from play.words.people import end_all  # noqa: F401
from play.words.table import WORDS  # noqa: F401
