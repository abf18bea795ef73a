"""The table of the words of scenes, which each module beside this one fills."""

from play.notation import Unreadable

WORDS = {}


def word(do):
    """Makes a function a word of scenes."""
    WORDS[do.__name__.strip("_")] = do
    return do


def parted(about):
    """Returns what stands before and after a bar."""
    name, bar, text = about.partition("|")
    if not bar:
        raise Unreadable("a bar stands before a text")
    return name.strip(), text.strip()
