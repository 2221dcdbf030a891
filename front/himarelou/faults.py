"""What goes wrong: one kind of exception, told in one line; and text of others made fit for a terminal."""
import difflib
from collections.abc import Iterable


class Fault(Exception):
    """What the user has to mend: the project file, a source, a word of the command. Its text is the line told."""

    status = 2


class Broken(Fault):
    """What the machine refused: a file that can't be read or written, a program that is missing."""

    status = 3


class Stopped(Exception):
    """The user stopped the work; what was found so far is kept."""


def shown(text: str) -> str:
    """The text with each character escaped that a terminal could take for a command."""
    return "".join(it if it.isprintable() else it.encode("unicode_escape", "backslashreplace").decode() for it in text)


def did_you_mean(word: str, known: Iterable[str]) -> str:
    """A hint at the most similar of the known words, or nothing."""
    near = difflib.get_close_matches(word, list(known), 1, 0.6)
    return f"; did you mean {near[0]}?" if near else ""
