"""How a command of ./pertxogai ends: its exit status, and the message if it can't do its work."""
from __future__ import annotations

from enum import IntEnum

__all__ = ["CommandError", "Exit", "MissingLibrary"]


class Exit(IntEnum):
    """The exit statuses of ./pertxogai."""

    GOOD = 0
    """All is good, as `pertxogai.judging.good` says it, or is drawn as it was asked for."""
    NOT_GOOD = 1
    """Something isn't, and a line says what."""
    BAD_INPUT = 2
    """The words or a file can't be read, or nothing can be written."""
    NO_ANSWER = 3
    """The program gave no answer."""


class CommandError(Exception):
    """What the user asked for can't be done. The message is one line, and says what to do."""


class MissingLibrary(CommandError):
    """A library of Python is missing: ezdxf, numpy, scipy or flask. The message is one line, and
    says how to get it."""
