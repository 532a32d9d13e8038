"""Why the program gave no answer."""
from __future__ import annotations


class ProgramError(Exception):
    """The program gave no answer. The message is one line, and says what to do."""


class MissingProgram(ProgramError):
    """No program was found, or the file that was named can't be run."""


class ProgramCrashed(ProgramError):
    """The program ended in another way than with one of its statuses."""


class ProgramTimedOut(ProgramError):
    """The program didn't end in time, and was killed."""


class ProgramSpoke(ProgramError):
    """The program wrote something that isn't a report of its command."""
