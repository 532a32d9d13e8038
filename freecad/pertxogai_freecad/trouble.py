"""What can't be done, told in one line."""
from __future__ import annotations

from collections.abc import Iterator
from contextlib import contextmanager


class Trouble(Exception):
    """What the user asked for can't be done. The message is one line, and says what to do."""


class NotGoodTrouble(Trouble):
    """It can't be done of this sketch, since that isn't good."""


@contextmanager
def troubles() -> Iterator[None]:
    """Raises Trouble for whatever the package refuses, with the package's own line, and for what
    the system does."""
    from pertxogai.exits import CommandError
    from pertxogai.files.contents import FileRefusal
    from pertxogai.judging import DrawingRefused
    from pertxogai.judging.claims import NotAccepted
    from pertxogai.language import NotHeld, Refusal
    from pertxogai.program import ProgramError

    try:
        yield
    except (CommandError, FileRefusal, DrawingRefused, NotAccepted, NotHeld, Refusal,
            ProgramError, OSError) as refused:
        raise Trouble(" ".join(str(refused).split())) from None
