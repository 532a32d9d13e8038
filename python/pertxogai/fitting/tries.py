"""How the program is asked for a case, in one way after the other, and what comes of each."""
from __future__ import annotations

from collections.abc import Mapping
from dataclasses import dataclass
from enum import Enum

from pertxogai.judging.measure import Solution

MOST_FAILURES = 3
"""Of a way to ask this number of failures is borne, and one more for each success."""


class AskBy(Enum):
    """A way to ask for a case."""

    TURNED = "turned"
    """By the sketch of the drawing itself, of which the lines turn with the angles that are
    off."""
    KEPT = "kept"
    """By the sketch of the drawing with the same angles off, which is kept."""
    FINE = "fine"
    """Encoded anew, with its angles told finely at once."""
    ANY = "any"
    """As any drawing is asked for."""


@dataclass(frozen=True)
class Lying:
    """Where a drawing lies. off_nm: how far that constraint is off which is off most."""

    solution: Solution
    off_nm: int


@dataclass(frozen=True)
class Tried:
    """What came of one way. lying: where the drawing lies. why: why it isn't placed, by whatever
    way. Where there is neither, the next way is tried. is_asked: whether the program was asked."""

    lying: Lying | None = None
    why: str = ""
    is_asked: bool = True

    @property
    def is_last(self) -> bool:
        """Whether no other way has to be tried."""
        return self.lying is not None or bool(self.why)


Tries = Mapping[AskBy, Tried]
"""What came of the ways to ask for one case that were tried."""


class Luck:
    """Whether a way is still tried, which mostly failed lately."""

    def __init__(self) -> None:
        self._left = MOST_FAILURES

    @property
    def is_left(self) -> bool:
        """Whether it is worth a try."""
        return self._left > 0

    def note(self, tried: Tried) -> None:
        """Takes what came of a try."""
        if tried.is_asked:
            self._left = min(MOST_FAILURES, self._left + 1) if tried.is_last else self._left - 1
