"""Within what the program is asked to place a drawing."""
from __future__ import annotations

from collections.abc import Sequence
from typing import NamedTuple

from pertxogai.judging.measure.limit import DEFAULT, MOST, Limit
from pertxogai.program import Answer, Solver
from pertxogai.spelling import Spelled

KEY = "within="


def within(spelled: Spelled) -> str:
    """The key that asks for places within a micrometre of the drawing: so many times of it as the
    sketch is larger. How far each constraint is off is measured on the places."""
    return f"{KEY}{min(MOST, DEFAULT * spelled.scale)}"


class Wider(NamedTuple):
    """A program that is asked with as many times each limit as one is greater than the language's
    own; a smaller one is a matter of what is measured alone."""

    program: Solver
    limit: Limit

    def ask(self, words: Sequence[str], text: str) -> Answer:
        """Asks the program. Raises ProgramError."""
        return self.program.ask([self._widen(word) for word in words], text)

    def _widen(self, word: str) -> str:
        if not word.startswith(KEY) or self.limit.amount <= DEFAULT:
            return word
        wider = int(word.removeprefix(KEY)) * self.limit.amount // DEFAULT
        return f"{KEY}{min(MOST, wider)}"
