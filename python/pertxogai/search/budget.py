"""How much a search may take: steps and seconds, over all that it tries."""
from __future__ import annotations

from time import thread_time

from pertxogai.program.process import seconds_of_runs

MOST_STEPS = 400
MOST_SECONDS = 1.0


def spent_seconds() -> float:
    """The seconds of a processor that this thread, and the runs of the program that it has waited
    for, have taken so far: on a machine that does something else besides, the clock says
    nothing."""
    return thread_time() + seconds_of_runs()


class Budget:
    """Steps and seconds that are left. The seconds begin when it is made."""

    def __init__(self, steps: int = MOST_STEPS, seconds: float = MOST_SECONDS) -> None:
        self._steps = steps
        self._end = thread_time() + seconds

    def spend(self) -> None:
        """Takes one step."""
        self._steps -= 1

    def is_spent(self) -> bool:
        """Whether no step, or no time, is left."""
        return self._steps <= 0 or thread_time() >= self._end
