"""How far arcs run round their circles while a hand drags them, and which went past their own ends:
such an arc takes the other part of its circle from there on. By numbers."""
from __future__ import annotations

from collections import Counter
from collections.abc import Callable, Iterable, Mapping
from math import atan2, tau

from pertxogai.drawing import Arc, PointRef, Which
from pertxogai.search.unknowns import FloatPointNm

Where = Callable[[PointRef], FloatPointNm]
"""Where points lie, in nanometres."""


class Sweeps:
    """The sweeps of some arcs, as parts of a turn to the left from start to end, from one frame of
    a drag to the next."""

    def __init__(self, arcs: Iterable[Arc], where: Where, passed: Mapping[str, int]) -> None:
        """passed: what was passed before."""
        self._arcs = tuple(arcs)
        self._turns = Counter(passed)
        self._sweeps = self._at(where)

    def to(self, where: Where) -> None:
        """The arcs go on to these places, by less than half a turn each."""
        before, self._sweeps = self._sweeps, self._at(where)
        for name, sweep in self._sweeps.items():
            self._turns[name] += round(before[name] - sweep)

    def passed(self) -> dict[str, int]:
        """How often each arc went past its own end, to the left positive; without those that
        didn't, or came back as often."""
        return {name: turns for name, turns in self._turns.items() if turns}

    def _at(self, where: Where) -> dict[str, float]:
        return {arc.name: _sweep(arc.name, where) for arc in self._arcs}


def _sweep(name: str, where: Where) -> float:
    """The sweep of an arc."""
    (x, y), *ends = (where(PointRef(name, which))
                     for which in (Which.CENTRE, Which.START, Which.END))
    begin, end = (atan2(v - y, u - x) for u, v in ends)
    return (end - begin) / tau % 1.0
