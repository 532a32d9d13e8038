"""How many things lie the other way round than they are drawn: what the package warns of, arcs that
have become the other part of their circle, and radii that aren't above 0."""
from __future__ import annotations

from collections.abc import Iterator
from math import atan2, pi, tau

from pertxogai.drawing import Arc, Drawing, PointOn, PointRef, Which
from pertxogai.judging.departures import Comparison, Departure, DepartureKind
from pertxogai.judging.edges import Edges
from pertxogai.judging.measure import Solution
from pertxogai.search.arrays import Array
from pertxogai.search.rounding import solution_of
from pertxogai.search.unknowns import FloatPointNm, Unknowns

OTHER_ARC = 0.85 * pi
"""An arc whose angle has changed by more is the other part of its circle."""


class Departures:
    """What is compared with the drawing, of one drawing."""

    def __init__(self, unknowns: Unknowns) -> None:
        self._unknowns = unknowns
        drawn = solution_of(unknowns, unknowns.drawn())
        self._drawn = dict(_angles(unknowns.drawing, drawn))
        self._comparison = Comparison(unknowns.drawing, drawn.radii)
        self._touching = set(_touching(unknowns))

    def count(self, x: Array) -> int:
        """How many there are where the unknowns are x."""
        drawing, placed = self._unknowns.drawing, solution_of(self._unknowns, x)
        arcs = sum(abs(angle - self._drawn[name]) > OTHER_ARC
                   for name, angle in _angles(drawing, placed))
        radii = int((x[2 * len(self._unknowns.points):] <= 0).sum())
        departures = self._comparison.departures(Edges(drawing, placed), False)
        counted = sum(map(self._counts, departures))
        return counted + arcs + radii

    def _counts(self, departure: Departure) -> bool:
        """Whether a departure counts: edges that are told to touch may cross by the rounding."""
        is_crossing = departure.departure is DepartureKind.CROSSES
        return not (is_crossing and frozenset(departure.shapes) in self._touching)


def _touching(unknowns: Unknowns) -> Iterator[frozenset[str]]:
    """The shapes of which an end of the one is told to lie on the other."""
    of_point: dict[PointRef, list[str]] = {}
    for ref in unknowns.drawing.points():
        of_point.setdefault(unknowns.leader(ref), []).append(ref.shape)
    for constraint in unknowns.drawing.constraints:
        if isinstance(constraint, PointOn):
            for shape in of_point.get(unknowns.leader(constraint.point), ()):
                yield frozenset((shape, constraint.curve.name))


def _angles(drawing: Drawing, placed: Solution) -> Iterator[tuple[str, float]]:
    """The angle of each arc about its centre, from its start to its end."""
    for shape in drawing.geometry:
        if isinstance(shape, Arc) and not shape.outer:
            centre, start, end = (_point(placed, shape.name, which)
                                  for which in (Which.CENTRE, Which.START, Which.END))
            yield shape.name, (_direction(centre, end) - _direction(centre, start)) % tau


def _point(placed: Solution, name: str, which: Which) -> FloatPointNm:
    x, y = placed.spot(PointRef(name, which))
    return float(x), float(y)


def _direction(centre: FloatPointNm, point: FloatPointNm) -> float:
    return atan2(point[1] - centre[1], point[0] - centre[0])
