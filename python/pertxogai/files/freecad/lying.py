"""Which points a sketch's constraints put on which shapes, as far as they say so one by one."""

from __future__ import annotations

from collections.abc import Iterable, Iterator

from pertxogai.classes import Classes
from pertxogai.drawing import (
    ORIGIN, X_AXIS, Y_AXIS, Collinear, Constraint, PointOn, PointRef, ShapeRef, Which)
from pertxogai.drawing.meetings import pair_of


class Lying:
    """The points that constraints make one, and the shapes that they put these on."""

    def __init__(self, said: Iterable[Constraint] = ()) -> None:
        self._one: Classes[PointRef] = Classes()
        put: list[tuple[PointRef, ShapeRef]] = [(ORIGIN, X_AXIS), (ORIGIN, Y_AXIS)]
        for each in said:
            pair = pair_of(each)
            if pair is not None:
                self._one.join(pair.first, pair.second)
            put += _put(each)
        self._on = {(self._one.leader(point), shape) for point, shape in put}

    def is_on(self, point: PointRef, shape: ShapeRef) -> bool:
        """Whether a point is an end of a shape, is made one with such an end, or is put on it."""
        return ((self._one.leader(point), shape) in self._on
                or any(self._one.are_one(point, end) for end in _ends(shape)))


def _put(constraint: Constraint) -> Iterator[tuple[PointRef, ShapeRef]]:
    """Which points a constraint puts on which shapes: also the ends of lines that are one line."""
    match constraint:
        case PointOn(point, shape):
            yield point, shape
        case Collinear(first, second):
            yield from ((end, second) for end in _ends(first))
            yield from ((end, first) for end in _ends(second))


def _ends(shape: ShapeRef) -> tuple[PointRef, PointRef]:
    return PointRef(shape.name, Which.START), PointRef(shape.name, Which.END)
