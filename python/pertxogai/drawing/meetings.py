"""Which points of a drawing are one, as far as its words say so one by one."""

from __future__ import annotations

from collections.abc import Iterator
from copy import copy
from typing import Protocol

from pertxogai.classes import Classes
from pertxogai.drawing.constraints import (
    Coincident, Concentric, Constraint, Perpendicular, PointOn, Tangent, XDistance, YDistance)
from pertxogai.drawing.places import Place
from pertxogai.drawing.references import ORIGIN, Pair, PointRef, ShapeRef, Which


class Drawn(Protocol):
    """A drawing, as far as its points may be one."""

    @property
    def constraints(self) -> tuple[Constraint, ...]: ...

    def points(self) -> Iterator[PointRef]: ...

    def shared(self) -> tuple[Pair, ...]: ...

    def drawn(self, ref: PointRef) -> Place: ...


class Meetings:
    """The classes of points that coincide: because shapes share them, by `coincident`, by a
    `tangent` or `perpendicular` at an end, and the centres of concentric circles. What follows from
    other constraints isn't considered."""

    def __init__(self, drawing: Drawn) -> None:
        self._drawing = drawing
        order = [ORIGIN, *drawing.points()]
        self._rank = {point: place for place, point in enumerate(order)}
        self._classes: Classes[PointRef] = Classes()
        self._ahead: dict[int, tuple[XDistance | YDistance, bool]] = {}
        """By the identity of a distance, which is held so that none other gets it."""
        for pair in joined(drawing):
            self._join(pair)
        self._on = {(self.leader(each.point), each.curve) for each in drawing.constraints
                    if isinstance(each, PointOn)}

    def redrawn(self, drawing: Drawn) -> Meetings:
        """The classes of a drawing in which the same points coincide, with other drawn
        positions."""
        other = copy(self)
        other._drawing, other._ahead = drawing, {}
        return other

    def count(self) -> int:
        """The number of points beside the origin; points that coincide count once."""
        return len(self._rank) - 1 - len(self._classes.led())

    def led(self) -> Iterator[tuple[PointRef, PointRef]]:
        """Each point that coincides with an earlier one, with the first of these."""
        return ((point, self.leader(point)) for point in self._classes.led())

    def leader(self, point: PointRef) -> PointRef:
        """The first of the points that coincide with this one; the origin comes before all
        others."""
        return self._classes.leader(point)

    def _join(self, pair: Pair) -> None:
        first, second = sorted((self.leader(pair.first), self.leader(pair.second)),
                               key=lambda point: self._rank[point])
        self._classes.join(first, second)

    def drawn(self, point: PointRef) -> Place:
        """The drawn position that counts for a point: that of the first point of its class."""
        return self._drawing.drawn(self.leader(point))

    def is_ahead(self, distance: XDistance | YDistance) -> bool:
        """Whether the second point isn't drawn behind the first, along the axis."""
        key = id(distance)
        if key not in self._ahead:
            first, second = self.drawn(distance.first), self.drawn(distance.second)
            is_ahead = (second.x_um >= first.x_um if isinstance(distance, XDistance)
                        else second.y_um >= first.y_um)
            self._ahead[key] = distance, is_ahead
        return self._ahead[key][1]

    def same(self, first: PointRef, second: PointRef) -> bool:
        """Whether the two points coincide."""
        return self.leader(first) == self.leader(second)

    def corner(self, first: ShapeRef, second: ShapeRef) -> Pair | None:
        """The ends of two segments or arcs that coincide: the first such pair, or None."""
        ends = (Which.END, Which.START)
        for one in (PointRef(first.name, which) for which in ends):
            for other in (PointRef(second.name, which) for which in ends):
                if self.same(one, other):
                    return Pair(one, other)
        return None

    def contact(self, tangent: Tangent) -> Pair | None:
        """The point in which the two shapes of a tangent touch, as a point of each, if the
        drawing's words name one: an end of both, or an end of one that lies on the other."""
        corner = tangent.at or self.corner(tangent.first, tangent.second)
        if corner is not None:
            return corner
        for shape, other in ((tangent.first, tangent.second), (tangent.second, tangent.first)):
            for end in (PointRef(shape.name, Which.START), PointRef(shape.name, Which.END)):
                if (self.leader(end), other) in self._on:
                    return Pair(end, end)
        return None

    def touching(self, tangent: Tangent) -> Pair | None:
        """The point in which the two shapes of a tangent touch: that of `contact`, else the first
        that the drawing's words put on both."""
        contact = self.contact(tangent)
        return contact if contact is not None else self._on_both(tangent)

    def _on_both(self, tangent: Tangent) -> Pair | None:
        for each in self._drawing.constraints:
            if (isinstance(each, PointOn) and each.curve == tangent.first
                    and (self.leader(each.point), tangent.second) in self._on):
                return Pair(each.point, each.point)
        return None


JOINING_ALONE = Coincident, Concentric
"""What says that two points are one, and nothing else."""


def pair_of(constraint: Constraint) -> Pair | None:
    """The two points that a constraint says are one; None where it says that of none."""
    match constraint:
        case Coincident(first, second):
            return Pair(first, second)
        case Concentric(one, other):
            return Pair(PointRef(one.name, Which.CENTRE), PointRef(other.name, Which.CENTRE))
        case Tangent(at=at) | Perpendicular(at=at):
            return at
        case _:
            return None


def joins_points(constraint: Constraint) -> bool:
    """Whether it makes two points one: without it a drawing has other unknowns."""
    return pair_of(constraint) is not None


def joined(drawing: Drawn) -> Iterator[Pair]:
    """Each two points of which a word of the drawing says that they are one."""
    yield from drawing.shared()
    yield from filter(None, map(pair_of, drawing.constraints))
