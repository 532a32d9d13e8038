"""A placed drawing in floats, as one looks at it: points, ways, corners. A place or a way is a
complex number, x + y i, in micrometres; an angle is in degrees."""
from __future__ import annotations

from cmath import phase
from collections.abc import Iterator
from math import degrees, hypot

from pertxogai.drawing import (
    DATUM_NAMES, ORIGIN, AngleBetween, Arc, Circle, Coincident, Constraint, Drawing, Fixed,
    Parallel, Perpendicular, PointRef, Segment, ShapeRef, Which, points_of)
from pertxogai.drawing.mentions import named

LEAST_UM = 1.0
"""An edge that is shorter has no direction."""


class Figure:
    """The shapes of a drawing that aren't outer, and where they lie. size_um: the greatest of the
    width and the height over its points, and of the diameters. drawn: the same as it is drawn."""

    def __init__(self, placed: Drawing, drawn: Drawing | None = None) -> None:
        self.drawing, self._drawn = placed, drawn or placed
        self._at: dict[PointRef, complex] = {}
        own = [shape for shape in placed.geometry if not shape.outer]
        self.edges = [shape for shape in own
                      if isinstance(shape, Segment) and self.length_um(shape) >= LEAST_UM]
        self.circles = [shape for shape in own if isinstance(shape, Circle)]
        self.arcs = [shape for shape in own if isinstance(shape, Arc)]
        self.points = tuple(self._points())
        places = [self.at(ref) for ref in self.points] or [0j]
        widths = [max(values) - min(values) for values in (
            [place.real for place in places], [place.imag for place in places])]
        rims: list[Circle | Arc] = [*self.circles, *self.arcs]
        self.size_um = max(*widths, *(2 * self.radius_um(rim) for rim in rims))

    def _points(self) -> Iterator[PointRef]:
        """The points of the shapes, centres before others; of those that are one the first."""
        own = (ref for shape in self.drawing.geometry if not shape.outer
               for ref in points_of(shape))
        seen: set[PointRef] = set()
        for ref in sorted(own, key=lambda ref: ref.which is not Which.CENTRE):
            if self.leader(ref) not in seen:
                seen.add(self.leader(ref))
                yield ref

    def leader(self, ref: PointRef) -> PointRef:
        """The one that stands for the points that are told to be one with a point."""
        return self.drawing.meetings.leader(ref)

    def at(self, ref: PointRef) -> complex:
        """Where a point lies."""
        if ref not in self._at:
            place = self.drawing.meetings.drawn(ref)
            self._at[ref] = complex(place.x_um, place.y_um)
        return self._at[ref]

    def drawn_at(self, ref: PointRef) -> complex:
        """Where a point is drawn."""
        place = self._drawn.meetings.drawn(ref)
        return complex(place.x_um, place.y_um)

    def way(self, edge: Segment) -> complex:
        """The way from an edge's start to its end."""
        start, end = ends(edge)
        return self.at(end) - self.at(start)

    def length_um(self, edge: Segment) -> float:
        """How long an edge is."""
        return abs(self.way(edge))

    def apart_um(self, first: PointRef, second: PointRef) -> float:
        """How far two points are apart."""
        return abs(self.at(second) - self.at(first))

    def beside(self, point: PointRef, edge: Segment) -> complex:
        """Where a point lies seen along an edge from its start: the real part says how far along
        it, in its lengths, and the imaginary part how far to the left of it."""
        return (self.at(point) - self.at(ends(edge)[0])) / self.way(edge)

    def off_um(self, point: PointRef, edge: Segment) -> float:
        """How far a point lies off the line of an edge."""
        return abs(self.beside(point, edge).imag) * self.length_um(edge)

    def radius_um(self, rim: Circle | Arc) -> float:
        """The radius of a circle or an arc. That of an arc isn't rounded: where a drawing is
        placed, its touches hold to a nanometre."""
        if isinstance(rim, Circle):
            return float(rim.radius_um)
        middle, start = map(self.drawing.drawn, (centre(rim), ends(rim)[0]))
        return hypot(*map(float, middle.way_to(start)))

    def turn(self, first: Segment, second: Segment) -> float:
        """By how much the first edge has to turn to the left to run as the second."""
        return degrees(phase(self.way(second) / self.way(first)))

    def corner(self, first: Segment, second: Segment) -> tuple[PointRef, PointRef] | None:
        """The ends of two edges that are one point, if any."""
        pair = self.drawing.meetings.corner(ShapeRef(first.name), ShapeRef(second.name))
        return (pair.first, pair.second) if pair else None


class Sketched(Figure):
    """A drawing as it is drawn, moved to the origin. If constraints put points on the origin, and
    no other ties the drawing to it or to the axes, all of it is moved so that the mean of the
    places of these points lies there; the search moves it so, too. Each edge has its drawn length
    and direction, also if one of its ends coincides with a point that is drawn elsewhere."""

    def __init__(self, drawing: Drawing, given: Drawing | None = None) -> None:
        """given: the same without what is proposed, which ties nothing yet."""
        given = given or drawing
        tied = dict.fromkeys(given.drawn(ref) for ref in given.points()
                             if given.meetings.leader(ref) == ORIGIN)
        alone = tied and not any(map(_places, given.constraints))
        drawn = sum((complex(each.x_um, each.y_um) for each in tied), 0j)
        self._moved = drawn / len(tied) if alone else 0j
        super().__init__(drawing)

    def at(self, ref: PointRef) -> complex:
        return 0j if self.leader(ref) == ORIGIN else super().at(ref) - self._moved

    def way(self, edge: Segment) -> complex:
        start, end = map(self.drawing.drawn, ends(edge))
        return complex(end.x_um - start.x_um, end.y_um - start.y_um)


def _places(constraint: Constraint) -> bool:
    """Whether it says where something lies, from the origin or the axes, or as drawn; a direction
    says only how it runs."""
    return isinstance(constraint, Fixed) or not isinstance(
        constraint, (AngleBetween, Coincident, Parallel, Perpendicular)
    ) and not DATUM_NAMES.isdisjoint(named(constraint))


def ends(edge: Segment | Arc) -> tuple[PointRef, PointRef]:
    """The start and the end of an edge."""
    return PointRef(edge.name, Which.START), PointRef(edge.name, Which.END)


def centre(rim: Circle | Arc) -> PointRef:
    """The centre of a circle or an arc."""
    return PointRef(rim.name, Which.CENTRE)
