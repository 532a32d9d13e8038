"""The shapes that stand, looked up by name: the datum from the start, and those added since; and
the named values."""

from __future__ import annotations

from collections.abc import Iterable
from copy import copy
from fractions import Fraction
from functools import lru_cache

from pertxogai.cached import cached_on
from pertxogai.drawing.geometry import (
    Anchor, Arc, Axis, Circle, Datum, Origin, Point, Segment, Shape)
from pertxogai.drawing.places import NM_PER_UM, Place
from pertxogai.drawing.references import ORIGIN, X_AXIS, Y_AXIS, PointRef, Which
from pertxogai.drawing.roots import root_near
from pertxogai.drawing.values.table import Values
from pertxogai.exact import whole_near


class NamedShapes:
    """Shapes by their names, and `values`, which have other names. All lookups of shapes raise
    KeyError for an unknown name."""

    def __init__(self, shapes: Iterable[Shape] = (), values: Values = Values()) -> None:
        self.values = values
        self._shapes: dict[str, Shape | Datum] = {
            ORIGIN.shape: Origin(), X_AXIS.name: Axis(False), Y_AXIS.name: Axis(True)}
        self._drawn: dict[PointRef, Place] = {}
        self._drawn_nm: dict[PointRef, tuple[int, int]] = {}
        for shape in shapes:
            self.add(shape)

    def with_values(self, values: Values) -> NamedShapes:
        """The same shapes, beside other values."""
        other = copy(self)
        other.values = values
        return other

    def add(self, shape: Shape) -> None:
        """Adds a shape, whose name must be free."""
        self._shapes[shape.name] = shape

    def names(self) -> tuple[str, ...]:
        """All names, those of the datum first."""
        return tuple(self._shapes)

    def has(self, name: str) -> bool:
        """Whether a shape, or a part of the datum, has that name."""
        return name in self._shapes

    def shape(self, name: str) -> Shape | Datum:
        """The shape of that name, or that part of the datum."""
        return self._shapes[name]

    def points(self, name: str) -> tuple[PointRef, ...]:
        """The points of a shape, or the datum's origin; an axis has none."""
        shape = self.shape(name)
        match shape:
            case Origin():
                return (ORIGIN,)
            case Axis():
                return ()
            case _:
                return points_of(shape)

    def drawn(self, ref: PointRef) -> Place:
        """Where a point is drawn."""
        known = self._drawn.get(ref)
        if known is None:
            spot = spot_of(self.shape(ref.shape), ref.which)
            known = self._drawn[ref] = self.drawn(spot) if isinstance(spot, PointRef) else spot
        return known

    def drawn_nm(self, ref: PointRef) -> tuple[int, int]:
        """Where a point is drawn, in whole nanometres."""
        known = self._drawn_nm.get(ref)
        if known is None:
            at = self.drawn(ref)
            known = self._drawn_nm[ref] = (whole_near(at.x_um * NM_PER_UM),
                                           whole_near(at.y_um * NM_PER_UM))
        return known

    def drawn_radius_um(self, name: str) -> Fraction:
        """The drawn radius of a circle or an arc, in micrometres; an arc's is the distance of
        its drawn centre and start, to the nearest micrometre and at least 1."""
        shape = self.shape(name)
        if isinstance(shape, Circle):
            return shape.radius_um
        centre = self.drawn(PointRef(name, Which.CENTRE))
        start = self.drawn(PointRef(name, Which.START))
        square = (start.x_um - centre.x_um) ** 2 + (start.y_um - centre.y_um) ** 2
        return Fraction(max(1, root_near(square)))


def points_of(shape: Shape) -> tuple[PointRef, ...]:
    """The points of a shape, in the order of its line in the text."""
    return _points(shape.name, _WHICH[type(shape)])


@lru_cache(maxsize=16_384)
def _points(name: str, which: tuple[Which, ...]) -> tuple[PointRef, ...]:
    """These points of a shape of that name."""
    return tuple(PointRef(name, each) for each in which)


@cached_on
def shares(shape: Shape) -> bool:
    """Whether a shape has a point of another."""
    return any(isinstance(spot_of(shape, ref.which), PointRef) for ref in points_of(shape))


_AT_ORIGIN = Place(Fraction(0), Fraction(0))
_WHICH: dict[type[Shape], tuple[Which, ...]] = {
    Point: (Which.AT,),
    Segment: (Which.START, Which.END),
    Circle: (Which.CENTRE,),
    Arc: (Which.CENTRE, Which.START, Which.END),
}


def spot_of(shape: Shape | Datum, which: Which) -> Anchor:
    """The anchor of one point of a shape. Raises KeyError if the shape has no such point."""
    match shape:
        case Origin() if which is Which.AT:
            return _AT_ORIGIN
        case Point() if which is Which.AT:
            return shape.at
        case Segment() | Arc() if which is Which.START:
            return shape.start
        case Segment() | Arc() if which is Which.END:
            return shape.end
        case Circle() | Arc() if which is Which.CENTRE:
            return shape.centre
    raise KeyError(which)
