"""The dimensions that a designer may give a placed drawing, with the values that they have there,
by kind and in the order in which a designer gives them."""
from __future__ import annotations

from cmath import phase
from collections.abc import Callable, Iterator, Sequence
from enum import Enum
from fractions import Fraction
from itertools import combinations
from math import degrees

from pertxogai.completing.figure import Figure, ends
from pertxogai.completing.values import round_degrees, round_um
from pertxogai.drawing import (
    ORIGIN, X_AXIS, Y_AXIS, AngleBetween, Circle, Coincident, Constraint, Degrees, Diameter,
    Distance, Horizontal, Length, Pair, Perpendicular, PointLineDistance, PointOn, PointRef, Radius,
    Segment, Sense, ShapeRef, Vertical, XDistance, YDistance)

LEAST_UM, LEAST_PART = 1.0, 2e-4
"""What is shorter, and shorter than this part of the drawing's size, is nothing."""
LEAST_DEGREES = 0.5
"""Edges that run nearer to each other make no angle."""
SLANT = 1e-6
"""An edge is slanted that rises by more than this part of its length."""
MOST_EACH = 2000
"""The most dimensions of a kind that are looked at: of a large drawing those of the points and
edges that are drawn first."""


class Kind(Enum):
    """What a dimension tells."""

    SIZE = "size"
    """The diameter of a circle, the radius of an arc."""
    LENGTH = "length"
    """The length of an edge."""
    RUN = "run"
    """x or y of a point."""
    HEIGHT = "height"
    """The distance of a point from an edge."""
    APART = "apart"
    """The distance of two points."""
    ANGLE = "angle"
    """The angle of two edges, or of an edge and the x axis."""


ORDERS = (
    (Kind.SIZE, Kind.LENGTH, Kind.RUN, Kind.HEIGHT, Kind.APART, Kind.ANGLE),
    (Kind.SIZE, Kind.RUN, Kind.LENGTH, Kind.HEIGHT, Kind.APART, Kind.ANGLE),
    (Kind.RUN, Kind.HEIGHT, Kind.LENGTH, Kind.SIZE, Kind.APART, Kind.ANGLE),
)
"""The orders of kinds, as they are tried."""


def dimensions(figure: Figure, kind: Kind, base: PointRef) -> Iterator[Constraint]:
    """Those of a kind; x and y are told from the base, which is the origin or a point."""
    match kind:
        case Kind.SIZE:
            yield from _sizes(figure)
        case Kind.LENGTH:
            yield from _lengths(figure)
        case Kind.RUN:
            yield from runs(figure, base, figure.points)
        case Kind.HEIGHT:
            yield from _heights(figure)
        case Kind.APART:
            yield from _distances(figure)
        case Kind.ANGLE:
            yield from _angles(figure)


def _sizes(figure: Figure) -> Iterator[Constraint]:
    names = [*(circle.name for circle in figure.circles), *(arc.name for arc in figure.arcs)]
    yield from (size_of(figure, name) for name in names)


def size_of(figure: Figure, name: str) -> Constraint:
    """The diameter of a circle, or the radius of an arc."""
    radius_um = float(figure.drawing.drawn_radius_um(name))
    if isinstance(figure.drawing.shape(name), Circle):
        return Diameter(ShapeRef(name), round_um(2 * radius_um))
    return Radius(ShapeRef(name), round_um(radius_um))


def _lengths(figure: Figure) -> Iterator[Constraint]:
    """The level edges first."""
    def is_slanted(edge: Segment) -> bool:
        way = figure.way(edge)
        return min(abs(way.real), abs(way.imag)) > SLANT * abs(way)

    for edge in sorted(figure.edges, key=is_slanted):
        yield Length(ShapeRef(edge.name), round_um(figure.length_um(edge)))


def runs(figure: Figure, base: PointRef, points: Sequence[PointRef]) -> Iterator[Constraint]:
    """x and y of some points from a base: that one is level with it where that is nothing."""
    for point in points:
        if point != base:
            yield from (run_x(figure, base, point), run_y(figure, base, point))


def run_x(figure: Figure, base: PointRef, point: PointRef) -> Constraint:
    """x of a point from a base, with a sign where it isn't on the side where it is drawn."""
    way_um, drawn_um = (_way(at, base, point).real for at in (figure.at, figure.drawn_at))
    if abs(way_um) > nothing_um(figure):
        return XDistance(base, point, *_signed(way_um, drawn_um))
    return PointOn(point, Y_AXIS) if base == ORIGIN else Vertical(Pair(base, point))


def run_y(figure: Figure, base: PointRef, point: PointRef) -> Constraint:
    """y of a point from a base, likewise."""
    way_um, drawn_um = (_way(at, base, point).imag for at in (figure.at, figure.drawn_at))
    if abs(way_um) > nothing_um(figure):
        return YDistance(base, point, *_signed(way_um, drawn_um))
    return PointOn(point, X_AXIS) if base == ORIGIN else Horizontal(Pair(base, point))


def _way(at: Callable[[PointRef], complex], base: PointRef, point: PointRef) -> complex:
    return at(point) - (0j if base == ORIGIN else at(base))


def _signed(way_um: float, drawn_um: float) -> tuple[Fraction, Sense]:
    """A value above 0 where the drawing tells the side; what counts as plus is 0 too."""
    value = round_um(abs(way_um))
    if (way_um > 0) == (drawn_um >= 0):
        return value, Sense.DRAWN
    return (value if way_um > 0 else -value), Sense.SIGNED


def nothing_um(figure: Figure) -> float:
    """What is no longer is nothing, in micrometres."""
    return max(LEAST_UM, LEAST_PART * figure.size_um)


def _heights(figure: Figure) -> Iterator[Constraint]:
    """From the longest edges first."""
    longest_first = sorted(figure.edges, key=lambda edge: -figure.length_um(edge))
    pairs = ((point, edge) for edge in longest_first for point in figure.points)
    for _, (point, edge) in zip(range(MOST_EACH), pairs):
        height = height_of(figure, point, edge)
        if isinstance(height, PointLineDistance):
            yield height


def height_of(figure: Figure, point: PointRef, edge: Segment) -> Constraint:
    """How far a point lies from an edge: that it lies on it where that is nothing."""
    off_um = figure.off_um(point, edge)
    if off_um > nothing_um(figure):
        return PointLineDistance(point, ShapeRef(edge.name), round_um(off_um))
    return PointOn(point, ShapeRef(edge.name))


def _distances(figure: Figure) -> Iterator[Constraint]:
    """Those of the nearest points first."""
    pairs = zip(range(MOST_EACH), combinations(figure.points, 2))
    nearest_first = sorted((figure.apart_um(*pair), place, pair) for place, pair in pairs)
    for apart_um, _, (first, second) in nearest_first:
        if apart_um > nothing_um(figure):
            yield Distance(first, second, round_um(apart_um))


def _angles(figure: Figure) -> Iterator[Constraint]:
    """Those of a corner first, then those of other edges, then directions against the x axis."""
    pairs = [pair for _, pair in zip(range(MOST_EACH), combinations(figure.edges, 2))]
    for is_corner in (True, False):
        for first, second in pairs:
            if (figure.corner(first, second) is not None) is is_corner:
                yield from angles_of(figure, first, second)
    yield from (direction(figure, edge) for edge in figure.edges)


def angles_of(figure: Figure, first: Segment, second: Segment) -> Iterator[Constraint]:
    """The angle as on paper: of the corner that two edges share, else the acute one; none where
    they run one way."""
    corner, angle = figure.corner(first, second), abs(figure.turn(first, second))
    if corner is None:
        angle = min(angle, 180 - angle)
    elif corner[0].which is not corner[1].which:
        angle = 180 - angle
    if LEAST_DEGREES < angle < 180 - LEAST_DEGREES:
        lines = ShapeRef(first.name), ShapeRef(second.name)
        rounded = round_degrees(angle)
        yield Perpendicular(*lines) if rounded == 90 else AngleBetween(*lines, Degrees(rounded))


# -- what ties the whole


def ties(drawn: Figure) -> Iterator[list[Constraint]]:
    """What may tie the whole to the axes and the origin as it is drawn: directions of edges, those
    along an axis first, and the longest of these; the place of a point that is drawn at the origin,
    or of the base; where it would turn about that, the place of the farthest point; the places of
    all others."""
    level_first = sorted(drawn.edges, key=lambda edge: (
        isinstance(direction(drawn, edge), AngleBetween), -drawn.length_um(edge)))
    nothing = nothing_um(drawn)
    base = next((ref for ref in drawn.points if abs(drawn.at(ref)) <= nothing), base_of(drawn))
    farthest = max(drawn.points, key=lambda ref: drawn.apart_um(base, ref))
    there = [Coincident(base, ORIGIN)] if abs(drawn.at(base)) <= nothing else []
    yield [*(direction(drawn, edge) for edge in level_first), *there,
           *runs(drawn, ORIGIN, [base]), *_across(drawn, base, farthest)]
    yield list(runs(drawn, ORIGIN, drawn.points))


def _across(drawn: Figure, base: PointRef, far: PointRef) -> Iterator[Constraint]:
    """What keeps a far point from turning about the base: the lesser of its x and y from there."""
    if far != base:
        way = drawn.at(far) - drawn.at(base)
        yield (run_x if abs(way.real) < abs(way.imag) else run_y)(drawn, base, far)


def direction(figure: Figure, edge: Segment) -> Constraint:
    """The direction of an edge against the x axis: with a sign, as it runs."""
    line, turn = ShapeRef(edge.name), round_degrees(degrees(phase(figure.way(edge))))
    if turn % 180 == 0:
        return Horizontal(line)
    if turn % 90 == 0:
        return Vertical(line)
    return AngleBetween(X_AXIS, line, Degrees(turn), Sense.SIGNED)


def base_of(figure: Figure) -> PointRef:
    """The point that others are told from where the origin isn't: the lowest on the left, of
    edges where there are any."""
    corners = [end for edge in figure.edges for end in ends(edge)]
    return min(corners or figure.points, key=lambda ref: figure.at(ref).real + figure.at(ref).imag)
