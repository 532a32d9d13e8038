"""Which way the datum's x axis runs among the printed places, where no line of the sketch says it:
two placed points of which the drawing says how the way between them lies to the axes.

Where all else is lengths, the shape is rigid by itself, and such a way is all that holds it to the
axes; no line of the sketch needs it. """
from __future__ import annotations

from collections import defaultdict
from collections.abc import Collection, Hashable, Iterator, Mapping
from fractions import Fraction
from itertools import chain, combinations
from math import cos, sin
from typing import NamedTuple

from pertxogai.exact import Vector, between, dot, root, square
from pertxogai.spelling.axes import Axes, Coordinate
from pertxogai.spelling.facts import DATUM, Knot
from pertxogai.spelling.lean import Lean
from pertxogai.spelling.linear import Form, Number


class KnownRun(NamedTuple):
    """How far the drawing says that a way between two points runs along the datum's x axis, or to
    its left where `upwards`, in micrometres."""

    first: Knot
    second: Knot
    upwards: bool
    run: Number


class KnownDirection(NamedTuple):
    """How the drawing says that a way between two points lies to the datum's x axis."""

    first: Knot
    second: Knot
    direction: Vector


KnownWay = KnownRun | KnownDirection


def axis_of(axes: Axes, spots: Mapping[Knot, Vector]) -> Vector | None:
    """The direction of the datum's x axis among the printed places, by the longest way that tells
    it; None where none does, so that the drawing may turn as a whole. Its length is any."""
    for told in sorted(_ways(axes, spots), key=lambda each: -square(_way(spots, each))):
        wanted = _wanted_way(axes, told, _way(spots, told))
        if wanted is not None:
            return _turn_back(_way(spots, told), wanted)
    return None


def drawn_axis(axes: Axes, spots: Mapping[Knot, Vector]) -> Vector | None:
    """The direction of the datum's x axis where nothing tells it: the first segment runs as it is
    drawn; of points alone the way between the first two. None where all lie on one place."""
    for first, second in chain(axes.facts.own.values(), combinations(spots, 2)):
        if first in spots and second in spots:
            way = between(spots[first], spots[second])
            drawn = between(axes.facts.drawn[first], axes.facts.drawn[second])
            if any(way) and any(drawn):
                return _turn_back(way, drawn)
    return None


class KnownSum(NamedTuple):
    """A sum of coordinates of placed points, each times a number, that the drawing says, in
    micrometres. It changes as all are shifted, since the numbers don't come to 0."""

    factors: Mapping[Knot, Number]
    value: Number

    def total(self) -> Number:
        """What the numbers come to."""
        return sum(self.factors.values())


def known_sum(axes: Axes, upwards: bool, knots: Collection[Knot]) -> KnownSum | None:
    """What the drawing says of the datum's coordinates of placed points: one of them, else a sum,
    as of two points that lie symmetric to the origin; None where it says none that a shift of all
    would change."""
    found: KnownSum | None = None
    for each in _known_sums(axes, upwards, knots):
        if each.total() and (found is None or len(each.factors) < len(found.factors)):
            found = each
            if len(found.factors) == 1:
                break
    return found


def _known_sums(axes: Axes, upwards: bool, knots: Collection[Knot]) -> Iterator[KnownSum]:
    """What the drawing says of the coordinate of each placed point."""
    for knot in knots:
        place = Coordinate(DATUM, upwards, knot)
        form = Form.of(place) - axes.system.value(place)
        if all(isinstance(each, Coordinate) and each[:2] == place[:2] and each.knot in knots
               for each in form.terms):
            yield KnownSum({each.knot: factor for each, factor in form.terms.items()
                            if isinstance(each, Coordinate)}, -form.number)


def _ways(axes: Axes, spots: Mapping[Knot, Vector]) -> Iterator[KnownWay]:
    """What is told of the ways between placed points."""
    for line in axes.lines.all():
        if axes.frame(line).number == DATUM:
            knots = [each.knot for each in axes.lines.members(line) if each.knot in spots]
            for first, second in combinations(knots, 2):
                yield KnownDirection(first, second, _direction(axes.lean(line)))
    for upwards in (False, True):
        for members in _points_by_unknown(axes, upwards, spots).values():
            (first, start), *others = members
            for second, end in others:
                yield KnownRun(first, second, upwards, end - start)


def _points_by_unknown(axes: Axes, upwards: bool, spots: Mapping[Knot, Vector]
                       ) -> dict[Hashable, list[tuple[Knot, Number]]]:
    """The placed points of which a coordinate is known against each other's, and these."""
    found: dict[Hashable, list[tuple[Knot, Number]]] = defaultdict(list)
    for knot in spots:
        value = axes.system.value(Coordinate(DATUM, upwards, knot))
        found[value.key()].append((knot, value.number))
    return found


def _direction(lean: Lean) -> Vector:
    """The direction of a line that leans so against the x axis."""
    way = lean.way()
    if way is not None:
        return way
    return Fraction(cos(lean.radians())), Fraction(sin(lean.radians()))


def _way(spots: Mapping[Knot, Vector], told: KnownWay) -> Vector:
    return between(spots[told.first], spots[told.second])


def _wanted_way(axes: Axes, told: KnownWay, way: Vector) -> Vector | None:
    """The way between the two points along the datum's axes, by its direction: on the side on
    which it is drawn where what is told leaves two; None where it is too short for what is told."""
    if not any(way):
        return None
    drawn = between(axes.facts.drawn[told.first], axes.facts.drawn[told.second])
    match told:
        case KnownDirection(direction=direction):
            ahead = dot(direction, drawn) >= 0
            return direction if ahead else (-direction[0], -direction[1])
        case KnownRun(upwards=upwards, run=run):
            rest = square(way) - run * run
            if rest < 0:
                return None
            aside = root(rest) if drawn[0 if upwards else 1] >= 0 else -root(rest)
            return (aside, run) if upwards else (run, aside)


def _turn_back(way: Vector, wanted: Vector) -> Vector:
    """The direction from which a way is reached by the turn of another: the way times that other's
    mirror image."""
    (x, y), (a, b) = way, wanted
    return x * a + y * b, y * a - x * b
