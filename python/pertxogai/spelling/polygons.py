"""Regular polygons: equal sides that close round a circle turn by equal parts of a full turn.

The equal lengths are told as the leans of the radii against each other, which say the same: with n
corners on one circle, the n sides are equal where each two neighbouring radii make the n-th part
of the full turns. """
from __future__ import annotations

from collections.abc import Iterator
from dataclasses import replace
from fractions import Fraction
from math import atan2, pi
from typing import NamedTuple

from pertxogai.spelling.facts import (
    Apart, Between, Fact, Facts, Knot, Leans, LengthOf, Line, Middle, RadiusOf, Sized)
from pertxogai.spelling.lean import SQUARE, Lean
from pertxogai.spelling.linear import Form


class Polygon(NamedTuple):
    """A regular polygon: its corners in order, the turn from each radius to the next, and who says
    it equal."""

    centre: Knot
    rim: RadiusOf
    corners: tuple[Knot, ...]
    turn: Fraction
    equals: tuple[Sized, ...]

    def radius(self, place: int) -> Between:
        """The line from the centre to a corner."""
        return Between(self.centre, self.corners[place % len(self.corners)])

    def to_radius(self) -> Lean:
        """How the first radius of a side leans against the side."""
        return -(SQUARE + Lean((self.turn / 2) % 180))


def with_polygons(facts: Facts, middles: bool) -> Facts:
    """The facts, with each regular polygon told by its radii. `middles`: of opposite corners,
    where there are such, the centre is the middle, and that is told of the second half of the
    corners."""
    for polygon in list(_polygons(facts)):
        if len(polygon.equals) == len(polygon.corners) - 1:
            facts = _with_turns(facts, polygon)
            if middles and not len(polygon.corners) % 2:
                facts = _opposite(facts, polygon)
    return facts


def _opposite(facts: Facts, polygon: Polygon) -> Facts:
    """That a corner has its radius and the lean of it, as that the centre is in the middle to the
    opposite one."""
    half = len(polygon.corners) // 2
    rest = list(facts.facts)
    for place in range(half, 2 * half):
        corner, radius = polygon.corners[place], polygon.radius(place)
        step = next(each for each in rest if isinstance(each, Leans) and each.second == radius
                    and each.first == polygon.radius(place - 1))
        rim = next(each for each in rest if _is_on_rim(each, polygon, corner, place))
        rest = [each for each in rest if each not in (step, rim)]
        rest.append(Middle(polygon.centre, polygon.corners[place - half], corner, step.owner))
    return replace(facts, facts=rest)


def _is_on_rim(fact: Fact, polygon: Polygon, corner: Knot, place: int) -> bool:
    """Whether a fact says that a corner is on the circle, as it is or by the side before it."""
    if isinstance(fact, Apart):
        ends = polygon.centre, corner
        return (fact.first, fact.second) == ends and polygon.rim in fact.value.terms
    return (isinstance(fact, Leans) and fact.second == polygon.radius(place - 1)
            and fact.lean == polygon.to_radius())


def _polygons(facts: Facts) -> Iterator[Polygon]:
    for group, equals in _equal_lengths(facts):
        corners = _round(group)
        if corners is None:
            continue
        for centre, rim in _rims(facts, corners):
            turn = _turn(facts, centre, corners)
            if turn is not None:
                yield Polygon(centre, rim, corners, turn, equals)
                break


def _equal_lengths(facts: Facts) -> list[tuple[list[LengthOf], tuple[Sized, ...]]]:
    """Lengths that are told to be equal, and by what."""
    groups: list[tuple[list[LengthOf], tuple[Sized, ...]]] = []
    for fact in facts.facts:
        keys = list(fact.form.terms) if isinstance(fact, Sized) and not fact.form.number else []
        lengths = [key for key in keys if isinstance(key, LengthOf)]
        if not isinstance(fact, Sized) or len(lengths) != 2:
            continue
        mine = [group for group in groups if set(group[0]) & set(lengths)]
        rest = [group for group in groups if group not in mine]
        joined = list(dict.fromkeys([*(key for group in mine for key in group[0]), *lengths]))
        groups = [*rest, (joined, (*(each for group in mine for each in group[1]), fact))]
    return groups


def _round(lengths: list[LengthOf]) -> tuple[Knot, ...] | None:
    """The corners in order where the lengths are the sides of one closed way."""
    sides = [(each.first, each.second) for each in lengths]
    corners = list(sides[0])
    left = sides[1:]
    while left:
        following = next((side for side in left if corners[-1] in side), None)
        if following is None:
            return None
        left.remove(following)
        corners.append(following[0] if following[1] == corners[-1] else following[1])
    if len(corners) < 4 or corners[0] != corners[-1] or len(set(corners)) != len(corners) - 1:
        return None
    return tuple(corners[:-1])


def _rims(facts: Facts, corners: tuple[Knot, ...]) -> list[tuple[Knot, RadiusOf]]:
    """The circles on which all corners lie, with their centres."""
    found: dict[tuple[Knot, RadiusOf], set[Knot]] = {}
    for fact in facts.facts:
        if isinstance(fact, Apart) and len(fact.value.terms) == 1:
            size = next(iter(fact.value.terms))
            if isinstance(size, RadiusOf):
                found.setdefault((fact.first, size), set()).add(fact.second)
    return [key for key, knots in found.items() if set(corners) <= knots]


def _turn(facts: Facts, centre: Knot, corners: tuple[Knot, ...]) -> Fraction | None:
    """The turn in degrees from one radius to the next, where all are drawn to one side and
    close."""
    turns = []
    for first, second in zip(corners, (*corners[1:], corners[0])):
        (x, y), (u, v), (a, b) = (facts.drawn[knot] for knot in (centre, first, second))
        first_way, second_way = (float(u - x), float(v - y)), (float(a - x), float(b - y))
        cross = first_way[0] * second_way[1] - first_way[1] * second_way[0]
        dot = first_way[0] * second_way[0] + first_way[1] * second_way[1]
        turns.append(atan2(cross, dot))
    if not (all(turn > 0 for turn in turns) or all(turn < 0 for turn in turns)):
        return None
    return Fraction(360 * round(sum(turns) / (2 * pi)), len(corners))


def _with_turns(facts: Facts, polygon: Polygon) -> Facts:
    count = len(polygon.corners)
    for place in range(count):
        facts.own[polygon.radius(place)] = (polygon.centre, polygon.corners[place])
    rest = [_against_radius(facts, fact, polygon) for fact in facts.facts
            if fact not in polygon.equals]
    rest = [_of_first_side(fact, polygon) for fact in rest if not _is_other_side(fact, polygon)]
    step = Lean(polygon.turn % 180)
    for place, equal in enumerate(polygon.equals):
        rest.append(Leans(polygon.radius(place), polygon.radius(place + 1), step, equal.owner))
    if not _is_radius_told(facts, polygon.rim):
        rest = [_chord_for_radius(facts, fact, polygon) for fact in rest]
    return replace(facts, facts=[fact for fact in rest if not _is_idle(rest, fact)])


def _lengths(polygon: Polygon) -> list[LengthOf]:
    """The lengths of the sides, that of the first side first."""
    keys = dict.fromkeys(key for equal in polygon.equals for key in equal.form.terms
                         if isinstance(key, LengthOf))
    return sorted(keys, key=lambda key: {key.first, key.second} != set(polygon.corners[:2]))


def _is_other_side(fact: Fact, polygon: Polygon) -> bool:
    """Whether a fact says the length of a side but the first."""
    return isinstance(fact, Apart) and any(fact.value.key() == Form.of(each).key()
                                           for each in _lengths(polygon)[1:])


def _of_first_side(fact: Fact, polygon: Polygon) -> Fact:
    """What is said of a side's length, said of the first side's."""
    if not isinstance(fact, Sized):
        return fact
    lengths = _lengths(polygon)
    form = Form(number=fact.form.number)
    for key, factor in fact.form.terms.items():
        form = form + Form.of(lengths[0] if key in lengths else key).times(factor)
    return fact._replace(form=form)


def _side(facts: Facts, polygon: Polygon, place: int) -> Line | None:
    ends = {polygon.corners[place], polygon.corners[(place + 1) % len(polygon.corners)]}
    return next((line for line, own in facts.own.items() if set(own) == ends), None)


def _against_radius(facts: Facts, fact: Fact, polygon: Polygon) -> Fact:
    """A lean against a side as one against its first radius."""
    if not isinstance(fact, Leans):
        return fact
    for place in range(len(polygon.corners)):
        side, radius = _side(facts, polygon, place), polygon.radius(place)
        if fact.second == side:
            fact = fact._replace(second=radius, lean=fact.lean + polygon.to_radius())
        if fact.first == side:
            fact = fact._replace(first=radius, lean=-polygon.to_radius() + fact.lean)
    return fact


def _is_radius_told(facts: Facts, rim: RadiusOf) -> bool:
    return any(isinstance(fact, Sized) and rim in fact.form.terms for fact in facts.facts)


def _chord_for_radius(facts: Facts, fact: Fact, polygon: Polygon) -> Fact:
    """That a corner, but the first, is on the circle, as the lean of the radius against the side
    before it."""
    rim = Form.of(polygon.rim).key()
    if (isinstance(fact, Apart) and fact.value.key() == rim
            and fact.second in polygon.corners[1:]):
        place = polygon.corners.index(fact.second) - 1
        side = _side(facts, polygon, place)
        if side is not None:
            return Leans(side, polygon.radius(place), polygon.to_radius(), fact.owner)
    return fact


def _is_idle(facts: list[Fact], fact: Fact) -> bool:
    """Whether a fact says the length of a side that nothing else speaks of."""
    if not isinstance(fact, Apart) or len(fact.value.terms) != 1:
        return False
    size = next(iter(fact.value.terms))
    return isinstance(size, LengthOf) and not any(
        isinstance(other, Sized) and size in other.form.terms for other in facts)
