"""The lines of a drawing with the points on each. Lines that are told to be one, or share two
points that aren't one, are one."""
from __future__ import annotations

from collections.abc import Iterator
from itertools import combinations
from math import hypot
from typing import NamedTuple

from pertxogai.classes import Classes
from pertxogai.drawing import X_AXIS, Y_AXIS, ShapeRef
from pertxogai.spelling.directions import Directions
from pertxogai.spelling.facts import (
    ORIGIN_KNOT, Apart, Fact, Facts, Knot, Leans, Lies, Line, Middle, Mirror, OneLine, Owner, Shift)
from pertxogai.spelling.lean import SQUARE, Lean
from pertxogai.spelling.linear import Number


class Member(NamedTuple):
    """A point on a line, and who puts it there; None of a segment's own end."""

    knot: Knot
    owner: Owner | None


class Crossing(NamedTuple):
    """Two lines that share two points and aren't one, so that the points are one."""

    first: Line
    second: Line
    kept: Knot
    gone: Knot


class Lines:
    """All lines, each led by one, with their points. crossing: the first two lines that share two
    points and aren't one line."""

    def __init__(self, facts: Facts) -> None:
        self._facts = facts
        self._classes: Classes[Line] = Classes()
        self._members: dict[Line, list[Member]] = {}
        self.leans: list[Leans] = [Leans(X_AXIS, Y_AXIS, SQUARE, Owner(0))]
        self.repeats: list[Owner] = []
        self.crossing: Crossing | None = None
        self._directions: Directions | None = None
        for line, own in facts.own.items():
            self._members[line] = [Member(knot, None) for knot in dict.fromkeys(own)]
        for fact in facts.facts:
            self._take(fact)
        while self._merge_sharers():
            pass

    def _take(self, fact: Fact) -> None:
        match fact:
            case Lies(point, line, owner):
                self._add_member(point, line, owner)
            case OneLine(first, second, owner):
                for knot in dict.fromkeys(self._facts.own[second]):
                    self._add_member(knot, first, owner)
                self.join(self.leader(first), self.leader(second))
            case Leans():
                self.leans.append(fact)

    def leader(self, line: Line) -> Line:
        """The line that stands for all that are one with this."""
        return self._classes.leader(line)

    def all(self) -> list[Line]:
        """One line of each class, in the order of the drawing."""
        return list(self._members)

    def members(self, line: Line) -> list[Member]:
        """The points on a line, its own ends first."""
        return sorted(self._members[self.leader(line)], key=lambda each: each.owner is not None)

    def sharers(self) -> Iterator[tuple[Line, Line]]:
        """Each two lines that have a point in common, in the order of the drawing."""
        lines = self.all()
        through: dict[Knot, list[int]] = {}
        for place, line in enumerate(lines):
            for member in self._members[line]:
                through.setdefault(member.knot, []).append(place)
        for place, line in enumerate(lines):
            others = {other for member in self._members[line] for other in through[member.knot]}
            for other in sorted(others):
                if other > place:
                    yield line, lines[other]

    def names(self, line: Line) -> list[Line]:
        """All lines that are one with this."""
        return [each for each in self._facts.own if self.leader(each) == self.leader(line)]

    def _add_member(self, point: Knot, line: Line, owner: Owner) -> None:
        members = self._members[self.leader(line)]
        if any(each.knot == point for each in members):
            if not any(isinstance(each, OneLine) and each.owner == owner
                       for each in self._facts.facts):
                self.repeats.append(owner)
            return
        members.append(Member(point, owner))

    def join(self, first: Line, second: Line) -> None:
        """Makes two lines one, led by the first, or by an axis."""
        if first == second:
            return
        if second in (X_AXIS, Y_AXIS):
            first, second = second, first
        known = {each.knot: each for each in self._members[first]}
        for each in self._members.pop(second):
            old = known.get(each.knot)
            known[each.knot] = each if old is None or (old.owner is None
                                                       and each.owner is not None) else old
        self._members[first] = list(known.values())
        self._classes.join(first, second)
        if self._directions is not None:
            self._directions.tell(Leans(first, second, Lean(), Owner(0)))

    def _merge_sharers(self) -> bool:
        """Joins the first two lines that share two points and are one; False where there are
        none."""
        for first, second in self.sharers():
            shared = self._shared_points(first, second)
            if len(shared) < 2:
                continue
            if self._are_one(first, second, shared):
                self.join(first, second)
                return True
            if self.crossing is None:
                self.crossing = Crossing(first, second, shared[0], shared[1])
        return False

    def _shared_points(self, first: Line, second: Line) -> list[Knot]:
        """The points that two lines have in common: the origin first, then own ends."""
        knots = {each.knot for each in self._members[second]}
        members = [each for each in self._members[first] if each.knot in knots]
        if len(members) < 2:
            return [each.knot for each in members]
        own = {knot for line in (first, second) for name in self.names(line)
               for knot in self._facts.own[name]}
        return sorted((each.knot for each in members),
                      key=lambda knot: (knot != ORIGIN_KNOT, knot not in own, knot))

    def _are_one(self, first: Line, second: Line, shared: list[Knot]) -> bool:
        """Whether two lines that share these points are one line, and not the points one: where
        points of them are told apart or the lines parallel, else as they are drawn."""
        if any(self.told_apart({*pair}) for pair in combinations(shared, 2)):
            return True
        lean = self._known_directions().between(first, second)
        if lean is not None:
            return lean.level()
        drawn = self._facts.drawn
        apart = max(_apart(drawn[one], drawn[other]) for one, other in combinations(shared, 2))
        return min(self._off(first, second), self._off(second, first)) < apart

    def told_apart(self, pair: set[Knot]) -> bool:
        """Whether two points are told apart: the ends of a segment, or at a distance."""
        ends = (own for line, own in self._facts.own.items() if isinstance(line, ShapeRef))
        return any(set(own) == pair for own in ends) or any(
            _parts(fact, pair) for fact in self._facts.facts)

    def _off(self, line: Line, other: Line) -> float:
        """How far the points of another line are drawn from a line, at most."""
        a, b = (float(each) for each in self._facts.direction(line))
        x, y = self._facts.drawn[self._facts.own[line][0]]
        places = (self._facts.drawn[each.knot] for each in self._members[other])
        aside = max(abs(a * float(v - y) - b * float(u - x)) for u, v in places)
        return aside / (hypot(a, b) or 1)

    def _known_directions(self) -> Directions:
        """The directions that are told."""
        if self._directions is None:
            self._directions = Directions()
            for leans in self.leans:
                self._directions.tell(leans)
            for line in self._classes.led():
                self._directions.tell(Leans(self.leader(line), line, Lean(), Owner(0)))
        return self._directions


def _parts(fact: object, pair: set[Knot]) -> bool:
    """Whether a fact tells two points apart."""
    match fact:
        case Apart(first, second) | Mirror(first, second):
            return {first, second} == pair
        case Shift(first, second, _, value):
            return {first, second} == pair and bool(value.number)
        case Middle(middle, first, second):
            return pair <= {middle, first, second}
    return False


def _apart(first: tuple[Number, Number], second: tuple[Number, Number]) -> float:
    """How far two drawn places are apart."""
    return hypot(float(first[0] - second[0]), float(first[1] - second[1]))
