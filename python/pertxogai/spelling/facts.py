"""What a drawing says, in few kinds of facts: points that are one, lines with the points on them,
leans, distances.

Each fact has an owner: the constraint, or the shape, that says it.
"""
from __future__ import annotations

from dataclasses import dataclass, field, fields
from typing import NamedTuple

from pertxogai.drawing import Place, PointRef, ShapeRef
from pertxogai.spelling.lean import Lean
from pertxogai.spelling.linear import Form, Number


@dataclass(frozen=True, order=True)
class Owner:
    """Who says a fact: the constraint at place `number`, from 1, or the shape at that place, an
    arc of which it is said that its ends are on its circle."""

    number: int
    shape: bool = False


class Knot(NamedTuple):
    """All points that are told to be one, by a number from 0; 0 is the origin."""

    number: int


ORIGIN_KNOT = Knot(0)
DATUM = 0
"""The number of the datum's frame."""


@dataclass(frozen=True)
class Between:
    """The line through two points that no segment joins: a normal, a line of centres."""

    first: Knot
    second: Knot


Line = ShapeRef | Between


@dataclass(frozen=True)
class LengthOf:
    """The length of a segment, or of the way between two points, in micrometres, as an unknown."""

    first: Knot
    second: Knot


@dataclass(frozen=True)
class RadiusOf:
    """The radius of a circle or an arc, in micrometres, as an unknown."""

    name: str


@dataclass(frozen=True)
class HalfOf:
    """Half the distance of two mirrored points, or of the ends of a halved way, as an unknown."""

    owner: Owner


class Apart(NamedTuple):
    """Two points are `value` apart."""

    first: Knot
    second: Knot
    value: Form
    owner: Owner

    def ends(self) -> tuple[Knot, Knot | Line]:
        """What is so far apart."""
        return self.first, self.second


class Off(NamedTuple):
    """A point is `value` away from a line, on the side where it is drawn."""

    point: Knot
    line: Line
    value: Form
    owner: Owner

    def ends(self) -> tuple[Knot, Knot | Line]:
        """What is so far apart."""
        return self.point, self.line


class Lies(NamedTuple):
    """A point lies on a line."""

    point: Knot
    line: Line
    owner: Owner


class Leans(NamedTuple):
    """The second line leans so against the first."""

    first: Line
    second: Line
    lean: Lean
    owner: Owner


class OneLine(NamedTuple):
    """Two lines are one; `ends` are the points by which the second is told to lie on the first."""

    first: Line
    second: Line
    owner: Owner


class Shift(NamedTuple):
    """The second point's x, or y where `upwards`, is the first's and `value`, in micrometres."""

    first: Knot
    second: Knot
    upwards: bool
    value: Form
    owner: Owner


class Middle(NamedTuple):
    """A point is in the middle of two others."""

    middle: Knot
    first: Knot
    second: Knot
    owner: Owner


class Mirror(NamedTuple):
    """Two points are mirror images to a line. That the line through them is square to it stands as
    `Leans`."""

    first: Knot
    second: Knot
    line: Line
    owner: Owner


class Sized(NamedTuple):
    """A sum of lengths and radii is 0."""

    form: Form
    owner: Owner


class Stays(NamedTuple):
    """A point lies exactly at a place of the datum."""

    point: Knot
    place: Place
    owner: Owner


Fact = Apart | Off | Lies | Leans | OneLine | Shift | Middle | Mirror | Sized | Stays


@dataclass
class Facts:
    """All facts of a drawing, by the points and lines that they speak of."""

    refs: dict[PointRef, Knot] = field(default_factory=dict)
    drawn: dict[Knot, tuple[Number, Number]] = field(default_factory=dict)
    own: dict[Line, tuple[Knot, Knot]] = field(default_factory=dict)
    facts: list[Fact] = field(default_factory=list)
    repeats: list[Owner] = field(default_factory=list)
    implied: dict[Line, tuple[Knot, Knot]] = field(default_factory=dict)
    """Lines of which the direction follows from the places of two of their points."""
    presumes: bool = False
    """Whether one of these follows only if two points aren't one that may be."""

    def says(self, other: Facts) -> bool:
        """Whether others differ by where things are drawn alone."""
        return all(getattr(self, each.name) == getattr(other, each.name)
                   for each in fields(self) if each.name != "drawn")

    def says_but_for_lengths(self, other: Facts) -> bool:
        """Whether others differ by the numbers of lengths alone, of which each is 0 where it is 0
        here."""
        return (len(self.facts) == len(other.facts)
                and all(map(_are_alike, self.facts, other.facts))
                and all(getattr(self, each.name) == getattr(other, each.name)
                        for each in fields(self) if each.name != "facts"))

    def direction(self, line: Line) -> tuple[Number, Number]:
        """The drawn direction of a line, from its first own point to its second."""
        if isinstance(line, ShapeRef) and line.name in ("XAxis", "YAxis"):
            return int(line.name == "XAxis"), int(line.name == "YAxis")
        first, second = self.own[line]
        (x, y), (u, v) = self.drawn[first], self.drawn[second]
        return u - x, v - y

    def left(self, point: Knot, line: Line) -> int:
        """1 where the point is drawn on the left of the line, or on it, else -1."""
        a, b = self.direction(line)
        x, y = self.drawn[self.own[line][0]]
        u, v = self.drawn[point]
        return 1 if a * (v - y) - b * (u - x) >= 0 else -1


def _are_alike(fact: Fact, other: Fact) -> bool:
    """Whether two facts differ by the number of a length alone, of which neither is 0, if they
    differ."""
    if fact == other:
        return True
    if type(fact) is not type(other):
        return False
    return all(map(_is_alike, fact, other))


def _is_alike(value: object, other: object) -> bool:
    """Whether two values of facts differ by the number of a length alone."""
    if not isinstance(value, Form) or not isinstance(other, Form):
        return value == other
    return value.terms == other.terms and bool(value.number) == bool(other.number)
