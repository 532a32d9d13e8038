"""A hand that drags points, edges or a rim of a drawing: all that it asks for holds at each moment,
by numbers, and is measured there on whole nanometres."""
from __future__ import annotations

from collections.abc import Collection, Iterable, Iterator, Mapping, Sequence
from dataclasses import dataclass
from fractions import Fraction
from itertools import count
from math import hypot

import numpy as np

from pertxogai.drawing import (
    Arc, Drawing, Place, Point, PointOn, PointRef, ShapeRef, Which, points_of)
from pertxogai.drawing.meetings import joins_points
from pertxogai.drawing.mentions import named
from pertxogai.drawing.named_shapes import spot_of
from pertxogai.judging.measure import Solution, Unit, greatest, measure
from pertxogai.search.arrays import Array
from pertxogai.search.equations import Equations
from pertxogai.search.following import following
from pertxogai.search.pulling import Pull, Pulled, Reach
from pertxogai.search.rounding import solution_of
from pertxogai.search.sweeps import Sweeps
from pertxogai.search.unknowns import FloatPointNm, Unknowns


class NothingFree(Exception):
    """What is held can't move: its constraints fix it. The message is one line."""


@dataclass(frozen=True)
class Grip:
    """What a hand holds, and where it took hold, in nanometres: points, which keep their places to
    each other as far as they may; or the rim of a circle or of an arc, which runs through the hand
    where its radius is free, and else is held by the shape's points."""

    at: FloatPointNm
    points: tuple[PointRef, ...] = ()
    rim: str = ""


@dataclass(frozen=True)
class Frame:
    """Where lies what may move, in nanometres, by numbers. reach: how far what is held came.
    left_nm: by how much it is left behind. whole: the same in whole nanometres, with what is asked
    of it and stays. off_nm: by how much the worst constraint is off there, measured. passed: how
    often each arc went past its own end since the hand took hold, to the left positive."""

    points: Mapping[PointRef, FloatPointNm]
    radii: Mapping[str, float]
    reach: Reach
    left_nm: float
    whole: Solution
    off_nm: int
    passed: Mapping[str, int]


class Drag:
    """A drawing that is held. names: the shapes that may move. moving: the part of the drawing with
    what is asked of them."""

    def __init__(self, equations: Equations, begin: Array, grip: Grip, x: Array | None = None,
                 loose: Collection[int] | None = None,
                 passed: Mapping[str, int] | None = None) -> None:
        """begin: the unknowns where the hand took hold; x, passed: where they have come since, and
        what arcs have passed, where it goes on from there; loose: those that move to the first
        order, where these are known. Raises NothingFree."""
        self._held = _Held(equations, begin, begin if x is None else x, grip, loose)
        self._unknowns, self._x = self._held.equations.unknowns, self._held.now.copy()
        self._part = self._held.part
        held = self._part.held(self._held.columns)
        if not len(held):
            raise NothingFree("nothing is free here: its constraints fix it")
        self._pull = Pull(self._part, held, self._part.held(self._held.easy))
        self._points = tuple(self._moving_points())
        self._radii = tuple(name for name, column in self._unknowns.column_of.items()
                            if column in self._part.columns)
        self.names = frozenset({ref.shape for ref in self._points}.union(self._radii))
        self.moving = _moving_part(self._unknowns.drawing, set(self.names))
        arcs = (shape for shape in self.moving.geometry
                if isinstance(shape, Arc) and shape.name in self.names)
        self._sweeps = Sweeps(arcs, self._where, passed or {})

    @property
    def x(self) -> Array:
        """The unknowns of the drawing, in nanometres."""
        return self._held.of_drawing(self._x)

    def to(self, place: FloatPointNm) -> Frame:
        """The hand goes to a place, in nanometres."""
        return self._frame(self._pull.to(self._held.wanted(place)))

    def turn(self) -> Frame | None:
        """The other shape that has what is held in its place, near a dead point; None where there
        is none."""
        if not self._pull.turn():
            return None
        return self._frame(Pulled(self._pull.x, 0.0, Reach.THERE))

    def solution(self) -> Solution:
        """Where all lies now, in whole nanometres."""
        return solution_of(self._unknowns, self._x)

    def _frame(self, pulled: Pulled) -> Frame:
        self._x[self._part.columns] = pulled.x
        self._sweeps.to(self._where)
        whole = solution_of(self._unknowns, self._x, self.moving)
        worst = greatest(measure(self.moving, whole), Unit.NM)
        return Frame({ref: self._where(ref) for ref in self._points},
                     {name: float(self._x[self._unknowns.column_of[name]]) for name in self._radii},
                     pulled.reach, pulled.left_nm, whole, worst.amount if worst else 0,
                     self._sweeps.passed())

    def _where(self, ref: PointRef) -> FloatPointNm:
        return _spot(self._unknowns, self._x, ref)

    def _moving_points(self) -> Iterator[PointRef]:
        moving = set(self._part.columns.tolist())
        for ref in self._unknowns.drawing.points():
            number = self._unknowns.number_of.get(self._unknowns.leader(ref))
            if number is not None and 2 * number in moving and ref != self._held.hand:
                yield ref


class _Held:
    """What a hand holds: unknowns of the drawing, and where it wants them. A rim whose radius is
    free is held by a point of its own on it (`hand`), which has unknowns besides; the radius gives
    way rather than the rest then (`easy`). now: where the unknowns are."""

    def __init__(self, equations: Equations, begin: Array, now: Array, grip: Grip,
                 loose: Collection[int] | None) -> None:
        self.equations, self.now, self._at = equations, now, grip.at
        self.hand: PointRef | None = None
        self.columns: list[int] = []
        self.easy: list[int] = []
        columns = [*self._of_points(_points_of(equations, grip)), *self._of_rim(grip.rim)]
        self.part = following(equations, now, columns, loose)
        radius = [each for each in self._of_rim(grip.rim) if each in self.part.columns]
        if radius:
            begin = self._take_rim(grip, begin)
        else:
            self.columns = [each for each in self._of_points(_points_of(equations, grip))
                            if each in self.part.columns]
        self._begin = begin[self.columns]

    def wanted(self, place: FloatPointNm) -> Array:
        """Where what is held would be with the hand at a place."""
        way = np.subtract(place, self._at)
        wanted: Array = self._begin + way[np.array(self.columns) % 2]
        return wanted

    def of_drawing(self, x: Array) -> Array:
        """The unknowns without those of the hand's own point."""
        return x if self.hand is None else np.delete(x, self.columns)

    def _take_rim(self, grip: Grip, begin: Array) -> Array:
        """Takes hold of a rim; gives the unknowns where it did."""
        drawing = self.equations.unknowns.drawing
        self.hand = PointRef(_free_name(drawing), Which.AT)
        places = [_on_rim(self.equations.unknowns, each, grip) for each in (begin, self.now)]
        point = Point(self.hand.shape, Place(Fraction(0), Fraction(0)))
        on_rim = PointOn(self.hand, ShapeRef(grip.rim))
        self.equations = Equations(
            Drawing((*drawing.geometry, point), (*drawing.constraints, on_rim)))
        number = 2 * self.equations.unknowns.number_of[self.hand]
        self.columns = [number, number + 1]
        begin, self.now = (np.insert(each, number, place)
                           for each, place in zip((begin, self.now), places))
        self.easy = self._of_rim(grip.rim)
        self.part = following(self.equations, self.now, self.columns)
        return begin

    def _of_points(self, refs: Iterable[PointRef]) -> list[int]:
        unknowns = self.equations.unknowns
        leaders = dict.fromkeys(map(unknowns.leader, refs))
        numbers = (unknowns.number_of[each] for each in leaders if each in unknowns.number_of)
        return [2 * number + each for number in numbers for each in (0, 1)]

    def _of_rim(self, rim: str) -> list[int]:
        column = self.equations.unknowns.column_of.get(rim)
        return [] if column is None else [column]


def _points_of(equations: Equations, grip: Grip) -> Sequence[PointRef]:
    """The points that a hand holds; those of a rim where it holds one."""
    if not grip.rim:
        return grip.points
    return [ref for shape in equations.unknowns.drawing.geometry if shape.name == grip.rim
            for ref in points_of(shape)]


def _free_name(drawing: Drawing) -> str:
    """A name that no shape has."""
    return next(name for name in (f"Hand{number}" for number in count()) if not drawing.has(name))


def _on_rim(unknowns: Unknowns, x: Array, grip: Grip) -> FloatPointNm:
    """The place of a rim that is nearest to where a hand takes hold."""
    u, v = _spot(unknowns, x, PointRef(grip.rim, Which.CENTRE))
    radius_nm = float(x[unknowns.column_of[grip.rim]])
    dx, dy = grip.at[0] - u, grip.at[1] - v
    away_nm = hypot(dx, dy)
    if not away_nm:
        return u + radius_nm, v
    return u + dx * radius_nm / away_nm, v + dy * radius_nm / away_nm


def _spot(unknowns: Unknowns, x: Array, ref: PointRef) -> FloatPointNm:
    """Where a point lies."""
    leader = unknowns.leader(ref)
    if leader in unknowns.given:
        return unknowns.given[leader]
    column = 2 * unknowns.number_of[leader]
    return float(x[column]), float(x[column + 1])


def _moving_part(drawing: Drawing, moving: set[str]) -> Drawing:
    """A drawing without what stays: the constraints that speak of shapes which move, or tell points
    to be one, and all shapes that these need."""
    constraints = [each for each in drawing.constraints
                   if joins_points(each) or not moving.isdisjoint(named(each))]
    needed = moving.union(*map(named, constraints))
    for shape in reversed(drawing.geometry):
        if shape.name in needed:
            spots = (spot_of(shape, ref.which) for ref in points_of(shape))
            needed |= {spot.shape for spot in spots if isinstance(spot, PointRef)}
    return Drawing(tuple(shape for shape in drawing.geometry if shape.name in needed),
                   tuple(constraints))
