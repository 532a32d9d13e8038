"""What is to be found of a drawing, as columns: x and y of each point, then each radius.

Points that are told to be one are one point here. The origin and the points of outer shapes are
given. Lengths are in nanometres, and not whole."""
from __future__ import annotations

from collections.abc import Iterator
from dataclasses import dataclass
from enum import Enum

import numpy as np

from pertxogai.classes import Classes
from pertxogai.drawing import (
    ORIGIN, Arc, Axis, Circle, Drawing, Pair, Place, PointRef, ShapeRef, Which)
from pertxogai.drawing.meetings import JOINING_ALONE, pair_of
from pertxogai.search.arrays import Array
from pertxogai.search.combination import Combination

NM_PER_UM = 1000.0
AXIS_NM = 1e12
"""How long the way along an axis is: as long as anything is, so that it counts beside all of it."""
FloatPointNm = tuple[float, float]
"""x and y in nanometres."""


class By(Enum):
    """What asks for a row."""

    CONSTRAINT = "constraint"
    """A constraint of the drawing."""
    SHAPE = "shape"
    """A shape: an arc's ends lie on its circle, and a shared point is one point."""
    MEASURED = "measured"
    """A constraint that is measured by more than it says: a distance of lines, at the end of the
    second that it isn't told at, and a fixed arc, by how far its end is from its centre."""


@dataclass(frozen=True)
class Source:
    """Who asks for a row: a constraint or a shape, by its place in the drawing, from 1."""

    by: By
    number: int


@dataclass(frozen=True)
class Meeting:
    """Two points that are told to be one, and who says so."""

    source: Source
    pair: Pair
    is_whole: bool
    """Whether that is all its word says, so that it says nothing where they are one already."""


class Unknowns:
    """The unknowns of one drawing.

    points: those that stand for the others that are one with them, without the given ones. given:
    the given ones. rims: circles and arcs of an unknown radius. apart: what tells two points to be
    one that can't be joined, as both are given, or are one already."""

    def __init__(self, drawing: Drawing) -> None:
        self.drawing = drawing
        self.given = dict(_given(drawing))
        self.apart: list[Meeting] = []
        self._classes: Classes[PointRef] = Classes()
        self._rank = {ref: place for place, ref in enumerate([ORIGIN, *drawing.points()])}
        for meeting in _meetings(drawing):
            self._join(meeting)
        leaders = dict.fromkeys(map(self.leader, self._rank))
        self.points = tuple(ref for ref in leaders if ref not in self.given)
        self.rims = tuple(shape.name for shape in drawing.geometry
                          if isinstance(shape, (Circle, Arc)) and not shape.outer)
        self.number_of = {ref: number for number, ref in enumerate(self.points)}
        self.column_of = {name: 2 * len(self.points) + place
                          for place, name in enumerate(self.rims)}
        self.count = 2 * len(self.points) + len(self.rims)

    # -- points that are one

    def leader(self, ref: PointRef) -> PointRef:
        """The point that stands for this one: a given one, else the first that is drawn."""
        return self._classes.leader(ref)

    def _join(self, meeting: Meeting) -> None:
        first, second = sorted(map(self.leader, (meeting.pair.first, meeting.pair.second)),
                               key=lambda ref: (ref not in self.given, self._rank[ref]))
        if first == second:
            self.apart += [meeting] if meeting.is_whole else []
        elif second in self.given:
            self.apart.append(meeting)
        else:
            self._classes.join(first, second)

    def held(self) -> Iterator[FloatPointNm]:
        """The given places that are points of shapes which aren't outer."""
        for ref in self.drawing.points():
            leader = self.leader(ref)
            if leader in self.given and ref not in self.given:
                yield self.given[leader]

    def given_of_shapes(self) -> Iterator[FloatPointNm]:
        """The given places that are points of shapes, outer ones among them."""
        leaders = map(self.leader, self.drawing.points())
        yield from (self.given[leader] for leader in leaders if leader in self.given)

    # -- what constraints speak of

    def point(self, ref: PointRef) -> Combination:
        """The place of a point."""
        leader = self.leader(ref)
        if leader in self.given:
            return Combination({}, *self.given[leader])
        return Combination({self.number_of[leader]: 1.0})

    def line(self, ref: ShapeRef) -> tuple[Combination, Combination]:
        """The start of a segment or an axis, and the way from there to its end."""
        shape = self.drawing.shape(ref.name)
        if isinstance(shape, Axis):
            way = (0.0, AXIS_NM) if shape.upwards else (AXIS_NM, 0.0)
            return Combination(), Combination({}, *way)
        start, end = (self.point(PointRef(ref.name, each)) for each in (Which.START, Which.END))
        return start, end - start

    def centre(self, ref: ShapeRef) -> Combination:
        """The centre of a circle or an arc."""
        return self.point(PointRef(ref.name, Which.CENTRE))

    # -- as drawn

    def drawn(self) -> Array:
        """All unknowns as they are drawn. Points that are told to be a given one, and are drawn
        elsewhere, take all others along."""
        start = np.zeros(self.count)
        for ref, number in self.number_of.items():
            start[2 * number:2 * number + 2] = nm_of(self.drawing.meetings.drawn(ref))
        for name, column in self.column_of.items():
            start[column] = float(self.drawing.drawn_radius_um(name)) * NM_PER_UM
        start[:2 * len(self.points)] += np.tile(self._shift(), len(self.points))
        return start

    def _shift(self) -> Array:
        """How far the given points lie from where those that are told to be them are drawn, in the
        mean: points that are drawn in one place count once."""
        tied = dict.fromkeys((leader, self.drawing.drawn(ref))
                             for ref, leader in ((ref, self.leader(ref)) for ref in self._rank)
                             if leader in self.given and ref not in self.given)
        off = [np.subtract(self.given[leader], nm_of(place)) for leader, place in tied]
        shift: Array = np.mean(off, axis=0) if off else np.zeros(2)
        return shift


def nm_of(place: Place) -> FloatPointNm:
    """A drawn place in nanometres."""
    return float(place.x_um) * NM_PER_UM, float(place.y_um) * NM_PER_UM


def _given(drawing: Drawing) -> Iterator[tuple[PointRef, FloatPointNm]]:
    """The points that lie where they are drawn, whatever is asked for."""
    outer = {shape.name for shape in drawing.geometry if shape.outer}
    yield ORIGIN, (0.0, 0.0)
    yield from ((ref, nm_of(drawing.drawn(ref))) for ref in drawing.points() if ref.shape in outer)


def _meetings(drawing: Drawing) -> Iterator[Meeting]:
    """Every two points that are told to be one: by shapes, then by constraints in their order."""
    place_of = {shape.name: place for place, shape in enumerate(drawing.geometry, start=1)}
    for pair in drawing.shared():
        yield Meeting(Source(By.SHAPE, place_of[pair.first.shape]), pair, False)
    for number, constraint in enumerate(drawing.constraints, start=1):
        joined = pair_of(constraint)
        if joined is not None:
            is_whole = isinstance(constraint, JOINING_ALONE)
            yield Meeting(Source(By.CONSTRAINT, number), joined, is_whole)
