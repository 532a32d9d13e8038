"""What the words alone tell, whatever is drawn, of how edges run: along which lines, and by words
with a sign which way."""
from __future__ import annotations

from collections.abc import Iterator
from fractions import Fraction
from typing import Generic, TypeVar

from pertxogai.drawing import (
    ORIGIN, X_AXIS, Y_AXIS, AngleBetween, Collinear, Constraint, Degrees, Drawing, Horizontal, Pair,
    Parallel, Perpendicular, PointOn, PointRef, Segment, Sense, ShapeRef, Vertical, Which,
    XDistance, YDistance)

Key = TypeVar("Key")
Number = int | Fraction
Quarters = int | None
"""From one line to another in quarter turns, up to a half turn; None where an angle tells it."""


class Runs(Generic[Key]):
    """How far things lie from one another, each told from another one, and added up."""

    def __init__(self) -> None:
        self._from: dict[Key, tuple[Key, Number]] = {}

    def tell(self, first: Key, second: Key, run: Number) -> None:
        """How far the second lies from the first; nothing new where that is known."""
        (one, before), (other, behind) = self._at(first), self._at(second)
        if one != other:
            self._from[other] = one, before + run - behind

    def run(self, first: Key, second: Key) -> Number | None:
        """How far the second lies from the first; None where that isn't told."""
        (one, before), (other, behind) = self._at(first), self._at(second)
        return behind - before if one == other else None

    def _at(self, key: Key) -> tuple[Key, Number]:
        """What a thing is told from in the end, and how far it lies from that."""
        run: Number = 0
        while key in self._from:
            key, step = self._from[key]
            run += step
        return key, run


class ToldRuns:
    """What the words of a drawing tell of its segments' directions, and with a sign of how far
    points lie from one another along x and along y, in micrometres."""

    def __init__(self, drawing: Drawing) -> None:
        self._leader = drawing.meetings.leader
        self._tied, self._quarters, self._turned = Runs[str](), Runs[str](), Runs[str]()
        self._along_x, self._along_y = Runs[PointRef](), Runs[PointRef]()
        self._turned.tell(X_AXIS.name, Y_AXIS.name, 0)
        for line, other, quarters in _turns(drawing):
            self._tied.tell(line, other, 0)
            if quarters is not None:
                self._quarters.tell(line, other, quarters)
        for shape in drawing.geometry:
            if isinstance(shape, Segment):
                self._level(shape.name, PointRef(shape.name, Which.END))
        for each in drawing.constraints:
            self._take(each)

    def _take(self, said: Constraint) -> None:
        """Takes what a constraint tells with a sign, and what is level or upright by it."""
        match said:
            case AngleBetween(line, other, Degrees()) if said.sense is Sense.SIGNED:
                self._turned.tell(line.name, other.name, 0)
            case XDistance(first, second, value) if said.sense is Sense.SIGNED or not value:
                self._tell(self._along_x, first, second, value)
            case YDistance(first, second, value) if said.sense is Sense.SIGNED or not value:
                self._tell(self._along_y, first, second, value)
            case Horizontal(Pair(first, second)):
                self._tell(self._along_y, first, second, 0)
            case Vertical(Pair(first, second)):
                self._tell(self._along_x, first, second, 0)
            case PointOn(point, curve):
                self._level(curve.name, point)

    def is_directed(self, name: str) -> bool:
        """Whether words tell the direction of a segment, up to a half turn, from the axes."""
        return self._tied.run(X_AXIS.name, name) is not None

    def is_turned(self, line: str, other: str) -> bool:
        """Whether angles with signs lead from one line to another, and so tell which way it runs
        where the one does; an angle by a ratio doesn't."""
        return self._turned.run(line, other) is not None

    def run(self, first: PointRef, second: PointRef) -> tuple[Number | None, Number | None]:
        """How far the second lies from the first along x, and along y; None where no words say so
        that have a sign, or say that it is 0."""
        first, second = self._leader(first), self._leader(second)
        return self._along_x.run(first, second), self._along_y.run(first, second)

    def _level(self, line: str, point: PointRef) -> None:
        """Tells that a point of a line along an axis is level with the line's first one."""
        quarters = self._quarters.run(X_AXIS.name, line)
        if quarters is not None:
            axis = line in (X_AXIS.name, Y_AXIS.name)
            along = self._along_x if quarters % 2 else self._along_y
            self._tell(along, ORIGIN if axis else PointRef(line, Which.START), point, 0)

    def _tell(self, along: Runs[PointRef], first: PointRef, second: PointRef, run: Number) -> None:
        along.tell(self._leader(first), self._leader(second), run)


def _turns(drawing: Drawing) -> Iterator[tuple[str, str, Quarters]]:
    """From which line to which words tell the turn."""
    yield X_AXIS.name, Y_AXIS.name, 1
    for each in drawing.constraints:
        match each:
            case Horizontal(ShapeRef(name)):
                yield X_AXIS.name, name, 0
            case Vertical(ShapeRef(name)):
                yield X_AXIS.name, name, 1
            case Parallel(first, second) | Collinear(first, second):
                yield first.name, second.name, 0
            case Perpendicular(first, second):
                yield first.name, second.name, 1
            case AngleBetween(first, second):
                yield first.name, second.name, None
