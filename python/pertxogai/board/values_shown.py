"""How large what a dimension tells is where it is shown: by numbers, to a hundredth."""
from __future__ import annotations

import math
from fractions import Fraction

from pertxogai.drawing import (
    AngleBetween, Constraint, Diameter, Distance, Length, ParallelDistance, PointLineDistance,
    Radius, ShapeRef, XDistance, YDistance)
from pertxogai.drawing.numbers import decimal_text
from pertxogai.output.picture.drawings import DrawnPlaces
from pertxogai.output.picture.plane import foot


def value_shown(where: DrawnPlaces, constraint: Constraint, degrees: int = 0) -> str | None:
    """What is shown of a dimension, as it is written; None of what is none. degrees: to how many
    digits behind the point an angle is told."""
    match constraint:
        case Length(segment):
            return mm_shown(math.dist(*where.ends(segment.name)))
        case Distance(first, second):
            return mm_shown(math.dist(where.at(first), where.at(second)))
        case XDistance(first, second):
            return mm_shown(abs(where.at(second)[0] - where.at(first)[0]))
        case YDistance(first, second):
            return mm_shown(abs(where.at(second)[1] - where.at(first)[1]))
        case PointLineDistance(point, line):
            return mm_shown(_height(where, where.at(point), line))
        case ParallelDistance(line, other):
            return mm_shown(_height(where, where.ends(line.name)[0], other))
        case Radius(rim):
            return mm_shown(where.radius(rim.name))
        case Diameter(rim):
            return mm_shown(2 * where.radius(rim.name))
        case AngleBetween(first, second):
            return _angle(where, first, second, degrees)
        case _:
            return None


def _height(where: DrawnPlaces, spot: tuple[float, float], line: ShapeRef) -> float:
    return math.dist(spot, foot(spot, *where.ends(line.name)))


def _angle(where: DrawnPlaces, first: ShapeRef, second: ShapeRef, digits: int) -> str:
    """The angle of two segments as on paper: of their corner where they have one."""
    (ax, ay), (bx, by) = where.ends(first.name)
    (cx, cy), (dx, dy) = where.ends(second.name)
    turn = math.degrees(math.atan2(dy - cy, dx - cx) - math.atan2(by - ay, bx - ax)) % 360
    turn = min(turn, 360 - turn)
    corner = where.drawing.meetings.corner(first, second)
    if corner is not None and corner.first.which is not corner.second.which:
        turn = 180 - turn
    return f"{decimal_text(Fraction(round(turn * 10 ** digits), 10 ** digits))}deg"


def mm_shown(value: float) -> str:
    """A number of millimetres, to a hundredth."""
    return decimal_text(Fraction(round(value * 100), 100))
