"""How a shape or a constraint is told in a line of text."""

from __future__ import annotations

from typing import assert_never

from pertxogai.cached import cached_on
from pertxogai.drawing.constraints import (
    AngleBetween, Coincident, Collinear, Concentric, Constraint, Diameter, Distance, Equal, Fixed,
    Horizontal, Length, Midpoint, Parallel, ParallelDistance, Perpendicular, PointLineDistance,
    PointOn, Radius, Sense, Symmetric, Tangent, Valued, Vertical, XDistance, YDistance)
from pertxogai.drawing.geometry import Anchor, Arc, Circle, Point, Segment, Shape
from pertxogai.drawing.numbers import angle_text, mm_text
from pertxogai.drawing.references import ORIGIN, X_AXIS, PointRef

Sized = Length | Distance | PointLineDistance | ParallelDistance | Radius | Diameter
"""The constraints whose value stands last and has no sign."""


@cached_on
def line_of(item: Shape | Constraint) -> str:
    """The line of a shape or a constraint, as a designer writes it."""
    if isinstance(item, Point | Segment | Circle | Arc):
        return _flags(item) + _shape(item)
    return (f"{item.name}: " if item.name is not None else "") + words_of(item)


def _flags(shape: Shape) -> str:
    return ("construction " if shape.construction else "") + ("outer " if shape.outer else "")


def _shape(shape: Shape) -> str:
    match shape:
        case Point():
            return f"point {shape.name} {_spot(shape.at)}"
        case Segment():
            return f"segment {shape.name} {_spot(shape.start)} {_spot(shape.end)}"
        case Circle():
            return f"circle {shape.name} {_spot(shape.centre)} {mm_text(shape.radius_um)}"
        case Arc():
            spots = (shape.centre, shape.start, shape.end)
            return " ".join(["arc", shape.name, *(_spot(each) for each in spots)])
        case _:
            assert_never(shape)


def _spot(spot: Anchor) -> str:
    if isinstance(spot, PointRef):
        return str(spot)
    return f"{mm_text(spot.x_um)} {mm_text(spot.y_um)}"


@cached_on
def words_of(constraint: Constraint) -> str:
    """The line of a constraint without its name."""
    match constraint:
        case Coincident(first, second):
            return f"coincident {first} {second}"
        case PointOn(point, curve):
            return f"on {point} {curve}"
        case Horizontal(of):
            return f"horizontal {of}"
        case Vertical(of):
            return f"vertical {of}"
        case Midpoint(point, segment):
            return f"midpoint {point} {segment}"
        case Symmetric(first, second, about):
            return f"symmetric {first} {second} about {about}"
        case Fixed(what):
            return f"fixed {what}"
        case Tangent() | Perpendicular():
            return _touching(constraint)
        case AngleBetween():
            return _angle(constraint)
        case XDistance() | YDistance():
            return _words_of_run(constraint)
        case Parallel() | Collinear() | Equal() | Concentric():
            return f"{_word(constraint)} {constraint.first} {constraint.second}"
        case _:
            return _size_text(constraint)


def _word(constraint: Constraint) -> str:
    return type(constraint).__name__.lower()


def _touching(constraint: Tangent | Perpendicular) -> str:
    of = constraint.at or f"{constraint.first} {constraint.second}"
    return f"{_word(constraint)} {of}"


def _angle(angle: AngleBetween) -> str:
    lines = f"{angle.second}" if angle.first == X_AXIS else f"{angle.first} {angle.second}"
    return f"angle {lines} {_toleranced(angle)}"


def _words_of_run(run: XDistance | YDistance) -> str:
    points = f"{run.second}" if run.first == ORIGIN else f"{run.first} {run.second}"
    return f"{'x' if isinstance(run, XDistance) else 'y'} {points} {_toleranced(run)}"


def _toleranced(constraint: Valued) -> str:
    """The value of a constraint as it is written, and its tolerance."""
    off = constraint.tolerance
    return value_text(constraint) + (f" {off.text}" if off is not None else "")


def value_text(constraint: Valued) -> str:
    """The value of a constraint as written, which is last in its line, before a tolerance."""
    if constraint.expression is not None:
        return constraint.expression.text
    match constraint:
        case AngleBetween(value=value, sense=sense):
            return angle_text(value, sense is Sense.SIGNED)
        case XDistance(value_um=value_um, sense=sense) | YDistance(value_um=value_um, sense=sense):
            plus = "+" if sense is Sense.SIGNED and value_um >= 0 else ""
            return plus + mm_text(value_um)
        case _:
            return mm_text(constraint.value_um)


def asked_of(constraint: Valued) -> tuple[str, ...]:
    """The words of a constraint before its value."""
    return tuple(words_of(constraint).removesuffix(_toleranced(constraint)).split())


def _size_text(constraint: Sized) -> str:
    value = _toleranced(constraint)
    match constraint:
        case Length(segment):
            return f"length {segment} {value}"
        case Distance(first, second):
            return f"distance {first} {second} {value}"
        case PointLineDistance(point, line):
            return f"distance {point} {line} {value}"
        case ParallelDistance(line, parallel):
            return f"distance {line} {parallel} {value}"
        case Radius(rim) | Diameter(rim):
            return f"{_word(constraint)} {rim} {value}"
        case _:
            assert_never(constraint)
