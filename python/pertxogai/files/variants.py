"""What of a file's sketch is another in a variant of it: the values of its dimensions."""
from __future__ import annotations

from collections.abc import Iterator
from dataclasses import dataclass
from fractions import Fraction
from math import atan2, degrees

from pertxogai.drawing import (
    VALUED, AngleBetween, Degrees, Drawing, XDistance, YDistance, run_um, turn)
from pertxogai.drawing.constraints import Valued
from pertxogai.drawing.senses import Turn
from pertxogai.files.contents import FileSketch

_UM_PER_MM = 1000


@dataclass(frozen=True)
class Changed:
    """The constraint of a number in the file has another value: mm, or degrees of an angle, with
    the sign that the drawing has for it. follows: whether the expression tells it that the file's
    drawing has."""

    number: int
    old: Fraction
    new: Fraction
    is_angle: bool
    follows: bool


def changes(sketch: FileSketch, variant: Drawing) -> Iterator[Changed]:
    """The dimensions of a file's sketch that are others in a drawing made of it."""
    said = zip(sketch.numbers, sketch.drawing.constraints, variant.constraints, strict=True)
    for number, old, new in said:
        if isinstance(old, VALUED) and isinstance(new, VALUED) and old != new:
            told = _value(sketch.drawing, old), _value(variant, new)
            if told[0] != told[1]:
                follows = old.expression is not None and old.expression == new.expression
                yield Changed(number, *told, isinstance(old, AngleBetween), follows)


def _value(drawing: Drawing, constraint: Valued) -> Fraction:
    if isinstance(constraint, AngleBetween):
        return _degrees(turn(drawing, constraint))
    if isinstance(constraint, XDistance | YDistance):
        return run_um(drawing, constraint) / _UM_PER_MM
    return constraint.value_um / _UM_PER_MM


def _degrees(asked: Turn) -> Fraction:
    """A turn in degrees; that of a ratio to the digits of a float, as the files have it."""
    if isinstance(asked, Degrees):
        return asked.value
    turned = degrees(atan2(asked.p, asked.q)) + 180 * asked.backward
    return Fraction(turned - 360 if turned > 180 else turned)
