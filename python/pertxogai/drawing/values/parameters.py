"""What of a drawing may be given another number: its named values, and its dimensions."""

from __future__ import annotations

from collections.abc import Iterator
from dataclasses import dataclass, replace
from enum import Enum
from fractions import Fraction
from math import atan2, degrees

from pertxogai.drawing.constraint_checks import check_constraint
from pertxogai.drawing.constraints import VALUED, AngleBetween, Degrees, Ratio, Sense, Valued
from pertxogai.drawing.drawing import Drawing
from pertxogai.drawing.numbers import decimal_text
from pertxogai.drawing.refusal import DrawingUnsound, WordFault
from pertxogai.drawing.senses import Slope, turn
from pertxogai.drawing.values.expression import Expression
from pertxogai.drawing.values.parsing import read_expression
from pertxogai.drawing.values.reckoning import with_values


PARTS = 10_000
"""How finely an angle by a ratio is told: to this part of a degree."""


class Unit(Enum):
    """The unit of a parameter; the values are the words for it."""

    MM = "mm"
    DEGREES = "deg"
    PLAIN = ""
    """No unit, such as a count of holes; a value that is used as a length is in millimetres."""


@dataclass(frozen=True)
class NamedValue:
    """The value of that name; `present` counts its unit."""

    name: str
    unit: Unit
    present: Fraction

    def called(self, drawing: Drawing) -> str:
        """What a designer calls it."""
        return self.name

    def on(self, drawing: Drawing, number: Fraction) -> Drawing:
        """The drawing with another number for it, in its unit. Raises DrawingUnsound."""
        try:
            return with_values(drawing, {self.name: expression_of(number, self.unit)})
        except WordFault as fault:
            raise DrawingUnsound(f"value {self.name}", fault.word, fault.what) from None


@dataclass(frozen=True)
class Dimension:
    """The constraint with that number, from 1; `present` is its value in its unit."""

    number: int
    unit: Unit
    present: Fraction

    def called(self, drawing: Drawing) -> str:
        """What a designer calls it."""
        return drawing.called(self.number)

    def on(self, drawing: Drawing, number: Fraction) -> Drawing:
        """The drawing with another value for it, in its unit; the drawing itself if it has this
        value there. `drawing` is the one that it was found in, or that one with other numbers. An
        angle that was given by a ratio becomes one in degrees, as a turn. Raises
        DrawingUnsound."""
        old = drawing.constraints[self.number - 1]
        assert isinstance(old, VALUED)
        if number == _value(drawing, old):
            return drawing
        anew: Valued
        if isinstance(old, AngleBetween):
            sense = Sense.SIGNED if isinstance(old.value, Ratio) else old.sense
            anew = replace(old, value=Degrees(number), sense=sense, expression=None)
        else:
            anew = replace(old, value_um=number * 1000, expression=None)
        try:
            check_constraint(drawing.scene, anew)
        except WordFault as fault:
            raise DrawingUnsound(self.called(drawing), fault.word, fault.what) from None
        place = self.number - 1
        said = *drawing.constraints[:place], anew, *drawing.constraints[place + 1:]
        return drawing.with_numbers(said)


Parameter = NamedValue | Dimension
"""A value or dimension whose number may be changed."""


def parameters(drawing: Drawing) -> tuple[Parameter, ...]:
    """The values, and then the dimensions that don't follow from values, of a sound drawing;
    without values whose unit isn't mm or degrees. For an angle given by a ratio `present` is the
    turn in degrees, to four decimals."""
    return (*_values(drawing), *_dimensions(drawing))


def expression_of(number: Fraction, unit: Unit) -> Expression:
    """A number with its unit, as it is written: to twenty digits. Raises WordFault at one beyond
    those that are read."""
    return read_expression(decimal_text(number) + unit.value)


def _values(drawing: Drawing) -> Iterator[NamedValue]:
    units = {(0, 0): Unit.PLAIN, (1, 0): Unit.MM, (0, 1): Unit.DEGREES}
    for each in drawing.values:
        quantity = drawing.scene.values.quantity(each.name)
        unit = units.get((quantity.length, quantity.angle))
        if unit is not None and not each.expression.names:
            yield NamedValue(each.name, unit, quantity.number)


def _dimensions(drawing: Drawing) -> Iterator[Dimension]:
    for number, each in enumerate(drawing.constraints, start=1):
        if not isinstance(each, VALUED) or each.expression is not None and each.expression.names:
            continue
        unit = Unit.DEGREES if isinstance(each, AngleBetween) else Unit.MM
        yield Dimension(number, unit, _value(drawing, each))


def _value(drawing: Drawing, dimension: Valued) -> Fraction:
    """The value of a dimension, in its unit."""
    if not isinstance(dimension, AngleBetween):
        return dimension.value_um / 1000
    if isinstance(dimension.value, Degrees):
        return dimension.value.value
    return _turn(drawing, dimension)


def _turn(drawing: Drawing, angle: AngleBetween) -> Fraction:
    """The turn of an angle by a ratio, in degrees."""
    slope = turn(drawing, angle)
    assert isinstance(slope, Slope)
    turned = degrees(atan2(slope.p, slope.q)) + 180 * slope.backward
    return Fraction(round((turned - 360 if turned > 180 else turned) * PARTS), PARTS)
