"""What the values and expressions of a drawing come to, also once some values are others."""

from __future__ import annotations

from collections.abc import Iterator, Mapping
from dataclasses import dataclass, replace
from typing import TYPE_CHECKING

from pertxogai.drawing.constraint_checks import check_constraint
from pertxogai.drawing.constraints import VALUED, AngleBetween, Constraint, Degrees, Valued
from pertxogai.drawing.drawing import Drawing
from pertxogai.drawing.numbers import degrees_of, um_of
from pertxogai.drawing.refusal import DrawingUnsound, WordFault
from pertxogai.drawing.values.table import ValueFault, Values

if TYPE_CHECKING:
    from pertxogai.drawing.values.expression import Expression
    from pertxogai.drawing.values.quantity import Quantity


@dataclass(frozen=True)
class ReckonedValue:
    """A named value, its text, and its result."""

    name: str
    text: str
    quantity: Quantity


def reckoned_values(drawing: Drawing) -> tuple[ReckonedValue, ...]:
    """The values of a sound drawing, in order."""
    values = drawing.scene.values
    return tuple(ReckonedValue(each.name, each.expression.text, values.quantity(each.name))
                 for each in drawing.values)


def rounded_roots(drawing: Drawing) -> tuple[int, ...]:
    """The numbers, from 1, of the constraints of a sound drawing whose values were rounded because
    a root in their expressions is no fraction."""
    values = drawing.scene.values
    return tuple(number for number, each in enumerate(drawing.constraints, start=1)
                 if isinstance(each, VALUED) and each.expression is not None
                 and not values.evaluated(each.expression).exact)


def with_values(drawing: Drawing, changes: Mapping[str, Expression]) -> Drawing:
    """A sound drawing with other expressions for some values, by their names, and all expressions
    computed again. Raises DrawingUnsound for a name that no value has, and for a value or
    constraint that isn't sound then."""
    known = [each.name for each in drawing.values]
    for name in changes:
        if name not in known:
            raise DrawingUnsound(f"value {name}", name, "is the name of no value: the drawing has "
                                 + (", ".join(known) or "none"))
    values = tuple(replace(each, expression=changes.get(each.name, each.expression))
                   for each in drawing.values)
    return reckoned(drawing.with_numbers(drawing.constraints, values))


def reckoned(drawing: Drawing) -> Drawing:
    """A drawing with each expression reckoned anew. Raises DrawingUnsound."""
    _check_values(drawing)
    said = tuple(_reckoned_all(drawing))
    return drawing.with_numbers(said) if said != drawing.constraints else drawing


def _check_values(drawing: Drawing) -> None:
    values = Values(drawing.values)
    for each in drawing.values:
        try:
            values.quantity(each.name)
        except ValueFault as fault:
            raise DrawingUnsound(f"value {fault.name}", fault.word, fault.what) from None


def _reckoned_all(drawing: Drawing) -> Iterator[Constraint]:
    for number, each in enumerate(drawing.constraints, start=1):
        if not isinstance(each, VALUED) or each.expression is None:
            yield each
            continue
        try:
            anew = _reckoned(drawing.scene.values, each, each.expression)
            if anew is not each:
                check_constraint(drawing.scene, anew)
            yield anew
        except WordFault as fault:
            raise DrawingUnsound(drawing.called(number), fault.word, fault.what) from None


def _reckoned(values: Values, constraint: Valued, expression: Expression) -> Constraint:
    """The constraint with what its expression comes to; itself where that is what it has."""
    if isinstance(constraint, AngleBetween):
        angle = Degrees(degrees_of(expression, values))
        return constraint if angle == constraint.value else replace(constraint, value=angle)
    value_um = um_of(expression, values)
    return constraint if value_um == constraint.value_um else replace(constraint, value_um=value_um)
