"""What is told of the named values of a drawing: lines to read, and JSON."""

from __future__ import annotations

from collections.abc import Iterator
from typing import TypedDict

from pertxogai.drawing import Drawing, ReckonedValue, reckoned_values, rounded_roots
from pertxogai.judging.naming import quoted


class ValueJson(TypedDict):
    """A named value, as JSON. expression: as it is written; value: what that comes to, in its unit;
    unit: `mm`, `deg`, another, or nothing; exact: whether no root in it is other than a
    fraction, which is taken to thirty places."""

    name: str
    expression: str
    value: float
    unit: str
    exact: bool


def value_json(value: ReckonedValue) -> ValueJson:
    """A named value."""
    quantity = value.quantity
    return {"name": value.name, "expression": value.text, "value": float(quantity.number),
            "unit": quantity.unit_text(), "exact": quantity.exact}


def values_json(drawing: Drawing) -> dict[str, object]:
    """The named values of a drawing, and the constraints whose expressions have a root that is no
    fraction, and is taken to thirty places."""
    return {"values": [value_json(each) for each in reckoned_values(drawing)],
            "rounded_roots": [drawing.called(each) for each in rounded_roots(drawing)]}


def values_lines(drawing: Drawing) -> Iterator[str]:
    """The named values of a drawing in a line, and what has a root that is no fraction."""
    values = ", ".join(f"{each.name} = {each.quantity.text()}" for each in reckoned_values(drawing))
    if values:
        yield f"  values: {values}"
    yield from (f"  a root in it is computed to thirty places: {quoted(drawing.called(each))}"
                for each in rounded_roots(drawing))
