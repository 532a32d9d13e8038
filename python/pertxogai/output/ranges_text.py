"""What is told of ranges: lines to read, and JSON."""
from __future__ import annotations

from collections.abc import Iterator, Sequence
from fractions import Fraction
from typing import TypedDict

from pertxogai.drawing import Drawing
from pertxogai.drawing.numbers import decimal_text
from pertxogai.ranging import Range

DIGITS = 9
"""To how many digits behind the point a number is told."""


class RangeJson(TypedDict):
    """A range, as JSON. of: the name of the value, or what the constraint is called; unit: `mm`,
    `deg`, or nothing; low, high: the last numbers with which the drawing stays as it is; low_why,
    high_why: why it doesn't one step beyond (a micrometre, a ten-thousandth of a degree, or a
    thousandth of what has no unit), or that rounding may break a constraint further on; sampled:
    how many values were tried; clear_by_numbers: whether by numbers no two shapes that are drawn
    apart and share no end come to cross, and none turns about, between these."""

    of: str
    present: float
    unit: str
    low: float
    low_why: str
    high: float
    high_why: str
    sampled: int
    clear_by_numbers: bool


def range_json(drawing: Drawing, each: Range) -> RangeJson:
    """The range of one value or dimension."""
    return {"of": each.of.called(drawing), "present": float(each.of.present),
            "unit": each.of.unit.value,
            "low": float(each.low.at), "low_why": each.low.fault.text,
            "high": float(each.high.at), "high_why": each.high.fault.text,
            "sampled": each.tried, "clear_by_numbers": each.is_clear}


def ranges_lines(name: str, drawing: Drawing, ranges: Sequence[Range]) -> Iterator[str]:
    """The ranges of a drawing: a line for each, and one for the reason at each end."""
    yield f"{name}: {len(ranges)} range{'s' if len(ranges) != 1 else ''}"
    for each in ranges:
        unit = f" {each.of.unit.value or '(no unit)'}"
        yield (f"  {each.of.called(drawing)}: from {number_text(each.low.at)} to "
               f"{number_text(each.high.at)}{unit}, now {number_text(each.of.present)}, "
               f"{sampled_text(each)}")
        yield f"    below: {each.low.fault.text}"
        yield f"    above: {each.high.fault.text}"


def sampled_text(each: Range) -> str:
    """At how many values a range was sampled, and what is known of those between."""
    between = ("no two shapes that are drawn apart and share no end come to cross, and none turns "
               "about," if each.is_clear else "a shape may cross another or turn about")
    return f"sampled at {each.tried} values; by numbers {between} between them"


def number_text(number: Fraction) -> str:
    """A number of a range, for a person."""
    return decimal_text(round(number, DIGITS))
