"""The words of expressions, and how the name of a value is written."""

from __future__ import annotations

from enum import Enum
from fractions import Fraction

from pertxogai.drawing.values.quantity import Quantity


class Function(Enum):
    """The functions; the values are their words."""

    MIN = "min"
    MAX = "max"
    SQRT = "sqrt"


UNITS = {"mm": Quantity(Fraction(1), length=1), "in": Quantity(Fraction(127, 5), length=1),
         "deg": Quantity(Fraction(1), angle=1), "°": Quantity(Fraction(1), angle=1)}
"""What one of each unit is."""

RESERVED = frozenset(UNITS) | frozenset(each.value for each in Function)
"""All words of expressions, so no value is called so."""

NAME = r"[^\W\d]\w*"
"""How the name of a value is written."""
