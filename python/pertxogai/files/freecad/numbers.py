"""Numbers of a FreeCAD file: millimetres and radians, as it stores them.

FreeCAD stores what its solver found, to sixteen digits, so a length of 60 may stand as
59.999999999999996. Lengths are read to 10⁻⁹ mm, a thousandth of a nanometre, and angles to
10⁻¹⁰ degrees, so that a number which was typed is read as it was typed.
"""

from __future__ import annotations

import math
import re
from decimal import Decimal
from fractions import Fraction

from pertxogai.drawing import Place, um_of_mm
from pertxogai.files.contents import NotSayable
from pertxogai.files.freecad.markup import Node

_WHOLE = re.compile(r"-?[0-9]{1,11}")
_LENGTH_DIGITS = 9
_ANGLE_DIGITS = 10


def number(node: Node, name: str, default: str | None = None) -> float:
    """A finite number among the attributes. Raises Unsaid where it is none, or isn't there."""
    text = node.attributes.get(name, default)
    try:
        value = float(text) if text is not None else math.nan
    except ValueError:
        value = math.nan
    if not math.isfinite(value):
        raise NotSayable(f"its {name} is no number")
    return value


def whole(node: Node, name: str, default: str) -> int:
    """A whole number among the attributes. Raises Unsaid where it is none."""
    text = node.get(name, default)
    if not _WHOLE.fullmatch(text):
        raise NotSayable(f"its {name} is no whole number")
    return int(text)


def length_um(millimetres: float) -> Fraction:
    """Micrometres of a stored length. Raises Unsaid where it is no finite number."""
    check_finite(millimetres)
    return um_of_mm(Decimal(repr(round(millimetres, _LENGTH_DIGITS))))


def degrees(radians: float) -> Fraction:
    """Degrees of a stored angle. Raises Unsaid where they are no finite number."""
    turned = math.degrees(radians)
    check_finite(turned)
    return Fraction(Decimal(repr(round(turned, _ANGLE_DIGITS))))


def place(x: float, y: float) -> Place:
    """A stored place."""
    return Place(length_um(x), length_um(y))


def check_finite(value: float) -> None:
    """Raises Unsaid where sums or products of stored numbers went beyond all numbers."""
    if not math.isfinite(value):
        raise NotSayable("one of its numbers is too large")
