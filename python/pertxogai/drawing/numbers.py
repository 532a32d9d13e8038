"""Numbers of the text: millimetres, inches, degrees, ratios; read exactly, written exactly. Where a
constraint takes one, an expression may stand instead."""

from __future__ import annotations

import re
from fractions import Fraction
from typing import TYPE_CHECKING, NamedTuple

from pertxogai.drawing.constraints import AngleValue, Degrees, Ratio, Sense
from pertxogai.drawing.names import nearest
from pertxogai.drawing.places import UM_PER_MM
from pertxogai.drawing.refusal import WordFault
from pertxogai.drawing.tolerances.tolerance import Tolerance
from pertxogai.drawing.values.quantity import Misfit
from pertxogai.drawing.values.table import Values
from pertxogai.drawing.values.words import NAME, Function

if TYPE_CHECKING:
    from pertxogai.drawing.values.expression import Expression

MOST_MM = 1_000_000
"""No coordinate, length or radius is greater, in millimetres, as in the language."""

MOST_RATIO = 10_000
"""No number of a ratio is greater, as in the language."""

_DIGITS = 20
_BEYOND = f"is beyond {MOST_MM} mm: give lengths in millimetres, or in inches, such as 1.5in"
_NUMBER = re.compile(r"([+-]?)([0-9]{1,7}(?:\.[0-9]{1,20})?)(mm|in)?\Z")
_DEGREES = re.compile(r"([+-]?)([0-9]{1,3}(?:\.[0-9]{1,20})?)(?:deg|°)\Z")
_RATIO = re.compile(r"([+-]?)([0-9]{1,5})/([0-9]{1,5})\Z")
_PLAIN = re.compile(r"[+-]?[0-9.][^-+*/()×·÷−\s]*\Z")
"""What is meant as a number alone, sound or not."""
_NAME = re.compile(NAME)
_FUNCTIONS = frozenset(each.value for each in Function)
_UM_OF_UNIT = {None: Fraction(UM_PER_MM), "mm": Fraction(UM_PER_MM), "in": Fraction(25_400)}


def is_number(word: str) -> bool:
    """Whether a word stands where a number is meant: it begins as one."""
    return word[:1].isdigit() or (word[:1] in "+-." and len(word) > 1)


def has_sign(word: str) -> bool:
    """Whether a number is written with its sign."""
    return word[:1] in "+-"


class WrittenLength(NamedTuple):
    """A length as it is written: its micrometres, who says its sign, its expression where it is
    one, and its tolerance where it has one."""

    value_um: Fraction
    sense: Sense
    expression: Expression | None = None
    tolerance: Tolerance | None = None


class WrittenAngle(NamedTuple):
    """An angle as it is written: what it is, who says its sign, its expression where it is one, and
    its tolerance where it has one."""

    value: AngleValue
    sense: Sense
    expression: Expression | None = None
    tolerance: Tolerance | None = None


def begins_value(word: str, values: Values) -> bool:
    """Whether a word that may name a shape begins a number or an expression: no shape has the name
    of a value."""
    name = _NAME.match(word)
    if name is None:
        return is_number(word) or word[:1] in ("(", "+", "-", "−")
    behind = word[name.end():]
    if behind:
        return not behind.startswith(".")
    return values.has(word) or word in _FUNCTIONS


def read_length(text: str, values: Values) -> WrittenLength:
    """A number of millimetres, or an expression over values that comes to a length. Raises
    WordFault, and ValueFault where a value that it uses can't be reckoned."""
    if _PLAIN.match(text):
        return WrittenLength(read_um(text), _sense(has_sign(text)))
    _check_name(text, values, "is no number and no value: write millimetres, such as 12.5, or a "
                              f"line such as `value {text} 12.5`")
    expression = _read_expression(text)
    return WrittenLength(um_of(expression, values), _sense(expression.has_sign), expression)


def read_written_angle(text: str, values: Values) -> WrittenAngle:
    """An angle, or an expression over values that comes to one. Raises as `read_length`."""
    if _PLAIN.match(text) or _RATIO.match(text):
        return WrittenAngle(read_angle(text), _sense(has_sign(text)))
    _check_name(text, values, "is no angle and no value: write degrees, such as 60deg, a ratio, "
                              f"such as 1/2, or a line such as `value {text} 60deg`")
    expression = _read_expression(text)
    degrees = Degrees(degrees_of(expression, values))
    return WrittenAngle(degrees, _sense(expression.has_sign), expression)


def _read_expression(text: str) -> Expression:
    from pertxogai.drawing.values.parsing import read_expression  # Few drawings have any.

    return read_expression(text)


def _check_name(text: str, values: Values, what: str) -> None:
    """Raises WordFault at a text that is a name alone, and of no value."""
    if _NAME.fullmatch(text) and not values.has(text):
        raise WordFault(text, what + nearest(text, values.names()))


def um_of(expression: Expression, values: Values) -> Fraction:
    """The micrometres that an expression comes to. Raises as `read_length`."""
    quantity = values.evaluated(expression)
    try:
        return quantity.um()
    except Misfit as misfit:
        raise WordFault(expression.text, str(misfit)) from None


def degrees_of(expression: Expression, values: Values) -> Fraction:
    """The degrees that an expression comes to. Raises as `read_length`."""
    quantity = values.evaluated(expression)
    try:
        return quantity.degrees()
    except Misfit as misfit:
        raise WordFault(expression.text, str(misfit)) from None


def _sense(is_signed: bool) -> Sense:
    return Sense.SIGNED if is_signed else Sense.DRAWN


def read_um(word: str) -> Fraction:
    """The micrometres of a number of millimetres, as `120`, `-2.5`, `40mm` or `1.5in`."""
    found = _NUMBER.match(word)
    if found is None:
        raise WordFault(word, _why_no_number(word))
    value = Fraction(found[2]) * _UM_OF_UNIT[found[3]]
    if value > MOST_MM * UM_PER_MM:
        raise WordFault(word, _BEYOND)
    return -value if found[1] == "-" else value


def _why_no_number(word: str) -> str:
    if re.match(r"[+-]?0*[1-9][0-9]{7,}(\.[0-9]*)?(mm|in)?\Z", word):
        return _BEYOND
    if "," in word:
        return f"is no number: write {word.replace(',', '.')}, with a point for the comma"
    if re.match(r"[+-]?[0-9.]+(cm|m|um|µm|\"|')\Z", word):
        return ("has a unit that isn't read: write millimetres, such as 12.5, or inches, such as "
                "0.5in")
    return "is no number: write one in millimetres, such as 12.5, or in inches, such as 0.5in"


def read_angle(word: str) -> AngleValue:
    """An angle, as `60deg`, `-22.5deg` or `1/2`, with the sign that stands there."""
    degrees, ratio = _DEGREES.match(word), _RATIO.match(word)
    if degrees is not None:
        value = Fraction(degrees[2])
        return Degrees(-value if degrees[1] == "-" else value)
    if ratio is not None:
        return _ratio(word, -1 if ratio[1] == "-" else 1, int(ratio[2]), int(ratio[3]))
    if _NUMBER.match(word) and word[-1].isdigit():
        raise WordFault(word, f"is no angle: write {word}deg, or a ratio such as 1/2")
    raise WordFault(word, "is no angle: write degrees, such as 60deg, or a ratio, such as 1/2")


def _ratio(word: str, sign: int, p: int, q: int) -> Ratio:
    if p == 0:
        raise WordFault(word, "is no angle of two lines that cross: write `parallel` instead")
    if max(p, q) > MOST_RATIO:
        raise WordFault(word, f"has a number over {MOST_RATIO}: write a nearer ratio, or degrees")
    return Ratio(sign * p, q)


def mm_text(value_um: Fraction) -> str:
    """A number of micrometres in millimetres, exact where it is a decimal of at most twenty
    digits behind the point, else rounded there."""
    if value_um.denominator != 1:
        return decimal_text(value_um / UM_PER_MM)
    whole, rest = divmod(abs(value_um.numerator), UM_PER_MM)
    digits = f"{whole}.{rest:03}".rstrip("0").rstrip(".")
    return f"-{digits}" if value_um < 0 else digits


def decimal_text(value: Fraction) -> str:
    """A number as a decimal, without needless zeros."""
    scaled = round(abs(value) * 10 ** _DIGITS)
    whole, rest = divmod(scaled, 10 ** _DIGITS)
    digits = f"{rest:0{_DIGITS}}".rstrip("0")
    sign = "-" if value < 0 and scaled else ""
    return f"{sign}{whole}.{digits}" if digits else f"{sign}{whole}"


def angle_text(value: AngleValue, signed: bool) -> str:
    """An angle as it is written, with its sign also where it is plus if `signed`."""
    match value:
        case Degrees(degrees):
            text, minus = f"{decimal_text(abs(degrees))}deg", degrees < 0
        case Ratio(p, q):
            text, minus = f"{abs(p)}/{q}", p < 0
    return ("-" if minus else "+" if signed else "") + text
