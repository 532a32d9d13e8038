"""The tolerance of one dimension, as `+-0.1`, `+0.2-0` or `-0.007-0.02` behind its value."""

from __future__ import annotations

import re
from collections.abc import Mapping
from dataclasses import dataclass
from fractions import Fraction

from pertxogai.drawing.refusal import WordFault

_NUMBER = r"([0-9]{1,7}(?:\.[0-9]{1,20})?)(mm|in|deg|°)?"
_BOTH = rf"(?:\+-|±){_NUMBER}\Z"
_EACH = rf"([-−+]){_NUMBER}([-−+]){_NUMBER}\Z"
_SIGNED = rf"[-−+]{_NUMBER}\Z"
_PLAIN = rf"[-−+]?{_NUMBER}\Z"
Units = Mapping[str | None, Fraction]
_LENGTHS: Units = {None: Fraction(1000), "mm": Fraction(1000), "in": Fraction(25_400)}
"""Micrometres of each unit."""
_ANGLES: Units = {"deg": Fraction(1), "°": Fraction(1)}


@dataclass(frozen=True)
class Tolerance:
    """How far a value may lie below and above, in micrometres, or in degrees for an angle. A
    negative `below` means that the least permitted value is above the nominal one, and likewise for
    `above`; their sum isn't negative. text: the tolerance as written."""

    below: Fraction
    above: Fraction
    text: str


def split_tolerance(text: str) -> tuple[str, str]:
    """A value and the tolerance behind it, which is its last word; nothing where it has none.
    Raises WordFault where the words may be a tolerance or a sum."""
    value, _, last = text.rpartition(" ")
    if value and (re.match(_BOTH, last) or re.match(_EACH, last)):
        return value, last
    if "+-" in text:
        raise WordFault("+-", "may be a tolerance or a sum: write a tolerance behind a blank and "
                              "without one in it, such as +-0.1, and a sum with blanks around its "
                              "signs")
    before = value.rpartition(" ")[2]
    if value and re.match(_SIGNED, last) and (re.match(_SIGNED, before) or re.match(_PLAIN, value)):
        raise WordFault(last, "may be part of a tolerance or of a sum: write a tolerance without "
                              "blanks, such as +0.1-0.2, and a sum with blanks around its signs")
    return text, ""


def read_tolerance(word: str, of_angle: bool) -> Tolerance | None:
    """The tolerance of a word; None of an empty one. Raises WordFault at another unit."""
    if not word:
        return None
    both, each = re.match(_BOTH, word), re.match(_EACH, word)
    if both is not None:
        off = _number(word, both[1], both[2], of_angle)
        return Tolerance(off, off, word)
    assert each is not None
    unit = each[6]  # One unit behind both holds for both.
    above, below = (_number(word, each[at + 1], each[at + 2] or unit, of_angle)
                    for at in (1, 4))
    above, below = above if each[1] == "+" else -above, -below if each[4] == "+" else below
    if above < -below or above == -below != 0:
        raise WordFault(word, "has its greater deviation last: write it first, such as -0.007-0.02")
    return Tolerance(below, above, word)


def _number(word: str, digits: str, unit: str | None, of_angle: bool) -> Fraction:
    units = _ANGLES if of_angle else _LENGTHS
    if unit not in units:
        raise WordFault(word, "is no tolerance of an angle: write degrees, such as +-0.5deg"
                        if of_angle else
                        "is no tolerance of a length: write millimetres, such as +-0.1")
    return Fraction(digits) * units[unit]
