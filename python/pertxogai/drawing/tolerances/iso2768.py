"""General tolerances of ISO 2768-1, the classes f, m, c and v.

Source: ISO 2768-1:1989, 'General tolerances, part 1: Tolerances for linear and angular dimensions
without individual tolerance indications', tables 1 (linear dimensions except for broken edges), 2
(external radii and chamfer heights) and 3 (angular dimensions, by the length of the shorter side of
the angle). A row holds for sizes over the one before and up to its own; below 0.5 mm the standard
gives none, and wants the tolerance beside the dimension."""

from __future__ import annotations

from dataclasses import dataclass
from enum import Enum
from fractions import Fraction

from pertxogai.drawing.refusal import WordFault

UM_PER_MM = 1000
LEAST_UM = Fraction(500)
"""What is shorter has no general tolerance."""
WORD = "tolerances"
PREFIX = "ISO2768-"


class Grade(Enum):
    """The classes; the values are their letters."""

    FINE = "f"
    MEDIUM = "m"
    COARSE = "c"
    VERY_COARSE = "v"


class Table(Enum):
    """What is looked up."""

    LINEAR = "linear"
    """Lengths, distances, diameters."""
    BROKEN_EDGE = "broken edge"
    """External radii and chamfer heights."""
    ANGULAR = "angular"
    """Angles."""


Row = tuple[str | None, str | None, str | None, str | None, str | None]
"""The greatest size in millimetres, None for any, and how far it may be off in millimetres or
degrees and minutes, for f, m, c and v; None where the standard gives none."""

_LINEAR: tuple[Row, ...] = (
    ("3", "0.05", "0.1", "0.2", None),
    ("6", "0.05", "0.1", "0.3", "0.5"),
    ("30", "0.1", "0.2", "0.5", "1"),
    ("120", "0.15", "0.3", "0.8", "1.5"),
    ("400", "0.2", "0.5", "1.2", "2.5"),
    ("1000", "0.3", "0.8", "2", "4"),
    ("2000", "0.5", "1.2", "3", "6"),
    ("4000", None, "2", "4", "8"),
)
_BROKEN_EDGE: tuple[Row, ...] = (
    ("3", "0.2", "0.2", "0.4", "0.4"),
    ("6", "0.5", "0.5", "1", "1"),
    (None, "1", "1", "2", "2"),
)
_ANGULAR: tuple[Row, ...] = (
    ("10", "1/1", "1/1", "3/2", "3/1"),
    ("50", "1/2", "1/2", "1/1", "2/1"),
    ("120", "1/3", "1/3", "1/2", "1/1"),
    ("400", "1/6", "1/6", "1/4", "1/2"),
    (None, "1/12", "1/12", "1/6", "1/3"),
)
"""In degrees: 1/6 is 10 minutes."""
_TABLES = {Table.LINEAR: _LINEAR, Table.BROKEN_EDGE: _BROKEN_EDGE, Table.ANGULAR: _ANGULAR}


@dataclass(frozen=True)
class GeneralTolerance:
    """The general tolerance class, for each dimension without a tolerance of its own."""

    grade: Grade

    def line(self) -> str:
        """Its line in the text."""
        return f"{WORD} {PREFIX}{self.grade.value}"

    def off(self, table: Table, size_um: Fraction) -> Fraction | None:
        """The permitted deviation to both sides of a dimension of that size: micrometres, or
        degrees for an angle, whose size is the length of its shorter side; None if the standard
        gives none."""
        if table is not Table.ANGULAR and size_um < LEAST_UM:
            return None
        column = 1 + list(Grade).index(self.grade)
        for row in _TABLES[table]:
            if row[0] is None or size_um <= Fraction(row[0]) * UM_PER_MM:
                told = row[column]
                unit = 1 if table is Table.ANGULAR else UM_PER_MM
                return None if told is None else Fraction(told) * unit
        return None


def read_general(word: str) -> GeneralTolerance:
    """The class of a word, as ISO2768-m. Raises WordFault."""
    letters = {each.value: each for each in Grade}
    grade = letters.get(word.removeprefix(PREFIX)) if word.startswith(PREFIX) else None
    if grade is None:
        told = ", ".join(PREFIX + each for each in letters)
        raise WordFault(word, f"is no class of general tolerances: write one of {told}")
    return GeneralTolerance(grade)
