"""Where elements lie, in whole nanometres and parts per 10^9."""
from __future__ import annotations

from dataclasses import dataclass


@dataclass(frozen=True)
class PlacedPoint:
    """A point at (x_nm, y_nm)."""

    name: str
    x_nm: int
    y_nm: int

    def text(self) -> str:
        """The line of a report or claim."""
        return f"point {self.name} {self.x_nm} {self.y_nm}"


@dataclass(frozen=True)
class PlacedLine:
    """The line of all points with a·x + b·y = c: the normal (a, b) in parts per 10^9, c in
    nanometres. Its direction is (b, -a), and its left side is where a·x + b·y is greater than c."""

    name: str
    a_ppb: int
    b_ppb: int
    c_nm: int

    def text(self) -> str:
        """The line of a report or claim."""
        return f"line {self.name} {self.a_ppb} {self.b_ppb} {self.c_nm}"


@dataclass(frozen=True)
class PlacedCircle:
    """A circle with its centre at (x_nm, y_nm)."""

    name: str
    x_nm: int
    y_nm: int
    radius_nm: int

    def text(self) -> str:
        """The line of a report or claim."""
        return f"circle {self.name} {self.x_nm} {self.y_nm} {self.radius_nm}"


Placed = PlacedPoint | PlacedLine | PlacedCircle
"""The position of an element: coordinates in nanometres, directions in parts per 10⁹."""
