"""The ways in which one drawing can be spelled."""
from __future__ import annotations

from enum import Enum


class Style(Enum):
    """How x and y dimensions are encoded, and against which lines directions are given."""

    VALUES = "values"
    """Points with the same x or y share a line, and linear equations are solved first: each point
    is given by its height over such a line."""
    VALUES_NEAR = "values, angles from neighbours"
    """As VALUES, with each direction given against the line that the designer names."""
    GRID = "grid"
    """Points with the same x or y share a line; each dimension is passed by itself, from a point to
    such a line."""
    FEET = "feet"
    """Points with the same x or y share a line; each dimension is passed by itself, between foot
    points on two such lines."""
    def solves(self) -> bool:
        """Whether linear equations are solved first."""
        return self in (Style.VALUES, Style.VALUES_NEAR)

    def near(self) -> bool:
        """Whether directions are given against the neighbour, and not against the first lines of
        the frame."""
        return self is Style.VALUES_NEAR
