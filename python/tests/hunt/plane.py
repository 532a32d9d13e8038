"""The unknowns of a drawing as one vector, and the plane's arithmetic on it.

Numbers are complex, so that a step along the imaginary axis gives exact derivatives. Each may
stand for several at once, one for each unknown that is moved a step.
"""
from __future__ import annotations

import math
from dataclasses import dataclass, field

from typing import Any

import numpy as np
from numpy.typing import NDArray

from .reading import Sheet, Spot

Vector = NDArray[np.complex128]
Number = Any
"""A complex number, or an array of some."""
Way = tuple[Number, Number]


@dataclass
class Index:
    """Which places of the vector a point's x and y, and a circle's radius, have."""

    points: dict[str, int] = field(default_factory=dict)
    radii: dict[str, int] = field(default_factory=dict)
    size: int = 0

    @staticmethod
    def of(sheet: Sheet) -> Index:
        """The unknowns of a drawing; the origin is none."""
        found = Index()
        for name in sheet.drawn:
            if name != "Origin":
                found.points[name] = found.size
                found.size += 2
        for name in sheet.radii:
            found.radii[name] = found.size
            found.size += 1
        return found

    def vector(self, spots: dict[str, Spot], radii: dict[str, float]) -> Vector:
        """The vector of these places and radii."""
        at = np.zeros(self.size, dtype=np.complex128)
        for name, place in self.points.items():
            at[place:place + 2] = spots[name]
        for name, place in self.radii.items():
            at[place] = radii[name]
        return at


@dataclass(frozen=True)
class Plane:
    """A drawing at a vector."""

    sheet: Sheet
    index: Index
    at: Vector

    def spot(self, name: str) -> Way:
        """Where a point lies."""
        unknown = self.sheet.point(name)
        if unknown == "Origin":
            return 0j, 0j
        place = self.index.points[unknown]
        return self.at[place], self.at[place + 1]

    def way(self, line: str) -> Way:
        """The direction of a segment, or of an axis."""
        if line in ("XAxis", "YAxis"):
            return (1 + 0j, 0j) if line == "XAxis" else (0j, 1 + 0j)
        return between(self.spot(f"{line}.start"), self.spot(f"{line}.end"))

    def begin(self, line: str) -> Way:
        """A place on a line."""
        return (0j, 0j) if line in ("XAxis", "YAxis") else self.spot(f"{line}.start")

    def radius(self, rim: str) -> Number:
        """The radius of a circle, or of an arc by its start."""
        if rim in self.index.radii:
            return self.at[self.index.radii[rim]]
        return size(between(self.spot(f"{rim}.centre"), self.spot(f"{rim}.start")))

    def aside(self, point: Way, line: str) -> Number:
        """How far a place lies to the left of a line."""
        way = self.way(line)
        return cross(way, between(self.begin(line), point)) / size(way)


def between(first: Way, second: Way) -> Way:
    """The way from one place to another."""
    return second[0] - first[0], second[1] - first[1]


def cross(first: Way, second: Way) -> Number:
    """Above 0 where the second lies to the left of the first."""
    return first[0] * second[1] - first[1] * second[0]


def dot(first: Way, second: Way) -> Number:
    """Above 0 where the second lies ahead along the first."""
    return first[0] * second[0] + first[1] * second[1]


def size(way: Way) -> Number:
    """The length of a way."""
    return np.sqrt(way[0] * way[0] + way[1] * way[1] + 0j)


def real(number: Number) -> float:
    """The number itself, without its steps."""
    return float(number.flat[0].real) if isinstance(number, np.ndarray) else float(number.real)


def turned(way: Way, radians: float) -> Way:
    """A way turned to the left."""
    cosine, sine = math.cos(radians), math.sin(radians)
    return way[0] * cosine - way[1] * sine, way[0] * sine + way[1] * cosine
