"""Motions of the plane that bring places nearest to others, for pictures, in floating point:
nothing that is told as a number comes from here."""
from __future__ import annotations

import math
from collections.abc import Sequence
from dataclasses import dataclass

from pertxogai.output.picture.marks import PointMm

Pair = tuple[PointMm, PointMm]
"""Where something lies, and where it is to lie."""


@dataclass(frozen=True)
class Motion:
    """A turn about the origin, by its cosine and sine, and then a shift in millimetres; it mirrors
    nothing."""

    cos: float = 1.0
    sin: float = 0.0
    dx: float = 0.0
    dy: float = 0.0

    def of(self, place: PointMm) -> PointMm:
        """Where a place comes to lie."""
        x, y = self.turned(place)
        return x + self.dx, y + self.dy

    def turned(self, way: PointMm) -> PointMm:
        """Where a direction comes to point."""
        return self.cos * way[0] - self.sin * way[1], self.sin * way[0] + self.cos * way[1]

    def numbers(self) -> list[float]:
        """The four numbers, for the page."""
        return [self.cos, self.sin, self.dx, self.dy]


STILL = Motion()


def fitted(pairs: Sequence[Pair], turn: Motion | None = None, about: Pair | None = None) -> Motion:
    """The motion that brings the first of each pair nearest to the second, by the squares of
    the distances; a shift alone where they have no direction. `turn`: how it has to turn.
    `about`: what it has to bring just where it is to lie, and turns about."""
    if not pairs and about is None:
        return turn or STILL
    first, second = about or (mean([it for it, _ in pairs]), mean([it for _, it in pairs]))
    cos, sin = (turn.cos, turn.sin) if turn else direction(*products(pairs, first, second))
    (ax, ay), (bx, by) = first, second
    return Motion(cos, sin, bx - cos * ax + sin * ay, by - sin * ax - cos * ay)


def mean(places: Sequence[PointMm]) -> PointMm:
    """The middle of places, by their sums; the origin where there are none."""
    count = max(len(places), 1)
    return sum(x for x, _ in places) / count, sum(y for _, y in places) / count


def products(pairs: Sequence[Pair], first: PointMm, second: PointMm) -> PointMm:
    """The sums of the scalar and of the cross products of the ways from the first place, and from
    the second, to what the pairs have there."""
    (ax, ay), (bx, by) = first, second
    dot = cross = 0.0
    for (x, y), (u, v) in pairs:
        dot += (x - ax) * (u - bx) + (y - ay) * (v - by)
        cross += (x - ax) * (v - by) - (y - ay) * (u - bx)
    return dot, cross


def direction(dot: float, cross: float) -> PointMm:
    """The cosine and sine of the turn that such sums ask for; none where they have no direction."""
    length = math.hypot(dot, cross)
    return (dot / length, cross / length) if length > 1e-9 else (1.0, 0.0)
