"""What is measured: the printed whole numbers behind each point that a designer drew."""

from __future__ import annotations

from collections.abc import Mapping
from dataclasses import dataclass, field

from pertxogai.drawing import ORIGIN, PointRef
from pertxogai.exact import Number

PointNm = tuple[Number, Number]
"""x and y in nanometres, in the coordinates of the printed numbers."""


class MissingPlace(Exception):
    """The solution has no position, or no radius, for something that a constraint names."""


@dataclass(frozen=True)
class Frame:
    """Where the datum lies among the printed numbers: the position of the origin, and the direction
    of the x axis by two components of any length (for a printed line `a b c` they are b and -a)."""

    origin: PointNm = (0, 0)
    right: tuple[Number, Number] = (1, 0)


@dataclass(frozen=True)
class Solution:
    """The printed positions of a drawing's points, without the origin, and the radii of its circles
    and arcs, in nm."""

    points: Mapping[PointRef, PointNm]
    radii: Mapping[str, Number] = field(default_factory=dict)
    frame: Frame = Frame()

    def spot(self, ref: PointRef) -> PointNm:
        """The position of a point. Raises MissingPlace."""
        spot = self.points.get(ref)
        if spot is None and ref == ORIGIN:
            return self.frame.origin
        if spot is None:
            raise MissingPlace(f"no place of {ref} was printed")
        return spot

    def radius(self, name: str) -> Number:
        """The radius of a circle or an arc. Raises MissingPlace."""
        if name not in self.radii:
            raise MissingPlace(f"no radius of {name} was printed")
        return self.radii[name]

    def elsewhere(self, other: Solution) -> frozenset[str]:
        """The shapes of which a point or the radius differs from that in another solution."""
        points = {ref.shape for ref, spot in self.points.items() if other.points.get(ref) != spot}
        return frozenset(points.union(name for name, radius in self.radii.items()
                                      if other.radii.get(name) != radius))
