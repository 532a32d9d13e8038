"""What the search finds of a drawing that isn't well: by numbers, in floats, and not certified."""
from __future__ import annotations

from collections.abc import Iterable, Iterator
from dataclasses import dataclass
from enum import Enum
from itertools import islice

from pertxogai.drawing import Drawing, PointRef
from pertxogai.judging.measure.deviation import Deviation
from pertxogai.judging.measure.solution import Solution

Group = tuple[str, ...]
"""Constraints by their names, the latest first; before them the one that follows from the
others."""


class PlacesBy(Enum):
    """What has placed a drawing; the values are for JSON."""

    PROGRAM = "program"
    """The program, which certifies the sketch that it was given."""
    NUMBERS = "numbers"
    """The search: each constraint is measured, and nothing is certified."""


@dataclass(frozen=True)
class PointMove:
    """A point that can still move, in the direction (dx, dy) of length 1. A point that can move
    everywhere has two of these, along x and along y."""

    point: PointRef
    dx: float
    dy: float


@dataclass(frozen=True)
class Finding:
    """What the search finds in one drawing, by numbers.

    freedoms: how many degrees of freedom it has, with those of the whole. of_the_whole: how many of
    them move or turn all of it. is_doubtful: whether the count may be wrong, as where two solutions
    meet. moves: how single points can still move; of points that coincide, the first. free_radii:
    the circles and arcs whose radius can still change. repeats: groups of constraints of which the
    first follows from the others. contradictions: groups that can't all be met. in_doubt: groups of
    which numbers can't tell whether they are one or the other. solution: the positions, in whole
    nanometres, if any were found that meet all constraints; places_by: what placed it there;
    deviations: each constraint, measured there. chosen: the values with which the program
    constructs it, as lines. only_measured: the constraints that weren't passed to it for that."""

    freedoms: int
    of_the_whole: int
    is_doubtful: bool
    moves: tuple[PointMove, ...] = ()
    free_radii: tuple[str, ...] = ()
    repeats: tuple[Group, ...] = ()
    contradictions: tuple[Group, ...] = ()
    solution: Solution | None = None
    deviations: tuple[Deviation, ...] = ()
    places_by: PlacesBy | None = None
    chosen: tuple[str, ...] = ()
    only_measured: tuple[str, ...] = ()
    in_doubt: tuple[Group, ...] = ()

    def groups_of(self, names: Iterable[str]) -> dict[str, Group]:
        """For each of these redundant constraints its group: the first in which it is, and that
        none of those before it has."""
        found: dict[str, Group] = {}
        for name in names:
            left = (each for each in self.repeats if name in each and each not in found.values())
            found.update((name, each) for each in islice(left, 1))
        return found

    def free_shapes(self, drawing: Drawing) -> Iterator[str]:
        """The shapes that have a point which can still move, or a radius that can still change."""
        moving = {each.point for each in self.moves}
        yield from self.free_radii
        for ref in drawing.points():
            if drawing.meetings.leader(ref) in moving:
                yield ref.shape


@dataclass(frozen=True)
class Nearly:
    """A relation that a drawing nearly has. line: the line that would ask for it. off, unit: how
    far it is off, in degrees or millimetres. is_free: whether no constraint says otherwise, so that
    the line could be added."""

    line: str
    off: float
    unit: str
    is_free: bool
