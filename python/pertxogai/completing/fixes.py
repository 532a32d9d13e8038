"""What each of the constraints that are added fixes: what moves no more with it, or in fewer ways,
by the rank of the equations where the completed drawing is placed."""
from __future__ import annotations

from collections.abc import Iterator, Sequence
from dataclasses import dataclass, replace

import numpy as np

from pertxogai.completing.proposal import Completion, Proposal
from pertxogai.drawing import (
    ORIGIN, AngleBetween, Constraint, Distance, Drawing, Equal, Horizontal, Length, Parallel,
    Perpendicular, PointOn, PointRef, Vertical, Which, XDistance, YDistance)
from pertxogai.drawing.meetings import joins_points
from pertxogai.drawing.mentions import refs_of
from pertxogai.judging.measure import Solution
from pertxogai.search.arrays import Array, Matrix, stacked, unit_rows
from pertxogai.search.constraint_rows import rows_asked
from pertxogai.search.equations import Equations
from pertxogai.search.linearization import Linearization
from pertxogai.search.motions import Motions, motions
from pertxogai.search.rank import rank_of
from pertxogai.search.rounding import unknowns_of
from pertxogai.search.row import Row
from pertxogai.search.unknowns import Unknowns
from pertxogai.search.whole import SEEN

_DIRECTIONS = Horizontal, Vertical, Parallel, Perpendicular, AngleBetween
Direction = tuple[float, float]
"""A direction of length 1."""
NEARLY_ALONG = 1e-3
"""A direction of which the one part is less runs along an axis."""


@dataclass(frozen=True)
class Loose:
    """What is loose of a drawing: of each point the ways in which it still moves, the circles and
    arcs of which the radius may change, in how many directions the whole may be moved, and whether
    it turns."""

    ways: dict[PointRef, tuple[Direction, ...]]
    rims: frozenset[str]
    shifts: int
    turns: bool

    @staticmethod
    def of(drawing: Drawing, unknowns: Unknowns, found: Motions) -> Loose:
        """What of a drawing is loose by its motions."""
        of_leader: dict[PointRef, list[Direction]] = {}
        for each in found.moves:
            of_leader.setdefault(each.point, []).append((each.dx, each.dy))
        ways = {ref: tuple(of_leader.get(unknowns.leader(ref), ())) for ref in drawing.points()}
        turns = _turns(found.whole[:2 * len(unknowns.points)])
        return Loose(ways, frozenset(found.rims), found.of_the_whole - turns, turns)


class Fixing:
    """A drawing where a solution has it, while one constraint after the other is added."""

    def __init__(self, drawing: Drawing, solution: Solution) -> None:
        self._solution = solution
        self._begin(drawing)

    def _begin(self, drawing: Drawing) -> None:
        self.drawing, self._equations = drawing, Equations(drawing)
        self._x = unknowns_of(self._equations.unknowns, self._solution)
        self._jacobian = unit_rows(self._equations.tangents(self._x).jacobian)
        self._more: list[Row] = []

    def add(self, constraint: Constraint) -> None:
        """Adds a constraint. One that makes points one, or puts a point on a shape, changes what
        others ask: then all is put together anew."""
        drawing = replace(self.drawing, constraints=(*self.drawing.constraints, constraint))
        if isinstance(constraint, PointOn) or joins_points(constraint):
            self._begin(drawing)
            return
        self.drawing, rows = drawing, list(rows_asked(self._equations.unknowns, constraint))
        self._jacobian = self._with_rows(self._jacobian, rows, self._x)
        self._more += rows

    def loose(self) -> Loose:
        """What of it is loose."""
        unknowns = self._equations.unknowns
        rows = Linearization(unknowns, self._x, self._jacobian, self._near)
        free = rank_of(rows.jacobian, len(unknowns.points)).free
        return Loose.of(self.drawing, unknowns, motions(rows, free))

    def _near(self, x: Array) -> Matrix:
        """The Jacobian of all that is asked where the unknowns are x."""
        return self._with_rows(unit_rows(self._equations.tangents(x).jacobian), self._more, x)

    def _with_rows(self, jacobian: Matrix, rows: Sequence[Row], x: Array) -> Matrix:
        """A Jacobian with other rows below it."""
        return stacked(jacobian, unit_rows(self._equations.beside(rows).tangents(x).jacobian))


def _turns(whole: Array) -> bool:
    """Whether one of the motions of the whole, by x and y of its points, is more than a shift."""
    apart = (each - each.mean(axis=0) for each in (whole[0::2], whole[1::2]) if len(each))
    return any(bool(np.abs(each).max(initial=0.0) > SEEN) for each in apart)


def with_fixes(drawing: Drawing, found: Completion) -> Completion:
    """What completes a drawing, each line with what it fixes beside those before it."""
    told, own = tuple(_told(drawing, found)), len(found.proposals)
    return replace(found, proposals=told[:own], datum=told[own:])


def _told(drawing: Drawing, found: Completion) -> Iterator[Proposal]:
    fixing = Fixing(drawing, found.solution)
    before = fixing.loose()
    for each in found.all():
        fixing.add(each.constraint)
        after = fixing.loose()
        fixed = tuple(_fixed(fixing.drawing, each.constraint, before, after))
        yield replace(each, fixes=fixed or tuple(_against(each.constraint)))
        before = after


def _fixed(drawing: Drawing, constraint: Constraint, before: Loose,
           after: Loose) -> Iterator[str]:
    """What is less loose than before."""
    yield from _of_the_whole(before, after)
    yield from (f"the size of {name}" for name in sorted(before.rims - after.rims))
    fixed = list(_points(drawing, before, after))
    own = {drawing.meetings.leader(ref) for ref in _ends(constraint)}
    if own and own <= {drawing.meetings.leader(ref) for ref in fixed}:
        # Neither end is fixed by itself, but how far they are apart.
        yield from _against(constraint)
        fixed = [ref for ref in fixed if drawing.meetings.leader(ref) not in own]
    yield from (f"{ref}{_but_along(after.ways[ref])}" for ref in fixed)


def _of_the_whole(before: Loose, after: Loose) -> Iterator[str]:
    if before.shifts + before.turns and not after.shifts + after.turns:
        yield "the whole"
        return
    if before.turns and not after.turns:
        yield "the rotation of the whole"
    if after.shifts < before.shifts:
        yield f"the position of the whole{' in one direction' if after.shifts else ''}"


def _points(drawing: Drawing, before: Loose, after: Loose) -> Iterator[PointRef]:
    """The points that move in fewer ways, of those that are one the first."""
    seen: set[PointRef] = set()
    for ref in drawing.points():
        leader = drawing.meetings.leader(ref)
        if leader not in seen and len(after.ways[ref]) < len(before.ways[ref]):
            seen.add(leader)
            yield ref


def _ends(constraint: Constraint) -> Sequence[PointRef]:
    """The two points whose distance a constraint tells; none of others."""
    match constraint:
        case Length(segment):
            return [PointRef(segment.name, which) for which in (Which.START, Which.END)]
        case (Distance(first, second) | XDistance(first, second) | YDistance(first, second)):
            return [] if ORIGIN in (first, second) else [first, second]
        case _:
            return []


def _against(constraint: Constraint) -> Iterator[str]:
    """What a constraint tells of things that still move as before, but no longer each by itself."""
    named = list(dict.fromkeys(map(str, refs_of(constraint))))
    if isinstance(constraint, Length):
        yield f"the length of {named[0]}"
    elif isinstance(constraint, _DIRECTIONS):
        yield f"the direction of {named[-1]}"
    elif isinstance(constraint, Equal):
        yield f"the sizes of {' and '.join(named)} relative to each other"
    elif len(named) > 1:
        yield f"the position of {' and '.join(named)} relative to each other"
    else:
        yield from named


def _but_along(ways: Sequence[Direction]) -> str:
    """What is left to a point that still moves one way."""
    if not ways:
        return ""
    dx, dy = ways[0]
    if abs(dy) < NEARLY_ALONG:
        return " along y"
    return " along x" if abs(dx) < NEARLY_ALONG else " in one direction"
