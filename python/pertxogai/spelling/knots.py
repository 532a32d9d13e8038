"""Points that are one: by sharing, by a word that says so, and the centres of rims round one
centre."""
from __future__ import annotations

from collections.abc import Iterator

from pertxogai.classes import Classes
from pertxogai.drawing import ORIGIN, Drawing, Pair, PointRef
from pertxogai.drawing.meetings import JOINING_ALONE, pair_of
from pertxogai.spelling.facts import ORIGIN_KNOT, Knot, Owner


def knots_of(drawing: Drawing) -> tuple[dict[PointRef, Knot], list[Owner]]:
    """The knot of each point, the origin's first; and the constraints that say of one point that
    it is one."""
    classes: Classes[PointRef] = Classes()
    for pair in drawing.shared():
        classes.join(pair.first, pair.second)
    repeats = [owner for pair, owner in _pairs_that_are_one(drawing)
               if not classes.join(pair.first, pair.second) and owner is not None]
    numbers: dict[PointRef, Knot] = {classes.leader(ORIGIN): ORIGIN_KNOT}
    refs = {ORIGIN: ORIGIN_KNOT}
    for ref in drawing.points():
        leader = classes.leader(ref)
        refs[ref] = numbers.setdefault(leader, Knot(len(numbers)))
    return refs, repeats


def _pairs_that_are_one(drawing: Drawing) -> Iterator[tuple[Pair, Owner | None]]:
    """Each two points that a constraint says to be one, with its owner where it says nothing
    else."""
    for number, constraint in enumerate(drawing.constraints, 1):
        pair = pair_of(constraint)
        if pair is not None:
            yield pair, Owner(number) if isinstance(constraint, JOINING_ALONE) else None
