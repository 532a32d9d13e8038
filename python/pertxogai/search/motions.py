"""Which points still move, and along which direction, apart from how the drawing as a whole may
still be moved and turned."""
from __future__ import annotations

from collections.abc import Iterator, Sequence
from dataclasses import dataclass
from itertools import islice, pairwise

import numpy as np

from pertxogai.drawing import PointRef, Segment, Which
from pertxogai.judging.finding import PointMove
from pertxogai.search.arrays import Array
from pertxogai.search.linearization import Linearization
from pertxogai.search.rank import Free, wide
from pertxogai.search.unknowns import Unknowns
from pertxogai.search.whole import SEEN, of_the_whole

MOST_HELD = 40
"""The most segments that are tried as the one that is held still."""
ALONG = ((1.0, 0.0), (0.0, 1.0))


@dataclass(frozen=True)
class Motions:
    """What still moves. whole: how all of it may be moved and turned at once, in three ways at
    most, each a column of length 1 with how it changes the unknowns; these are no moves. moves: of
    each point that stands for those that are one with it. rims: the circles and arcs of which the
    radius may still change."""

    whole: Array
    moves: tuple[PointMove, ...] = ()
    rims: tuple[str, ...] = ()

    @property
    def of_the_whole(self) -> int:
        """In how many ways all of it may be moved and turned at once."""
        return int(self.whole.shape[1])


def motions(found: Linearization, free: Sequence[Free]) -> Motions:
    """What moves by these free motions of some rows."""
    unknowns, whole = found.unknowns, of_the_whole(found, free)
    own = _without(unknowns, whole, free)
    at = {column: each for each in own for column in each.columns.tolist()}
    rows = {column: row for each in own for row, column in zip(each.ways, each.columns.tolist())}
    moves = (move for ref, number in unknowns.number_of.items()
             for move in _moves(ref, rows.get(2 * number), rows.get(2 * number + 1),
                                at.get(2 * number) is at.get(2 * number + 1)))
    rims = (name for name, column in unknowns.column_of.items() if _is_free(rows.get(column)))
    return Motions(whole, tuple(moves), tuple(rims))


# -- without the whole


def _without(unknowns: Unknowns, whole: Array, free: Sequence[Free]) -> Sequence[Free]:
    """The free motions without those of the whole: with that segment held still with which the
    fewest points move; with all of them where there are too many."""
    all_ways = wide(free, unknowns.count) if whole.shape[1] else None
    if all_ways is None:
        return free
    own = min((_held(whole, all_ways, columns) for columns in _holds(unknowns)),
              key=lambda own: int((np.linalg.norm(own, axis=1) > SEEN).sum()))
    return [Free(np.arange(unknowns.count), own)]


def _holds(unknowns: Unknowns) -> Iterator[list[int]]:
    """The unknowns of the ends of each segment, or of two points, that may be held."""
    ends = ((PointRef(shape.name, Which.START), PointRef(shape.name, Which.END))
            for shape in unknowns.drawing.geometry if isinstance(shape, Segment))
    pairs: list[tuple[PointRef, ...]] = [*ends, *pairwise(unknowns.points)]
    for refs in islice(pairs or [unknowns.points[:1]], MOST_HELD):
        numbers = [unknowns.number_of[leader] for leader in map(unknowns.leader, refs)
                   if leader in unknowns.number_of]
        yield [2 * number + each for number in numbers for each in (0, 1)]


def _held(whole: Array, free: Array, columns: list[int]) -> Array:
    """The free motions, each with the motion of the whole that holds these unknowns best."""
    found: Array = free - whole @ (np.linalg.pinv(whole[columns]) @ free[columns])
    return found


# -- single points


def _moves(ref: PointRef, x: Array | None, y: Array | None, together: bool) -> Iterator[PointMove]:
    """The moves of a point by the motions of its x and of its y; `together`: whether these are the
    same motions."""
    if x is not None and y is not None and together:
        yield from (PointMove(ref, *way) for way in _directions(np.stack([x, y])))
    else:
        yield from (PointMove(ref, *way) for way, motion in zip(ALONG, (x, y)) if _is_free(motion))


def _directions(motion: Array) -> Sequence[tuple[float, float]]:
    """The directions of a motion in x and y: none, one, or both axes. The one is said to the
    right, and upwards where it has no part to the right or to the left."""
    ways, sizes, _ = np.linalg.svd(motion, full_matrices=False)
    count = int((sizes > SEEN).sum())
    if count != 1:
        return ALONG[:count]
    dx, dy = (0.0 if abs(each) < SEEN else float(each) for each in ways[:, 0])
    sign = -1.0 if dx < 0 or dx == 0 and dy < 0 else 1.0
    return [(sign * dx + 0.0, sign * dy + 0.0)]


def _is_free(motion: Array | None) -> bool:
    return motion is not None and float(np.linalg.norm(motion)) > SEEN
