"""How a drawing as a whole may still be moved and turned.

A motion of the whole is one that lasts: it goes on wherever else the drawing's parts are moved to.
Where two points happen to lie at one height, or in one place, a turn may change no row to the first
order, and does so as soon as one of them is moved; that is none."""
from __future__ import annotations

from collections.abc import Sequence

import numpy as np

from pertxogai.search.arrays import Array
from pertxogai.search.linearization import STEP, Linearization, motion
from pertxogai.search.rank import Free
from pertxogai.search.unknowns import Unknowns

SEEN = 1e-6
"""Of motions of length 1, what moves by less stays."""
LAST_DIGITS = 2e-15
"""By such a part of how far it lies from the origin a way may be off in floats."""


def of_the_whole(rows: Linearization, free: Sequence[Free]) -> Array:
    """How all of it may be moved and turned at once from x, where no row changes: three ways at
    most, each a column of length 1. free: how the unknowns may move."""
    frame = _Frame(rows.unknowns, rows.x)
    moves = frame.at(rows.x)
    if not rows.jacobian.shape[0] or not moves.shape[1]:
        return moves
    reached, staying = _to_the_first_order(rows.jacobian @ moves)
    if not staying.shape[1]:
        return moves[:, :0]
    some = motion(free, len(rows.x), np.random.default_rng(0))
    aside = rows.step_nm() * some
    there, back = (rows.near(each) @ frame.at(each) for each in (rows.x + aside, rows.x - aside))
    bends = (there - back) / (2 * STEP) @ staying
    seen = max(SEEN, LAST_DIGITS / STEP * frame.remoteness())
    found: Array = moves @ staying @ _to_the_first_order(bends - reached @ (reached.T @ bends),
                                                         seen)[1]
    return found


class _Frame:
    """Two shifts of all points, and a turn of them about their middle; of one point no turn. Where
    a shape has a given point, a turn about that is left; where shapes have several, none."""

    def __init__(self, unknowns: Unknowns, x: Array) -> None:
        self._unknowns, self._points, self._x = unknowns, 2 * len(unknowns.points), x
        given = list(set(unknowns.given_of_shapes()))
        places = x[:self._points].reshape(-1, 2)
        middle = places.mean(axis=0) if len(places) else np.zeros(2)
        self._pole = np.array(given[0]) if given else middle
        lengths = np.linalg.norm(self._all(x), axis=0)
        kept = np.array([not given, not given, len(given) < 2]) & (lengths > SEEN)
        self._kept, self._lengths = kept, lengths[kept]

    def at(self, x: Array) -> Array:
        """These motions where the unknowns are x: columns of length 1, square to each other, where
        the frame was made."""
        found: Array = self._all(x)[:, self._kept] / self._lengths
        return found

    def remoteness(self) -> float:
        """How far the points lie from the origin, as so many times of what they reach over; 0 of a
        single point."""
        places = self._x[:self._points].reshape(-1, 2)
        wide = np.ptp(places, axis=0).max() if len(places) else 0.0
        return float(np.abs(places).max() / wide) if wide else 0.0

    def _all(self, x: Array) -> Array:
        moves = np.zeros((self._unknowns.count, 3))
        aside = x[:self._points].reshape(-1, 2) - self._pole
        moves[0:self._points:2, 0], moves[1:self._points:2, 1] = 1.0, 1.0
        moves[0:self._points:2, 2], moves[1:self._points:2, 2] = -aside[:, 1], aside[:, 0]
        return moves


def _to_the_first_order(changes: Array, seen: float = SEEN) -> tuple[Array, Array]:
    """How rows may be changed, as columns of length 1 that are square to each other, and the
    combinations of motions that change none. changes: of each row, with each motion. seen: what
    changes by less stays."""
    more = np.zeros((changes.shape[1], changes.shape[1]))
    reached, sizes, combinations = np.linalg.svd(np.vstack([changes, more]), full_matrices=False)
    return reached[:len(changes), sizes > seen], combinations[sizes <= seen].T
