"""What is true of a drawing: how many dimensions it lacks, how many it has too many, and which of
its words say again, or against, what others say. By the rank of its words, in floats."""
from __future__ import annotations

from collections.abc import Sequence
from dataclasses import dataclass

import numpy as np
from numpy.typing import NDArray

from .meetings import Meetings
from .plane import Index, Number, Plane, Vector, real
from .reading import Sheet
from .rows import VALUED, Ruler

Matrix = NDArray[np.float64]
STEP = 1e-30
ZERO, SOME = 1e-9, 1e-6
"""A singular value below the one counts as 0, one above the other doesn't; one between can't be told."""
TURNS, FEW = 12, 7
"""Newton's method takes few turns, but where what is asked holds at the end of its reach alone, as of
three lengths that make a flat triangle: there it halves the way at each turn, and a rank tells nothing."""
HELD_MM = 1e-9


class Untold(Exception):
    """The truth can't be told by floats."""


@dataclass(frozen=True)
class Truth:
    """What is true of a drawing. lacks: how many dimensions the designer would have to give, what
    moves or turns the whole aside. excess: how many there are too many. spare: the words, by
    number from 1, without which there would be fewer too many; alone: those without which there
    would be none. sizeless: the circles whose size follows from nothing."""

    lacks: int
    excess: int
    spare: frozenset[int]
    alone: frozenset[int]
    sizeless: frozenset[str]


@dataclass(frozen=True)
class Model:
    """A drawing with its unknowns."""

    sheet: Sheet
    index: Index
    ruler: Ruler

    @staticmethod
    def of(sheet: Sheet) -> Model:
        """Those of a drawing."""
        index = Index.of(sheet)
        drawn = Plane(sheet, index, index.vector(sheet.drawn, sheet.radii))
        return Model(sheet, index, Ruler(drawn, Meetings.of(sheet)))

    def plane(self, at: Vector) -> Plane:
        """The drawing at a vector."""
        return Plane(self.sheet, self.index, at)

    def offs(self, at: Vector, numbers: Sequence[int] | None = None) -> Matrix:
        """The numbers of what is implied, and those of the words of these numbers, or of all."""
        return np.array([real(off) for rows in self._offs(at, numbers) for off in rows])

    def _offs(self, at: Vector, numbers: Sequence[int] | None) -> list[list[Number]]:
        plane = self.plane(at)
        chosen = range(1, len(self.sheet.words) + 1) if numbers is None else numbers
        found = [self.ruler.implied(plane)]
        found += [self.ruler.rows(plane, self.sheet.words[number - 1]) for number in chosen]
        return [[row.off for row in rows] for rows in found]

    def slopes(self, at: Vector, numbers: Sequence[int] | None = None) -> list[Matrix]:
        """How these numbers change with each unknown."""
        count = self.index.size
        steps = np.repeat(at[:, None], count, axis=1) + 1j * STEP * np.eye(count)
        return [np.array([np.broadcast_to(off, (count,)).imag for off in rows]).reshape(-1, count) / STEP
                for rows in self._offs(steps, numbers)]

    def solved(self, at: Vector, numbers: Sequence[int] | None = None, turns: int = TURNS
               ) -> Vector | None:
        """The vector near to another at which all numbers are 0; None where none is found in so
        many turns of Newton's method."""
        at = at.copy()
        for _ in range(turns):
            off = self.offs(at, numbers)
            if not np.isfinite(off).all():
                return None
            if not len(off) or np.abs(off).max() < HELD_MM:
                return at
            slope = np.concatenate(self.slopes(at, numbers))
            at = at - np.linalg.lstsq(slope, off, rcond=1e-10)[0]
        return None

    def free_of_value(self) -> list[int]:
        """The numbers of the words that tell no value."""
        return [number for number, word in enumerate(self.sheet.words, 1)
                if word.kind not in VALUED]


def rank(matrix: Matrix) -> int:
    """The rank of a matrix with rows of any length. Raises Untold."""
    sizes = np.linalg.norm(matrix, axis=1, keepdims=True)
    matrix = matrix / np.where(sizes > ZERO, sizes, 1)
    if not matrix.size:
        return 0
    found = np.linalg.svd(matrix, compute_uv=False)
    if ((found > ZERO) & (found < SOME)).any():
        raise Untold("a singular value between none and some")
    return int((found >= SOME).sum())


def truth(model: Model, exact: Vector, seed: int = 0) -> Truth:
    """What is true of a drawing that holds at `exact`, or nearly. Raises Untold where its words
    are another matter there than at like places that have other values."""
    like = _like(model, exact, seed)
    here, there = _truth_at(model, exact), _truth_at(model, like)
    if here != there:
        raise Untold("special by its values")
    return here


def _like(model: Model, exact: Vector, seed: int) -> Vector:
    """A place at which all words hold that tell no value, and no others by chance."""
    chance = np.random.default_rng(seed)
    span = max(1.0, float(np.abs(exact).max(initial=1.0)))
    for reach in (0.02, 0.005):
        moved = exact + chance.normal(0, reach * span, len(exact))
        found = model.solved(moved, model.free_of_value(), FEW)
        if found is not None and np.abs(found - exact).max(initial=0) < 0.5 * span:
            return found
    raise Untold("no like place is found")


def _truth_at(model: Model, at: Vector) -> Truth:
    blocks = model.slopes(at)
    whole = np.concatenate(blocks)
    full = rank(whole)
    excess = len(whole) - full
    freed = {number: _excess(blocks, number) for number in range(1, len(blocks)) if excess}
    spare = frozenset(number for number, left in freed.items() if left < excess)
    alone = frozenset(number for number, left in freed.items() if left == 0)
    lacks = model.index.size - full - _moves(model, at, whole)
    return Truth(lacks, excess, spare, alone, _sizeless(model, whole, full))


def _excess(blocks: list[Matrix], number: int) -> int:
    """How many rows are too many without a word."""
    rest = np.concatenate(blocks[:number] + blocks[number + 1:])
    return len(rest) - rank(rest)


def _moves(model: Model, at: Vector, whole: Matrix) -> int:
    """In how many ways the whole may be moved and turned: where a drawn point is the origin, it
    may be turned alone."""
    moves = _motions(model, at)
    return rank(moves) - rank(_changes(whole, moves))


def shifts_of_the_whole(model: Model, at: Vector) -> Matrix:
    """How the ways in which the whole may be moved and turned shift what is the origin: a row of x
    and y for each way; of a turn about the origin nothing."""
    moves = _motions(model, at)
    sizes = np.linalg.norm(moves, axis=1, keepdims=True)
    if not sizes[:2].all():
        return np.zeros((0, 2))
    changes = _changes(np.concatenate(model.slopes(at)), moves / np.where(sizes > ZERO, sizes, 1))
    _, left, ways = np.linalg.svd(np.vstack([changes.T, np.zeros((3, 3))]))
    found: Matrix = ways[left < SOME][:, :2]
    return found


def _motions(model: Model, at: Vector) -> Matrix:
    """Two shifts of all points, and a turn about the origin."""
    moves = np.zeros((3, model.index.size))
    is_pinned = any(unknown == "Origin" != name for name, unknown in model.sheet.unknown.items())
    for place in model.index.points.values():
        moves[0, place] = moves[1, place + 1] = int(not is_pinned)
        moves[2, place], moves[2, place + 1] = -at[place + 1].real, at[place].real
    return moves


def _changes(whole: Matrix, moves: Matrix) -> Matrix:
    """How each row changes, of length 1, with each of some motions."""
    sizes = np.linalg.norm(whole, axis=1, keepdims=True)
    found: Matrix = ((whole / np.where(sizes > ZERO, sizes, 1)) @ moves.T).T
    return found


def _sizeless(model: Model, whole: Matrix, full: int) -> frozenset[str]:
    """The circles whose size may change."""
    found = set()
    for name, place in model.index.radii.items():
        unit = np.zeros((1, model.index.size))
        unit[0, place] = 1
        if rank(np.concatenate([whole, unit])) > full:
            found.add(name)
    return frozenset(found)
