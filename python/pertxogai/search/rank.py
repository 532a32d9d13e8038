"""The rank of a matrix with rows of length 1, and what it leaves free and says twice.

Rows and unknowns that hang together are a piece. Of each, by one QR with column pivoting of the
transpose, J'P = QR: the rank by R's diagonal; which rows follow from which by R11^-1 R12; and what
is free by the last columns of Q. What is large is peeled before (`pertxogai.search.peeling`)."""
from __future__ import annotations

from collections.abc import Iterator, Sequence
from dataclasses import dataclass

import numpy as np
from scipy import linalg, sparse
from scipy.linalg import lapack
from scipy.sparse import csgraph

from pertxogai.search.arrays import Array, Indices, Matrix, dense, is_sparse
from pertxogai.search.peeling import peel

CUT = 1e-8
"""An entry of R's diagonal below this is 0."""
SURE = 1e-6
"""One between this and the cut makes the rank doubtful, as where two solutions meet."""
MOST_ENTRIES = 1_000_000
"""The most entries of a matrix of all that is free."""


@dataclass(frozen=True)
class Free:
    """How some unknowns may move: of each a row, and a column for each way, of length 1 and square
    to the others."""

    columns: Indices
    ways: Array


def wide(free: Sequence[Free], count: int) -> Array | None:
    """All ways in which so many unknowns may move in one matrix; None where it would be too
    large."""
    ways = sum(each.ways.shape[1] for each in free)
    if count * ways > MOST_ENTRIES:
        return None
    found, done = np.zeros((count, ways)), 0
    for each in free:
        found[each.columns, done:done + each.ways.shape[1]] = each.ways
        done += each.ways.shape[1]
    return found


@dataclass(frozen=True)
class Dependent:
    """Rows of which some follow from the others: their numbers, and each way in which they come to
    0, as a row of factors."""

    rows: Indices
    factors: Array


@dataclass(frozen=True)
class Rank:
    """The rank of a matrix, what is free by piece, and what is said twice. is_sure: whether no
    entry lies near the cut."""

    rank: int
    free: tuple[Free, ...]
    dependent: tuple[Dependent, ...]
    is_sure: bool


def rank_of(matrix: Matrix, points: int) -> Rank:
    """The rank of a matrix of which the first columns are x and y of so many points."""
    rank, is_sure = 0, True
    free: list[Free] = []
    dependent: list[Dependent] = []
    for rows, columns in _pieces(matrix):
        found = _of_piece(matrix, rows, columns, points)
        rank, is_sure = rank + found.rank, is_sure and found.is_sure
        free += [Free(columns, found.free)] if found.free.shape[1] else []
        dependent += [Dependent(rows, found.left.T)] if found.left.shape[1] else []
    return Rank(rank, tuple(free), tuple(dependent), is_sure)


@dataclass(frozen=True)
class _Ranked:
    """The rank of one piece. free and left: a column for each way in which its unknowns may move,
    and in which its rows come to 0."""

    rank: int
    free: Array
    left: Array
    is_sure: bool


def _pieces(matrix: Matrix) -> Iterator[tuple[Indices, Indices]]:
    """The rows and unknowns that hang together; all of them where the matrix is small. A row
    without unknowns, and an unknown without rows, is a piece by itself."""
    rows, columns = matrix.shape
    if not is_sparse(matrix):
        yield np.arange(rows), np.arange(columns)
        return
    links = matrix != 0
    graph = sparse.bmat([[None, links], [links.T, None]]) if rows and columns else (
        sparse.csr_matrix((rows + columns, rows + columns)))
    _, label = csgraph.connected_components(graph, directed=False)
    order = np.argsort(label, kind="stable")
    for piece in np.split(order, np.flatnonzero(np.diff(label[order])) + 1):
        yield piece[piece < rows], piece[piece >= rows] - rows


def _of_piece(matrix: Matrix, rows: Indices, columns: Indices, points: int) -> _Ranked:
    """The rank of one piece: what isn't peeled of it is ranked, and what was peeled follows."""
    if not is_sparse(matrix):
        return _ranked(matrix)
    piece = matrix[rows][:, columns]
    peeled = peel(piece, [column if column < 2 * points else None for column in columns.tolist()])
    found = _ranked(dense(piece[peeled.rows][:, peeled.columns]))
    free = np.zeros((len(columns), found.free.shape[1]))
    free[peeled.columns] = found.free
    left = np.zeros((len(rows), found.left.shape[1]))
    left[peeled.rows] = found.left
    if peeled.blocks and free.shape[1]:
        peeled.follow(free)
        free = np.linalg.qr(free)[0]
    return _Ranked(peeled.rank() + found.rank, free, left, found.is_sure)


def _ranked(matrix: Array) -> _Ranked:
    rows, columns = matrix.shape
    if rows == 0 or columns == 0:
        return _Ranked(0, np.eye(columns), np.eye(rows), True)
    (reflectors, scales), triangle, order = linalg.qr(matrix.T, pivoting=True, mode="raw",
                                                      check_finite=False)
    diagonal = np.abs(np.diag(triangle))
    rank = int((diagonal > CUT).sum())
    doubtful = (diagonal > CUT / 10) & (diagonal < SURE)
    return _Ranked(rank, _last_columns(reflectors, scales, rank), _left(triangle, order, rank),
                   not doubtful.any())


def _last_columns(reflectors: Array, scales: Array, first: int) -> Array:
    """The columns of Q from one on, of a QR as LAPACK keeps it: all of Q would take as long again
    as the QR."""
    units = np.asfortranarray(np.eye(len(reflectors))[:, first:])
    if not units.shape[1]:
        return units
    kept = reflectors[:, :len(scales)]
    _, work, _ = lapack.dormqr("L", "N", kept, scales, units, -1)
    found, _, _ = lapack.dormqr("L", "N", kept, scales, units, int(work[0]))
    columns: Array = found
    return columns


def _left(triangle: Array, order: Indices, rank: int) -> Array:
    """The ways in which the rows come to 0."""
    rows = triangle.shape[1]
    left = np.zeros((rows, rows - rank))
    left[order[rank:]] = np.eye(rows - rank)
    if 0 < rank < rows:
        left[order[:rank]] = -linalg.solve_triangular(
            triangle[:rank, :rank], triangle[:rank, rank:], check_finite=False)
    return left
