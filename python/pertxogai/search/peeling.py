"""Unknowns that hang on the rest of a large matrix, and the rows by which they do.

An unknown that one row alone speaks of is peeled with it, and a point that two rows alone speak of
with both, again and again. Each such block leaves the rank of the rest as it is, and none of its
rows is said by others: so of a strip of triangles next to nothing is left."""
from __future__ import annotations

from collections.abc import Iterable, Sequence
from dataclasses import dataclass

import numpy as np

from pertxogai.search.arrays import Array, Indices, Matrix

FIRM = 1e-3
"""A block hangs firmly where its least singular value is above this."""


@dataclass(frozen=True)
class Block:
    """As many rows as unknowns; the other unknowns of these rows; and how the block's unknowns
    follow from them, as a matrix."""

    rows: tuple[int, ...]
    columns: tuple[int, ...]
    others: tuple[int, ...]
    follow: Array


@dataclass(frozen=True)
class Peel:
    """The blocks in the order in which they were peeled, and the rows and columns that are left."""

    rows: Indices
    columns: Indices
    blocks: tuple[Block, ...] = ()

    def rank(self) -> int:
        """The rank of all blocks."""
        return sum(len(block.rows) for block in self.blocks)

    def follow(self, free: Array) -> None:
        """Lets the unknowns of all blocks, rows of the array, follow those that are left."""
        for block in reversed(self.blocks):
            free[list(block.columns)] = block.follow @ free[list(block.others)]


def peel(matrix: Matrix, coordinates: Sequence[int | None]) -> Peel:
    """What can be peeled of a sparse matrix. Of each column that is a coordinate of a point a
    number: those of one point are 2n and 2n + 1."""
    peeling = _Peeling(matrix, coordinates)
    peeling.run()
    gone_rows = {row for block in peeling.blocks for row in block.rows}
    gone = {column for block in peeling.blocks for column in block.columns}
    rows, columns = matrix.shape
    return Peel(_others(rows, gone_rows), _others(columns, gone), tuple(peeling.blocks))


def _others(count: int, gone: set[int]) -> Indices:
    """The numbers below a count that aren't gone."""
    return np.array([each for each in range(count) if each not in gone], dtype=np.intp)


class _Peeling:
    """The matrix while it is peeled: the entries of each row, and the rows left of each column."""

    def __init__(self, matrix: Matrix, coordinates: Sequence[int | None]) -> None:
        csr = matrix.tocsr()
        self._entries = [dict(zip(csr.indices[start:end].tolist(), csr.data[start:end].tolist()))
                         for start, end in zip(csr.indptr, csr.indptr[1:])]
        self._rows_of: list[set[int]] = [set() for _ in range(csr.shape[1])]
        for number, entries in enumerate(self._entries):
            for column in entries:
                self._rows_of[column].add(number)
        at = {number: column for column, number in enumerate(coordinates) if number is not None}
        self._point_of = {at[number]: (at[number & ~1], at[number | 1]) for number in at
                          if number & ~1 in at and number | 1 in at}
        self.blocks: list[Block] = []

    def run(self) -> None:
        """Peels all that can be."""
        waiting = dict.fromkeys(range(len(self._rows_of)))
        while waiting:
            column, _ = waiting.popitem()
            for columns in self._candidates(column):
                block = self._block(columns)
                if block is not None:
                    waiting.update(dict.fromkeys(block.others))
                    self._remove(block)
                    break

    def _candidates(self, column: int) -> Iterable[tuple[int, ...]]:
        """The unknown alone, and the point that it is of."""
        yield (column,)
        if column in self._point_of:
            yield self._point_of[column]

    def _block(self, columns: tuple[int, ...]) -> Block | None:
        """These unknowns with the rows that speak of them, where these are just as many and fix
        them firmly."""
        rows = tuple(set().union(*(self._rows_of[column] for column in columns)))
        if len(rows) != len(columns):
            return None
        own = self._part(rows, columns)
        if np.linalg.svd(own, compute_uv=False)[-1] <= FIRM:
            return None
        others = tuple(set().union(*(self._entries[row] for row in rows)).difference(columns))
        return Block(rows, columns, others, -np.linalg.solve(own, self._part(rows, others)))

    def _part(self, rows: tuple[int, ...], columns: tuple[int, ...]) -> Array:
        return np.array([[self._entries[row].get(column, 0.0) for column in columns]
                         for row in rows]).reshape(len(rows), len(columns))

    def _remove(self, block: Block) -> None:
        for row in block.rows:
            for column in self._entries[row]:
                self._rows_of[column].discard(row)
        self.blocks.append(block)
