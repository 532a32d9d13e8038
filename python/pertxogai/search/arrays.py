"""The types of arrays, and what is reckoned alike with a dense matrix and with a sparse one.

A Jacobian is dense where it is small: then numpy's calls cost less than scipy's sparse ones."""
from __future__ import annotations

from collections.abc import Iterable
from typing import Any, TypeAlias

import numpy as np
from numpy.typing import NDArray
from scipy import sparse

Array: TypeAlias = NDArray[np.float64]
Indices: TypeAlias = NDArray[np.intp]
Matrix: TypeAlias = Any
"""An array of two dimensions, or a sparse matrix of scipy, which has no types."""
Entry: TypeAlias = tuple[int, int, float]
"""Row, column and value; of a sum its number, that of what is added, and the factor."""

LEAST_ROW = 1e-9
"""A row that is shorter is 0."""


class Sums:
    """So many sums of some numbers, each number times its factor: what a constant sparse matrix
    gives of a vector. It is put together in a fraction of the time that scipy's takes."""

    def __init__(self, entries: Iterable[Entry], count: int) -> None:
        found = list(entries)
        self._count = count
        self._sums = np.array([each[0] for each in found], dtype=np.intp)
        self._numbers = np.array([each[1] for each in found], dtype=np.intp)
        self._factors = np.array([each[2] for each in found], dtype=float)

    def of(self, numbers: Array) -> Array:
        """The sums of these numbers."""
        weights = self._factors * numbers[self._numbers]
        return np.asarray(np.bincount(self._sums, weights, self._count), dtype=np.float64)


def is_sparse(matrix: Matrix) -> bool:
    """Whether it is a sparse one."""
    return bool(sparse.issparse(matrix))


def dense(matrix: Matrix) -> Array:
    """The matrix as an array."""
    found: Array = matrix.toarray() if is_sparse(matrix) else matrix
    return found


def row_squares(matrix: Matrix) -> Array:
    """The sum of squares of each row."""
    if is_sparse(matrix):
        squares = np.bincount(_row_numbers(matrix), matrix.data ** 2, matrix.shape[0])
        return squares.astype(float, copy=False)
    found: Array = np.einsum("ij,ij->i", matrix, matrix)
    return found


def rows_times(matrix: Matrix, factors: Array) -> Matrix:
    """Each row times its factor."""
    if is_sparse(matrix):
        return _with_values(matrix, matrix.data * factors[_row_numbers(matrix)])
    return matrix * factors[:, None]


def columns_times(matrix: Matrix, factors: Array) -> Matrix:
    """Each column times its factor."""
    if is_sparse(matrix):
        return _with_values(matrix, matrix.data * factors[matrix.indices])
    return matrix * factors


def _row_numbers(matrix: Matrix) -> Indices:
    """The row of each entry of a sparse matrix of rows."""
    found: Indices = np.repeat(np.arange(matrix.shape[0]), np.diff(matrix.indptr))
    return found


def _with_values(matrix: Matrix, values: Array) -> Matrix:
    """A sparse matrix of rows with other values in the same places."""
    return sparse.csr_matrix((values, matrix.indices, matrix.indptr), shape=matrix.shape)


def row_factors(matrix: Matrix) -> Array:
    """By what each row is multiplied to have length 1; one that is 0 by 1."""
    lengths = np.sqrt(row_squares(matrix))
    found: Array = 1 / np.where(lengths > LEAST_ROW, lengths, 1.0)
    return found


def unit_rows(matrix: Matrix) -> Matrix:
    """Each row with length 1, but for those that are 0."""
    return rows_times(matrix, row_factors(matrix))


def stacked(upper: Matrix, lower: Matrix) -> Matrix:
    """The rows of one matrix and then those of another, sparse where the first is."""
    if is_sparse(upper):
        return sparse.vstack([upper, lower], format="csr")
    return np.vstack([upper, dense(lower)])
