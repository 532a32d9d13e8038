"""Where a Jacobian has entries, which is the same everywhere, and what each is made of."""
from __future__ import annotations

from collections.abc import Iterable, Sequence
from typing import TypeAlias

import numpy as np
from scipy import sparse

from pertxogai.search.arrays import Array, Entry, Matrix, Sums

SlopeEntry: TypeAlias = tuple[int, int, int, float]
"""Row and column of an entry, the number of a slope, and its factor there."""
MOST_DENSE = 30_000
"""A Jacobian of no more entries is dense: then numpy's calls cost less than scipy's sparse ones."""


class Pattern:
    """A constant matrix, and what slopes add to it: some nothing, as those of what is given."""

    def __init__(self, shape: tuple[int, int], constant: Iterable[Entry],
                 slopes: Iterable[SlopeEntry]) -> None:
        self._shape = shape
        self._is_dense = shape[0] * shape[1] <= MOST_DENSE
        known, added = list(constant), list(slopes)
        places = [row * shape[1] + column for row, column, *_ in (*known, *added)]
        self._places, entry = np.unique(np.array(places, dtype=np.int64), return_inverse=True)
        self._constant = np.zeros(len(self._places))
        np.add.at(self._constant, entry[:len(known)], [value for _, _, value in known])
        rows, columns = np.divmod(self._places, shape[1])
        self._columns = columns.astype(np.int32)
        self._ends = np.searchsorted(rows, np.arange(shape[0] + 1)).astype(np.int32)
        self._of_slopes = Sums(
            ((place, slope, factor) for place, (_, _, slope, factor)
             in zip(entry[len(known):].tolist(), added)), len(self._places))

    def matrix(self, slopes: Sequence[Array]) -> Matrix:
        """The Jacobian where the slopes are these."""
        values = self._constant
        if slopes:
            values = values + self._of_slopes.of(np.concatenate(slopes))
        if self._is_dense:
            whole = np.zeros(self._shape[0] * self._shape[1])
            whole[self._places] = values
            return whole.reshape(self._shape)
        return sparse.csr_matrix((values, self._columns, self._ends), shape=self._shape)
