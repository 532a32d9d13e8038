"""Damped steps by the sparse system of the step and its multipliers, [[1, J'], [J, -damping]]. It
fills up less than JJ' where many rows speak of one unknown. The Jacobians of one drawing have their
entries in the same places: where those of the system are, and in which order it is eliminated, is
found once for all of them."""
from __future__ import annotations

from collections.abc import Callable
from dataclasses import dataclass
from functools import lru_cache

import numpy as np
from scipy import sparse
from scipy.sparse.linalg import splu

from pertxogai.search.arrays import Array, Indices, Matrix

MOST_LAYOUTS = 8
"""For how many patterns of a Jacobian this is kept."""


def steps_with_multipliers(jacobian: Matrix, damping: float) -> Callable[[Array], Array]:
    """Gives the steps of a sparse Jacobian. Raises RuntimeError where the system is singular."""
    layout = _layout_of(jacobian.shape, jacobian.indptr.tobytes(), jacobian.indices.tobytes())
    factor = splu(layout.system(jacobian.data, damping), permc_spec="NATURAL")

    def step(wanted: Array) -> Array:
        right = np.zeros(len(layout.unknowns) + len(layout.multipliers))
        right[layout.multipliers] = wanted
        solved: Array = factor.solve(right)[layout.unknowns]
        return solved

    return step


@dataclass(frozen=True)
class _Layout:
    """The system of a pattern, in the order in which it is eliminated. unknowns, multipliers: their
    places in it. rows, ends: where its entries are, by columns. entries: the place of each among
    those of J, behind which stand 1 and -damping."""

    unknowns: Indices
    multipliers: Indices
    rows: Indices
    ends: Indices
    entries: Indices

    def system(self, values: Array, damping: float) -> Matrix:
        """The system of a Jacobian with these entries."""
        found = np.concatenate([values, [1.0, -damping]])[self.entries]
        size = len(self.ends) - 1
        return sparse.csc_matrix((found, self.rows, self.ends), shape=(size, size))


@lru_cache(MOST_LAYOUTS)
def _layout_of(shape: tuple[int, int], ends: bytes, columns: bytes) -> _Layout:
    """The layout for Jacobians of a pattern, of rows."""
    indices, indptr = (np.frombuffer(each, dtype=np.int32) for each in (columns, ends))
    count = len(indices)

    def system(values: Array, one: float, damping: float) -> Matrix:
        jacobian = sparse.csr_matrix((values, indices, indptr), shape=shape)
        upper, lower = (factor * sparse.identity(size) for factor, size in
                        zip((one, damping), reversed(shape)))
        return sparse.bmat([[upper, jacobian.T], [jacobian, lower]], format="csc")

    # Values that give no singular system: the order depends on the pattern alone.
    places = splu(system(np.ones(count), 1.0, -1.0), permc_spec="MMD_AT_PLUS_A").perm_c
    order = np.argsort(places)
    numbered = system(np.arange(1.0, count + 1), count + 1.0, count + 2.0)
    found = numbered[order][:, order].tocsc()
    found.sort_indices()
    return _Layout(places[:shape[1]], places[shape[1]:], found.indices, found.indptr,
                   found.data.astype(np.intp) - 1)
