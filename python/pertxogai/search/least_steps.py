"""Steps that change rows as wanted, and the unknowns as little as they can: from a dense Jacobian
or from a sparse one."""
from __future__ import annotations

from collections.abc import Callable
from functools import partial
from typing import TypeAlias

import numpy as np
from scipy import linalg, sparse
from scipy.sparse.linalg import splu

from pertxogai.search.arrays import Array, Matrix, is_sparse
from pertxogai.search.multipliers import steps_with_multipliers

LEAST_SINGULAR = 1e-9
"""A singular value below this part of the greatest counts as 0 in a least step."""
REGULAR = 1e-13
"""Takes the place of 0 in the sparse system of a least step, so that repeated rows do no harm."""
FILLED = 8
"""Where JJ' may have more than so many times the entries of J, a step is sought together with its
multipliers."""
Steps: TypeAlias = Callable[[Array], Array]
"""Gives the step that does what is wanted."""


def damped_step(jacobian: Matrix, wanted: Array, damping: float) -> Array:
    """J'(JJ' + damping)^-1 wanted: without damping the least step that does what is wanted."""
    return damped_steps(jacobian, damping)(wanted)


def damped_steps(jacobian: Matrix, damping: float) -> Steps:
    """The same for whatever is wanted, factorized once."""
    try:
        if is_sparse(jacobian):
            return _damped_sparse_steps(jacobian, damping)
        square = jacobian @ jacobian.T
        square.flat[::len(square) + 1] += damping
        factor = linalg.cho_factor(square, overwrite_a=True, check_finite=False)
    except (linalg.LinAlgError, RuntimeError):  # It is singular.
        return partial(least_step, jacobian)

    def step(wanted: Array) -> Array:
        found: Array = jacobian.T @ linalg.cho_solve(factor, wanted, check_finite=False)
        return found

    return step


def _damped_sparse_steps(jacobian: Matrix, damping: float) -> Steps:
    """Raises RuntimeError where it is singular."""
    if _fills_up(jacobian):
        return steps_with_multipliers(jacobian, damping)
    square = (jacobian @ jacobian.T).tocsc()
    square = square + damping * sparse.identity(square.shape[0], format="csc")
    factor = splu(square, permc_spec="MMD_AT_PLUS_A", diag_pivot_thresh=0.0,
                  options={"SymmetricMode": True})

    def step(wanted: Array) -> Array:
        found: Array = jacobian.T @ factor.solve(wanted)
        return found

    return step


def _fills_up(jacobian: Matrix) -> bool:
    """Whether JJ' may have far more entries than J: those of a column, squared, at most."""
    in_columns = np.bincount(jacobian.indices)
    return bool(in_columns @ in_columns > FILLED * jacobian.nnz)


def least_step(jacobian: Matrix, wanted: Array) -> Array:
    """The least step that does what is wanted as nearly as can be: by singular values, or by the
    sparse system of the step and its multipliers, which squares no condition either. No step where
    none can be reckoned."""
    try:
        if is_sparse(jacobian):
            return steps_with_multipliers(jacobian, REGULAR)(wanted)
        step: Array = np.linalg.lstsq(jacobian, wanted, rcond=LEAST_SINGULAR)[0]
        return step
    except (linalg.LinAlgError, RuntimeError):
        return np.zeros(jacobian.shape[1])
