"""Whether the checks of a drawing fit within its tolerances.

A drawing with tolerances and checks goes in. For each check the worst case, the root sum square and
the share of each dimension come out. The program places each case, and the check is measured there
on the printed whole nanometres; nothing here decides where something lies."""
from __future__ import annotations

from pertxogai.drawing import Drawing
from pertxogai.fitting.corners import Worst
from pertxogai.fitting.fit import fit_of
from pertxogai.fitting.results import (
    Answer, CheckedFit, Fit, Limits, NoFit, Range, Share, UnknownFit)
from pertxogai.fitting.toleranced import Dimensions, Toleranced
from pertxogai.judging.measure import Limit
from pertxogai.program import Solver

__all__ = ["Answer", "CheckedFit", "Dimensions", "Fit", "Limits", "NoFit", "Range", "Share",
           "Toleranced", "UnknownFit", "Worst", "fit"]


def fit(drawing: Drawing, program: Solver, limit: Limit = Limit(), jobs: int = 1) -> Fit | NoFit:
    """The results of the checks of a sound drawing, or why nothing is known. jobs: how many
    processes place cases; what comes of it is the same with any number. Raises the exceptions of
    `judge`."""
    return fit_of(drawing, program, limit, jobs)
