"""Another shape of a drawing, laid over the one that is shown; to look at."""
from __future__ import annotations

from dataclasses import replace
from fractions import Fraction

from pertxogai.drawing import PointRef
from pertxogai.judging import Trial
from pertxogai.judging.measure import Frame, Solution
from pertxogai.judging.printed import is_tied
from pertxogai.output.picture.fitting import Motion, Pair, fitted
from pertxogai.output.picture.marks import PointMm
from pertxogai.spelling.facts import ORIGIN_KNOT


def laid_over(other: Solution, here: Solution, asked: Trial) -> Solution:
    """The places of another shape of what was asked, seen from where it lies nearest to those that
    are shown: turned as a whole, about the origin where that is a point of it, if nothing ties it
    to the axes."""
    if is_tied(asked.axes, asked.spelled):
        return other
    origin: Pair = (0.0, 0.0), (0.0, 0.0)
    pairs = [(_mm(other, ref), _mm(here, ref)) for ref in other.points]
    about = origin if ORIGIN_KNOT in asked.spelled.points else None
    return _moved(other, fitted(pairs, about=about))


def _mm(solution: Solution, ref: PointRef) -> PointMm:
    x, y = solution.spot(ref)
    return float(x) / 1e6, float(y) / 1e6


def _moved(solution: Solution, motion: Motion) -> Solution:
    """The same places, seen from another frame: as they lie after a motion."""
    x, y = -motion.dx, -motion.dy
    back = motion.cos * x + motion.sin * y, motion.cos * y - motion.sin * x
    origin = round(back[0] * 1e6), round(back[1] * 1e6)
    return replace(solution, frame=Frame(origin, (Fraction(motion.cos), Fraction(-motion.sin))))
