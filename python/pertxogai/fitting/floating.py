"""Whether a check measures from the origin or the axes what no constraint ties to them."""
from __future__ import annotations

from pertxogai.drawing import (
    DATUM_NAMES, X_AXIS, Y_AXIS, AngleBetween, ParallelDistance, PointLineDistance, Valued,
    XDistance, YDistance)
from pertxogai.drawing.mentions import named
from pertxogai.drawing.tolerances.check import Check
from pertxogai.judging import Judgement, Trial
from pertxogai.judging.freedoms import Whole
from pertxogai.judging.printed import is_tied
from pertxogai.judging.turning import known_sum

MEASURED = "it is measured against the origin or the axes"


def why_floating(check: Check, judgement: Judgement) -> str | None:
    """Why it isn't known what a check measures from the origin or the axes; None where it is. Where
    the freedoms of a drawing can't be counted, as of a large one, it counts as tied by what is
    linear alone."""
    whole = judgement.whole
    if whole is not None:
        still = f"{MEASURED}, and the whole can still be {whole.text()} (by rank)"
        return still if floats(check, whole) else None
    unknown = (f"{MEASURED}, and it isn't known whether the whole is tied to them: its freedoms "
               "can't be counted")
    return unknown if floats(check, _not_tied(judgement.asked)) else None


def _not_tied(asked: Trial) -> Whole:
    """How the whole may be moved by no line of the sketch and no sum of coordinates."""
    spelled = asked.spelled
    lines = {each.rail.upwards for each in spelled.headings if each.rail and each.rail.datum()}
    x, y = (upwards not in lines and known_sum(asked.axes, upwards, spelled.points) is None
            for upwards in (False, True))
    turns = not is_tied(asked.axes, spelled)
    return Whole(x, y, x + y + turns, turns)


def floats(check: Check, whole: Whole) -> bool:
    """Whether a check changes where the whole is moved or turned as it still may be."""
    asked = check.asked
    if whole.turns and isinstance(asked, (XDistance, YDistance)):
        return True
    if not named(asked) & DATUM_NAMES:
        return False
    if whole.turns or isinstance(asked, AngleBetween):
        return whole.turns
    if _is_along_x(asked):
        return whole.along_x or not whole.along_y and whole.ways > 0
    if _is_along_y(asked):
        return whole.along_y or not whole.along_x and whole.ways > 0
    return whole.ways > 0


def _is_along_x(asked: Valued) -> bool:
    """Whether a measure from the datum changes by a move along x alone."""
    return isinstance(asked, XDistance) or _is_from(asked, Y_AXIS.name)


def _is_along_y(asked: Valued) -> bool:
    """Whether a measure from the datum changes by a move along y alone."""
    return isinstance(asked, YDistance) or _is_from(asked, X_AXIS.name)


def _is_from(asked: Valued, axis: str) -> bool:
    """Whether it is the distance from an axis."""
    return isinstance(asked, (PointLineDistance, ParallelDistance)) and axis in named(asked)
