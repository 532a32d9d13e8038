"""Why nothing of a drawing follows a hand, in words."""
from __future__ import annotations

from pertxogai.judging import Judgement
from pertxogai.program.reports import Verdict

FIXED = "nothing is free here: its constraints fix it"
NO_OTHER = "no other shape is near: drag it to a dead point, where two shapes meet"
OFF = ("redundant constraints are off by less than a nanometre, so nothing follows the hand: "
       "remove them")
NO_SHAPE = "no shape meets all constraints, so nothing follows the hand: see the verdict"
LOST = "the drag was lost, and it stays where it is shown: start to drag again"


def why_still(judgement: Judgement) -> str:
    """Why nothing of what is placed follows a hand, in a line; empty of all else. Of what isn't
    tied to the datum, that its shape alone is fixed."""
    if judgement.verdict is not Verdict.WELL or judgement.solution is None:
        return ""
    whole = judgement.whole
    if whole is None or not whole.ways:
        return FIXED
    return ("its dimensions fix its shape, so nothing follows the hand: only the whole may still "
            f"be {whole.text()}, until it is tied to the datum")
