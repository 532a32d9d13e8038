"""What must fit, as the page is told it: of each check whether it does, its worst case, which
dimension gives how much, and its mark where all is shown."""
from __future__ import annotations

from collections.abc import Iterator
from typing import cast

from pertxogai.board.marks import marks
from pertxogai.board.protocol import Checked, CheckAnswer, Contribution, Fitted, Mark
from pertxogai.drawing import Drawing
from pertxogai.fitting import Answer, CheckedFit, Fit, NoFit, UnknownFit
from pertxogai.judging.measure import Solution
from pertxogai.output.fit_text import (
    WHOSE, case_lines, check_lines, number_text, unit_of, words_of_dimension)
from pertxogai.output.picture.drawings import DrawnPlaces

ANSWERS: dict[Answer, CheckAnswer] = {
    Answer.FITS: "fits", Answer.UNSURE: "unsure", Answer.BEYOND: "beyond"}
UNLIMITED: CheckAnswer = "unlimited"
SIGNS = {Answer.FITS: "✓", Answer.UNSURE: "?", Answer.BEYOND: "✗"}
"""What tells the answers apart where no colours do."""


def checks_shown(drawing: Drawing, found: Fit | NoFit, shown: Solution | None) -> Fitted:
    """What comes of the checks of a drawing, where all of it is shown; None for where it is drawn.
    Where nothing is known, why."""
    if isinstance(found, NoFit):
        return {"checks": [], "why": list(found.why)}
    where = DrawnPlaces(drawing, shown)
    checks = [_checked(where, number, each) for number, each in enumerate(found.checks, 1)]
    return {"checks": checks, "why": list(case_lines(found))}


def _checked(where: DrawnPlaces, number: int, found: CheckedFit | UnknownFit) -> Checked:
    check, is_told = found.check, found.answer is Answer.FITS and not found.check.has_limits
    sign, answer = ("↔", UNLIMITED) if is_told else (SIGNS[found.answer], ANSWERS[found.answer])
    known = found if isinstance(found, CheckedFit) else None
    worst = f"{number_text(known.placed.least)} .. {number_text(known.placed.greatest)}" if known \
        else "not known"
    return {"number": number, "name": check.name, "words": check.words(),
            "answer": answer, "sign": sign, "worst": worst,
            "lines": [*check_lines(where.drawing, found), *([" ".join(WHOSE)] if known else [])],
            "gives": list(_contributions(where.drawing, known)) if known else [],
            "marks": list(_marks(where, number, found, f"{sign} {check.name} {worst}"))}


def _marks(where: DrawnPlaces, number: int, found: CheckedFit | UnknownFit,
           text: str) -> Iterator[Mark]:
    """The mark of what is measured, with a text in the place of its value."""
    for mark in marks(where, number, found.check.asked):
        yield cast(Mark, {**mark, "text": text})


def _contributions(drawing: Drawing, found: CheckedFit) -> Iterator[Contribution]:
    for share in found.shares:
        yield {"number": share.dimension.number,
               "words": words_of_dimension(drawing, share.dimension),
               "gives": f"±{number_text(share.gives)} {unit_of(found)}",
               "percent": round(100 * share.part, 1)}
