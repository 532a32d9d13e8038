"""The one way in which a good drawing is told to the program, by which it is asked with other
numbers."""
from __future__ import annotations

from collections import Counter
from collections.abc import Callable, Mapping, Sequence
from dataclasses import dataclass, field, replace
from fractions import Fraction
from functools import partial
from typing import TypeVar

from pertxogai.drawing import Constraint, Drawing, Segment
from pertxogai.drawing.places import NM_PER_UM
from pertxogai.exact import whole_up
from pertxogai.judging import (
    DrawingRefused, JudgedDrawing, Judgement, Names, Question, Trial, judge_at_once,
    reasons_against)
from pertxogai.judging.departures import Comparison, Warned
from pertxogai.judging.edges import Edges
from pertxogai.judging.faults import failure
from pertxogai.judging.measure import Deviation, Implied, Limit, Unit
from pertxogai.judging.measure.measuring import measure
from pertxogai.judging.mirrored import Pieces
from pertxogai.judging.printed import is_tied
from pertxogai.judging.settled import settled
from pertxogai.judging.trials import answered, finer, placed, written_by
from pertxogai.judging.within import Wider
from pertxogai.language import NotHeld, Refusal
from pertxogai.program import Solver
from pertxogai.program.reports import Fault as ProgramFault, Solved, read_plan
from pertxogai.ranging.faults import (
    Fault, FaultKind, of_warnings, of_deviation, of_failure, of_gone, of_mirrored, of_reason,
    of_surplus, of_verdict)
from pertxogai.ranging.no_range import NoRange
from pertxogai.ranging.things import Things
from pertxogai.spelling import READINGS, Interpretation, Reading, Spelled, Style
from pertxogai.spelling.reading import interpreted

Found = TypeVar("Found")
Key = int | Constraint | Implied
"""The number of a constraint, which it has with any value; or what the shapes imply."""


@dataclass(frozen=True)
class Held:
    """Where the edges of a drawing lie in which each constraint holds. nearly: the first that is
    off by more than two thirds of the limit, and by as much as values of its own are rounded for
    the program, and isn't so at the present number; None where none is."""

    edges: Edges
    nearly: Deviation | None = None


@dataclass(frozen=True)
class Way:
    """A good drawing, its edges as they are placed, what is warned of in it, what may depart from
    the drawing, lie mirrored, and come to cross, and how it is told: by which reading and style.
    reading: None where no single one will do, as where a value was read off a placed part, so that
    all ways are tried for each number. before: how the reading spells it. always: what is off by
    more than two thirds of the limit at the present number. rounded: the constraints of which
    values are rounded for the program, and by how many nanometres."""

    drawing: Drawing
    program: Solver
    limit: Limit
    edges: Edges
    known: frozenset[Warned]
    comparison: Comparison
    pieces: Pieces
    things: Things
    style: Style
    reading: Reading | None
    before: Interpretation | None
    always: frozenset[Key]
    rounded: Mapping[Key, int] = field(default_factory=dict)

    @staticmethod
    def of(drawing: Drawing, program: Solver, limit: Limit = Limit(),
           not_drawn: tuple[str, ...] = ()) -> Way:
        """The way of a sound drawing. not_drawn: what its file has and it can't say, besides what
        it tells itself. Raises NoRange where it isn't good, and as `judge_at_once`."""
        program = Wider(program, limit)
        judged = judge_at_once(drawing, program, limit=limit)
        reasons = reasons_against(JudgedDrawing("", drawing, judged, not_drawn, limit=limit))
        if reasons:
            raise NoRange(f"the drawing isn't good: {reasons[0].text}")
        assert judged.solution is not None
        edges, known = Edges(drawing, judged.solution), frozenset(judged.warnings)
        things = Things.of(edges, known, _is_free(judged.asked))
        way = Way(drawing, program, limit, edges, known, Comparison(drawing, judged.solution.radii),
                  Pieces.of(drawing), things, judged.style, *_reading(judged),
                  frozenset(map(_key, _less(limit).beyond(judged.deviations))))
        return replace(way, reading=None) if isinstance(way.placed(drawing), Fault) else way

    def placed(self, drawing: Drawing) -> Held | Fault:
        """Where the edges of the drawing with another number lie, or why it isn't as this one is.
        Raises ProgramError."""
        if self.reading is None:
            return self._placed_by_all(drawing)
        return _unless_refused(partial(self._by_one, drawing, self.reading))

    def found_for(self, drawing: Drawing) -> Way | Fault:
        """The way in which the drawing with another number is good and as this one is, found as
        `judge` finds it; or why there is none. Raises ProgramError."""
        return _unless_refused(partial(self._by_all, drawing))

    def _placed_by_all(self, drawing: Drawing) -> Held | Fault:
        found = self.found_for(drawing)
        if isinstance(found, Fault):
            return found
        deviations = measure(drawing, found.edges.solution)
        return self._held(found.edges, deviations, found.rounded)

    def _held(self, edges: Edges, deviations: Sequence[Deviation],
              rounded: Mapping[Key, int]) -> Held:
        """Edges that are placed so that each constraint holds. rounded: those of which values are
        rounded, and by how many nanometres."""
        less = _less(self.limit)
        nearly = (each for each in less.beyond(deviations) if _key(each) not in self.always
                  and _but_for_rounding(each, rounded) > less.amount)
        return Held(edges, next(nearly, None))

    def _by_one(self, drawing: Drawing, reading: Reading) -> Held | Fault:
        spellings = interpreted(drawing, reading, self.before)
        axes = spellings.axes
        spelled = spellings.spelled(self.style)
        names = Names(self.drawing, spelled, axes.facts.refs)
        if axes.surplus() or axes.conflicts():
            return self._placed_by_all(drawing)
        trial = placed(answered(spellings.rails(self.style), spelled, self.program), self.program)
        if isinstance(trial.solved, Solved):
            return self._checked(drawing, trial, trial.solved)
        if trial.solved is None:
            return of_verdict(trial.verdict)
        return self._of_failure(names, trial.solved)

    def _checked(self, drawing: Drawing, trial: Trial, solved: Solved) -> Held | Fault:
        """The placed edges, or what is wrong with them; then also as placed by finer angles."""
        found = self._checked_once(drawing, trial, solved)
        if isinstance(found, Held) and found.nearly is None:
            return found
        fine = finer(Question(drawing, self.program, self.limit), trial)
        if fine is trial or not isinstance(fine.solved, Solved):
            return found
        other = self._checked_once(drawing, fine, fine.solved)
        return found if isinstance(found, Held) and isinstance(other, Fault) else other

    def _checked_once(self, drawing: Drawing, trial: Trial, solved: Solved) -> Held | Fault:
        found = settled(drawing, trial, solved)
        edges = Edges(drawing, found.solution)
        deviations = measure(drawing, found.solution)
        off = next(self.limit.beyond(deviations), None)
        if off is not None:
            return self._of_deviation(off, edges)
        if found.unsized:
            return Fault(FaultKind.UNSIZED, f"no size is given for {', '.join(found.unsized)}")
        warnings = [each for each in self.comparison.warnings(edges, _is_free(trial))
                    if each not in self.known]
        if warnings:
            return of_warnings(warnings)
        turned = next(self.pieces.mirrored(edges), None)
        if turned is not None:
            return of_mirrored(turned)
        return self._held(edges, deviations, _rounded(trial.spelled))

    def _of_deviation(self, off: Deviation, edges: Edges) -> Fault:
        """That a constraint isn't met, or that there are edges without a length there."""
        gone = [each.name for each in self.drawing.geometry
                if isinstance(each, Segment) and not any(edges.of(each).placed.way)]
        return of_gone(gone) if gone else self.off(off)

    def off(self, off: Deviation) -> Fault:
        """That a constraint isn't met, or only just."""
        return of_deviation(off, off.called(self.drawing), self.limit)

    def _of_failure(self, names: Names, fault: ProgramFault) -> Fault:
        """Why the program can't place it, by the numbers that stand in the drawing."""
        plan = read_plan(written_by(self.program, "plan", names.spelled.sketch.text()))
        return of_failure(names, failure(names, fault, plan))

    def _by_all(self, drawing: Drawing) -> Way | Fault:
        """By whichever way is well and placed."""
        judged = judge_at_once(drawing, self.program, limit=self.limit)
        if judged.failure is not None:
            return self._of_failure(replace(judged.names, drawing=self.drawing),
                                    judged.failure.fault)
        if judged.surplus:
            return of_surplus([self.drawing.called(each.number) for each in judged.surplus])
        if judged.solution is None:
            return of_verdict(judged.verdict)
        warnings = [each for each in judged.warnings if each not in self.known]
        if warnings:
            return of_warnings(warnings)
        reasons = reasons_against(JudgedDrawing("", drawing, judged, limit=self.limit))
        edges = Edges(drawing, judged.solution)
        if reasons:
            off = reasons[0].off
            return self._of_deviation(off, edges) if off else of_reason(reasons[0])
        reading, before = _reading(judged)
        return replace(self, edges=edges, style=judged.style, reading=reading, before=before,
                       rounded=_rounded(judged.asked.spelled))


def _unless_refused(act: Callable[[], Found | Fault]) -> Found | Fault:
    """What is found, or why the drawing, or what is told of it, is refused."""
    try:
        return act()
    except Refusal as refused:
        told = refused.refused.text().rstrip()
        return Fault(FaultKind.LIMIT, f"the program rejects the encoded sketch ({told})")
    except DrawingRefused as refused:
        return Fault(FaultKind.UNSOUND, str(refused))
    except NotHeld as refused:
        return Fault(FaultKind.UNSOUND, f"a sum of dimensions is out of range: {refused}")


def _less(limit: Limit) -> Limit:
    """Two thirds of a limit."""
    return Limit(max(1, 2 * limit.amount // 3))


def _key(off: Deviation) -> Key:
    return off.of if off.number is None else off.number


def _rounded(spelled: Spelled) -> Mapping[Key, int]:
    """By how many nanometres the values of each constraint are rounded for the program together; a
    line may have those of several. Those of which none is rounded aren't in it."""
    found = Counter[Key]()
    for each in spelled.rounded:
        by_nm = whole_up((Fraction(each.exact_um) - each.told_um) * NM_PER_UM)
        for owner in spelled.owners[each.number - 1]:
            if not owner.shape:
                found[owner.number] += by_nm
    return found


def _but_for_rounding(off: Deviation, rounded: Mapping[Key, int]) -> int:
    """How far a constraint is off besides what its own values are rounded by, in its unit. They
    turn nothing."""
    return off.amount - (rounded.get(_key(off), 0) if off.unit is Unit.NM else 0)


def _is_free(trial: Trial) -> bool:
    """Whether nothing ties a drawing to the datum's directions."""
    return not is_tied(trial.axes, trial.spelled)


def _reading(judged: Judgement) -> tuple[Reading | None, Interpretation | None]:
    """The reading by which a drawing is well, and how it spells it."""
    asked = judged.asked
    if asked.grown or asked.frozen:
        return None, None
    for reading in READINGS:
        found = interpreted(judged.names.drawing, reading)
        if found.axes.facts == asked.axes.facts and found.axes.equations == asked.axes.equations:
            return reading, found
    return None, None
