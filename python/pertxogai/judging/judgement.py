"""What becomes of a drawing: the program's verdict with its reasons, in the designer's words."""
from __future__ import annotations

from contextlib import suppress
from dataclasses import dataclass, field, replace
from functools import cached_property
from typing import TYPE_CHECKING

from pertxogai.drawing import Circle, Drawing, ShapeRef
from pertxogai.judging.departures import Warned
from pertxogai.judging.edited import EditedDrawing
from pertxogai.judging.freedoms import Freedoms, Gone, Twice, Whole, freedoms
from pertxogai.judging.jets import TooMany
from pertxogai.judging.limits import EncodingRefused, check_fits
from pertxogai.judging.measure.deviation import Because, Deviation, Implied, Unit
from pertxogai.judging.measure.limit import Limit
from pertxogai.judging.measure.measuring import Measurement, measure
from pertxogai.judging.measure.solution import Solution
from pertxogai.judging.naming import Names
from pertxogai.judging.printed import is_tied
from pertxogai.judging.remembering import Remembering
from pertxogai.judging.settled import settled, solution_of
from pertxogai.judging.states import InPieces, State, WithFault, WithPlaces, WithSurplus
from pertxogai.judging.trials import (
    CountedTrial, PlaceBy, Question, Trial, counted, finer, first_good, written_by)
from pertxogai.judging.within import Wider, within
from pertxogai.language import Refusal
from pertxogai.program import Solver
from pertxogai.program.reports import Shape, Solved, Verdict
from pertxogai.spelling.facts import Owner, RadiusOf
from pertxogai.spelling.style import Style

if TYPE_CHECKING:  # What isn't well, or isn't met, imports what is told of it alone.
    from pertxogai.judging.choices import Tried
    from pertxogai.judging.faults import Failure
    from pertxogai.judging.missing import Missing
    from pertxogai.judging.surplus import Surplus
    from pertxogai.program.reports import Plan

FINE_NM = 2
"""What is off by more is asked for again with finer angles."""


@dataclass(frozen=True)
class LeftOut:
    """A constraint, or the ends of an arc, that couldn't be encoded, by its name, and its deviation
    at the positions of the rest; None if there are no positions."""

    name: str
    owner: Owner
    off: Deviation | None
    limit: Limit = Limit()
    is_spare: bool = False
    """Whether by rank all that it says follows from the others."""

    def holds(self) -> bool:
        """Whether it was measured, and holds within the limit."""
        return self.off is not None and self.off.amount <= self.limit.amount

    def repeats(self) -> bool:
        """Whether it is redundant, and so removable. If it holds but isn't redundant, it is met
        only by the position of the whole."""
        return self.holds() and self.is_spare


@dataclass(frozen=True)
class Judgement:
    """The program's verdict on a drawing, and what `judge_at_once` finds with it. asked: the
    encoding, and the program's answer to it. names: the drawing's names. state: the result, by the
    verdict; for an over-constrained drawing the removable dimensions, not yet tried. limit: the
    limit for each constraint."""

    verdict: Verdict
    asked: Trial
    names: Names
    state: State
    limit: Limit = Limit()

    @property
    def _placed(self) -> WithPlaces | None:
        return self.state if isinstance(self.state, WithPlaces) else None

    @property
    def measurement(self) -> Measurement | None:
        """The solved position, and the deviation of each constraint there; None if there is
        none."""
        return self._placed.measurement if self._placed else None

    @property
    def solution(self) -> Solution | None:
        """The solved position, in the coordinates of the datum, in whole nanometres; None if there
        is none."""
        return self._placed.measurement.solution if self._placed else None

    @property
    def deviations(self) -> tuple[Deviation, ...]:
        """The deviation of each constraint at the solved position."""
        return self._placed.measurement.all if self._placed else ()

    @property
    def warnings(self) -> tuple[Warned, ...]:
        """What is placed in another orientation than drawn, and the edges that turn back on each
        other."""
        return self._placed.warnings if self._placed else ()

    @property
    def unsized(self) -> tuple[str, ...]:
        """If it is placed: the circles whose size nothing gives."""
        return self._placed.unsized if self._placed else ()

    @property
    def failure(self) -> Failure | None:
        """Why it can't be placed, though it is fully constrained."""
        return self.state.failure if isinstance(self.state, WithFault) else None

    @property
    def missing(self) -> Missing | None:
        """If it is under-constrained: what is missing, and its rigid clusters."""
        return self.state.missing if isinstance(self.state, InPieces) else None

    @property
    def surplus(self) -> tuple[Surplus, ...]:
        """If it is over-constrained: each removable dimension."""
        return self.state.surplus if isinstance(self.state, WithSurplus) else ()

    @property
    def style(self) -> Style:
        """The encoding of the drawing."""
        return self.asked.spelled.style

    @property
    def place(self) -> PlaceBy:
        """How the program was asked to place it."""
        return self.asked.place

    @property
    def length_tolerance_nm(self) -> int | None:
        """The tolerance of lengths within which the program places it, in nanometres; None if it
        doesn't."""
        return self._placed.length_nm if self._placed else None

    @cached_property
    def free(self) -> Freedoms | None:
        """What of the drawing is free, by rank; None if that takes too long to count."""
        return freedoms(self.names.drawing)

    @property
    def whole(self) -> Whole | None:
        """How the whole may still be moved against the datum, by rank, if it isn't
        over-constrained; None if that isn't known."""
        if self.missing is not None:
            return self.missing.whole
        return self.free.whole if self.verdict is Verdict.WELL and self.free else None

    @property
    def left_out(self) -> tuple[str, ...]:
        """The constraints that couldn't be encoded, without those that hold where the rest is
        placed."""
        return tuple(each.name for each in self.left_out_measured if not each.holds())

    @property
    def left_out_measured(self) -> tuple[LeftOut, ...]:
        """The constraints that couldn't be encoded, with their measured deviations."""
        owners = sorted(each for each in self.asked.spelled.left_out if each.number)
        return tuple(LeftOut(self.names.owner(each), each, self._off(each), self.limit,
                             self._twice(each) is Twice.WHOLE) for each in owners)

    def _off(self, owner: Owner) -> Deviation | None:
        """How far a constraint, or the ends of an arc, are off at the solved position."""
        if not owner.shape:
            return self.limit.told(each for each in self.deviations if each.number == owner.number)
        arc = ShapeRef(self.names.drawing.geometry[owner.number - 1].name)
        return self.limit.told(each for each in self.deviations if isinstance(each.of, Implied)
                               and each.of.because is Because.RIM and each.of.to == arc)

    def _twice(self, owner: Owner) -> Twice | None:
        """What of a constraint the others say too, by rank; None where the rank isn't known."""
        if self.free is None or owner.shape:
            return None
        return self.free.twice(owner.number)

    @property
    def frozen(self) -> tuple[str, ...]:
        """The constraints that are only measured, since a length or radius that they need is kept
        as drawn."""
        return self.names.owners(self.asked.frozen)

    @property
    def grown(self) -> tuple[str, ...]:
        """The constraints that were passed with a value read off a placed cluster."""
        return self.names.owners(owner for each in self.asked.grown for owner in each.owners)

    @property
    def measured_off(self) -> tuple[str, ...]:
        """The constraints that couldn't be encoded and make the drawing over-constrained only as
        measured: they don't hold where the rest is placed, or the rest is fully constrained without
        them. That isn't certified."""
        return self.names.owners(owner for each in self.asked.off for owner in each.owners)

    @property
    def rounded(self) -> tuple[str, ...]:
        """The constraints that were passed with a rounded value."""
        numbers = [each.number for each in self.asked.spelled.rounded]
        return self.names.owners(owner for number in numbers
                                 for owner in self.asked.spelled.owners[number - 1])

    @cached_property
    def repeats(self) -> tuple[str, ...]:
        """The redundant constraints that are no line of a sketch: a direction, a size, a point that
        is itself; and those that couldn't be encoded, hold where the rest is placed, and by rank
        say nothing more. By rank all of them may be removed at once: of several of which not all
        may go, the latest are named. Where the rank isn't known, each may be removed by itself."""
        held = {each.owner: each.name for each in self.left_out_measured if each.repeats()}
        spelled = self._spelled_repeats()
        gone = self._gone_at_once(spelled.union(held))
        return self.names.owners(spelled & gone) + tuple(
            name for owner, name in held.items() if owner in gone)

    def _gone_at_once(self, repeats: frozenset[Owner]) -> frozenset[Owner]:
        """Those of some redundant constraints that may go at once, by rank, the latest first; all
        where the rank isn't known. What by rank takes part in nothing goes by itself."""
        free = self.free
        if free is None:
            return repeats
        gone = Gone(free)
        latest_first = sorted(repeats, key=lambda owner: owner.number, reverse=True)
        with suppress(TooMany):
            return frozenset(
                owner for owner in latest_first if owner.shape or not free.factors(owner.number)
                or gone.take(owner.number, may_free=False))
        return repeats

    def _spelled_repeats(self) -> frozenset[Owner]:
        """Who says again, and nothing more by rank, what is no line of a sketch. Where there are no
        places another constraint may contradict those from which a size follows: by rank that one
        stands for them, so the later alone are meant."""
        found = self.asked.axes.repeats(later_alone=self.solution is None)
        return frozenset(each for each in found if self._twice(each) is not Twice.IN_PART)

    @cached_property
    def too_many(self) -> tuple[tuple[str, ...], ...]:
        """If it isn't over-constrained: each group of which, by rank, one constraint is redundant
        or conflicting, beside those that are reported as redundant. None of which each says more
        besides, as that a point is the middle of an arc's ends, and its centre."""
        free = self.free
        if self.verdict is Verdict.OVER or free is None:
            return ()
        held = {each.owner for each in self.left_out_measured if each.repeats()}
        repeats = {owner.number for owner in self._spelled_repeats() | held if not owner.shape}
        groups = (frozenset(owner for owner in each if not owner.shape)
                  for each in free.too_many(repeats))
        return tuple(self.names.owners(each) for each in groups
                     if any(free.may_go(owner.number, repeats) for owner in each))

    @property
    def held(self) -> tuple[str, ...]:
        """The constraints that couldn't be encoded, say something of their own by rank, and hold as
        measured."""
        return tuple(each.name for each in self.left_out_measured
                     if each.holds() and each.name not in self.repeats)

    @property
    def undimensioned(self) -> tuple[str, ...]:
        """If it is placed: the circles whose radius nothing gives; otherwise those that no
        constraint names. They are shown as drawn."""
        if self.solution is not None:
            return self.unsized
        axes = self.asked.axes
        said = {key for equation in axes.equations for key in equation.form.terms}
        said |= {key for fact in axes.loose for key in fact.value.terms}
        return tuple(shape.name for shape in self.names.drawing.geometry
                     if isinstance(shape, Circle) and RadiusOf(shape.name) not in said)


@dataclass(frozen=True)
class WeighedJudgement(Judgement):
    """A judgement with what takes many more calls of the program. If it is over-constrained, each
    removable dimension is tried. loose: if it is over-constrained, what is missing all the same.
    unmet: if it has no positions, nothing is missing or redundant by rank, and by numbers there is
    no shape near the drawn one, nor one by other choices, the constraints without any one of which
    there is a shape; None otherwise. tried: if it is fully constrained but has no positions, or
    positions that don't meet a constraint, what other choices of its steps give."""

    loose: tuple[str, ...] = ()
    unmet: tuple[str, ...] | None = None
    tried: Tried | None = None


@dataclass(frozen=True)
class CountedJudgement(WeighedJudgement):
    """A judgement with the program's rigid clusters and counts, also if the drawing is fully
    constrained."""

    asked: CountedTrial = field()


def judge(drawing: Drawing, program: Solver, freeze: bool = False,
          limit: Limit = Limit()) -> CountedJudgement:
    """Judges a sound drawing, one that was read or `checked`: the program's verdict, with the
    counts also of a fully constrained drawing, and the deviation of each removable dimension. If a
    constraint isn't met within the limit, other choices of steps that meet it are tried; if the
    limit is wider than the language's own, the drawing is placed by them too. freeze: lengths and
    radii without a dimension may be kept as drawn. Raises the exceptions of `judge_at_once`."""
    asks = Remembering(Wider(program, limit))
    judged = weighed(judge_at_once(drawing, asks, freeze, limit), asks)
    return with_counts(with_choices(judged, asks), asks)


def judge_at_once(drawing: Drawing, program: Solver, freeze: bool = False,
                  limit: Limit = Limit()) -> Judgement:
    """The same with fewer calls of the program: the counts of a fully constrained drawing aren't
    asked for, and the removable dimensions are those that the program names, not measured. Raises
    ProgramError; DrawingRefused if the drawing has more points or constraints than the program
    takes, if both ends of a shape coincide or mirror each other in it, or if the program rejects
    the encoded sketch; NotHeld if a position or length is beyond the range of the language."""
    return judge_edited(EditedDrawing(drawing), program, freeze, limit)


def judge_edited(edited: EditedDrawing, program: Solver, freeze: bool = False,
                 limit: Limit = Limit()) -> Judgement:
    """The same of a drawing that an edit has made. Raises as `judge_at_once`."""
    check_fits(edited.drawing)
    question = Question(edited.drawing, program, limit)
    try:
        asked = first_good(question, freeze, spelled=edited.readings())
    except Refusal as refusal:
        raise EncodingRefused(refusal.refused) from None
    return judge_trial(edited, asked, question)


def judge_trial(edited: EditedDrawing, asked: Trial, question: Question) -> Judgement:
    """The same of a drawing that was tried already. Raises ProgramError."""
    judged = _judgement(edited, asked, question)
    if not any(each.amount > FINE_NM for each in judged.deviations):
        return judged
    fine = finer(question, asked)
    if fine is asked:
        return judged
    finely = _judgement(edited, fine, question)
    if any(judged.limit.beyond(judged.deviations)):
        return finely
    return min((judged, finely), key=_worst_off)


def _judgement(edited: EditedDrawing, asked: Trial, question: Question) -> Judgement:
    """What a trial tells of a drawing."""
    names = Names(edited.drawing, asked.spelled, asked.axes.facts.refs)
    state = _state(edited, names, asked, question.program)
    return Judgement(asked.verdict, asked, names, state, question.limit)


def _state(edited: EditedDrawing, names: Names, asked: Trial, program: Solver) -> State:
    """What becomes of a drawing by what was asked of it."""
    if isinstance(asked.solved, Solved):
        return _with_places(edited, asked, asked.solved)
    if asked.solved is not None:
        from pertxogai.judging.faults import failure

        return WithFault(failure(names, asked.solved, plan_of(asked, program)))
    if asked.verdict is Verdict.OPEN:
        from pertxogai.judging.missing import missing

        return InPieces(missing(names, asked.parts))
    from pertxogai.judging.surplus import spare_at_once, untried_surplus

    numbers = spare_at_once(edited.drawing, asked, program)
    return WithSurplus(untried_surplus(edited.drawing, numbers))


def _with_places(edited: EditedDrawing, asked: Trial, solved: Solved) -> WithPlaces:
    """The places in the datum's frame, and all that is measured on them."""
    found = settled(edited.drawing, asked, solved)
    length_nm = -(-solved.length_tolerance_nm // asked.spelled.scale)
    is_free = not is_tied(asked.axes, asked.spelled)
    return WithPlaces(edited.measured(found.solution), length_nm, solved.angle_tolerance_ppb,
                      is_free, found.unsized)


def with_choices(judged: WeighedJudgement, program: Solver) -> WeighedJudgement:
    """The judgement with the results of other choices of its steps: of those before a step that
    fails, and of all steps if a constraint isn't met. Raises ProgramError."""
    is_off = any(judged.limit.beyond(judged.deviations))
    if judged.failure is None and not is_off:
        return judged
    from pertxogai.judging.choices import beneath, tried

    plan = plan_of(judged.asked, program)
    steps = plan.steps if judged.failure is None else beneath(plan, judged.failure.fault)
    keys = [f"place={judged.place.value}", within(judged.asked.spelled)]
    found = tried(judged.asked.spelled.sketch, steps, program, keys,
                  lambda shape: _is_met(judged, shape))
    return replace(judged, unmet=judged.unmet if found.found is None else None,
                   tried=replace(found, scale=judged.asked.spelled.scale))


def plan_of(asked: Trial, program: Solver) -> Plan:
    """How what is well is constructed."""
    from pertxogai.program.reports import read_plan

    return read_plan(written_by(program, "plan", asked.spelled.sketch.text()))


def _is_met(judged: Judgement, shape: Shape) -> bool:
    """Whether each constraint of a drawing is met where a shape of its sketch lies."""
    drawing = judged.names.drawing
    solution = solution_of(drawing, judged.asked, shape)
    return not any(judged.limit.beyond(measure(drawing, solution)))


def with_counts(judged: Judgement, program: Solver) -> CountedJudgement:
    """The judgement with the program's clusters and counts, also if it is fully constrained. Raises
    ProgramError."""
    known = (judged if isinstance(judged, WeighedJudgement)
             else _weighed_judgement(judged, judged.state))
    return CountedJudgement(known.verdict, counted(known.asked, program), known.names, known.state,
                            known.limit, known.loose, known.unmet, known.tried)


def _weighed_judgement(judged: Judgement, state: State, loose: tuple[str, ...] = (),
                       unmet: tuple[str, ...] | None = None) -> WeighedJudgement:
    """A judgement with what its weighing told."""
    return WeighedJudgement(judged.verdict, judged.asked, judged.names, state, judged.limit, loose,
                            unmet)


def _worst_off(judged: Judgement) -> tuple[bool, int]:
    """Whether a constraint isn't met, and the greatest deviation in nanometres."""
    return (any(judged.limit.beyond(judged.deviations)),
            max((each.amount for each in judged.deviations if each.unit is Unit.NM), default=0))


def _is_flat(judged: Judgement) -> bool:
    """Whether a step fails since all that meets there lies in one line: the shape may be there, and
    Newton's method doesn't reach it."""
    return judged.failure is not None and judged.failure.is_flat


def weighed(judged: Judgement, program: Solver) -> WeighedJudgement:
    """The judgement with each removable dimension tried, and measured on the rest; for a drawing
    that isn't over-constrained and has no shape, with what isn't met. Raises the exceptions of
    `judge_at_once`."""
    if isinstance(judged.state, WithPlaces):
        return _weighed_judgement(judged, judged.state)
    from pertxogai.judging.missing import loose, unmet

    drawing = judged.names.drawing
    if not isinstance(judged.state, WithSurplus):
        return _weighed_judgement(
            judged, judged.state, unmet=None if _is_flat(judged) else unmet(drawing))
    from pertxogai.judging.groups import groups_of
    from pertxogai.judging.surplus import what_may_go

    surplus = what_may_go(Question(drawing, program, judged.limit), judged.asked)
    if judged.asked.check is not None:
        numbers = {each.number: each.beside for each in surplus}
        groups = groups_of(judged.names, program, numbers, judged.asked.check)
        surplus = tuple(replace(each, others=groups.get(each.number, ())) for each in surplus)
    return _weighed_judgement(judged, WithSurplus(surplus), loose(judged.names))


__all__ = ["CountedJudgement", "Judgement", "WeighedJudgement", "judge", "judge_at_once",
           "judge_edited", "judge_trial", "weighed", "with_choices", "with_counts"]
