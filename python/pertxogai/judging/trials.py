"""Asks the program for one style after the other, and takes the first that is well and placed.

Where what is linear is told twice, each dimension is spelled by itself, so that the program says
what is spare. """
from __future__ import annotations

from collections.abc import Iterable, Iterator, Sequence
from dataclasses import dataclass, field, replace
from enum import Enum
from functools import partial
from itertools import islice
from typing import TYPE_CHECKING

from pertxogai.drawing import Drawing
from pertxogai.judging.freedoms import freedoms
from pertxogai.judging.measure.limit import Limit
from pertxogai.judging.within import within
from pertxogai.language import Refusal
from pertxogai.program import Solver, Status
from pertxogai.program.reports import (
    CheckReport, NotAReport, Part, Refused, Solved, Verdict, read_answer, read_check)
from pertxogai.spelling import Axes, Care, Interpretation, Rails, Spelled, Style, readings, written
from pertxogai.spelling.axes import Equation
from pertxogai.spelling.facts import Knot, Owner
from pertxogai.spelling.writing import Contradiction

if TYPE_CHECKING:  # Few drawings have a fault, or need a plan.
    from pertxogai.program.reports import Fault, PartsReport, Plan

ROUNDS = 80
"""The most values that are read off placed parts."""
GROWTHS = 6
"""The most things that are tried as the next value, where the first leaves the drawing over."""
FREEZES = 4
"""The most lengths and radii that are taken as drawn."""
SOLVED_FIRST = (Style.VALUES, Style.VALUES_NEAR, Style.GRID, Style.FEET)
ONE_BY_ONE = (Style.GRID, Style.FEET, Style.VALUES, Style.VALUES_NEAR)


class PlaceBy(Enum):
    """How the program places: the key `place`."""

    BOXES = "boxes"
    POINTS = "points"


@dataclass(frozen=True)
class Question:
    """What the program is asked about: a drawing, and the limit for each constraint."""

    drawing: Drawing
    program: Solver
    limit: Limit = Limit()


@dataclass(frozen=True)
class Trial:
    """The program's answer to one encoding of a drawing. If it is fully constrained: the positions
    or the fault, and the report of `check` only in a `CountedTrial`; otherwise the report of
    `check`. grown: equations that placed clusters gave; told: the axes without these. frozen: the
    constraints that are only measured. off: the constraints that couldn't be encoded and were
    passed as contradictions, by what was measured."""

    spelled: Spelled
    axes: Axes
    rails: Rails
    check: CheckReport | None = None
    grown: tuple[Equation, ...] = ()
    frozen: frozenset[Owner] = frozenset()
    off: tuple[Contradiction, ...] = ()
    place: PlaceBy = PlaceBy.BOXES
    solved: Solved | Fault | None = None
    told: Axes | None = None

    @property
    def verdict(self) -> Verdict:
        """The program's verdict."""
        return Verdict.WELL if self.check is None else self.check.verdict

    @property
    def parts(self) -> tuple[Part, ...]:
        """The rigid clusters of `check`; none if it wasn't asked."""
        return () if self.check is None else self.check.parts


@dataclass(frozen=True)
class CountedTrial(Trial):
    """A trial of which `check` was asked too, whatever the verdict."""

    check: CheckReport = field()


def first_good(question: Question, freeze: bool = False, quick: bool = False,
               spelled: Iterable[Interpretation] | None = None) -> Trial:
    """The first reading and style that is fully constrained and placed; else one that is fully
    constrained, and of which by rank no constraint is too many; else one that is over-constrained;
    else one that is fully constrained; else the one with the fewest clusters. freeze: ask about an
    under-constrained drawing again with lengths and radii as drawn. quick: if something is given
    twice, take the first style that is over-constrained, since none is fully constrained then.
    spelled: the interpretations of the drawing, if some are known."""
    best: Trial | None = None
    seen: list[list[Equation]] = []
    for spellings in _with_sure(readings(question.drawing) if spelled is None else spelled):
        if spellings.axes.equations in seen:
            continue
        seen.append(spellings.axes.equations)
        asked = _best_style(question, spellings, quick)
        if isinstance(asked.solved, Solved):
            return asked
        if best is None or _worth(question, asked) > _worth(question, best):
            best = asked
    assert best is not None
    if freeze and best.verdict is Verdict.OPEN:
        return _freeze(question, best)
    return best


def _with_sure(spelled: Iterable[Interpretation]) -> Iterator[Interpretation]:
    """The interpretations of a drawing, and after them those without what they presume."""
    sure = []
    for each in spelled:
        yield each
        sure.append(each.sure())
    yield from filter(None, sure)


def _best_style(question: Question, spellings: Interpretation, quick: bool) -> Trial:
    """The first style that is placed, else the best; what is linear and told twice is told so to
    the program. What is open isn't asked again with its lines in another order: which parts remain
    doesn't depend on that, as is proved."""
    best: Trial | None = None
    axes = spellings.axes
    twice = any((axes.surplus(), axes.conflicts()))
    for trial in _trials(question, spellings, ONE_BY_ONE if twice else SOLVED_FIRST):
        if twice and trial.verdict is Verdict.WELL:
            continue
        if _is_enough(trial, quick and twice):
            return trial
        best = trial if best is None else max(best, trial, key=partial(_worth, question))
    if best is not None and (best.verdict is Verdict.OVER or not twice):
        return best
    return placed(ask(question, axes, Style.VALUES, Care(insist=True)), question.program)


def _is_enough(trial: Trial, over_will_do: bool) -> bool:
    """Whether no other style has to be tried."""
    return isinstance(trial.solved, Solved) or over_will_do and trial.verdict is Verdict.OVER


def _trials(question: Question, spellings: Interpretation,
            styles: Sequence[Style]) -> Iterator[Trial]:
    """What comes of each style, but for those with the lines of one that was open before."""
    still_open: list[list[str]] = []
    for rails, spelled in _styles(spellings, styles):
        lines = sorted(spelled.sketch.text().splitlines())
        if lines in still_open:
            continue
        trial = placed(_ask(question, rails, spelled, Care()), question.program)
        if trial.verdict is Verdict.OPEN and not trial.grown:
            still_open.append(lines)
        yield trial


def _styles(spellings: Interpretation, styles: Sequence[Style]) -> Iterator[tuple[Rails, Spelled]]:
    """Each style in turn, but for those in which the same is said as in one before."""
    said: set[tuple[bool | Style, str]] = set()
    for style in styles:
        spelled = spellings.spelled(style)
        key = style.solves() or style, spelled.sketch.text()
        if key not in said:
            said.add(key)
            yield spellings.rails(style), spelled


def finer(question: Question, asked: Trial) -> Trial:
    """The same with angles told as finely as can be, where that is still well and placed: what
    placed clusters give is read off them anew."""
    if not asked.spelled.near:
        return asked
    axes = asked.told or asked.axes
    before = tuple(each for each in asked.grown if each in axes.equations)
    for care in _fine_cares(question.program, asked):
        fine = placed(ask(question, axes, asked.spelled.style, care), question.program)
        if _worth(question, fine) >= _worth(question, asked):
            return replace(fine, grown=before + fine.grown, frozen=asked.frozen)
    return asked


def _fine_cares(program: Solver, asked: Trial) -> Iterator[Care]:
    """How angles are told finely: with a line of help through the first point of each one's second
    line; then through the point by which the plan joins both lines. What is well stays so by that:
    a step joins the line of help there, and another the second line."""
    yield Care(fine=True)
    if asked.solved is not None:
        from pertxogai.program.reports import read_plan

        plan = read_plan(written_by(program, "plan", asked.spelled.sketch.text()))
        yield Care(fine=True, through=dict(_points_between(plan, asked.spelled)))


def _points_between(plan: Plan, spelled: Spelled) -> Iterator[tuple[tuple[str, ...], Knot]]:
    """The two lines of each angle that is told by a near ratio, and the point by which a step joins
    them: one of the three elements at which it joins three clusters, of which one is the angle."""
    knots = {name: knot for knot, name in spelled.points.items()}
    for step in plan.steps:
        numbers = {each.number for each in step.joins if not each.is_step}
        for number in numbers.intersection(spelled.near):
            names = spelled.sketch.constraints[number - 1].names()
            yield from ((names, knots[each]) for each in step.at if each in knots)


def ask(question: Question, axes: Axes, style: Style, care: Care = Care()) -> Trial:
    """One style, with what grows from placed parts."""
    rails = Rails(axes, style)
    return _ask(question, rails, written(axes, rails, style, care), care)


def _ask(question: Question, rails: Rails, spelled: Spelled, care: Care) -> Trial:
    """One spelling, and those in which more is told by what the program has placed."""
    asked = answered(rails, spelled, question.program)
    for _ in range(ROUNDS):
        more = _grow(asked, question.program, care) if asked.verdict is Verdict.OPEN else None
        if more is None:
            break
        asked = more
    return replace(_contradict(question, asked, care), told=rails.axes)


def _grow(asked: Trial, program: Solver, care: Care) -> Trial | None:
    """The same with one more value that is read off placed parts: the first that leaves it not
    over, of a few; None where there is none."""
    from pertxogai.judging.from_parts import growths

    parts = _parts(program, asked.spelled, within(asked.spelled))
    found: Trial | None = None
    for more in islice(growths(asked.axes, asked.rails, asked.spelled, parts), GROWTHS):
        rails = Rails(more.axes, asked.spelled.style)
        spelled = written(more.axes, rails, asked.spelled.style, care)
        trial = replace(answered(rails, spelled, program),
                        grown=(*asked.grown, more.equation))
        if trial.verdict is not Verdict.OVER:
            return trial
        found = found or trial
    return found


def _contradict(question: Question, asked: Trial, care: Care) -> Trial:
    """The same; where something couldn't be spelled, and contradicts what is placed, with that
    told so. Where nothing is said twice by rank, nothing is told to contradict."""
    if not asked.spelled.left_out or asked.verdict is Verdict.OVER:
        return asked
    free = freedoms(question.drawing)
    off = () if free is not None and not free.excess else _off(question, asked)
    if not off:
        return asked
    spelled = written(asked.axes, asked.rails, asked.spelled.style, replace(care, off=off))
    return replace(answered(asked.rails, spelled, question.program), grown=asked.grown, off=off)


def _off(question: Question, asked: Trial) -> tuple[Contradiction, ...]:
    """What couldn't be spelled and contradicts what is placed, by boxes or by points. Where what is
    well has no places, what of it is too many by rank."""
    from pertxogai.judging.contradicting import contradictions, too_many

    for place in PlaceBy:
        keys = f"place={place.value}", within(asked.spelled)
        report = _parts(question.program, asked.spelled, *keys)
        if asked.verdict is Verdict.OPEN or isinstance(report.parts[0].shape, Solved):
            return contradictions(asked.rails, asked.spelled, report, question.limit)
    return tuple(too_many(question.drawing, asked.spelled))


def _parts(program: Solver, spelled: Spelled, *keys: str) -> PartsReport:
    """What `parts` says of a spelling."""
    from pertxogai.program.reports import read_parts

    return read_parts(written_by(program, "parts", spelled.sketch.text(), *keys))


def written_by(program: Solver, command: str, text: str, *keys: str) -> str:
    """What a command wrote of a text that `check` has taken. Raises ProgramError, which says why
    where there is no whole report."""
    words = command, *keys
    answer = program.ask(words, text)
    if answer.status is not Status.DONE:
        read_answer(words, answer)
        raise NotAReport(f"the program ended {command} with status {answer.status.value}, which "
                         "doesn't fit what it was asked")
    return answer.text


def _solve(program: Solver, spelled: Spelled, place: PlaceBy) -> CheckReport | Solved | Fault:
    """What `solve` says: the places of what is well, or its fault; of what isn't well, what
    `check` says of it. Raises Refusal where the program refuses the text, as one that is too
    large."""
    words = "solve", f"place={place.value}", within(spelled)
    answer = program.ask(words, spelled.sketch.text())
    if answer.status in (Status.FAULT, Status.TOLERANCE):
        from pertxogai.program.reports import read_fault

        return read_fault(answer.text)
    report = read_answer(words, answer)
    if isinstance(report, Refused):
        raise Refusal(report)
    if isinstance(report, Solved):
        return report
    if isinstance(report, CheckReport) and report.verdict is not Verdict.WELL:
        return report
    raise NotAReport("the program ended solve with a status that doesn't fit what it was asked")


def answered(rails: Rails, spelled: Spelled, program: Solver) -> Trial:
    """One spelling, and what the program says of it: asked once, by boxes."""
    told = _solve(program, spelled, PlaceBy.BOXES)
    if isinstance(told, CheckReport):
        return Trial(spelled, rails.axes, rails, told)
    return Trial(spelled, rails.axes, rails, solved=told)


def placed(asked: Trial, program: Solver) -> Trial:
    """The places of what is well: where there are none by boxes, by points."""
    if asked.solved is None or isinstance(asked.solved, Solved):
        return asked
    told = _solve(program, asked.spelled, PlaceBy.POINTS)
    if isinstance(told, CheckReport):
        raise NotAReport("the program faults by boxes what it doesn't call well by points")
    return replace(asked, place=PlaceBy.POINTS, solved=told)


def told_by(asked: Trial, spelled: Spelled, program: Solver) -> Trial:
    """What the program says where the same is told by another sketch."""
    told = placed(answered(asked.rails, spelled, program), program)
    return replace(told, grown=asked.grown, frozen=asked.frozen, off=asked.off)


def counted(asked: Trial, program: Solver) -> CountedTrial:
    """The same, with what `check` says also of what is well: its parts and its counts."""
    check = asked.check
    if check is None:
        check = read_check(written_by(program, "check", asked.spelled.sketch.text()))
        if check.verdict is not Verdict.WELL:
            raise NotAReport("the program checks as not well what it calls well by solve")
    return CountedTrial(asked.spelled, asked.axes, asked.rails, check, asked.grown, asked.frozen,
                        asked.off, asked.place, asked.solved)


def _freeze(question: Question, asked: Trial) -> Trial:
    """What is open, with one length or radius after the other as drawn, while that leaves fewer
    parts."""
    from pertxogai.judging.as_drawn import frozen_choices

    for _ in range(FREEZES):
        best = asked
        for choice in frozen_choices(asked.axes, asked.rails):
            trial = ask(question, choice.axes, asked.spelled.style)
            trial = replace(placed(trial, question.program), grown=asked.grown + trial.grown,
                            frozen=asked.frozen | {choice.owner})
            if (trial.verdict is not Verdict.OVER
                    and _worth(question, trial) > _worth(question, best)):
                best = trial
        if best is asked or best.verdict is Verdict.WELL:
            return best
        asked = best
    return asked


def _worth(question: Question, asked: Trial) -> tuple[int, bool, int, int]:
    """What is well and placed before what is well, then what is over, then what leaves less out,
    then the fewer parts. What is well by its count alone comes behind what is over; what is over,
    or has no places, by what is presumed alone, behind all."""
    order = {Verdict.WELL: 3, Verdict.OVER: 2, Verdict.OPEN: 0}
    is_placed = isinstance(asked.solved, Solved)
    worth = order[asked.verdict]
    if asked.verdict is Verdict.WELL and not is_placed and _says_too_much(question, asked.axes):
        worth = 1
    if asked.axes.facts.presumes and not is_placed and worth:
        free = freedoms(question.drawing)
        is_over = asked.verdict is Verdict.OVER and (free is None or free.excess)
        worth = 2 if is_over else -1
    return worth, is_placed, -len(asked.spelled.left_out), -len(asked.parts)


def _says_too_much(question: Question, axes: Axes) -> bool:
    """Whether one of the drawing's constraints is too many by rank, beside what only repeats
    others, so that where it has no places it is well by its count alone: one is missing where the
    count needs it."""
    free = freedoms(question.drawing)
    repeats = {owner.number for owner in axes.repeats() if not owner.shape}
    return free is not None and any(free.too_many(repeats))
