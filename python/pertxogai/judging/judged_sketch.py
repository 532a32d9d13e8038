"""A sketch and all that the program answers to it: one call for people who script CAD."""
from __future__ import annotations

from dataclasses import dataclass
from typing import Any

from pertxogai import _former
from pertxogai.judging.choices import Tried, beneath, tried
from pertxogai.judging.deciding import deciding
from pertxogai.judging.limits import TextRefused
from pertxogai.judging.measure.limit import Limit
from pertxogai.language import Constraint, Refusal, Sketch
from pertxogai.program import Answer, Solver, Status
from pertxogai.program.called import PROGRAM
from pertxogai.program.reports import (
    Cause, CheckReport, ConstraintFault, ExcessReport, Fault, FrameFault, NotAReport, NumberFault,
    PartsReport, Plan, RangeFault, Solved, Spare, TurnedFault, Verdict, WhyReport,
    read_answer, read_check, read_excess, read_fault, read_parts, read_plan, read_refusal,
    read_solve, read_spare, read_why)
from pertxogai.program.reports.why import WORK, work_of

POINTS = "place=points"
"""The key of `solve` for midpoint placement; without it positions are found by boxes."""


@dataclass(frozen=True)
class JudgedSketch:
    """A sketch, and the program's answers about it: the verdict and the clusters; if it is fully
    constrained, positions or a fault; if it is over-constrained, the removable constraints, and
    what `excess` leaves out of each cluster, with deviations; if it isn't fully constrained, each
    cluster by itself. limit: the limit for each constraint, with which the program was asked.
    tried: if a step fails, what other choices of the steps before it give. why: for each constraint
    that is left out, the others that it follows from; None if that wasn't asked. by_points: if it
    has no positions by boxes, those by points, if the program has some; they aren't taken for good.
    `judging.good` says whether it is good."""

    name: str
    sketch: Sketch
    check: CheckReport
    solved: Solved | None = None
    fault: Fault | None = None
    plan: Plan | None = None
    spare: tuple[Spare, ...] = ()
    excess: ExcessReport | None = None
    parts: PartsReport | None = None
    limit: Limit = Limit()
    tried: Tried | None = None
    why: WhyReport | None = None
    by_points: Solved | None = None

    def groups(self) -> dict[int, tuple[int, ...]]:
        """The constraints from which each one that is left out follows, by their numbers."""
        parts = self.why.parts if self.why else ()
        return {each.number: each.because for part in parts for each in part.left_out}

    def picture(self, as_drawn: bool = False) -> Any:
        """Deprecated: call `picture_of_judged` of `pertxogai.output`. This method warns, and is
        removed in the next release."""
        return _former.picture(self, as_drawn)

    def _repr_svg_(self) -> str:
        return str(self.picture().svg)


def judge_sketch(
    name: str, given: Sketch | str, asks: Solver, limit: Limit = Limit()
) -> JudgedSketch:
    """Judges a sketch, or the text of one. Raises TextRefused and ProgramError."""
    text = given if isinstance(given, str) else given.text()
    check = read_check(_output_of(name, "check", text, asks))
    try:
        sketch = Sketch.parse(text)
    except Refusal as refusal:
        raise NotAReport(
            f"the program reads what pertxogai doesn't ({refusal}): they are of different versions"
        ) from None
    if check.verdict is Verdict.WELL:
        return _with_places(name, sketch, check, text, asks, limit)
    within = f"within={limit.amount}"
    parts = read_parts(_output_of(name, "parts", text, asks, within))
    if check.verdict is Verdict.OPEN:
        return JudgedSketch(name, sketch, check, parts=parts, limit=limit)
    spare = read_spare(_output_of(name, "spare", text, asks))
    excess = read_excess(_output_of(name, "excess", text, asks, within))
    why = None
    if work_of(check, any(part.stays_over() for part in excess.parts)) <= WORK:
        why = read_why(_output_of(name, "why", text, asks))
    return JudgedSketch(name, sketch, check, None, None, None, spare, excess, parts, limit,
                        why=why)


def _output_of(name: str, command: str, text: str, asks: Solver, *keys: str) -> str:
    """What a command writes, where it does its work. Raises TextRefused and NotAReport."""
    return _done_answer(name, asks.ask([command, *keys], text), text).text


def _with_places(
    name: str, sketch: Sketch, check: CheckReport, text: str, asks: Solver, limit: Limit
) -> JudgedSketch:
    within = f"within={limit.amount}"
    answer = asks.ask(["solve", within], text)
    if answer.status in (Status.FAULT, Status.TOLERANCE):
        plan = read_plan(_output_of(name, "plan", text, asks))
        fault = read_fault(answer.text)
        turned = tried(sketch, beneath(plan, fault), asks, [within])
        return JudgedSketch(name, sketch, check, None, fault, plan, limit=limit, tried=turned,
                            by_points=_by_points(fault, text, asks, within))
    solved = read_solve(_done_answer(name, answer, text).text)
    return JudgedSketch(name, sketch, check, solved, limit=limit)


def _by_points(fault: Fault, text: str, asks: Solver, within: str) -> Solved | None:
    """The positions by points of what has none by boxes; None where that proves that there are
    none, or that the shape can't be told from a flat one, which points place by luck alone."""
    if isinstance(fault, NumberFault):
        if fault.cause is Cause.GAP or not fault.low < 0 < fault.high:
            return None
    answer = asks.ask(["solve", within, POINTS], text)
    return read_solve(answer.text) if answer.status is Status.DONE else None


def _done_answer(name: str, answer: Answer, text: str) -> Answer:
    """The answer, where the command did its work. Raises TextRefused and NotAReport."""
    if answer.status is Status.REFUSED:
        raise TextRefused(name, read_refusal(answer.text), text)
    if answer.status is not Status.DONE:
        read_answer(("check",), answer)
        raise NotAReport(
            f"the program ended with status {answer.status.value}, which doesn't fit what it was"
            " asked"
        )
    return answer


def concerned(judged: JudgedSketch) -> tuple[Constraint, ...]:
    """The constraints that a fault is about: the one beyond its limit, or those that decide how
    the elements lie at which the step joins its clusters."""
    fault, constraints = judged.fault, judged.sketch.constraints
    if isinstance(fault, ConstraintFault):
        return (constraints[fault.constraint - 1],)
    if isinstance(fault, TurnedFault) and not fault.of.is_step:
        return (constraints[fault.of.number - 1],)
    if isinstance(fault, (NumberFault, RangeFault)):
        return _deciding(judged.plan, fault.at.step)
    if isinstance(fault, TurnedFault):
        return _deciding(judged.plan, fault.of.number)
    return ()


def _deciding(plan: Plan | None, step: int) -> tuple[Constraint, ...]:
    return tuple(leaf.constraint for leaf in deciding(plan, step)) if plan else ()


def what_to_do(fault: Fault, turned: Tried | None = None, by_points: Solved | None = None) -> str:
    """What helps against a fault, in a sentence. turned: what came of other choices. by_points: the
    positions by points, if there are some."""
    if by_points:
        return (f"ask `{PROGRAM} solve {POINTS}`, which places it within"
                f" {by_points.length_tolerance_nm} nm and {by_points.angle_tolerance_ppb} ppb: by"
                " boxes the intervals of its steps grow too wide")
    if turned and turned.found:
        return "draw it so, or change a length: the way it is drawn it can't be placed"
    if isinstance(fault, NumberFault) and fault.cause is Cause.GAP:
        return (
            "change one of these lengths: with the drawn orientations no shape has them, on"
            " any grid"
        )
    if isinstance(fault, NumberFault):
        return (
            "change a length, or dimension it differently: two positions can't be told apart,"
            " or lines are parallel"
        )
    if isinstance(fault, RangeFault):
        return "check the lengths for a slip: the proportions are beyond the grid"
    if isinstance(fault, FrameFault):
        return "draw it nearer to 0 0, or leave out frame=drawn: it is placed too far away"
    if isinstance(fault, TurnedFault):
        return "draw it larger, or check its dimensions: it is about as small as the tolerance"
    return (
        "look for a slip in the lengths and angles: what stands on tiny lengths or nearly parallel"
        " lines is placed inexactly; --within allows up to 1 mm"
    )
