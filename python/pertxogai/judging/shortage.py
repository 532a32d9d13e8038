"""What is short where a step finds no place: how far the elements that meet there are apart, each
two within the piece that has them both, as the program places that piece by itself."""
from __future__ import annotations

import math
from collections.abc import Iterator, Mapping, Sequence
from dataclasses import dataclass, replace
from fractions import Fraction

from pertxogai.drawing.numbers import mm_text
from pertxogai.judging.faults import Amount, Unit
from pertxogai.judging.judgement import Judgement, plan_of
from pertxogai.language import Placed, PlacedLine
from pertxogai.language.clusters import ClusterName, Step
from pertxogai.program import ProgramError, Solver
from pertxogai.program.reports import NumberFault, Plan, Solved, read_answer

NEAR_UM = 0.001
"""Nearer than this two lengths are the same."""


@dataclass(frozen=True)
class Span:
    """Two elements of a sketch, how far they are apart, in micrometres of the drawing, and whether
    both are points."""

    ends: tuple[str, str]
    um: float
    is_of_points: bool

    def reaches(self, name: str) -> bool:
        """Whether it ends at that element."""
        return name in self.ends


def shortage_of(judgement: Judgement, program: Solver) -> str:
    """By how much the dimensions beneath a fault miss each other, as `shortage`; empty where there
    is no fault, or the program gives no answer."""
    if judgement.failure is None:
        return ""
    try:
        return shortage(judgement, plan_of(judgement.asked, program), program)
    except ProgramError:
        return ""


def shortage(judgement: Judgement, plan: Plan, program: Solver) -> str:
    """By how much the dimensions beneath a fault miss each other, in one sentence with the
    designer's names; empty where three points, or two and a line, aren't what meets."""
    failure = judgement.failure
    if failure is None or failure.amount is None or not isinstance(failure.fault, NumberFault):
        return ""
    number = failure.fault.at.step
    step = next(each for each in plan.steps if each.number == number)
    spans = sorted(_spans(judgement, plan, step, program), key=lambda span: -span.um)
    called = {name: judgement.names.element(name) or "" for name in step.at}
    points = [span for span in spans if span.is_of_points]
    if len(spans) < 3 or len(points) not in (1, 3):
        return ""
    base, *others = [points[0], *(span for span in spans if span is not points[0])]
    tell = _of_points if len(points) == 3 else _of_a_line
    return tell(base, others, called, failure.amount)


def _of_points(base: Span, others: Sequence[Span], called: Mapping[str, str],
               amount: Amount) -> str:
    """What is told of two points that are further apart than a third reaches."""
    if not all(called.values()):
        return ""
    first, second = (called[name] for name in base.ends)
    third = next(called[name] for name in called if not base.reaches(name))
    near, far = (next(span for span in others if span.reaches(name)) for name in base.ends)
    return (f"{first} and {second} are {_mm(base.um)} apart, and {third} is {_mm(near.um)} from "
            f"{first} and {_mm(far.um)} from {second}: {_meets(base.um - near.um - far.um)}.")


def _of_a_line(base: Span, others: Sequence[Span], called: Mapping[str, str],
               amount: Amount) -> str:
    """What is told of two points that are nearer to each other than their heights above a line
    ask for, by the number that failed: of the two squares the one less the other, or that by the
    first. Nothing where that fits neither the heights' sum nor their difference."""
    first, second = (called[name] for name in base.ends)
    number = float(amount.low + amount.high) / 2
    square = number * 1e6 if amount.unit is Unit.SQUARE_MM else number * base.um ** 2
    due = math.sqrt(max(0.0, base.um ** 2 - square))
    one, other = (span.um for span in others)
    asked = min((abs(one - other), one + other), key=lambda um: abs(um - due))
    if not (first and second) or abs(asked - due) > NEAR_UM * (1 + due):
        return ""
    return (f"{first} and {second} are {_mm(base.um)} apart, and by the other dimensions at least "
            f"{_mm(asked)}: {_meets(asked - base.um)}.")


def _meets(short_um: float) -> str:
    """By how much something is too short to meet."""
    if abs(short_um) < NEAR_UM:
        return "so that all lie in one line"
    return f"{_mm(abs(short_um))} too {'short' if short_um > 0 else 'long'} to meet"


def _spans(judgement: Judgement, plan: Plan, step: Step, program: Solver) -> Iterator[Span]:
    """How far the two elements are apart that each cluster of a step has in common with the
    others, where the program places it; none of two lines."""
    for place, cluster in enumerate(step.joins):
        ends = step.at[place], step.at[place - 1]
        places = {each.name: each for each in _places(judgement, plan, cluster, program)}
        if not places.keys() >= set(ends):
            return
        um = _apart(*(places[name] for name in ends))
        if um is not None:
            is_of_points = not any(isinstance(places[name], PlacedLine) for name in ends)
            yield Span(ends, um / judgement.asked.spelled.scale, is_of_points)


def _places(judgement: Judgement, plan: Plan, cluster: ClusterName,
            program: Solver) -> Sequence[Placed]:
    """Where the program places what is beneath a cluster by itself; nowhere, where it doesn't."""
    sketch, numbers = judgement.asked.spelled.sketch, set(_leaves(plan, cluster))
    kept = tuple(each for number, each in enumerate(sketch.constraints, 1) if number in numbers)
    names = {name for each in kept for name in each.names()}
    mine = replace(sketch, constraints=kept,
                   elements=tuple(each for each in sketch.elements if each.name in names))
    words = "solve", f"place={judgement.place.value}"
    report = read_answer(words, program.ask(words, mine.text()))
    return report.places if isinstance(report, Solved) else ()


def _leaves(plan: Plan, cluster: ClusterName) -> Iterator[int]:
    """The numbers of the constraints beneath a cluster."""
    if not cluster.is_step:
        yield cluster.number
        return
    for below in next(each for each in plan.steps if each.number == cluster.number).joins:
        yield from _leaves(plan, below)


def _mm(um: float) -> str:
    """A length in micrometres as millimetres, to the next micrometre."""
    return f"{mm_text(Fraction(round(um)))}\u00a0mm"


def _apart(first: Placed, second: Placed) -> float | None:
    """How far two placed elements are apart, in micrometres of the sketch; None of two lines."""
    if isinstance(first, PlacedLine):
        first, second = second, first
    if isinstance(first, PlacedLine):
        return None
    if isinstance(second, PlacedLine):
        aside = (second.a_ppb * first.x_nm + second.b_ppb * first.y_nm) / 1e9 - second.c_nm
        return abs(aside) / 1e3
    return math.dist((first.x_nm, first.y_nm), (second.x_nm, second.y_nm)) / 1e3
