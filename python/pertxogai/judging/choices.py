"""Other choices of a plan's steps, which place what has no places as it is drawn.

A step that joins at three points turns to one side, and one at two points and a line goes one way;
the drawing says which. A fault says that the chosen ones have no places, and not that no others
have. Here lists of turned choices are asked of the program's `flips`."""
from __future__ import annotations

from collections.abc import Callable, Iterator, Sequence
from dataclasses import dataclass
from itertools import chain, combinations, islice

from pertxogai.language import Circle, Point, Sketch
from pertxogai.language.clusters import Choice, Step
from pertxogai.language.flips import MOST_FLIPS, MOST_STEPS, Flip, Flips
from pertxogai.program import Solver, Status
from pertxogai.program.reports import (
    Fault, NotAReport, NumberFault, Phase, Plan, RangeFault, Shape, StepAt, read_flips)


@dataclass(frozen=True)
class Other:
    """Steps whose choices are turned over, and the shape that comes of it."""

    steps: tuple[Step, ...]
    shape: Shape

    def flip(self) -> str:
        """The line that asks `flips` for it."""
        return Flip(tuple(step.number for step in self.steps)).text()


@dataclass(frozen=True)
class Tried:
    """What came of turning choices over. lists: how many were tried. whole: whether these are all
    that the steps have. found: the first that gives a shape. scale: how many times as large the
    sketch is as what was drawn."""

    lists: int
    whole: bool
    found: Other | None = None
    scale: int = 1

    def within(self) -> tuple[int, int] | None:
        """Within how many nanometres of what was drawn, and how many ppb, the shape is placed."""
        if self.found is None:
            return None
        shape = self.found.shape
        return -(-shape.length_tolerance_nm // self.scale), shape.angle_tolerance_ppb


def beneath(plan: Plan, fault: Fault) -> tuple[Step, ...]:
    """The steps that what a fault names was made by: those beneath its step, and the step itself
    where it has made its element already."""
    at = fault.at if isinstance(fault, (NumberFault, RangeFault)) else None
    return tuple(sorted(_made_by(plan, at), key=lambda step: step.number)) if at else ()


def _made_by(plan: Plan, at: StepAt) -> Iterator[Step]:
    steps = {step.number: step for step in plan.steps}
    if at.phase is not Phase.BUILD:
        yield steps[at.step]
    waiting = [steps[at.step]]
    while waiting:
        for cluster in waiting.pop().joins:
            if cluster.is_step:
                waiting.append(steps[cluster.number])
                yield steps[cluster.number]


def tried(sketch: Sketch, steps: Sequence[Step], asks: Solver, keys: Sequence[str],
          accepts: Callable[[Shape], bool] = lambda shape: True) -> Tried:
    """The first list of choices of these steps that gives a shape which is accepted: of the lists
    that turn fewest over, at most 64. Raises ProgramError."""
    free = [step for step in steps if step.choice is not Choice.NONE]
    lists = list(islice(_lists(free), MOST_FLIPS))
    whole = 2 ** len(free) - 1 == len(lists)
    if not lists:
        return Tried(0, True)
    flips = Flips(sketch, tuple(Flip(tuple(step.number for step in each)) for each in lists))
    answer = asks.ask(["flips", *keys], flips.text())
    if answer.status is Status.REFUSED:  # With these lines the text is too long.
        return Tried(0, False)
    if answer.status is not Status.DONE:
        raise NotAReport("the program ended flips with a status that doesn't fit what it was asked")
    for each, flipped in zip(lists, read_flips(answer.text)):
        if isinstance(flipped.answer, Shape) and accepts(flipped.answer):
            return Tried(len(lists), whole, Other(each, flipped.answer))
    return Tried(len(lists), whole)


def _lists(steps: Sequence[Step]) -> Iterator[tuple[Step, ...]]:
    sizes = range(1, min(len(steps), MOST_STEPS) + 1)
    return chain.from_iterable(combinations(steps, size) for size in sizes)


def change(sketch: Sketch, step: Step, named: Callable[[str], str | None]) -> str:
    """What turning a step's choice over means for the drawing, by the names that its elements have
    there; None of what only helps."""
    points = [each.name for each in sketch.elements if isinstance(each, (Point, Circle))]
    kept = sorted(_base_of(step), key=lambda name: points.index(name) if name in points else -1)
    ends = [name for name in (_built(step), *kept) if name in points]
    lines = [named(name) for name in step.at if name not in points]
    names = [named(name) for name in ends]
    if None in names:
        return f"flip the choice of step s{step.number}"
    if len(ends) == 3:
        return f"draw {names[0]} on the other side of the line through {names[1]} and {names[2]}"
    along = f", along {lines[0]}" if lines and lines[0] else ""
    return f"draw {names[0]} on the other side of {names[1]}{along}"


def _built(step: Step) -> str:
    """The element that a step constructs: that which the two clusters share that aren't kept."""
    return step.at[(step.joins.index(step.keeps) + 1) % 3]


def _base_of(step: Step) -> tuple[str, ...]:
    """The two elements that lie where they are."""
    return tuple(name for name in step.at if name != _built(step))


def tried_lines(sketch: Sketch, found: Tried | None,
                named: Callable[[str], str | None] = lambda name: name,
                none: str = "no alternative solution of the steps beneath is placed"
                ) -> Iterator[str]:
    """What came of turning choices over, in lines to read; nothing where there was nothing to turn
    over. none: what is said where none of them will do."""
    if found is None or not found.lists and found.whole:
        return
    within = found.within()
    if not found.lists:
        yield "no alternative solution is tried: the text would be too long for the program"
        return
    if found.found is None or within is None:
        yield f"{none} ({found.lists} tried, {'all there are' if found.whole else 'not all'})"
        return
    yield (f"an alternative solution is placed within {within[0]} nm and {within[1]} ppb: "
           f"{found.found.flip()}")
    yield from (f"  {change(sketch, step, named)}" for step in found.found.steps)


def tried_json(sketch: Sketch, found: Tried | None,
               named: Callable[[str], str | None] = lambda name: name) -> dict[str, object] | None:
    """The same for JSON."""
    if found is None:
        return None
    other, within = found.found, found.within()
    return {
        "tried": found.lists,
        "all": found.whole,
        "flip": [f"s{step.number}" for step in other.steps] if other else None,
        "changes": [change(sketch, step, named) for step in other.steps] if other else [],
        "length_tolerance_nm": within[0] if within else None,
        "angle_tolerance_ppb": within[1] if within else None,
    }
