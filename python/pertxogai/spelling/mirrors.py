"""Directions that follow from places: of lines whose points are level, and of lines that are
mirror images to an axis, which halves the angle between them."""
from __future__ import annotations

from collections.abc import Collection, Iterator
from dataclasses import replace
from fractions import Fraction
from itertools import combinations
from math import atan2, cos
from typing import NamedTuple

from pertxogai.drawing import Slope
from pertxogai.spelling.axes import Axes, Frame
from pertxogai.spelling.facts import Facts, Knot, Leans, Line, Owner
from pertxogai.spelling.lean import SQUARE, Lean
from pertxogai.spelling.linear import Form
from pertxogai.spelling.settling import settled_axes


class Run(NamedTuple):
    """How a line runs in the datum's frame, by where two of its points are. is_sure: whether these
    are known to be two points; else they may be one, and the line run in another way."""

    line: Line
    ends: tuple[Knot, Knot]
    lean: Lean
    is_sure: bool


def with_implied(axes: Axes) -> Facts | None:
    """The facts with the lines that surely run so in the datum's frame, the first of each class of
    lines; None where none does."""
    found: dict[int, Run] = {}
    for line in axes.lines.all():
        frame = axes.frame(line).number
        if frame and frame not in found:
            run = next((each for each in _runs(axes, line) if each.is_sure), None)
            if run is not None:
                found[frame] = run
    return _with_runs(axes, found.values()) if found else None


def with_presumed(axes: Axes) -> Facts | None:
    """The facts with the lines that run along an axis of the datum unless two of their points are
    one, the first of each class of lines. Where that contradicts the rest, with the first line that
    doesn't; None where each does, whose points are one."""
    runs, first = [*_unsure_runs(axes)], dict[int, Run]()
    for run in runs:
        first.setdefault(axes.frame(run.line).number, run)
    known = axes.contradictions()
    for some in dict.fromkeys((tuple(first.values()), *((run,) for run in runs))):
        facts = replace(_with_runs(axes, some), presumes=True)
        if some and settled_axes(facts).contradictions() <= known:
            return facts
    return None


def _with_runs(axes: Axes, runs: Collection[Run]) -> Facts:
    """The facts, and how some lines run."""
    leans = [Leans(axes.frames[0].line, run.line, run.lean, Owner(0)) for run in runs]
    implied = {run.line: run.ends for run in runs}
    return replace(axes.facts, facts=[*axes.facts.facts, *leans],
                   implied={**axes.facts.implied, **implied})


def _unsure_runs(axes: Axes) -> Iterator[Run]:
    """How each line may run by the first two of its points that are level, along either axis."""
    for line in axes.lines.all():
        if axes.frame(line).number:
            first: dict[Lean, Run] = {}
            for run in _runs(axes, line):
                first.setdefault(run.lean, run)
            yield from first.values()


def _runs(axes: Axes, line: Line) -> Iterator[Run]:
    """How a line runs by each two of its points from which that follows."""
    for ends in combinations([each.knot for each in axes.lines.members(line)], 2):
        ahead, left = map(axes.system.reduced, _way(axes, axes.frames[0], ends))
        lean = _lean_of(ahead, left)
        if lean is not None and (lean.level() or lean.upright() or _has_company(axes, line)):
            is_known = not ahead.terms and not left.terms
            yield Run(line, ends, lean, is_known or axes.lines.told_apart({*ends}))


def _lean_of(ahead: Form, left: Form) -> Lean | None:
    """The direction of a known way; None where it isn't known."""
    if ahead == Form() or left == Form():
        return Lean() if ahead != Form() else SQUARE if left != Form() else None
    if ahead.terms or left.terms:
        return None
    slope = Fraction(left.number) / ahead.number
    return Lean.of(Slope(slope.numerator, slope.denominator, False))


def _has_company(axes: Axes, line: Line) -> bool:
    """Whether the directions of other lines are known against this one's."""
    return any(other != line and axes.frame(other) == axes.frame(line)
               for other in axes.lines.all())


def with_halves(axes: Axes) -> Facts | None:
    """The facts with the first angle of two mirrored lines told as half of it from the axis; None
    where none is."""
    for fact in axes.facts.facts:
        if isinstance(fact, Leans) and not fact.lean.left:
            halved = _half_lean(axes, fact)
            if halved is not None:
                facts = [halved if each is fact else each for each in axes.facts.facts]
                return replace(axes.facts, facts=facts)
    return None


def _half_lean(axes: Axes, fact: Leans) -> Leans | None:
    first, second = axes.lines.leader(fact.first), axes.lines.leader(fact.second)
    own = axes.frame(first)
    if own.number == 0:
        return None
    for frame in axes.frames:
        if frame != own and _is_mirror(axes, frame, first, second):
            half = Lean((-fact.lean.degrees / 2) % 180)
            lean = min((half, half + Lean(Fraction(90))),
                       key=lambda each: _off(axes, frame, first, each))
            return Leans(frame.line, first, lean, fact.owner)
    return None


def _is_mirror(axes: Axes, frame: Frame, first: Line, second: Line) -> bool:
    one, other = _way_of_line(axes, frame, first), _way_of_line(axes, frame, second)
    if one is None or other is None:
        return False
    (u, v), (a, b) = one, other
    zero = Form()
    if axes.system.reduced(u) == zero or axes.system.reduced(v) == zero:
        return False
    reduced = axes.system.reduced
    return ((reduced(u - a) == zero and reduced(v + b) == zero)
            or (reduced(u + a) == zero and reduced(v - b) == zero))


def _way_of_line(axes: Axes, frame: Frame, line: Line) -> tuple[Form, Form] | None:
    """The way from a line's first point to its second in a frame."""
    members = axes.lines.members(line)
    return _way(axes, frame, (members[0].knot, members[1].knot)) if len(members) >= 2 else None


def _way(axes: Axes, frame: Frame, pair: tuple[Knot, Knot]) -> tuple[Form, Form]:
    """The way from a point to another in a frame."""
    u, v = (axes.at(frame.number, upwards, pair[1]) - axes.at(frame.number, upwards, pair[0])
            for upwards in (False, True))
    return u, v


def _off(axes: Axes, frame: Frame, line: Line, lean: Lean) -> float:
    """How far a lean is off the drawn one: 0 where it is just so."""
    a, b = axes.facts.direction(line)
    drawn = atan2(float(b), float(a)) - atan2(float(frame.way[1]), float(frame.way[0]))
    return 1 - cos(2 * (lean.radians() - drawn))
