"""The numbers that are drawn. The search moves a rough drawing a little, so a value read off where
it is placed is a number that nobody wrote. Here each dimension gets the value that it has as drawn,
where the program places the drawing with that, and with a little more and less."""
from __future__ import annotations

from collections.abc import Iterator
from dataclasses import dataclass, replace

from pertxogai.completing.choosing import Choice, with_more
from pertxogai.completing.dimensions import (
    angles_of, direction, height_of, nothing_um, run_x, run_y, size_of)
from pertxogai.completing.figure import LEAST_UM, Figure, Sketched
from pertxogai.completing.slack import Slack
from pertxogai.completing.trials import Trials, Valued
from pertxogai.completing.values import round_um
from pertxogai.drawing import (
    ORIGIN, X_AXIS, Y_AXIS, AngleBetween, Coincident, Constraint, Diameter, Distance, Drawing,
    Length, PointLineDistance, PointOn, Radius, Segment, Sense, ShapeRef, XDistance, YDistance)
from pertxogai.search.solving import scaled

SAME_SCALE = 2.0
"""A drawing is drawn to scale if its dimensions are on the whole larger or smaller than drawn by no
more than this factor. The numbers of another, such as one at a tenth of its size, are those of no
part."""
NEAR_PART = 0.01
"""Values that differ by less than this part are near each other."""


@dataclass(frozen=True)
class Room:
    """What the program says about a drawing with a choice. tight: the last constraint by which it
    isn't placed any more where its value is a little more or less."""

    is_placed: bool
    tight: Constraint | None = None

    def is_enough(self) -> bool:
        """Whether it is placed, and each value has some room."""
        return self.is_placed and self.tight is None


def room_of(drawing: Drawing, choice: Choice, trials: Trials, only: int | None = None) -> Room:
    """The room that the program leaves a choice, or `only` its constraint at one place. The drawing
    is tried without what ties the whole where it is placed so, otherwise with that, as where a part
    of it is tied already. Raises ProgramError."""
    first = len(drawing.constraints)
    asked = range(len(choice.own)) if only is None else range(only, only + 1)
    for more in (choice.own, (*choice.own, *choice.datum)):
        told = with_more(drawing, more)
        state = trials.state(told)
        if state is not None and state.is_placed:
            places = range(first + asked.start, first + asked.stop)
            return Room(True, trials.without_room(told, places))
    return Room(False)


def with_drawn_values(slack: Slack, placed: Choice, trials: Trials) -> Iterator[Choice]:
    """A choice whose values are those of a placed drawing, with the drawn ones: all of them where
    that leaves room; otherwise those that do, each beside the ones before it. What lies on both
    axes is told to be the origin, where that leaves room. Nothing where none of it does, or none
    differs. Raises ProgramError."""
    drawn = as_written(slack, placed)
    for choice in dict.fromkeys((_joined_to_the_origin(drawn), drawn)):
        if choice != placed and room_of(slack.drawing, choice, trials).is_enough():
            yield choice
            return
    some = _some_as_drawn(slack.drawing, placed, drawn, trials)
    if some != placed and room_of(slack.drawing, some, trials).is_enough():
        yield some


def _some_as_drawn(drawing: Drawing, placed: Choice, drawn: Choice, trials: Trials) -> Choice:
    """A choice with those drawn values that leave room by themselves, each beside the ones before
    it."""
    some = placed
    for place, there in enumerate(drawn.own):
        if there == some.own[place] or trials.is_over():
            continue
        own = (*some.own[:place], there, *some.own[place + 1:])
        tried = replace(some, own=own)
        if room_of(drawing, tried, trials, place).is_enough():
            some = tried
    return some


def _joined_to_the_origin(choice: Choice) -> Choice:
    """A choice in which each point that is put on both axes is told to be the origin."""
    on = {(each.point, each.curve) for each in choice.own if isinstance(each, PointOn)}
    own = (Coincident(each.point, ORIGIN) if isinstance(each, PointOn)
           and {(each.point, X_AXIS), (each.point, Y_AXIS)} <= on else each for each in choice.own)
    return replace(choice, own=tuple(dict.fromkeys(own)))


def as_written(slack: Slack, choice: Choice) -> Choice:
    """A choice with each dimension as drawn, where it is told so; the same for a drawing in another
    scale."""
    if scaled(slack.equations, SAME_SCALE) is not slack.equations.drawn:
        return choice
    drawn = Sketched(with_more(slack.drawing, choice.own), slack.drawing)
    return replace(choice, own=tuple(as_drawn(each, drawn) or each for each in choice.own))


def as_drawn(dimension: Constraint, drawn: Figure) -> Constraint | None:
    """A dimension with the value that it has as drawn. None if it has none there, or lies to the
    other side there than where the drawing is placed; and for what is no dimension."""
    match dimension:
        case Diameter(rim) | Radius(rim):
            return size_of(drawn, rim.name)
        case Length(line):
            edge = _edge(drawn, line)
            return None if edge is None else _long(dimension, drawn, drawn.length_um(edge))
        case Distance(first, second):
            return _long(dimension, drawn, drawn.apart_um(first, second))
        case XDistance() | YDistance():
            return _run(dimension, drawn)
        case PointLineDistance(point, line):
            base = _edge(drawn, line)
            return height_of(drawn, point, base) if base is not None else None
        case AngleBetween():
            return _angle(dimension, drawn)
        case _:
            return None


def is_near(dimension: Constraint, other: Constraint) -> bool:
    """Whether two lengths of one dimension differ by less than a hundredth; so counts what has no
    length."""
    if not (isinstance(dimension, Valued) and isinstance(other, Valued)):
        return True
    return abs(other.value_um - dimension.value_um) <= NEAR_PART * abs(dimension.value_um)


def _long(dimension: Length | Distance, drawn: Figure, long_um: float) -> Constraint | None:
    """The same with another length; None where that is nothing."""
    if long_um <= nothing_um(drawn):
        return None
    return replace(dimension, value_um=round_um(long_um))


def _run(dimension: XDistance | YDistance, drawn: Figure) -> Constraint | None:
    """The x or y of a point from another; None if it is placed on the other side of that."""
    run = run_x if isinstance(dimension, XDistance) else run_y
    there = run(drawn, dimension.first, dimension.second)
    is_other_side = isinstance(there, XDistance | YDistance) and dimension.sense is Sense.SIGNED
    return None if is_other_side else there


def _angle(dimension: AngleBetween, drawn: Figure) -> Constraint | None:
    """The angle of two edges, or the direction of one; None where one has no length."""
    second = _edge(drawn, dimension.second)
    if second is not None and dimension.first == X_AXIS:
        return direction(drawn, second)
    first = _edge(drawn, dimension.first)
    if first is None or second is None:
        return None
    return next(angles_of(drawn, first, second), None)


def _edge(drawn: Figure, line: ShapeRef) -> Segment | None:
    """The edge that a line is, if it is drawn with a length."""
    shape = drawn.drawing.shape(line.name)
    if not isinstance(shape, Segment) or drawn.length_um(shape) < LEAST_UM:
        return None
    return shape
