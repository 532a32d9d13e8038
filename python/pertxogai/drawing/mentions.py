"""What a constraint speaks of."""

from __future__ import annotations

from collections.abc import Callable, Iterator
from dataclasses import fields, replace
from typing import TypeVar

from pertxogai.cached import cached_on
from pertxogai.drawing.constraints import Constraint
from pertxogai.drawing.geometry import Shape
from pertxogai.drawing.references import Pair, PointRef, ShapeRef

Thing = TypeVar("Thing", Constraint, Shape)


def refs_of(constraint: Constraint) -> Iterator[PointRef | ShapeRef]:
    """The points and shapes that a constraint speaks of, in order."""
    for each in fields(constraint):
        value = getattr(constraint, each.name)
        if isinstance(value, Pair):
            yield from (value.first, value.second)
        elif isinstance(value, (PointRef, ShapeRef)):
            yield value


@cached_on
def named(constraint: Constraint) -> frozenset[str]:
    """The names of the shapes that a constraint speaks of."""
    return frozenset(ref.shape if isinstance(ref, PointRef) else ref.name
                     for ref in refs_of(constraint))


def with_refs(thing: Thing, point: Callable[[PointRef], PointRef],
              shape: Callable[[ShapeRef], ShapeRef] = lambda ref: ref) -> Thing:
    """A constraint, or a shape that has points of others, in which each point and each shape that
    it speaks of is another."""
    def other(value: object) -> object:
        match value:
            case PointRef():
                return point(value)
            case ShapeRef():
                return shape(value)
            case Pair(first, second):
                return Pair(point(first), point(second))
            case _:
                return value

    changed = {each.name: other(getattr(thing, each.name)) for each in fields(thing)}
    return replace(thing, **changed)
