"""Lengths and radii that nothing tells, taken as they are drawn.

One constraint that needs such a value is then not spelled but only measured, since the value takes
its place. """
from __future__ import annotations

from collections.abc import Iterator
from dataclasses import dataclass
from fractions import Fraction

from pertxogai.exact import between, off_line, root, square
from pertxogai.spelling.axes import Axes, Equation
from pertxogai.spelling.facts import Facts, Knot, Line, Owner
from pertxogai.spelling.linear import Form
from pertxogai.spelling.rails import Rails, Size
from pertxogai.spelling.settling import with_equation


@dataclass(frozen=True)
class Frozen:
    """Axes with one more value, and the constraint that is only measured now."""

    axes: Axes
    owner: Owner


def frozen_choices(axes: Axes, rails: Rails) -> Iterator[Frozen]:
    """Each way to take an untold distance as it is drawn: in turn, what needs it is only
    measured."""
    for fact in axes.loose:
        rest = rails.symbols(fact.value)
        if len(rest.terms) == 1 and isinstance(next(iter(rest.terms)), Size):
            drawn = _drawn_distance(axes.facts, *fact.ends())
            equation = Equation(rails.unfold(rest) - Form(number=drawn), frozenset({fact.owner}))
            yield Frozen(with_equation(axes, None, equation, fact), fact.owner)


def _drawn_distance(facts: Facts, first: Knot, second: Knot | Line) -> Fraction:
    """How far a point is drawn from a point, or from a line, in micrometres. A line may be drawn
    without a length, as its points are told to be others."""
    place = facts.drawn[first]
    if isinstance(second, Knot):
        return root(square(between(place, facts.drawn[second])))
    return off_line(facts.direction(second), between(facts.drawn[facts.own[second][0]], place))
