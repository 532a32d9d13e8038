"""What a drawing says that differs from one of which the facts are known by the values of lengths
alone: as one of which a dimension is tried with other values."""
from __future__ import annotations

from collections.abc import Iterator
from dataclasses import fields, replace

from pertxogai.drawing import (
    Constraint, Diameter, Distance, Drawing, Length, ParallelDistance, PointLineDistance, Radius,
    XDistance, YDistance, run_um)
from pertxogai.drawing.changes import Redrawing
from pertxogai.spelling.facts import Apart, Fact, Facts, Off, Owner, Shift, Sized
from pertxogai.spelling.linear import Form, small

LENGTHS = (Length, Distance, PointLineDistance, ParallelDistance, XDistance, YDistance, Radius,
           Diameter)
"""The dimensions whose value stands in one fact, and in nothing else."""
VALUE = ("value_um", "sense", "expression", "tolerance", "name")
"""What of these may be another."""


def revalued_from(facts: Facts, redrawing: Redrawing) -> Facts | None:
    """The facts of a drawing, by those of one that is drawn alike and has the same constraints but
    for the values of lengths; None where it differs otherwise."""
    old, new = redrawing.old.constraints, redrawing.new.constraints
    if redrawing.elsewhere or len(old) != len(new):
        return None
    others = {Owner(number): now for number, (was, now) in enumerate(zip(old, new), 1)
              if was is not now}
    if not all(_is_so_but_for_value(old[owner.number - 1], now) for owner, now in others.items()):
        return None
    return replace(facts, facts=list(_revalued(facts, redrawing.new, others)))


def _is_so_but_for_value(one: Constraint, other: Constraint) -> bool:
    """Whether two constraints are the same dimension, with whatever values."""
    return (isinstance(one, LENGTHS) and type(one) is type(other)
            and all(getattr(one, each.name) == getattr(other, each.name) for each in fields(one)
                    if each.name not in VALUE))


def _revalued(facts: Facts, drawing: Drawing, others: dict[Owner, Constraint]) -> Iterator[Fact]:
    """The facts, with the values of some constraints."""
    for fact in facts.facts:
        constraint = others.get(fact.owner)
        yield fact if constraint is None else _with_value(fact, drawing, constraint)


def _with_value(fact: Fact, drawing: Drawing, constraint: Constraint) -> Fact:
    """A fact of a constraint, with that one's value; as it is, where another says the value."""
    if isinstance(fact, Shift) and isinstance(constraint, XDistance | YDistance):
        return fact._replace(value=Form(number=small(run_um(drawing, constraint))))
    if isinstance(fact, Sized) and isinstance(constraint, Length | Radius | Diameter):
        return fact._replace(form=Form(fact.form.terms, -small(constraint.value_um)))
    if isinstance(fact, Off) and isinstance(constraint, PointLineDistance | ParallelDistance):
        return fact._replace(value=Form(number=small(constraint.value_um)))
    if isinstance(fact, Apart) and isinstance(constraint, Distance):
        return fact._replace(value=Form(number=small(constraint.value_um)))
    return fact
