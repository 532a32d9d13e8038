"""Two rims of one radius that touch a line from one side: the way between their centres runs along
the line.

That is told in the place of one of the two radii, of which it is a consequence together with the
other. """
from __future__ import annotations

from dataclasses import replace
from typing import NamedTuple

from pertxogai.spelling.facts import Apart, Between, Facts, Knot, Leans, Line, Sized
from pertxogai.spelling.lean import SQUARE, Lean
from pertxogai.spelling.linear import Form, LinearSystem


class Foot(NamedTuple):
    """A rim's end at which it touches a line, and the fact that says how far it is from the
    centre."""

    line: Line
    centre: Knot
    apart: Apart


def with_slots(facts: Facts) -> Facts:
    """The facts, with the ways between centres that run along lines."""
    feet = _feet(facts)
    sizes = _sizes(facts) if feet else LinearSystem()
    for place, second in enumerate(feet):
        first = next((each for each in feet[:place] if _along(facts, sizes, each, second)), None)
        if first is not None and second.apart in facts.facts:
            facts = _with_way_between(facts, first, second)
    return facts


def _sizes(facts: Facts) -> LinearSystem:
    sizes = LinearSystem()
    for number, fact in enumerate(facts.facts):
        if isinstance(fact, Sized):
            sizes.add(fact.form, number)
    return sizes


def _feet(facts: Facts) -> list[Foot]:
    aparts = {(fact.second, fact.first): fact for fact in facts.facts if isinstance(fact, Apart)}
    found = []
    for fact in facts.facts:
        if isinstance(fact, Leans) and isinstance(fact.second, Between) and fact.lean == SQUARE:
            apart = aparts.get((fact.second.first, fact.second.second))
            if apart is not None:
                found.append(Foot(fact.first, fact.second.second, apart))
    return found


def _along(facts: Facts, sizes: LinearSystem, first: Foot, second: Foot) -> bool:
    return (first.line == second.line and first.centre != second.centre
            and sizes.reduced(first.apart.value - second.apart.value) == Form()
            and facts.left(first.centre, first.line) == facts.left(second.centre, second.line))


def _with_way_between(facts: Facts, first: Foot, second: Foot) -> Facts:
    way = Between(*sorted((first.centre, second.centre)))
    facts.own[way] = (way.first, way.second)
    leans = Leans(first.line, way, Lean(), second.apart.owner)
    return replace(facts, facts=[leans if fact is second.apart else fact for fact in facts.facts])
