"""Middles of free points: a line of help through two points and the one between them."""
from __future__ import annotations

from dataclasses import replace

from pertxogai.spelling.facts import Between, Facts, Knot, Line, Middle


def with_ways(facts: Facts) -> Facts:
    """The facts, with the line through the two points of each middle, where no segment is it:
    along that line the middle halves the way."""
    joined = {frozenset(own) for own in facts.own.values()}
    ways: dict[Line, tuple[Knot, Knot]] = {
        Between(fact.first, fact.second): (fact.first, fact.second) for fact in facts.facts
        if isinstance(fact, Middle) and frozenset((fact.first, fact.second)) not in joined}
    return replace(facts, own={**facts.own, **ways}) if ways else facts
