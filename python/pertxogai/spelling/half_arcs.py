"""Arcs whose ends are mirror images of each other to the centre, or to a line through it: so both
ends are as far from the centre already, and that isn't said a second time."""
from __future__ import annotations

from dataclasses import replace

from pertxogai.spelling.facts import Apart, Facts, Knot, Line, Middle, Mirror
from pertxogai.spelling.lines import Lines


def with_half_arcs(facts: Facts) -> Facts:
    """The facts, without that the last end of such an arc is a radius from the centre."""
    idle = [second for first, second in _arcs(facts) if _is_mirrored(facts, first, second)]
    return replace(facts, facts=[fact for fact in facts.facts
                                 if not any(fact is each for each in idle)]) if idle else facts


def _arcs(facts: Facts) -> list[tuple[Apart, Apart]]:
    """What each arc says of its start and of its end."""
    said: dict[int, list[Apart]] = {}
    for fact in facts.facts:
        if isinstance(fact, Apart) and fact.owner.shape:
            said.setdefault(fact.owner.number, []).append(fact)
    return [(each[0], each[1]) for each in said.values() if len(each) == 2]


def _is_mirrored(facts: Facts, first: Apart, second: Apart) -> bool:
    """Whether the ends of an arc are mirror images so that both are as far from the centre."""
    ends, centre = {first.second, second.second}, first.first
    for fact in facts.facts:
        match fact:
            case Middle(middle, one, other) if middle == centre and {one, other} == ends:
                return True
            case Mirror(one, other, line) if {one, other} == ends:
                if _has(Lines(facts), line, centre):
                    return True
    return False


def _has(lines: Lines, line: Line, knot: Knot) -> bool:
    """Whether a line has a point."""
    return any(each.knot == knot for each in lines.members(line))
