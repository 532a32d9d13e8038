"""Points that are one since two lines that aren't one have both of them: a corner, and a point that
is told to lie on both of its edges."""
from __future__ import annotations

from collections.abc import Callable, Hashable, Iterable
from dataclasses import replace

from pertxogai.spelling.facts import Between, Fact, Facts, Knot, Leans, LengthOf, Lies, Line
from pertxogai.spelling.linear import Form
from pertxogai.spelling.lines import Crossing, Lines


def with_crossings(facts: Facts) -> Facts:
    """The facts, with each two points made one that two lines share which aren't one line."""
    while True:
        lines = Lines(facts)
        if lines.crossing is None:
            return facts
        facts = _join(facts, lines, lines.crossing)


def _join(facts: Facts, lines: Lines, crossing: Crossing) -> Facts:
    """The facts with the two points of a crossing made one: that both lie on both lines says so,
    and nothing else."""
    met = {*lines.names(crossing.first), *lines.names(crossing.second)}
    one = _One(crossing.kept, crossing.gone)
    said = [fact for fact in facts.facts if not _says_so(facts, fact, met, crossing)]
    found: list[Fact] = []
    for each in map(one.fact, said):
        if each is not None and each not in found:
            found.append(each)
    return replace(
        facts, refs={ref: one.knot(knot) for ref, knot in facts.refs.items()},
        own={one.line(line): one.pair(own) for line, own in facts.own.items()
             if not one.is_point(line)}, facts=found)


def _says_so(facts: Facts, fact: Fact, met: set[Line], crossing: Crossing) -> bool:
    """Whether a fact puts a point of the crossing on a line that has the other one."""
    if not isinstance(fact, Lies) or fact.line not in met:
        return False
    return fact.point == crossing.gone or (
        fact.point == crossing.kept and crossing.gone in facts.own[fact.line])


def _led(fact: Lies | Leans) -> Line:
    """The line that a fact puts a point on, or leads in a direction."""
    return fact.line if isinstance(fact, Lies) else fact.second


class _One:
    """Two points that are one from now on."""

    def __init__(self, kept: Knot, gone: Knot) -> None:
        self.kept, self.gone = kept, gone

    def knot(self, knot: Knot) -> Knot:
        """A point, or the one that it is now."""
        return self.kept if knot == self.gone else knot

    def pair(self, pair: tuple[Knot, Knot]) -> tuple[Knot, Knot]:
        """Two points."""
        return self.knot(pair[0]), self.knot(pair[1])

    def line(self, line: Line) -> Line:
        """A line, which may be known by its points."""
        return Between(*self.pair((line.first, line.second))) if isinstance(line, Between) else line

    def is_point(self, line: Line) -> bool:
        """Whether a line would run between two points that are one."""
        return isinstance(line, Between) and {line.first, line.second} == {self.kept, self.gone}

    def fact(self, fact: Fact) -> Fact | None:
        """A fact of these points; None of one that says nothing more."""
        if isinstance(fact, Lies | Leans) and self.is_point(_led(fact)):
            return None
        make: Callable[[Iterable[object]], Fact] = type(fact)._make
        return make(map(self._value, fact))

    def _value(self, value: object) -> object:
        if isinstance(value, Knot):
            return self.knot(value)
        if isinstance(value, Form):
            terms = (Form({self._unknown(key): each}) for key, each in value.terms.items())
            return sum(terms, Form(number=value.number))
        return self.line(value) if isinstance(value, Between) else value

    def _unknown(self, unknown: Hashable) -> Hashable:
        """An unknown, which may be the length between points."""
        if isinstance(unknown, LengthOf):
            return LengthOf(*self.pair((unknown.first, unknown.second)))
        return unknown
