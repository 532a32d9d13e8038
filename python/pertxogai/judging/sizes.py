"""The radii that follow from where things are placed: by a point on the rim, by a touch, and by
those that are equal to one that is known.

Each is worked out from the placed whole nanometres by fractions, and rounded once. It is measured
with all else, so that a second touch which tells another radius shows."""
from __future__ import annotations

from collections.abc import Iterator, Mapping
from fractions import Fraction
from functools import cached_property

from pertxogai.drawing import X_AXIS, Y_AXIS
from pertxogai.drawing.places import NM_PER_UM
from pertxogai.exact import Vector, between, off_line, root, square, whole_near
from pertxogai.judging.measure.solution import PointNm
from pertxogai.spelling.axes import rank
from pertxogai.spelling.facts import Apart, Facts, Knot, Line, Off, RadiusOf, Sized
from pertxogai.spelling.linear import Form, LinearSystem


class Sizes:
    """The sizes that a drawing says, and that its placed points say, these in nanometres."""

    def __init__(self, facts: Facts, spots: Mapping[Knot, PointNm]) -> None:
        self._facts = facts
        self._spots = spots

    @cached_property
    def _system(self) -> LinearSystem:
        """What is said, solved once a radius is asked for."""
        system = LinearSystem(rank)
        for number, form in enumerate(self._forms()):
            system.add(form, number)
        return system

    def radius_nm(self, name: str) -> int | None:
        """The radius of a circle or an arc in whole nanometres; None where nothing tells it, or
        where what tells it makes it no length."""
        value = self._system.value(RadiusOf(name))
        if value.terms:
            return None
        radius = whole_near(value.number * NM_PER_UM)
        return radius if radius > 0 else None

    def _forms(self) -> Iterator[Form]:
        """What is said of sizes, in micrometres: each form is 0. What is told comes before what is
        placed."""
        yield from (fact.form for fact in self._facts.facts if isinstance(fact, Sized))
        for fact in self._facts.facts:
            if isinstance(fact, (Apart, Off)) and fact.value.terms:
                yield fact.value - Form(number=self._distance_nm(fact) / NM_PER_UM)

    def _distance_nm(self, fact: Apart | Off) -> Fraction:
        """How far a point is placed from another, or from a line."""
        if isinstance(fact, Apart):
            return root(square(between(self._spots[fact.first], self._spots[fact.second])))
        start, way = self._line(fact.line)
        return off_line(way, between(start, self._spots[fact.point]))

    def _line(self, line: Line) -> tuple[PointNm, Vector]:
        """A placed point of a line, and the way from there to another."""
        if line in (X_AXIS, Y_AXIS):
            return (0, 0), ((1, 0) if line == X_AXIS else (0, 1))
        first, second = (self._spots[knot] for knot in self._facts.own[line])
        return first, between(first, second)
