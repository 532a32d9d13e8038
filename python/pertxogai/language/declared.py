"""What a sketch has declared so far, and what may be added to it."""
from __future__ import annotations

from pertxogai.language.constraints import (
    Angle, Block, Constraint, Distance, Inside, On, Outside, Tangent)
from pertxogai.language.elements import Circle, Element, Line, Point
from pertxogai.language.refusal import Code, Faulty

MOST_ELEMENTS = 2_000
"""The most points, circles and lines of a sketch."""
MOST_CONSTRAINTS = 4_000
"""The most constraints of a sketch."""


class Declared:
    """The elements by name and the number of constraints of a sketch, or of a part of its text."""

    def __init__(self, version: int) -> None:
        self.version = version
        self.elements: dict[str, Element] = {}
        self.constraints = 0

    def add_element(self, element: Element) -> None:
        """Adds an element. Raises Faulty: E5, E13."""
        if element.name in self.elements:
            raise Faulty(Code.E5)
        if len(self.elements) >= MOST_ELEMENTS:
            raise Faulty(Code.E13)
        self.elements[element.name] = element

    def add_constraint(self, constraint: Constraint) -> None:
        """Adds a constraint. Raises Faulty: E2, E6, E7, E9, E10, E14."""
        names = constraint.names()
        self.check_kinds(type(constraint), names)
        if isinstance(constraint, Inside) and self._radius(names[0]) == self._radius(names[1]):
            raise Faulty(Code.E9)
        if len(set(names)) < len(names):
            raise Faulty(Code.E10)
        if self.constraints >= MOST_CONSTRAINTS:
            raise Faulty(Code.E14)
        self.constraints += 1

    def check_kinds(self, of: type[Constraint], names: tuple[str, ...]) -> None:
        """Raises Faulty where a name isn't declared (E6), the elements aren't what the
        constraint takes (E7), or the version doesn't have it (E2)."""
        if of is Block and self.version == 1:
            raise Faulty(Code.E2)
        if any(name not in self.elements for name in names):
            raise Faulty(Code.E6)
        if not _fits(of, [type(self.elements[name]) for name in names]):
            raise Faulty(Code.E7)

    def _radius(self, name: str) -> int:
        circle = self.elements[name]
        assert isinstance(circle, Circle)
        return circle.radius_um


def _fits(of: type[Constraint], kinds: list[type[Element]]) -> bool:
    """Whether a constraint takes elements of these kinds, in this order."""
    lines = kinds.count(Line)
    if of is Angle:
        return lines == 2
    if of in (Outside, Inside):
        return kinds == [Circle, Circle]
    if of is Tangent:
        return lines == 1 and Circle in kinds
    if of is On:
        return kinds[1] is Line and lines == 1 or kinds == [Point, Circle]
    return lines <= 1 if of is Distance else lines == 0
