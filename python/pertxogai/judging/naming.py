"""What a line, an element or a constraint of the sketch is called in the designer's words."""
from __future__ import annotations

import re
from collections.abc import Iterable
from dataclasses import dataclass
from functools import cached_property

from pertxogai.drawing import Drawing, PointRef, ShapeRef
from pertxogai.spelling.facts import DATUM, Knot, Owner
from pertxogai.spelling.spelled import Heading, Spelled

_NOT_GIVEN = re.compile(r"constraint \d+ \(|the ends of |Constraint\d+$")
"""How names of constraints begin that no designer gave: ours, and those of FreeCAD."""
_FREECAD = re.compile(r"Constraint\d+")


def quoted(name: str) -> str:
    """The name of a constraint, for people to read: in quotes if a designer gave it, so that none
    is read as a word of the sentence."""
    return name if _NOT_GIVEN.match(name) else f"'{name}'"


def with_words(name: str, words: str) -> str:
    """The name of a constraint, for people to read, with its words behind a name that FreeCAD gave:
    `Constraint6` alone says nothing."""
    return f"{name} ({words})" if _FREECAD.fullmatch(name) else quoted(name)


def listed(names: Iterable[str]) -> str:
    """The names of constraints one after the other, for people to read."""
    return ", ".join(map(quoted, names))


@dataclass(frozen=True)
class Names:
    """The names of an encoded drawing. Auxiliary lines and points have none."""

    drawing: Drawing
    spelled: Spelled
    refs: dict[PointRef, Knot]

    def owner(self, owner: Owner) -> str:
        """The name of a constraint in the drawing; for an arc `the ends of ARC`."""
        if owner.shape:
            return f"the ends of {self.drawing.geometry[owner.number - 1].name}"
        return self.drawing.called(owner.number)

    def owners(self, owners: Iterable[Owner]) -> tuple[str, ...]:
        """The names of constraints and arcs, in order."""
        return tuple(self.owner(each) for each in sorted(set(owners)) if each.number)

    def constraint(self, number: int) -> tuple[str, ...]:
        """The names of the constraints behind the sketch's constraint of that number, from 1."""
        return self.owners(self.spelled.owners[number - 1])

    def point(self, name: str) -> PointRef | None:
        """The designer's point behind a point of the sketch, the first of those that coincide; None
        if it is auxiliary."""
        return self._points.get(name)

    @cached_property
    def _points(self) -> dict[str, PointRef]:
        """The first of the designer's points behind each point of the sketch."""
        firsts: dict[Knot, PointRef] = {}
        for ref, knot in self.refs.items():
            firsts.setdefault(knot, ref)
        return {name: firsts[knot] for knot, name in self.spelled.points.items()
                if knot in firsts}

    def drawn(self, name: str) -> PointRef | ShapeRef | None:
        """The designer's point, or the segment that a line is; None if it is auxiliary."""
        track = self.spelled.tracks.get(name)
        return self.point(name) or (track if isinstance(track, ShapeRef) else None)

    def element(self, name: str) -> str | None:
        """The name of a point, or of the segment that a line is; None if it is auxiliary."""
        found = self.drawn(name)
        if found is None:
            return None
        return found.name if isinstance(found, ShapeRef) else str(found)

    def elements(self, names: Iterable[str]) -> tuple[str, ...]:
        """The elements that a designer drew, without auxiliary ones."""
        found = (self.element(name) for name in names)
        return tuple(each for each in found if each is not None)

    def line(self, name: str) -> str | None:
        """A line for people to read: the name of its segment, or x or y, along which it runs; None
        of another."""
        heading, element = self._headings.get(name), self.element(name)
        if element is not None or heading is None:
            return element
        if heading.frame != DATUM or heading.quarters is None:
            return None
        return "y" if heading.quarters % 2 else "x"

    def auxiliary(self, names: Iterable[str]) -> tuple[str, ...]:
        """What the encoding adds to some elements, in words, each kind of it once."""
        return tuple(dict.fromkeys(self._auxiliary(name) for name in names
                                   if self.element(name) is None))

    @cached_property
    def _headings(self) -> dict[str, Heading]:
        return {each.name: each for each in self.spelled.headings}

    def _auxiliary(self, name: str) -> str:
        heading = self._headings.get(name)
        if heading is None:
            return "a point"
        if heading.frame != DATUM or heading.quarters is None:
            return "a line"
        return "a vertical line" if heading.quarters % 2 else "a horizontal line"
