"""Classes of lines of which the directions are known against each other, with the lean of each.

A lean that joins two classes says something new; one within a class follows from those that joined
it. """
from __future__ import annotations

from typing import NamedTuple

from pertxogai.spelling.facts import Leans, Line, Owner
from pertxogai.spelling.lean import Lean


class Bearing(NamedTuple):
    """A line's lean against its class's first line, and the leans, by their places, that say
    so."""

    root: Line
    lean: Lean
    path: frozenset[int]


class Directions:
    """Lines, each in a class of its own to begin with."""

    def __init__(self) -> None:
        self._bearings: dict[Line, Bearing] = {}
        self._members: dict[Line, list[Line]] = {}
        self.told: list[Leans] = []
        self.joined: list[Leans] = []

    def bearing(self, line: Line) -> Bearing:
        """The line's class and its lean there."""
        known = self._bearings.get(line)
        if known is None:
            known = self._bearings[line] = Bearing(line, Lean(), frozenset())
            self._members[line] = [line]
        return known

    def tell(self, leans: Leans) -> bool:
        """Takes a lean; False where the two lines are in one class already."""
        first, second = self.bearing(leans.first), self.bearing(leans.second)
        if first.root == second.root:
            self.told.append(leans)
            return False
        step = frozenset({len(self.joined)})
        self.joined.append(leans)
        turn = first.lean + leans.lean + -second.lean
        path = first.path ^ step ^ second.path
        joined = self._members.pop(second.root)
        for line in joined:
            old = self._bearings[line]
            self._bearings[line] = Bearing(first.root, turn + old.lean, path ^ old.path)
        self._members[first.root].extend(joined)
        return True

    def between(self, first: Line, second: Line) -> Lean | None:
        """The lean of the second line against the first; None where it isn't known."""
        one, other = self.bearing(first), self.bearing(second)
        return -one.lean + other.lean if one.root == other.root else None

    def owners(self, first: Line, second: Line) -> frozenset[Owner]:
        """Who says the lean of two lines of one class."""
        path = self.bearing(first).path ^ self.bearing(second).path
        return frozenset(self.joined[step].owner for step in path)

    def classes(self) -> dict[Line, list[Line]]:
        """The lines of each class, by its first line."""
        found: dict[Line, list[Line]] = {}
        for line, bearing in self._bearings.items():
            found.setdefault(bearing.root, []).append(line)
        return found

    def partners(self, line: Line) -> list[tuple[Line, Lean]]:
        """The lines against which a joined lean tells this one's direction."""
        found = [(each.second, each.lean) for each in self.joined if each.first == line]
        return found + [(each.first, -each.lean) for each in self.joined if each.second == line]
