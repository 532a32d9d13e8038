"""The plan of a drawing that is well over its placed elements, step by step."""
from __future__ import annotations

import math
from collections.abc import Iterator, Mapping
from dataclasses import dataclass
from functools import cached_property

from pertxogai.drawing import points_of
from pertxogai.judging import Judgement
from pertxogai.judging.naming import listed
from pertxogai.language.clusters import Choice, ClusterName, Step
from pertxogai.output.picture.marks import PointMm
from pertxogai.output.placed_elements import Element, ElementLine, ElementPoint
from pertxogai.program.reports import Plan


@dataclass(frozen=True)
class LocusCircle:
    """A circle on which what is made lies. centre: in millimetres; radius: in millimetres."""

    centre: PointMm
    radius: float


@dataclass(frozen=True)
class LocusLine:
    """A line on which what is made lies, without ends. through: a place on it, in millimetres;
    way: its direction, of length 1."""

    through: PointMm
    way: PointMm


Locus = LocusCircle | LocusLine


@dataclass(frozen=True)
class JoinedCluster:
    """A cluster that a step joins. called: what it says, by the designer's names; is_kept: whether
    it stays where it lies; elements: its elements, as the program names them; shapes: the
    designer's shapes of which it has all points."""

    name: ClusterName
    called: str
    is_kept: bool
    elements: frozenset[str]
    shapes: tuple[str, ...]


@dataclass(frozen=True)
class ShownStep:
    """A step of a construction. at: what its clusters share, by the designer's names; made: the
    element that it makes, as the program names it; loci: where that lies by each of the others."""

    number: int
    joins: tuple[JoinedCluster, ...]
    at: tuple[str, ...]
    choice: Choice
    made: str
    loci: tuple[Locus, ...]


@dataclass(frozen=True)
class Construction:
    """A plan over placed elements."""

    judgement: Judgement
    plan: Plan
    placed: Mapping[str, Element]

    def steps(self) -> Iterator[ShownStep]:
        """Its steps, in their order."""
        return map(self._step, self.plan.steps)

    def called(self, name: str) -> str:
        """What an element is called, by the designer's names."""
        return self.judgement.names.element(name) or "a construction line"

    def shapes(self, name: ClusterName) -> Iterator[str]:
        """The designer's shapes of which a cluster has all points."""
        members, names = self.members[name], self.judgement.names
        points = names.spelled.points
        for shape in names.drawing.geometry:
            if all(points.get(names.refs[ref]) in members for ref in points_of(shape)):
                yield shape.name

    def _step(self, step: Step) -> ShownStep:
        place = step.joins.index(step.keeps)
        made = step.at[(place + 1) % 3]
        others = (step.at[place], step.at[(place + 2) % 3])
        return ShownStep(
            step.number, tuple(self._joined(name, name == step.keeps) for name in step.joins),
            tuple(map(self.called, step.at)), step.choice, made,
            tuple(locus_of(self.placed[made], self.placed[name]) for name in others))

    def _joined(self, name: ClusterName, is_kept: bool) -> JoinedCluster:
        return JoinedCluster(name, self._says(name), is_kept, self.members[name],
                             tuple(self.shapes(name)))

    def _says(self, name: ClusterName) -> str:
        """What a constraint says, by the designer's names; what a step's cluster is called."""
        if name.is_step:
            return f"what step {name.number} made"
        return listed(self.judgement.names.constraint(name.number)) or "construction lines"

    @cached_property
    def members(self) -> Mapping[ClusterName, frozenset[str]]:
        """The elements of each cluster."""
        found = {ClusterName(False, leaf.number): frozenset(leaf.constraint.names())
                 for leaf in self.plan.leaves}
        for step in self.plan.steps:
            first, second, third = (found[name] for name in step.joins)
            found[ClusterName(True, step.number)] = first | second | third
        return found


def locus_of(made: Element, anchor: Element) -> Locus:
    """Where a constructed element may lie by one cluster, which it shares with another element: a
    circle about a point, a line beside a line; a line that is constructed touches a circle, or is
    shown itself."""
    if isinstance(made, ElementPoint):
        if isinstance(anchor, ElementPoint):
            return LocusCircle(anchor.at, math.dist(made.at, anchor.at))
        return LocusLine(made.at, anchor.way)
    if isinstance(anchor, ElementLine):
        return LocusLine(made.through, made.way)
    (x, y), (u, v) = made.through, made.way
    return LocusCircle(anchor.at, abs((anchor.at[0] - x) * v - (anchor.at[1] - y) * u))
