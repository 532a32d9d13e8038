"""The construction of a drawing that is well, for the page to play."""
from __future__ import annotations

from collections.abc import Mapping
from dataclasses import dataclass
from functools import cached_property

from pertxogai.board.placed_parts import drawn
from pertxogai.board.protocol import (
    Cluster, Construction as ConstructionJson, ElementJson, Locus as LocusJson, Step as StepJson)
from pertxogai.language.clusters import ClusterName
from pertxogai.output.construction import (
    Construction, JoinedCluster, Locus, LocusCircle, ShownStep)
from pertxogai.output.picture.fitting import STILL, Motion, fitted
from pertxogai.output.picture.marks import PointMm
from pertxogai.output.placed_elements import Element, ElementPoint


@dataclass(frozen=True)
class PlayedConstruction:
    """A construction as it is played. Each cluster lies in a frame of its own until a step joins
    it: that of the constraint which its own `keeps` lead to, laid on the drawing; the frame of
    the whole is the datum's."""

    construction: Construction

    def shown(self) -> ConstructionJson:
        """All of it for the page."""
        placed = self.construction.placed
        return {
            "elements": {name: self._element(name, each) for name, each in placed.items()},
            "steps": [self._step(step) for step in self.construction.steps()],
        }

    def _element(self, name: str, element: Element) -> ElementJson:
        called = self.construction.called(name)
        if isinstance(element, ElementPoint):
            return {"called": called, "at": element.at}
        return {"called": called, "through": element.through, "way": element.way}

    def _step(self, step: ShownStep) -> StepJson:
        return {
            "number": step.number,
            "joins": [self._cluster(each) for each in step.joins],
            "at": list(step.at),
            "choice": step.choice.value,
            "made": step.made,
            "loci": [_locus(each) for each in step.loci],
        }

    def _cluster(self, joined: JoinedCluster) -> Cluster:
        motion = self.motions[joined.name]
        return {"name": joined.name.text(), "called": joined.called, "kept": joined.is_kept,
                "elements": sorted(joined.elements), "shapes": list(joined.shapes),
                "motion": motion.numbers()}

    @cached_property
    def motions(self) -> Mapping[ClusterName, Motion]:
        """Where each cluster lies before it is joined, told from where it is placed."""
        found = {name: self._laid(members) for name, members in self.construction.members.items()
                 if not name.is_step}
        steps = self.construction.plan.steps
        for step in steps:
            found[ClusterName(True, step.number)] = found[step.keeps]
        last = ClusterName(True, len(steps))
        keeps = {ClusterName(True, step.number): step.keeps for step in steps}
        while last in keeps:
            found[last] = STILL
            last = keeps[last]
        found[last] = STILL
        return found

    def _laid(self, members: frozenset[str]) -> Motion:
        """The motion that lays the placed points of a cluster on their drawn places."""
        judgement = self.construction.judgement
        pairs: list[tuple[PointMm, PointMm]] = []
        for name in sorted(members):
            ref, element = judgement.names.point(name), self.construction.placed[name]
            if ref is not None and isinstance(element, ElementPoint):
                pairs.append((element.at, drawn(judgement, ref)))
        return fitted(pairs)


def _locus(locus: Locus) -> LocusJson:
    if isinstance(locus, LocusCircle):
        return {"circle": locus.centre, "radius": locus.radius}
    return {"line": locus.through, "way": locus.way}
