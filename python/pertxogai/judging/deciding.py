"""Which constraints of a sketch decide how the elements lie at which a step of its plan meets."""
from __future__ import annotations

from collections.abc import Iterator

from pertxogai.language import ClusterName
from pertxogai.program.reports import Leaf, Plan


def deciding(plan: Plan, step: int) -> tuple[Leaf, ...]:
    """The constraints that decide how the elements lie at which a step joins its three clusters, in
    their order. Of each of these they are those beneath the least cluster within it that has both
    of the elements that it shares with the other two: where a length is given between these, that
    length alone."""
    tree, joined = _Tree(plan), plan.steps[step - 1]
    numbers = {number for place, cluster in enumerate(joined.joins) for number in tree.beneath(
        tree.least(cluster, joined.at[place], joined.at[place - 1]))}
    return tuple(leaf for leaf in plan.leaves if leaf.number in numbers)


class _Tree:
    """The clusters of a plan."""

    def __init__(self, plan: Plan) -> None:
        self._leaves = {ClusterName(False, each.number): each.constraint for each in plan.leaves}
        self._joins = {ClusterName(True, each.number): each.joins for each in plan.steps}

    def least(self, cluster: ClusterName, first: str, second: str) -> ClusterName:
        """The least cluster within this one that has both elements. At most one of the three that
        a step joins has both, since each two of them share one element."""
        both = self._with(first) & self._with(second)
        while below := [each for each in self._joins.get(cluster, ()) if each in both]:
            cluster = below[0]
        return cluster

    def _with(self, element: str) -> set[ClusterName]:
        """The clusters that have an element."""
        found = {name for name, leaf in self._leaves.items() if element in leaf.names()}
        for step, joins in self._joins.items():  # Each joins clusters of steps before it.
            if not found.isdisjoint(joins):
                found.add(step)
        return found

    def beneath(self, cluster: ClusterName) -> Iterator[int]:
        """The numbers of the constraints beneath a cluster."""
        waiting = [cluster]
        while waiting:
            name = waiting.pop()
            if name.is_step:
                waiting.extend(self._joins[name])
            else:
                yield name.number
