"""Which edges of a graph close up: those of each block, of which no point is the only one between
two of its edges."""
from __future__ import annotations

from collections.abc import Hashable, Iterator, Sequence
from dataclasses import dataclass
from typing import Generic, TypeVar

Node = TypeVar("Node", bound=Hashable)


def blocks(edges: Sequence[tuple[Node, Node]]) -> list[list[int]]:
    """The blocks of a graph, each by the places of its edges; an edge that closes up with no other
    is one by itself, and one from a point to itself is in none. By Tarjan's walk in depth."""
    at: dict[Node, list[tuple[int, Node]]] = {}
    for place, (first, second) in enumerate(edges):
        if first != second:
            at.setdefault(first, []).append((place, second))
            at.setdefault(second, []).append((place, first))
    walk = _Walk(at)
    for node in at:
        if node not in walk.depth:
            walk.from_root(node)
    return walk.found


@dataclass
class _Step(Generic[Node]):
    """Where the walk stands: at a node, with what of its edges is left; `begin`: the place among
    the open edges of the one by which the node was reached."""

    node: Node
    begin: int
    left: Iterator[tuple[int, Node]]


class _Walk(Generic[Node]):
    """A walk through a graph. depth: in which order its nodes were reached; low: the first of them
    that is reached again from a node's part; open: the edges that are in no block yet."""

    def __init__(self, at: dict[Node, list[tuple[int, Node]]]) -> None:
        self._at = at
        self.depth: dict[Node, int] = {}
        self._low: dict[Node, int] = {}
        self._open: list[int] = []
        self._passed: set[int] = set()
        self.found: list[list[int]] = []

    def from_root(self, root: Node) -> None:
        """Walks through all that hangs at a node."""
        way = [self._begin(root)]
        while way:
            step = way[-1]
            place, node = next(step.left, (-1, step.node))
            if place < 0:
                way.pop()
                if way:
                    self._back(way[-1].node, step)
            elif place not in self._passed:
                self._passed.add(place)
                self._open.append(place)
                if node in self.depth:
                    self._low[step.node] = min(self._low[step.node], self.depth[node])
                else:
                    way.append(self._begin(node))

    def _begin(self, node: Node) -> _Step[Node]:
        self.depth[node] = self._low[node] = len(self.depth)
        return _Step(node, len(self._open) - 1, iter(self._at[node]))

    def _back(self, before: Node, step: _Step[Node]) -> None:
        """Back from a node to the one before: what was passed since is a block where nothing of it
        reaches further back."""
        self._low[before] = min(self._low[before], self._low[step.node])
        if self._low[step.node] >= self.depth[before]:
            self.found.append(self._open[step.begin:])
            del self._open[step.begin:]
