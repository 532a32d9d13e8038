"""Edges of a given length that turn about an end, as a crank or a door does: a designer tells such
an edge by its angle, and not by x or y of its other end."""
from __future__ import annotations

from collections.abc import Collection, Iterator, Sequence
from dataclasses import dataclass
from fractions import Fraction
from itertools import combinations

from pertxogai.completing.dimensions import angles_of, direction
from pertxogai.completing.figure import Figure, ends
from pertxogai.completing.slack import Demand, Remaining, Slack
from pertxogai.completing.values import round_um
from pertxogai.drawing import (
    Constraint, Length, PointRef, Sense, ShapeRef, XDistance, YDistance)

MOST_EDGES = 60
"""Of a drawing with more edges, only the first are looked at."""
Asked = tuple[Constraint, Demand]


@dataclass(frozen=True)
class Turnable:
    """What is asked of an edge: its length, its direction, and of each of its ends x and y from the
    base, none of the base itself."""

    name: str
    length: Demand
    direction: Asked
    ends: Sequence[tuple[PointRef, Sequence[Demand]]]


@dataclass(frozen=True)
class Corner:
    """The angle in which two edges meet. at: the ends of both that are one point."""

    names: frozenset[str]
    at: frozenset[PointRef]
    angle: Asked


class Turns:
    """The edges of a placed drawing that may turn; x and y are told from a base."""

    def __init__(self, slack: Slack, figure: Figure, base: PointRef) -> None:
        self._slack, self._figure, self._base = slack, figure, base
        self._edges = figure.edges[:MOST_EDGES]
        self._turnable = tuple(self._of_edges())
        self._corners = tuple(self._of_corners())

    def _of_edges(self) -> Iterator[Turnable]:
        figure, edges = self._figure, self._edges
        lengths = self._slack.demands([
            Length(ShapeRef(edge.name), round_um(figure.length_um(edge))) for edge in edges])
        directions = self._slack.demands([direction(figure, edge) for edge in edges])
        runs = iter(self._slack.demands([
            run for edge in edges for end in ends(edge) for run in self._from_the_base(end)]))
        for edge, (_, length), turn in zip(edges, lengths, directions):
            at = [(end, [next(runs)[1] for _ in self._from_the_base(end)]) for end in ends(edge)]
            yield Turnable(edge.name, length, turn, at)

    def _from_the_base(self, end: PointRef) -> Sequence[Constraint]:
        """x and y of an end, with any value: what they fix doesn't depend on it."""
        if self._figure.leader(end) == self._figure.leader(self._base):
            return ()
        value = Fraction(0)
        return (XDistance(self._base, end, value, Sense.SIGNED),
                YDistance(self._base, end, value, Sense.SIGNED))

    def _of_corners(self) -> Iterator[Corner]:
        pairs = [(first, second, corner) for first, second in combinations(self._edges, 2)
                 if (corner := self._figure.corner(first, second)) is not None]
        angles = [list(angles_of(self._figure, first, second)) for first, second, _ in pairs]
        asked = iter(self._slack.demands([each for some in angles for each in some]))
        for (first, second, corner), some in zip(pairs, angles):
            names = frozenset({first.name, second.name})
            yield from (Corner(names, frozenset(corner), next(asked)) for _ in some)

    def of(self, remaining: Remaining) -> Iterator[Asked]:
        """The angles that a designer would tell where only so much remains free: those at a corner
        first."""
        rigid = [each for each in self._turnable if remaining.is_fixed(each.length)]
        rigid_names = {each.name for each in rigid}
        aimed = {each.name for each in self._turnable if remaining.is_fixed(each.direction[1])}
        for each in rigid:
            if remaining.moves_with_the_whole(each.direction[1]):
                yield from self._at(each, rigid_names)
            elif each.name not in aimed:
                stays = {end for end, runs in each.ends if all(map(remaining.is_fixed, runs))}
                yield from self._at(each, aimed, stays)
                yield from [each.direction] * bool(stays)

    def _at(self, turning: Turnable, others: Collection[str],
            ends_there: Collection[PointRef] | None = None) -> Iterator[Asked]:
        """The angles in which an edge meets some others; at some of its ends alone, where these are
        given."""
        for corner in self._corners:
            if turning.name not in corner.names or not corner.names - {turning.name} <= set(others):
                continue
            if ends_there is None or corner.at & set(ends_there):
                yield corner.angle
