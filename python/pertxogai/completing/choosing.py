"""What to add to a drawing, by rank alone: relations that it nearly has, then dimensions, as many
as are free, and last what ties the whole to the datum."""
from __future__ import annotations

from collections.abc import Iterable, Iterator, Sequence
from dataclasses import dataclass, replace
from enum import Enum
from functools import cached_property

import numpy as np

from pertxogai.cached import cached_on
from pertxogai.completing.dimensions import (
    ORDERS, Kind, base_of, dimensions, run_x, run_y, size_of, ties)
from pertxogai.completing.figure import Figure, Sketched
from pertxogai.completing.relations import NEAR_DEGREES, Relation, levels, relations
from pertxogai.completing.slack import Demand, Slack, Remaining
from pertxogai.completing.turns import Asked, Turns
from pertxogai.drawing import (
    ORIGIN, AngleBetween, Concentric, Constraint, Drawing, Horizontal, Pair, PointRef, ShapeRef,
    Vertical, XDistance, YDistance)
from pertxogai.drawing.mentions import refs_of
from pertxogai.search.rank import Free
from pertxogai.search.values import told_best

FIRMNESS = (0.2, 0.0)
"""Which part of what moves a dimension fixes at least: first such are taken, and then others, as
the x of a point that moves nearly along y."""
ROUGH_DEGREES = 3.0
"""What is no further off level or upright is so roughly."""
SECONDS = 0.2
"""What the search may take for a drawing with one relation more."""


@dataclass(frozen=True)
class Choice:
    """What is added to a drawing, in its order. own: relations and dimensions; datum: what ties the
    whole."""

    own: tuple[Constraint, ...]
    datum: tuple[Constraint, ...]


Subject = tuple[type[Constraint], tuple[PointRef | ShapeRef, ...]]
"""What a constraint is about: its kind, and what it speaks of; not its value."""


class Relate(Enum):
    """Which relations that a drawing nearly has are taken."""

    ALL = "all"
    LEVEL = "level"
    """That edges are level or upright."""
    NONE = "none"
    ROUGH = "rough"
    """That edges are level or upright, also those that are so roughly."""

    def found(self, figure: Figure) -> Iterator[Relation]:
        """Those of a placed drawing."""
        if self is Relate.ALL:
            yield from relations(figure)
        elif self is not Relate.NONE:
            off = ROUGH_DEGREES if self is Relate.ROUGH else NEAR_DEGREES
            yield from (each for each in levels(figure, off) if is_level(each.constraint))


@dataclass(frozen=True)
class Taste:
    """How to choose. order: of the kinds of dimensions. relate: which relations are taken. angles:
    whether an edge of a given length that turns about an end is told by its angle. refused: what
    isn't taken, whatever its value."""

    order: Sequence[Kind]
    relate: Relate = Relate.ALL
    angles: bool = False
    refused: frozenset[Subject] = frozenset()

    def allows(self, constraint: Constraint) -> bool:
        """Whether a constraint may be taken."""
        return subject_of(constraint) not in self.refused

    def without(self, constraint: Constraint) -> Taste:
        """The same without that constraint, whatever its value."""
        return replace(self, refused=self.refused | {subject_of(constraint)})


TASTES = (Taste(ORDERS[0], angles=True), Taste(ORDERS[0], Relate.LEVEL, angles=True),
          *(Taste(order, Relate.LEVEL) for order in ORDERS[1:]),
          *(Taste(order, Relate.NONE) for order in ORDERS[:2]), Taste(ORDERS[0], Relate.ROUGH))
"""How it is chosen, one after the other."""


def subject_of(constraint: Constraint) -> Subject:
    """What a constraint is about."""
    return type(constraint), tuple(refs_of(constraint))


def with_more(drawing: Drawing, more: Iterable[Constraint]) -> Drawing:
    """A drawing with more constraints behind its own."""
    return replace(drawing, constraints=(*drawing.constraints, *more))


class Left:
    """What of a drawing's slack is left while some of it is taken."""

    def __init__(self, remaining: Remaining) -> None:
        self.remaining = remaining
        self._asked: Remaining | None = None

    def take(self, demand: Demand, firmness: float = 0.0) -> bool:
        """Takes what a constraint fixes, where that is free and it fixes such a part of what moves
        there; whether it did."""
        more = self.remaining.after(demand, firmness)
        self.remaining = more or self.remaining
        return more is not None

    def is_nothing(self) -> bool:
        """Whether only the whole may still be moved."""
        return self.remaining.count() == self.remaining.of_the_whole()

    def changed(self) -> Remaining | None:
        """What remains, where something was taken since this was last asked."""
        if self.remaining is self._asked:
            return None
        self._asked = self.remaining
        return self.remaining


def choose(slack: Slack, taste: Taste) -> Choice | None:
    """What is to be added to a drawing by that taste; None where it leaves something free."""
    related = with_relations(slack, taste)
    own = [*related.drawing.constraints[len(slack.drawing.constraints):], *related.parallel]
    left = Left(Remaining.all(related))
    for firmness in FIRMNESS:
        own += taken(candidates(related, taste, left), left, firmness)
    if not left.is_nothing():
        return None
    datum = tied(related, left.remaining)
    return None if datum is None else Choice(tuple(own), datum)


def taken(asked: Iterable[Asked], left: Left, firmness: float) -> Iterator[Constraint]:
    """Those of some constraints that fix something that is still free, until nothing is."""
    if left.is_nothing():
        return
    for constraint, demand in asked:
        if left.take(demand, firmness):
            yield constraint
            if left.is_nothing():
                return


def choose_places(slack: Slack) -> Choice | None:
    """The radii, and x and y of the points that tell best what is free of a drawing that is tied;
    None where it isn't."""
    if slack.whole.shape[1]:
        return None
    unknowns, figure = slack.equations.unknowns, Figure(slack.placed, slack.drawing)
    free = [Free(np.arange(unknowns.count), slack.ways)]
    points = len(unknowns.points)
    own: list[Constraint] = list(slack.parallel)
    for column in told_best(unknowns, free):
        if column >= 2 * points:
            own.append(size_of(figure, unknowns.rims[column - 2 * points]))
        else:
            run = run_y if column % 2 else run_x
            own.append(run(figure, ORIGIN, unknowns.points[column // 2]))
    return Choice(tuple(own), ())


def tied(slack: Slack, remaining: Remaining) -> tuple[Constraint, ...] | None:
    """What ties the whole of a placed drawing, where it is drawn, once some of its slack is taken;
    None where something is left free."""
    datum = list[Constraint]()
    drawn = Sketched(slack.drawing)
    for some in ties(drawn) if remaining.count() and drawn.points else ():
        for each, demand in slack.demands(some):
            more = remaining.after(demand, ties_the_whole=True)
            if more is not None:
                remaining, datum = more, [*datum, each]
        if not remaining.count():
            break
    return None if remaining.count() else tuple(datum)


class Offers:
    """The dimensions that may be given to a placed drawing, with the values that they have there
    and what they ask: each kind is worked out once, as soon as it is asked for."""

    def __init__(self, slack: Slack) -> None:
        self._slack, self._figure = slack, Figure(slack.placed, slack.drawing)
        self._of_kind: dict[Kind, list[Asked]] = {}

    @cached_property
    def _base(self) -> PointRef:
        """Where x and y are told from: the origin where the whole is tied to it."""
        return base_of(self._figure) if self._slack.whole.shape[1] else ORIGIN

    @cached_property
    def turns(self) -> Turns:
        """The edges that may turn."""
        return Turns(self._slack, self._figure, self._base)

    def of(self, kind: Kind) -> Sequence[Asked]:
        """Those of a kind, in their order."""
        if kind not in self._of_kind:
            points = self._figure.points
            told = list(dimensions(self._figure, kind, self._base)) if points else []
            self._of_kind[kind] = list(_as_placed(self._slack, self._slack.demands(told)))
        return self._of_kind[kind]

    def turned(self, left: Left) -> Iterator[Asked]:
        """The angles of the edges that turn; nothing new where nothing was taken since it was
        asked."""
        while (remaining := left.changed()) is not None:
            yield from _as_placed(self._slack, self.turns.of(remaining))


@cached_on
def offers_of(slack: Slack) -> Offers:
    """The dimensions that may be given to a placed drawing."""
    return Offers(slack)


def candidates(slack: Slack, taste: Taste, left: Left) -> Iterator[Asked]:
    """The dimensions that may be taken, in their order; behind the lengths the angle of each edge
    that turns, as soon as it does."""
    offers = offers_of(slack)
    for kind in taste.order:
        for asked in offers.of(kind):
            if taste.angles and kind not in (Kind.SIZE, Kind.LENGTH):
                yield from (each for each in offers.turned(left) if taste.allows(each[0]))
            if taste.allows(asked[0]):
                yield asked


def _as_placed(slack: Slack, asked: Iterable[Asked]) -> Iterator[Asked]:
    """Those of some constraints that hold where a drawing is placed; what doesn't, since the
    drawing decides otherwise to which side it is meant, would turn something round."""
    most_nm = slack.most_off_nm()
    return ((each, demand) for each, demand in asked if demand.off_nm <= most_nm)


# -- relations


def with_relations(slack: Slack, taste: Taste) -> Slack:
    """A drawing with the relations that it nearly has, as far as they are free and can be met
    together. One that isn't met as it is drawn moves it, so it is placed anew."""
    unmet: set[Subject] = set()
    while True:
        held, near = _next_relations(slack, taste, unmet)
        if near is None and not held:
            return slack
        more = held if near is None else [*held, near]
        there = Slack.of(with_more(slack.drawing, more), SECONDS)
        if there is not None:
            slack = there
        elif near is None:
            return slack
        else:
            unmet.add(subject_of(near))


def _next_relations(slack: Slack, taste: Taste,
                    unmet: set[Subject]) -> tuple[list[Constraint], Constraint | None]:
    """Relations that are free and hold where a drawing is placed, up to the first that only nearly
    does, and that one."""
    remaining, held = Remaining.all(slack), list[Constraint]()
    found = [each for each in taste.relate.found(Figure(slack.placed))
             if taste.allows(each.constraint) and subject_of(each.constraint) not in unmet]
    demands = slack.demands([each.constraint for each in found])
    for relation, (constraint, demand) in zip(found, demands):
        more = remaining.after(demand, ties_the_whole=may_tie_the_whole(constraint))
        if more is None:
            continue
        if not relation.holds():
            return held, constraint
        remaining, held = more, [*held, constraint]
    return held, None


def is_level(constraint: Constraint) -> bool:
    """Whether it says that an edge runs along an axis, which ties the whole too."""
    return isinstance(constraint, (Horizontal, Vertical)) and isinstance(constraint.of, ShapeRef)


def may_tie_the_whole(constraint: Constraint) -> bool:
    """Whether a relation may fix how the whole is turned: a level edge; and that two circles have
    one centre, since of two centres that lie beside each other alone all may be turned."""
    return is_level(constraint) or isinstance(constraint, Concentric)


def is_along_axes(constraint: Constraint) -> bool:
    """Whether it says how two points lie to each other along an axis."""
    match constraint:
        case XDistance(first, second) | YDistance(first, second):
            return ORIGIN not in (first, second)
        case Horizontal(of) | Vertical(of):
            return isinstance(of, Pair)
    return False


def is_direction(constraint: Constraint) -> bool:
    """Whether it is what may keep the whole from turning: how an edge or two points lie to the
    axes."""
    return (isinstance(constraint, (AngleBetween, Horizontal, Vertical))
            or is_along_axes(constraint))
