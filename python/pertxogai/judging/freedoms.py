"""How many dimensions a drawing lacks at least, and what of it says something twice, by the rank of
its equations.

The rank is reckoned at a place at which its words hold but for lengths (`like_places`), and which
has no pattern beside that: so it is the greatest that there is where they hold. Wherever all words
hold, as many freedoms are left to the first order as there are unknowns more than that rank, or
more. Such a freedom needn't be a motion: a chain that special lengths pull straight has one, and
stays where it is. What says something twice there does so for lengths of any value. """
from __future__ import annotations

from collections.abc import Collection, Iterable, Iterator, Mapping, Sequence
from dataclasses import dataclass
from decimal import Decimal, localcontext
from enum import Enum
from functools import cached_property
from itertools import islice
from typing import NamedTuple

from pertxogai.cached import cached_on
from pertxogai.drawing import Distance, Drawing, PointRef
from pertxogai.judging.equations import Plane
from pertxogai.judging.jets import EXACT, Jet, Rows, Steps, TooMany, unit_row
from pertxogai.judging.like_places import like_places
from pertxogai.spelling.facts import Owner

NONE, SOME = Decimal("1e-30"), Decimal("1e-14")
"""What is left of a row by less than the one counts as nothing; what is between can't be told."""
Row = Mapping[int, Decimal]


class Whole(NamedTuple):
    """How the whole may still be moved against the datum: along x, along y, in how many ways that
    differ by where they take a point, of three, and whether one of these is a turn."""

    along_x: bool
    along_y: bool
    ways: int
    turns: bool

    def text(self) -> str:
        """What it may be, as one says it; nothing where it is tied."""
        shifts = self.ways - self.turns
        along = ""
        if shifts == 1:
            along = " along x" if self.along_x else " along y" if self.along_y else ""
        found = [f"moved{along}"] if shifts else []
        return " and ".join([*found, *(["turned"] if self.turns else [])])


class Loose(NamedTuple):
    """A point that its own dimensions leave free, wherever all others are: along x, along y, both,
    or another way."""

    point: PointRef
    along_x: bool
    along_y: bool

    def text(self) -> str:
        """What it lacks, as one says it."""
        if self.along_x and self.along_y:
            return f"no dimension gives the position of {self.point}"
        if self.along_x or self.along_y:
            return f"no dimension gives the {'x' if self.along_x else 'y'} of {self.point}"
        return f"{self.point} lacks a dimension"


class Twice(Enum):
    """What of a constraint the others say too, by rank."""

    NOTHING = "nothing"
    IN_PART = "in part"
    WHOLE = "whole"


@dataclass(frozen=True)
class Freedoms:
    """lacks: how many freedoms are left at least beside those of the whole. loose: the points that
    are free by themselves. owners: who asks each equation. circuits: each set of equations of which
    one follows from the others, with their factors; of such sets these are as many as equations
    are too many, and all others are sums of them. plane: where they were counted."""

    lacks: int
    whole: Whole
    loose: tuple[Loose, ...]
    owners: tuple[Owner, ...]
    circuits: tuple[Row, ...]
    plane: Plane[Decimal]

    @property
    def excess(self) -> int:
        """How many equations are too many."""
        return len(self.circuits)

    @cached_property
    def _rows(self) -> Mapping[int, list[int]]:
        """The equations of each constraint."""
        found: dict[int, list[int]] = {}
        for place, owner in enumerate(self.owners):
            if not owner.shape:
                found.setdefault(owner.number, []).append(place)
        return found

    def equations(self, number: int) -> int:
        """How many equations a constraint asks."""
        return len(self._rows.get(number, ()))

    @cached_property
    def _factors(self) -> Mapping[int, Row]:
        """The factors of each equation in the circuits, by their places; the greatest is 1."""
        found: dict[int, dict[int, Decimal]] = {}
        for number, circuit in enumerate(self.circuits):
            for place, value in circuit.items():
                found.setdefault(place, {})[number] = value
        with localcontext(EXACT):
            return {place: unit_row(row) or row for place, row in found.items()}

    def factors(self, number: int) -> list[Row]:
        """Those of the equations of a constraint that are in circuits."""
        return [self._factors[place] for place in self._rows.get(number, ())
                if place in self._factors]

    def fewer(self, gone: Collection[int]) -> int:
        """How many fewer equations are too many without some constraints."""
        with localcontext(EXACT):
            return rank(row for number in gone for row in self.factors(number))

    def twice(self, number: int) -> Twice:
        """What of a constraint the others say too."""
        fewer = self.fewer([number])
        if not fewer:
            return Twice.NOTHING
        return Twice.WHOLE if fewer == self.equations(number) else Twice.IN_PART

    def freed(self, gone: Collection[int]) -> int:
        """How much more is free without some constraints."""
        return sum(map(self.equations, gone)) - self.fewer(gone)

    def may_go(self, number: int, gone: Collection[int] = ()) -> bool:
        """Whether nothing more is free without a constraint, beside some that have gone."""
        return self.freed([*gone, number]) == self.freed(gone)

    def company(self, number: int) -> frozenset[int]:
        """The constraints that take part with this one in what is too many, and those that do so
        with one of these, in turn."""
        left = [{self.owners[place] for place in circuit} for circuit in self.circuits]
        found = {Owner(number)}
        while met := [each for each in left if not found.isdisjoint(each)]:
            found.update(*met)
            left = [each for each in left if each not in met]
        return frozenset(owner.number for owner in found if not owner.shape)

    def follows(self, number: int, others: Collection[Owner]) -> bool:
        """Whether all that a constraint asks follows from what others and the shapes ask. Raises
        TooMany."""
        inside = {Owner(number), *others}
        rows, mine = Rows[Decimal](NONE), list[Row]()
        with localcontext(EXACT):
            for circuit in self._circuits_with(number):
                left, rest = rows.add({
                    -1 - place if self.owners[place].shape or self.owners[place] in inside
                    else place: value for place, value in circuit.items()})
                if left <= NONE:
                    mine.append({-1 - key: value for key, value in rest.items()
                                 if key < 0 and abs(value) > SOME
                                 and self.owners[-1 - key] == Owner(number)})
            return rank(mine) == self.equations(number)

    def _circuits_with(self, number: int) -> Sequence[Row]:
        """The circuits that an equation of a constraint is in, and those that share an equation
        with one of these, in turn: no other one says anything about it."""
        if number not in self._connected:
            places, found = set(self._rows.get(number, ())), set[int]()
            while met := [at for at, each in enumerate(self.circuits)
                          if at not in found and not places.isdisjoint(each)]:
                found.update(met)
                places.update(*(self.circuits[at] for at in met))
            self._connected[number] = [self.circuits[at] for at in sorted(found)]
        return self._connected[number]

    @cached_property
    def _connected(self) -> dict[int, Sequence[Row]]:
        """What `_circuits_with` found for a constraint."""
        return {}

    def among(self) -> frozenset[Owner]:
        """Who asks something that others ask together."""
        return frozenset(self.owners[place] for circuit in self.circuits for place in circuit)

    def too_many(self, aside: Collection[int] = ()) -> Iterator[frozenset[Owner]]:
        """Who asks together what is one equation too many, beside some constraints."""
        beside = {place for number in aside for place in self._rows.get(number, ())}
        rows = Rows[Decimal](NONE)
        with localcontext(EXACT):
            for circuit in self.circuits:
                row = {place if place in beside else -1 - place: value
                       for place, value in circuit.items()}
                left, rest = rows.add(row)
                if left <= NONE:
                    yield frozenset(self.owners[-1 - key] for key, value in rest.items()
                                    if key < 0 and abs(value) > SOME)


@cached_on
def freedoms(drawing: Drawing) -> Freedoms | None:
    """The freedoms of a drawing; None where they take too long to count, or can't be told."""
    steps = Steps()
    try:
        with localcontext(EXACT):
            found = (_count(plane, steps) for plane in like_places(drawing, steps))
            return next(filter(None, found), None)
    except TooMany:
        return None


def _count(plane: Plane[Decimal], steps: Steps) -> Freedoms | None:
    """The freedoms at a place; None where what is left of an equation is next to nothing. Raises
    TooMany."""
    try:
        asked = list(plane.all())
    except ArithmeticError:
        return None
    slopes = [jet.slope for _, jet in asked]
    rows, circuits = Rows(NONE, steps), list[Row]()
    for number, slope in enumerate(slopes):
        row = unit_row(slope)
        left, rest = rows.add({**row, -1 - number: Decimal(1)}) if row else (Decimal(0), {
            -1 - number: Decimal(1)})
        if NONE < left < SOME:
            return None
        if left <= NONE:
            circuits.append({-1 - key: value for key, value in rest.items()
                             if key < 0 and abs(value) > SOME})
    whole = _whole_of(plane, slopes)
    lacks = plane.unknowns.size - len(rows) - whole.ways
    return Freedoms(lacks, whole, tuple(_loose(plane, slopes)),
                    tuple(owner for owner, _ in asked), tuple(circuits), plane)


class Gone:
    """Constraints that go one after the other, so that ever fewer equations are too many."""

    def __init__(self, free: Freedoms) -> None:
        self.numbers: list[int] = []
        self._free = free
        self._rows = Rows[Decimal](NONE)
        self._whose: list[int] = []

    def take(self, number: int, may_free: bool) -> bool:
        """Takes a constraint without which fewer are too many; where more may not be free, only if
        nothing more is."""
        rows, whose = self._rows.copy(), [*self._whose]
        fewer = 0
        with localcontext(EXACT):
            for row in self._free.factors(number):
                whose.append(number)  # Each equation is marked by itself.
                fewer += rows.add({**row, -len(whose): Decimal(1)})[0] > NONE
        if not fewer or fewer < self._free.equations(number) and not may_free:
            return False
        self.numbers.append(number)
        self._rows, self._whose = rows, whose
        return True

    def instead(self, number: int) -> set[int]:
        """Those of which one may stay where another goes."""
        with localcontext(EXACT):
            rest = self._rows.reduced(self._free.factors(number)[0])
        return {self._whose[-1 - key] for key, value in rest.items()
                if key < 0 and abs(value) > SOME}


def new_distances(free: Freedoms,
                  told: Iterable[tuple[Sequence[Distance], int]]) -> Iterator[int]:
    """Of each list of distances, how many are independent of all that is said and of the lists
    before, up to the number beside the list. Raises TooMany."""
    with localcontext(EXACT):
        rows = Rows[Decimal](NONE)
        for _, jet in free.plane.all():
            _add(rows, jet)
        for distances, most in told:
            new = (jet for each in distances for jet in free.plane.asked(each) if _add(rows, jet))
            yield len(list(islice(new, most)))


def _add(rows: Rows[Decimal], jet: Jet[Decimal]) -> bool:
    """Whether a number says something new."""
    row = unit_row(jet.slope)
    return row is not None and rows.add(row)[0] > NONE


def rank(rows: Iterable[Row]) -> int:
    """The rank of some rows."""
    found = Rows[Decimal](NONE)
    for row in rows:
        unit = unit_row(row)
        if unit is not None:
            found.add(unit)
    return len(found)


# -- single points


def _loose(plane: Plane[Decimal], slopes: Sequence[Row]) -> Iterator[Loose]:
    """The points that are free while all others stay; those that are one go together."""
    leaders = {place: plane.drawing.meetings.leader(ref)
               for ref, place in plane.unknowns.points.items()}
    told: dict[PointRef, list[Row]] = {leader: [] for leader in leaders.values()
                                       if leader in plane.unknowns.points}
    for slope in slopes:
        for leader, row in _by_points(slope, leaders).items():
            if leader in told:
                told[leader].append(row)
    for leader, rows in told.items():
        if rank(rows) < 2:
            yield Loose(leader, *(all(upwards not in row for row in rows) for upwards in (0, 1)))


def _by_points(slope: Row, leaders: Mapping[int, PointRef]) -> Mapping[PointRef, Row]:
    """How an equation changes with the x and the y of each point that it speaks of, those that are
    one together."""
    found: dict[PointRef, dict[int, Decimal]] = {}
    for key, value in slope.items():
        for upwards in (0, 1):
            if key - upwards in leaders:
                row = found.setdefault(leaders[key - upwards], {})
                row[upwards] = row.get(upwards, Decimal(0)) + value
    return {leader: {upwards: value for upwards, value in row.items() if abs(value) > NONE}
            for leader, row in found.items()}


# -- the whole


def _whole_of(plane: Plane[Decimal], slopes: Sequence[Row]) -> Whole:
    """How the whole may be moved: by which motions no equation changes. Where a point of a shape is
    the origin, it may turn about that alone; a motion that moves no point is none, as the turn of a
    single point about itself."""
    motions = _motions(plane)
    changes = [{place: change for place, slope in enumerate(slopes)
                if abs(change := _change(slope, motion)) > NONE} for motion in motions]
    is_pinned = plane.unknowns.pins_the_origin()
    begin = 2 if is_pinned or not plane.unknowns.points else 0
    ways = rank(motions[begin:]) - rank(changes[begin:])
    shifts = 2 - begin - rank(changes[begin:2])
    x, y = (not begin and not changes[place] for place in (0, 1))
    # A point that has its distance from the origin alone turns about it, and isn't moved.
    only_turns = ways == 1 and not (x or y or changes[2])
    return Whole(x, y, ways, ways > shifts or only_turns)


def _motions(plane: Plane[Decimal]) -> tuple[Row, Row, Row]:
    """A shift along x, one along y, and a turn about the origin: how each changes the unknowns."""
    right, up, turn = dict[int, Decimal](), dict[int, Decimal](), dict[int, Decimal]()
    for place in plane.unknowns.points.values():
        right[place] = up[place + 1] = Decimal(1)
        turn[place], turn[place + 1] = -plane.vector[place + 1], plane.vector[place]
    return right, up, turn


def _change(slope: Row, motion: Row) -> Decimal:
    return sum((value * motion[key] for key, value in slope.items() if key in motion), Decimal(0))
