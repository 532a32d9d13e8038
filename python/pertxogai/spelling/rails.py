"""Rails: the lines that all points of one known x, or y, share, and how far each point lies from
its rail."""
from __future__ import annotations

from collections import Counter
from collections.abc import Hashable, Iterable
from copy import copy
from dataclasses import dataclass
from functools import cached_property
from typing import NamedTuple

from pertxogai.spelling.axes import Axes, Coordinate, Equation, rank
from pertxogai.spelling.facts import DATUM, Knot, Line, Owner
from pertxogai.spelling.linear import Form, LinearSystem, Number, small
from pertxogai.spelling.style import Style


class Rail(NamedTuple):
    """What is unknown in a coordinate: nothing on the datum's axes. `upwards` rails run along the
    first axis."""

    frame: int
    upwards: bool
    unknown: frozenset[tuple[Hashable, Number]]

    def datum(self) -> bool:
        """Whether it is an axis of the datum."""
        return self.frame == DATUM and not self.unknown


@dataclass(frozen=True)
class Size:
    """What is unknown in a length or radius."""

    unknown: frozenset[tuple[Hashable, Number]]


@dataclass(frozen=True)
class Span:
    """How far a point is from another or from a line, as an unknown that nothing tells."""

    first: Knot
    second: Knot | Line


class Run(NamedTuple):
    """An x or y dimension that is spelled by itself: the second point lies `run_um` from the first
    along an axis."""

    first: Coordinate
    second: Coordinate
    run_um: Number
    owners: frozenset[Owner]


class Pending(NamedTuple):
    """An equation that the rails don't say, in rails and sizes."""

    number: int
    form: Form


class Rails:
    """The rails of a drawing in a style, the dimensions between them, and what they don't express.
    A rail is a line shared by all points of the same x, or of the same y."""

    def __init__(self, axes: Axes, style: Style) -> None:
        self.axes = axes
        self._system = axes.system if style.solves() else LinearSystem(rank)
        self.runs: list[Run] = []
        self._run_numbers: set[int] = set()
        if not style.solves():
            self._take()
        self._offsets: dict[Rail, Number] = {}
        self._owners: dict[tuple[Coordinate | None, Coordinate], frozenset[Owner]] = {}
        self.members: dict[Rail, dict[Coordinate, Number]] = {}
        for coordinate in _coordinates(axes.equations):
            rest = self._system.value(coordinate)
            rail = _rail(coordinate, rest)
            self.members.setdefault(rail, {})[coordinate] = rest.number
        self._rail_of = {coordinate: rail for rail, members in self.members.items()
                         for coordinate in members}
        self._sizes: dict[Size, tuple[Hashable, Number]] = {}
        for size in self._all_sizes():
            rest = self._system.value(size)
            self._sizes.setdefault(Size(rest.key()), (size, rest.number))

    def of(self, axes: Axes) -> Rails:
        """The same rails, for axes that say the same."""
        other = copy(self)
        other.axes, other._owners = axes, {}
        return other

    def _all_sizes(self) -> list[Hashable]:
        forms = [equation.form for equation in self.axes.equations]
        forms += [fact.value for fact in self.axes.loose]
        return list(dict.fromkeys(key for form in forms for key in form.terms
                                  if not isinstance(key, Coordinate)))

    def _take(self) -> None:
        """Solves the equations but for the runs."""
        for number, equation in enumerate(self.axes.equations):
            run = self._run(number, equation)
            if run is None:
                self._system.add(equation.form, number)
            else:
                self.runs.append(run)
                self._run_numbers.add(number)

    def _run(self, number: int, equation: Equation) -> Run | None:
        """The dimension that an equation is between two coordinates, where it isn't 0, and where
        the sizes in it are known without it."""
        keys = [key for key in equation.form.terms if isinstance(key, Coordinate)]
        sizes = Form({key: value for key, value in equation.form.terms.items()
                      if not isinstance(key, Coordinate)}, equation.form.number)
        value = self.axes.system.reduced(sizes)
        if len(keys) != 2 or value.terms or not value.number:
            return None
        if sizes.terms and number in self.axes.system.sources(sizes):
            return None
        second, first = sorted(keys, key=lambda key: -equation.form.terms[key])
        if [equation.form.terms[key] for key in (second, first)] != [1, -1]:
            return None
        owners = equation.owners | self.axes.owners(sizes) if sizes.terms else equation.owners
        return Run(first, second, -value.number, owners)

    def rail(self, coordinate: Coordinate) -> Rail | None:
        """The rail of a coordinate; None if nothing is known of it."""
        return self._rail_of.get(coordinate)

    def offset(self, rail: Rail) -> Number:
        """Where a rail runs among its points: at 0 for the datum, else where most of the points
        are."""
        if rail.datum():
            return 0
        if rail not in self._offsets:
            counted = Counter(self.members[rail].values())
            self._offsets[rail] = max(counted, key=lambda value: counted[value])
        return self._offsets[rail]

    def owners(self, first: Coordinate | None, second: Coordinate) -> frozenset[Owner]:
        """The constraints that say how far the second coordinate is from the first, or from the
        datum."""
        ends = first, second
        if ends not in self._owners:
            form = Form.of(second) - (Form() if first is None else Form.of(first))
            sources = self._system.sources(form)
            self._owners[ends] = _owners(self.axes.equations[mark] for mark in sources)
        return self._owners[ends]

    def number(self, form: Form) -> Number | None:
        """The value of a form of sizes, in micrometres; None if it isn't known."""
        rest = self.axes.system.reduced(form)
        return None if rest.terms else rest.number

    def size(self, unknown: Hashable) -> Number | None:
        """The value of a size, in micrometres; None if it isn't known."""
        value = self.axes.system.value(unknown)
        return None if value.terms else value.number

    def symbols(self, form: Form) -> Form:
        """A form of coordinates and sizes, in terms of rails and unknown sizes."""
        terms: dict[Hashable, Number] = {}
        number = form.number
        for key, factor in form.terms.items():
            rest = self._system.value(key)
            number += rest.number * factor
            if rest.terms:
                symbol: Hashable = (self._rail_of.get(key) or _rail(key, rest)
                                    if isinstance(key, Coordinate) else Size(rest.key()))
                terms[symbol] = terms.get(symbol, 0) + factor
        return Form({key: small(each) for key, each in terms.items() if each}, small(number))

    def unfold(self, form: Form) -> Form:
        """A form of rails and sizes, in terms of the first coordinate of each rail and the first of
        each size."""
        total = Form(number=form.number)
        for key, factor in form.terms.items():
            if isinstance(key, Rail):
                coordinate, number = next(iter(self.members[key].items()))
                total = total + Form({coordinate: 1}, -number).times(factor)
            elif isinstance(key, Size):
                size, number = self._sizes[key]
                total = total + Form({size: 1}, -number).times(factor)
        return total

    @cached_property
    def pending(self) -> list[Pending]:
        """The equations that the rails don't express."""
        found = []
        for number, equation in enumerate(self.axes.equations):
            form = self.symbols(equation.form)
            if form.terms and number not in self._run_numbers:
                found.append(Pending(number, form))
        return found

    @cached_property
    def lost(self) -> frozenset[Owner]:
        """The constraints that say something that neither the rails nor the sizes can express."""
        system = LinearSystem(lambda key: 0 if isinstance(key, Size) else 1)
        lost: set[Owner] = set()
        for each in self.pending:
            rest = system.reduced(each.form)
            system.add(each.form, each.number)
            if rest.terms and not any(isinstance(key, Size) for key in rest.terms):
                lost |= self.axes.equations[each.number].owners
        for number, fact in enumerate(self.axes.loose, len(self.axes.equations)):
            if self.number(fact.value) is None:
                form = self.symbols(fact.value) - Form.of(Span(fact.ends()[0], fact.ends()[1]))
                rest = system.reduced(form)
                system.add(form, number)
                if not any(isinstance(key, Size) for key in rest.terms):
                    lost.add(fact.owner)
        return frozenset(lost)


def _rail(coordinate: Coordinate, rest: Form) -> Rail:
    """The rail of a coordinate of which so much is unknown."""
    return Rail(coordinate.frame, coordinate.upwards, rest.key())


def _coordinates(equations: Iterable[Equation]) -> list[Coordinate]:
    found: dict[Coordinate, None] = {}
    for equation in equations:
        found.update((key, None) for key in equation.form.terms if isinstance(key, Coordinate))
    return list(found)


def _owners(equations: Iterable[Equation]) -> frozenset[Owner]:
    return frozenset[Owner]().union(*(equation.owners for equation in equations))

