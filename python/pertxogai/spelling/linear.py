"""What is linear, by exact numbers: equations in unknowns, which of them are told twice, and what
they leave free.

A `Form` is a sum of unknowns times numbers, and a number. A `LinearSystem` takes equations `form
= 0`, each with a mark of its owner's, and keeps those that say something new; of one that doesn't
it tells the others that it follows from, and by how much it contradicts them. Numbers are whole
while they can be, since fractions are slow. """
from __future__ import annotations

from collections.abc import Callable, Hashable, Mapping
from dataclasses import dataclass, field
from fractions import Fraction
from typing import NamedTuple

Number = int | Fraction
Terms = Mapping[Hashable, Number]
Rank = Callable[[Hashable], int]
_LAST = 1 << 30
"""The rank of what is never solved for."""


@dataclass(frozen=True)
class Form:
    """The sum of each unknown of `terms` times its number, which isn't 0, and of `number`."""

    terms: Terms = field(default_factory=dict)
    number: Number = 0

    @staticmethod
    def of(unknown: Hashable) -> Form:
        """The unknown itself."""
        return Form({unknown: 1})

    def __add__(self, other: Form) -> Form:
        return Form(_sum(self.terms, other.terms, 1), self.number + other.number)

    def __sub__(self, other: Form) -> Form:
        return Form(_sum(self.terms, other.terms, -1), self.number - other.number)

    def times(self, factor: Number) -> Form:
        """The form times a number."""
        if not factor:
            return Form()
        if factor == 1:
            return self
        return Form({key: small(value * factor) for key, value in self.terms.items()},
                    small(self.number * factor))

    def key(self) -> frozenset[tuple[Hashable, Number]]:
        """What is unknown in it, to be compared."""
        return frozenset(self.terms.items())


class Redundant(NamedTuple):
    """An equation that says nothing new: `marks` are the equations that it follows from, with its
    own; it is off these by `amount`, 0 where it repeats them."""

    marks: frozenset[int]
    amount: Number


class LinearSystem:
    """Equations, kept solved: each unknown that was solved for is a form of those that are
    free."""

    def __init__(self, rank: Rank = lambda unknown: 0) -> None:
        """`rank`: of the unknowns of an equation one of the least rank is solved for."""
        self._rank = rank
        self._values: dict[Hashable, Form] = {}
        self._users: dict[Hashable, set[Hashable]] = {}
        self._kept: list[tuple[Form, int]] = []
        self._marked: LinearSystem | None = None
        self._changed: set[Hashable] = set()

    def copied(self) -> LinearSystem:
        """The same equations, to which others are added."""
        other = LinearSystem(self._rank)
        other._values, other._kept = dict(self._values), [*self._kept]
        other._users = {key: set(users) for key, users in self._users.items()}
        other._changed = set(self._changed)
        return other

    def add(self, form: Form, mark: int) -> Redundant | None:
        """Takes the equation form = 0; None where it says something new."""
        rest = self.reduced(form)
        if not rest.terms:
            return Redundant(self.sources(form) | {mark}, rest.number)
        pivot = min(rest.terms, key=self._rank)
        value = _solve(rest, pivot)
        users = self._users.pop(pivot, set())
        for user in users:
            self._keep(user, _substitute(self._values[user], pivot, value))
        self._keep(pivot, value)
        self._kept.append((form, mark))
        self._changed |= users
        self._changed.add(pivot)
        return None

    def _keep(self, pivot: Hashable, value: Form) -> None:
        """Takes a pivot's value, and notes in which free unknowns it is."""
        self._values[pivot] = value
        for key in value.terms:
            self._users.setdefault(key, set()).add(pivot)

    def reduced(self, form: Form) -> Form:
        """The form in what is free; a number where the equations fix it."""
        values, terms = self._values, form.terms
        known = [key for key in terms if key in values]
        if not known:
            return form
        rest = {key: terms[key] for key in terms if key not in values}
        number = form.number
        for key in known:
            factor, value = terms[key], values[key]
            number += value.number * factor
            rest = _sum(rest, value.terms, factor)
        return Form(rest, small(number))

    def value(self, unknown: Hashable) -> Form:
        """An unknown in what is free."""
        return self._values.get(unknown) or Form.of(unknown)

    def sources(self, form: Form) -> frozenset[int]:
        """The equations by which the form is reduced as it is."""
        rest = self._with_marks().reduced(form)
        return frozenset(key.mark for key in rest.terms if isinstance(key, _Mark))

    def _with_marks(self) -> LinearSystem:
        """The same equations, each with its mark as one more unknown, which goes where the
        equation goes. Few ask for that, so it is solved only then."""
        if self._marked is None:
            self._marked = LinearSystem(
                lambda key: _LAST if isinstance(key, _Mark) else self._rank(key))
        for form, mark in self._kept[len(self._marked._kept):]:
            self._marked.add(form + Form.of(_Mark(mark)), mark)
        return self._marked

    def changed(self) -> set[Hashable]:
        """The unknowns whose values became others since this was last asked."""
        found, self._changed = self._changed, set()
        return found


@dataclass(frozen=True)
class _Mark:
    """An equation's mark, as an unknown."""

    mark: int


def _solve(rest: Form, pivot: Hashable) -> Form:
    """The value of an unknown by rest = 0."""
    others = Form({key: value for key, value in rest.terms.items() if key != pivot}, rest.number)
    return others.times(_inverse(-rest.terms[pivot]))


def _substitute(old: Form, pivot: Hashable, value: Form) -> Form:
    """A form with an unknown's value in its place; one that no longer has it stays."""
    factor = old.terms.get(pivot)
    if factor is None:
        return old
    others = {key: each for key, each in old.terms.items() if key != pivot}
    return Form(_sum(others, value.terms, factor), small(old.number + value.number * factor))


def _sum(first: Terms, second: Terms, factor: Number) -> dict[Hashable, Number]:
    """first + factor · second, without what comes to 0."""
    total = dict(first)
    for key, value in second.items():
        each = total.get(key, 0) + value * factor
        if each:
            total[key] = small(each)
        else:
            total.pop(key, None)
    return total


def _inverse(value: Number) -> Number:
    """1 / value, exactly."""
    return value if value in (1, -1) else small(Fraction(1) / value)


def small(value: Number) -> Number:
    """A whole number where it is one."""
    return value if type(value) is int or value.denominator != 1 else value.numerator
