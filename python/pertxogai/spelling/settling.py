"""Distances that run along an axis of a frame, and so are equations in its coordinates."""
from __future__ import annotations

from collections.abc import Iterator
from typing import NamedTuple

from pertxogai.cached import cached_on
from pertxogai.spelling.axes import Axes, Equation, Frame
from pertxogai.spelling.facts import DATUM, Apart, Facts, Knot, Off
from pertxogai.spelling.linear import Form
from pertxogai.spelling.lines import Lines


def settled_axes(facts: Facts) -> Axes:
    """The axes of some facts, with each distance that runs along an axis told as an equation."""
    axes = Axes(facts, Lines(facts))
    Settling(axes).settle()
    return axes


def revalued_axes(known: Axes, facts: Facts) -> Axes:
    """The same. known: the axes of other facts, of which the lines and frames are taken over where
    these differ by the numbers of lengths alone."""
    axes = known.revalued(facts)
    if axes is None:
        return settled_axes(facts)
    _resettling(known).settle(axes)
    return axes


def with_equation(axes: Axes, number: int | None, equation: Equation,
                  without: Apart | Off | None = None) -> Axes:
    """The axes with another equation in the place of one, or a new one, and without a distance."""
    other = axes.replaced(number, equation, without)
    Settling(other).settle()
    return other


class Step(NamedTuple):
    """A distance, by its place among those that were no equations, that runs along an axis of a
    frame, forwards or backwards by its sign: its points are level across that axis."""

    number: int
    frame: int
    upwards: bool
    sign: int


class Settling:
    """The distances of some axes that are no equations yet. One that ran along no axis is looked
    at again only once the value of an unknown in it has changed. steps: those that became equations
    since their points are level. level: the ways that were found to be 0, by the distances that
    this decided. is_by_values: whether something else was decided by values."""

    def __init__(self, axes: Axes) -> None:
        self.axes = axes
        self.steps: list[Step] = []
        self.level: list[tuple[int, Form]] = []
        self.is_by_values = False
        self._facts = [fact for fact in axes.loose if isinstance(fact, Apart)]
        self._speaking: dict[object, list[int]] = {}
        for number, fact in enumerate(self._facts):
            for key in (fact.first, fact.second, *fact.value.terms):
                self._speaking.setdefault(key, []).append(number)
        self._turn = 0
        self._touched = [0] * len(self._facts)
        self._looked: dict[tuple[bool, tuple[int, ...]], int] = {}
        self._values: list[Form | None] = [None] * len(self._facts)
        self._left = list(range(len(self._facts)))

    def settle(self) -> None:
        """Makes an equation of the first that runs along an axis, until none does; those in the
        datum's frame before others."""
        self.axes.system.changed()
        while self._left and self._one():
            self._turn += 1
            for unknown in self.axes.system.changed():
                for number in self._speaking.get(getattr(unknown, "knot", unknown), ()):
                    self._touched[number] = self._turn
                    self._values[number] = None

    def _one(self) -> bool:
        """Settles one; False where none can be."""
        for in_datum in (True, False):
            for runs in (self._runs, self._is_mate):
                number = next((each for each in self._left if runs(each, in_datum)), None)
                if number is not None:
                    self._left.remove(number)
                    self.axes.forget(self._facts[number])
                    return True
        return False

    def _is_news(self, in_datum: bool, numbers: tuple[int, ...]) -> bool:
        """Whether something of these distances has changed since they were looked at in the
        datum's frame, or in the others; they are looked at now."""
        key = in_datum, numbers
        looked = self._looked.get(key, -1)
        self._looked[key] = self._turn
        return any(self._touched[number] > looked for number in numbers)

    # -- along an axis

    def _runs(self, number: int, in_datum: bool) -> bool:
        """Where the points are level, the distance is the way along; where it is that already,
        they are level."""
        if not self._is_news(in_datum, (number,)):
            return False
        fact, value = self._facts[number], self._length(number)
        reduced, owners = self.axes.system.reduced, frozenset({fact.owner})
        for frame, upwards in self._axes_of(in_datum, {fact.first, fact.second}):
            if not self.axes.has_rails(frame, upwards):
                continue
            across, way = (self._run(frame, each, fact) for each in (not upwards, upwards))
            is_level = reduced(across) == Form()
            sign = self._sign(number, (frame, upwards), reduced(way), is_level)
            along = way - value.times(sign)
            if is_level:
                self.level += [(number, each) for each in (across, way) if reduced(each) == Form()]
                self.steps.append(Step(number, frame.number, upwards, sign))
                self.axes.tell(along, owners)
                return True
            if reduced(along) == Form():
                self.is_by_values = True
                self.axes.tell(across, owners)
                return True
            self._note(number, across, way, along)
        return False

    def _note(self, number: int, across: Form, way: Form, along: Form) -> None:
        """Notes by what a distance doesn't run along an axis: where its points are level along it,
        it can't, as long as it is more than 0."""
        reduced = self.axes.system.reduced
        if reduced(way) == Form():
            self.level.append((number, way))
        elif not reduced(along).terms:
            self.is_by_values = True
        self.is_by_values |= not reduced(across).terms

    def _sign(self, number: int, axis: tuple[Frame, bool], way: Form, is_level: bool) -> int:
        """Which way along an axis a distance runs: as it is told, else as it is drawn. Either, and
        what is drawn isn't looked at, where nothing hangs on it: what has a value runs along no way
        that has none."""
        self.is_by_values |= not way.terms and bool(way.number)
        if not way.terms and way.number:
            return 1 if way.number > 0 else -1
        if not is_level and not self._value(number).terms:
            return 1
        fact = self._facts[number]
        return self.axes.sign(*axis, fact.first, fact.second)

    def _length(self, number: int) -> Form:
        """A distance, which is no less than 0: turned where it is known to come out so, as that of
        two rims of which the other is greater than drawn."""
        value, known = self._facts[number].value, self._value(number)
        if known.terms or known.number >= 0:
            return value
        self.is_by_values = True
        return value.times(-1)

    def _axes_of(self, in_datum: bool, knots: set[Knot]) -> Iterator[tuple[Frame, bool]]:
        """The axes of the datum's frame, or of the others in which something is said of all these
        points: in the rest nothing can follow of them."""
        numbers = {DATUM}
        if not in_datum:
            numbers = set.intersection(*map(self.axes.frames_of, knots)) - {DATUM}
        for number in sorted(numbers):
            yield self.axes.frames[number], False
            yield self.axes.frames[number], True

    def _run(self, frame: Frame, upwards: bool, fact: Apart) -> Form:
        """The way from the first point to the second along an axis."""
        return self._way(frame, upwards, fact.first, fact.second)

    def _way(self, frame: Frame, upwards: bool, first: Knot, second: Knot) -> Form:
        """The way from a point to another along an axis."""
        return (self.axes.at(frame.number, upwards, second)
                - self.axes.at(frame.number, upwards, first))

    # -- alike

    def _is_mate(self, number: int, in_datum: bool) -> bool:
        """Two equal distances that rise alike also run alike."""
        value = self._value(number)
        if not value.terms:
            return False
        self.is_by_values = True
        for mate in self._left:
            if mate == number:
                return False
            if self._value(mate) == value and self._is_news(in_datum, (mate, number)):
                if self._run_alike(in_datum, self._facts[mate], self._facts[number]):
                    return True
        return False

    def _value(self, number: int) -> Form:
        """A distance's value in what is free."""
        known = self._values[number]
        if known is None:
            known = self._values[number] = self.axes.system.reduced(self._facts[number].value)
        return known

    def _run_alike(self, in_datum: bool, mate: Apart, fact: Apart) -> bool:
        """Tells that two distances run alike along the first axis across which they do."""
        ends, others = {fact.first, fact.second}, {mate.first, mate.second}
        if ends == others:
            return False
        reduced = self.axes.system.reduced
        for frame, upwards in self._axes_of(in_datum, ends ^ others):
            across, mates = (self._run(frame, not upwards, each) for each in (fact, mate))
            if Form() in map(reduced, (across - mates, across + mates)):
                owners = frozenset({fact.owner}) | self.axes.owners(mate.value - fact.value)
                self.axes.tell(self._alike(frame, upwards, mate, fact), owners)
                return True
        return False

    def _alike(self, frame: Frame, upwards: bool, mate: Apart, fact: Apart) -> Form:
        """That two distances run alike along an axis, as they are drawn. Where two points would be
        one so, which are as far from a third, they lie on both sides of it."""
        way, other = (self._signed_run(frame, upwards, each) for each in (fact, mate))
        loose = {fact.first, fact.second} ^ {mate.first, mate.second}
        if len(loose) == 2 and self._is_one(frame, loose, way - other, upwards):
            return way + other
        return way - other

    def _is_one(self, frame: Frame, knots: set[Knot], follows: Form, upwards: bool) -> bool:
        """Whether two points are one once this is 0 along an axis."""
        reduced = self.axes.system.reduced
        along, across = (self._way(frame, each, *sorted(knots)) for each in (upwards, not upwards))
        ways = along - follows, along + follows
        return reduced(across) == Form() and Form() in map(reduced, ways)

    def _signed_run(self, frame: Frame, upwards: bool, fact: Apart) -> Form:
        """The way along an axis, turned so that it is drawn forwards."""
        sign = self.axes.sign(frame, upwards, fact.first, fact.second)
        return self._run(frame, upwards, fact).times(sign)


class Resettling:
    """How the distances of some axes were settled, to settle those of axes that differ by the
    values of lengths alone."""

    def __init__(self, axes: Axes) -> None:
        """axes: settled, but for their distances. Settles them."""
        self._facts = [fact for fact in axes.loose if isinstance(fact, Apart)]
        settling = Settling(axes)
        settling.settle()
        self._steps = settling.steps
        self._is_alike = not settling.is_by_values and all(
            self._is_by_lines(axes, *each) for each in settling.level)

    def _is_by_lines(self, axes: Axes, number: int, way: Form) -> bool:
        """Whether a way is 0, and a distance more than that, whatever the values of lengths are: no
        equation with a value makes it 0, and one tells the distance."""
        marks = axes.system.sources
        return (not any(axes.equations[mark].form.number for mark in marks(way))
                and len(marks(self._facts[number].value)) <= 1)

    def settle(self, axes: Axes) -> None:
        """Settles the distances of other axes."""
        if not self._is_alike:
            Settling(axes).settle()
            return
        facts = [fact for fact in axes.loose if isinstance(fact, Apart)]
        for step in self._steps:
            fact = facts[step.number]
            way = axes.between(step.frame, step.upwards, fact.first, fact.second)
            axes.tell(way - fact.value.times(step.sign), frozenset({fact.owner}))
            axes.forget(fact)


@cached_on
def _resettling(known: Axes) -> Resettling:
    """How the distances of axes are settled that differ from known ones by the values of lengths
    alone."""
    axes = known.revalued(known.facts)
    assert axes is not None
    return Resettling(axes)
