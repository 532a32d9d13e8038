"""What contradicts in a drawing that has no places, and what only repeats there.

The rank, where the search came nearest, tells who says what follows from the others; else those are
taken that are off most there. That place meets nothing, so it doesn't tell which of these groups
contradict: the drawing is searched again without the latest constraint of each, and there each of
these is measured by itself. Of a group that contradicts, those are told without each of which there
are places, once nothing else is told twice; all of them, where leaving out one alone helps
nowhere."""
from __future__ import annotations

from collections.abc import Collection, Iterable, Iterator, Sequence
from dataclasses import dataclass
from itertools import takewhile
from time import thread_time

import numpy as np

from pertxogai.drawing import Segment, ShapeRef
from pertxogai.judging.measure.limit import Limit
from pertxogai.judging.surplus import without
from pertxogai.search.arrays import Array
from pertxogai.search.budget import Budget
from pertxogai.search.dependencies import PPB, Dependency
from pertxogai.search.equations import Equations
from pertxogai.search.freedom import Freedom, freedom
from pertxogai.search.solving import Found, can_be_met, solve
from pertxogai.search.unknowns import By, Unknowns

Numbers = tuple[int, ...]
"""Constraints by their places, from 1, the latest first."""
MOST_LEFT_OUT, SHARES = 48, 12
"""The most constraints that are left out, one after the other, and into how many shares the seconds
for that are divided at most."""
SHRUNK = 0.02
"""Next to nothing: this part of the size as it is drawn."""
LEAST_NM = 10.0
"""What is shorter may be nothing, since places are rounded."""
STEPS, SECONDS = 60, 0.6
"""The most steps of each of these searches, and the seconds after which no more are begun."""
REST_SECONDS = 0.4
"""What the search may take for what is left without what contradicts."""


@dataclass(frozen=True)
class Clashes:
    """What is told twice in a drawing without places. contradictions: groups that can't all be met.
    in_doubt: groups of which numbers don't tell whether they can. repeats: where the latest
    constraint says what the others do."""

    contradictions: tuple[Numbers, ...] = ()
    in_doubt: tuple[Numbers, ...] = ()
    repeats: tuple[Dependency, ...] = ()

    def latest(self) -> list[int]:
        """The latest constraint of each group that may contradict, the last first."""
        return sorted({each[0] for each in self.contradictions + self.in_doubt}, reverse=True)


def clashes(equations: Equations, found: Found, free: Freedom | None,
            limit: Limit) -> Clashes:
    """What can't all be met within the limit, and what repeats others so nearly; nothing where the
    drawing is solved. free: None where the rank isn't asked."""
    dependencies = free.dependencies if free is not None else ()
    if not all(each.holds(limit) for each in dependencies):
        return _one_by_one(equations, dependencies, limit)
    if _is_within(equations, found.x, limit):
        return Clashes(repeats=dependencies)
    again = frozenset(each.sources[0].number for each in dependencies)
    worst = (number for number in _worst(equations, found) if number not in again)
    sharp = _Rests(equations, limit, again).sharp(worst)
    return Clashes((sharp,) if sharp else (), repeats=dependencies)


def _one_by_one(equations: Equations, dependencies: Sequence[Dependency],
                limit: Limit) -> Clashes:
    """Each group by itself, of groups of which some seem to contradict where the search came
    nearest: by the place where all but the latest constraints of these are met, if one is found."""
    off = [each for each in dependencies if not each.holds(limit)]
    latest = frozenset(each.sources[0].number for each in off)
    others = Equations(equations.unknowns.drawing, latest)
    rest = solve(others, Budget(seconds=REST_SECONDS))
    if not _is_within(others, rest.x, limit):
        rests = _Rests(equations, limit, latest)
        return rests.clashes(off, [each for each in dependencies if each.holds(limit)])
    told = freedom(equations, rest.x).dependencies
    known = {number for each in told for number in _numbers(each)}
    clashing = [each for each in told if not each.holds(limit)]
    unknown = [each for each in off if each.sources[0].number not in known]
    rests = _Rests(equations, limit, latest.union(each.sources[0].number for each in told))
    return rests.clashes([*clashing, *unknown],
                         [each for each in told if each.holds(limit)], clashing)


def _is_within(equations: Equations, x: Array, limit: Limit) -> bool:
    """Whether no row is off by more than the limit where the unknowns are x: a length in
    nanometres, a direction in nanometres or in ppb."""
    off, radians = np.abs(equations.off(x)), equations.radians_nm()
    is_turn = np.isfinite(radians)
    is_near = is_turn & (PPB * off <= limit.amount * np.where(is_turn, radians, 1.0))
    return bool((is_near | (off <= limit.amount)).all())


@dataclass(frozen=True)
class _Tried:
    """Constraints that were left out one after the other. needed: those without each of which there
    are places. untried: those for which there was no time."""

    needed: Numbers
    untried: Numbers


class _Rests:
    """A drawing without some of its constraints. latest: those that aren't needed by the others, of
    which a group is tried with one, its own."""

    def __init__(self, equations: Equations, limit: Limit,
                 latest: frozenset[int] = frozenset()) -> None:
        self._drawing, self._limit, self._latest = equations.unknowns.drawing, limit, latest

    def clashes(self, groups: Iterable[Dependency], repeats: Iterable[Dependency],
                known: Collection[Dependency] = ()) -> Clashes:
        """What becomes of groups that may contradict. known: those of them that do."""
        contradictions, in_doubt = list[Numbers](), list[Numbers]()
        for each in groups:
            numbers = _numbers(each)
            sharp = self._sharp(numbers)
            if sharp or each in known:
                contradictions.append(sharp or numbers)
            elif not self._is_met(self._beside(numbers), SECONDS):
                in_doubt.append(numbers)
        return Clashes(tuple(contradictions), tuple(in_doubt), tuple(repeats))

    def sharp(self, numbers: Iterable[int]) -> Numbers:
        """Those without each of which there are places, of the first that can be tried in time."""
        return self._tried(tuple(dict.fromkeys(numbers))).needed

    def _sharp(self, group: Numbers) -> Numbers:
        """The same of a group that seems to contradict, with those of it that weren't tried: it
        can't all be met, and one of these may be why."""
        tried = self._tried(group)
        return _latest_first(tried.needed + tried.untried) if tried.needed else ()

    def _tried(self, numbers: Numbers) -> _Tried:
        """What comes of leaving out each of some constraints, while there is time."""
        seconds = SECONDS / min(max(len(numbers), 1), SHARES)
        beside, end = self._beside(numbers), thread_time() + SECONDS
        in_time = takewhile(lambda _: thread_time() < end, numbers[:MOST_LEFT_OUT])
        is_needed = {number: self._is_met(beside | {number}, seconds) for number in in_time}
        return _Tried(_latest_first(filter(is_needed.get, is_needed)), numbers[len(is_needed):])

    def _beside(self, numbers: Collection[int]) -> frozenset[int]:
        """What is left out while a group is tried: the latest constraints of the others."""
        return self._latest - {max(self._latest.intersection(numbers), default=0)}

    def _is_met(self, gone: Collection[int], seconds: float) -> bool:
        """Whether places are found that meet all but some constraints, without an edge or a rim
        that has shrunk to nothing: of these anything holds."""
        rest = Equations(without(self._drawing, gone))
        return can_be_met(rest, self._limit.amount, Budget(STEPS, seconds),
                          lambda x: not has_shrunk(rest, x))


def has_shrunk(equations: Equations, x: Array) -> bool:
    """Whether an edge or a rim is next to nothing where the unknowns are x, and wasn't drawn so."""
    drawn, there = (_sizes(equations.unknowns, each) for each in (equations.drawn, x))
    return bool((there < SHRUNK * drawn).any())


def has_vanished(equations: Equations, x: Array) -> bool:
    """Whether an edge has no length, or a rim no size, where the unknowns are x, and was drawn with
    one."""
    drawn, there = (_sizes(equations.unknowns, each) for each in (equations.drawn, x))
    return bool(((there < LEAST_NM) & (drawn >= LEAST_NM)).any())


def _sizes(unknowns: Unknowns, x: Array) -> Array:
    """The lengths of the edges, and the radii, in nanometres."""
    edges = [ShapeRef(shape.name) for shape in unknowns.drawing.geometry
             if isinstance(shape, Segment) and not shape.outer]
    radii = x[2 * len(unknowns.points):]
    return np.array([*(unknowns.line(edge)[1].length_nm(x) for edge in edges), *np.abs(radii)])


def _worst(equations: Equations, found: Found) -> Iterator[int]:
    """The constraints that are off, those that are off most first."""
    off = np.abs(equations.off(found.x))
    numbers = (equations.rows[row].source for row in np.argsort(-off).tolist())
    return (source.number for source in numbers if source.by is not By.SHAPE)


def _numbers(dependency: Dependency) -> Numbers:
    """The constraints of a group."""
    return _latest_first(source.number for source in dependency.sources
                         if source.by is not By.SHAPE)


def _latest_first(numbers: Iterable[int]) -> Numbers:
    return tuple(sorted(set(numbers), reverse=True))
