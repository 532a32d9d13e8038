"""A drawing, searched: places, freedoms, and what is said twice or contradicts, by the names of the
drawing."""
from __future__ import annotations

from collections.abc import Callable, Iterable, Mapping
from dataclasses import replace
from functools import cached_property

import numpy as np

from pertxogai.cached import cached_on
from pertxogai.drawing import Drawing, PointRef, line_of
from pertxogai.judging.finding import Finding, Group, PlacesBy
from pertxogai.judging.judgement import Judgement
from pertxogai.judging.measure import Deviation, Solution, measure
from pertxogai.judging.measure.limit import Limit
from pertxogai.judging.surplus import without
from pertxogai.program import Solver
from pertxogai.program.reports import Verdict
from pertxogai.search.arrays import Array
from pertxogai.search.budget import MOST_SECONDS, Budget
from pertxogai.search.constructing import construct
from pertxogai.search.contradictions import (
    REST_SECONDS, Numbers, clashes, has_shrunk, has_vanished)
from pertxogai.search.dependencies import SAME_NM, Dependency
from pertxogai.search.descent import descend
from pertxogai.search.equations import Equations
from pertxogai.search.following import loose_columns
from pertxogai.search.freedom import Freedom, freedom
from pertxogai.search.redundancies import redundancies
from pertxogai.search.rounding import solution_of
from pertxogai.search.solving import Found, solve
from pertxogai.search.unknowns import By, FloatPointNm, Source


Measured = Callable[[Solution], tuple[Deviation, ...]]
"""What measures a drawing on some places."""
MENDED_NM = 10_000.0
"""Places that were told in rounded numbers are mended by no more; at a dead point a tenth of a
nanometre is a micrometre of what else moves."""
MOST_RANKED = 600
"""The most unknowns of a drawing without places of which the rank is asked who says what others do:
of a larger one that alone takes a second, and those are looked at that are off most."""


class Searched:
    """What was searched of a drawing: the equations, where they were found to be met or nearly so,
    and the freedoms there."""

    def __init__(self, drawing: Drawing, seconds: float = MOST_SECONDS) -> None:
        self.drawing = drawing
        self.equations = Equations(drawing)
        self.found: Found = solve(self.equations, Budget(seconds=seconds))

    @cached_property
    def freedom(self) -> Freedom:
        """The freedoms where it was found."""
        return freedom(self.equations, self.found.x)

    def is_met(self) -> bool:
        """Whether all words are met where it was found, but for what is off by so little that it
        repeats the others all the same."""
        return self.found.is_solved() or (
            self.found.end.worst_nm <= SAME_NM
            and all(each.repeats() for each in self.freedom.dependencies))

    def has_vanished(self) -> bool:
        """Whether an edge has no length where it was found, or a rim no size: there its constraints
        change with nothing, to the first order, and a count says little."""
        return has_vanished(self.equations, self.found.x)

    def loose(self) -> frozenset[int]:
        """The unknowns that may move, to the first order."""
        return frozenset(loose_columns(self.freedom.free))

    def met_at(self, points: Mapping[PointRef, FloatPointNm],
               radii: Mapping[str, float]) -> Array | None:
        """The unknowns where these points and radii lie, in nanometres, and the others as they were
        found; mended, since they were rounded. None where nothing near by is met."""
        x, unknowns = self.found.x.copy(), self.equations.unknowns
        for ref, spot in points.items():
            number = unknowns.number_of.get(unknowns.leader(ref))
            if number is not None:
                x[2 * number:2 * number + 2] = spot
        for name, radius in radii.items():
            if name in unknowns.column_of:
                x[unknowns.column_of[name]] = radius
        end = descend(self.equations, x, Budget())
        is_near = float(np.abs(end.x - x).max(initial=0.0)) <= MENDED_NM
        return end.x if end.is_met() and is_near else None

    def finding(self, limit: Limit = Limit(), measured: Measured | None = None) -> Finding:
        """All of it by the names of the drawing. What is off by no more than the limit isn't told
        to contradict; there are places only where all is met. measured: what measures it somewhere,
        where that knows more of it than the drawing says."""
        if not self.is_met():
            return self._unsolved(limit)
        motions = self.freedom.motions
        is_doubtful = not self.freedom.is_sure or self.has_vanished()
        solution = solution_of(self.equations.unknowns, self.found.x)
        return Finding(
            self.freedom.count, motions.of_the_whole, is_doubtful,
            motions.moves, motions.rims, self._repeats(), (), solution,
            measured(solution) if measured else measure(self.drawing, solution), PlacesBy.NUMBERS)

    def finding_with(self, judgement: Judgement, program: Solver) -> Finding:
        """The same; of what is open and has places, those by the program, where it constructs them
        by found values so that each constraint is met."""
        finding = self.finding(judgement.limit)
        if judgement.verdict is not Verdict.OPEN or finding.solution is None:
            return finding
        if self.has_vanished():  # From there many constructions would be tried, and most fail.
            return finding
        construction = construct(self.drawing, self.equations, self.found.x, self.freedom, program)
        if construction is None or not construction.is_good():
            return finding
        return replace(finding, solution=construction.solution(), places_by=PlacesBy.PROGRAM,
                       deviations=construction.deviations,
                       chosen=tuple(map(line_of, construction.values())),
                       only_measured=tuple(line_of(each.gone) for each in construction.swaps))

    def _unsolved(self, limit: Limit) -> Finding:
        """What is found without places: the freedoms are those without the latest constraint of
        what is taken for a contradiction. Where the search has ended with an edge or a rim that has
        shrunk to nothing, it is stuck, and nothing is told to repeat or to contradict."""
        free = self.freedom if self.equations.unknowns.count <= MOST_RANKED else None
        found = clashes(self.equations, self.found, free, limit)
        latest = found.latest()
        rest = Searched(without(self.drawing, latest), REST_SECONDS) if latest else self
        told = Finding(rest.freedom.count, rest.freedom.motions.of_the_whole, True)
        if has_shrunk(self.equations, self.found.x):
            return told
        return replace(told, repeats=self._groups(each for each in found.repeats if each.lasts),
                       contradictions=tuple(map(self._names, found.contradictions)),
                       in_doubt=tuple(map(self._names, found.in_doubt)))

    def _repeats(self) -> tuple[Group, ...]:
        """What says what others do, the latest first; none where an edge or a rim has vanished, of
        which anything holds."""
        if self.has_vanished():
            return ()
        return self._groups(each for each in self.freedom.dependencies
                            if each.repeats() and each.lasts)

    def _groups(self, repeats: Iterable[Dependency]) -> tuple[Group, ...]:
        """What follows from others, and these."""
        groups = redundancies(self.drawing, sorted(repeats, key=_latest, reverse=True))
        return tuple(dict.fromkeys(tuple(dict.fromkeys(map(self._called, each)))
                                   for each in groups))

    def _names(self, numbers: Numbers) -> Group:
        return tuple(map(self.drawing.called, numbers))

    def _called(self, source: Source) -> str:
        if source.by is By.SHAPE:
            return f"the ends of {self.drawing.geometry[source.number - 1].name}"
        return self.drawing.called(source.number)


@cached_on
def searched(drawing: Drawing) -> Searched:
    """A sound drawing, searched for as long as a search may take: once, whoever asks."""
    return Searched(drawing)


def _latest(dependency: Dependency) -> int:
    return dependency.sources[0].number
