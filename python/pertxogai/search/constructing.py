"""An open drawing constructed by the program all the same: with values that the search has found.

First the values that the drawing lacks are told, and nothing else is changed. What repeats others
may be only measured. Where the program doesn't find that well, it is rigid in a way that merging
doesn't find, or by a word that can't be spelled: then one constraint after the other is only
measured, and the value of what is free without it takes its place. In the end all points would be
told by x and y, which the program always places: so as few as can be found are only measured."""
from __future__ import annotations

from collections.abc import Iterator, Sequence
from dataclasses import dataclass, replace

from pertxogai.drawing import (
    Collinear, Constraint, Drawing, Equal, Length, Midpoint, Parallel, ParallelDistance, PointOn,
    Segment, Symmetric, Tangent)
from pertxogai.drawing.meetings import joins_points
from pertxogai.judging.judgement import Judgement, judge_at_once
from pertxogai.judging.limits import DrawingRefused
from pertxogai.language import NotHeld, Refusal
from pertxogai.judging.measure import Deviation, Limit, Solution, Unit, greatest, measure
from pertxogai.program import ProgramError, Solver
from pertxogai.program.reports import Verdict
from pertxogai.search.arrays import Array
from pertxogai.search.budget import Budget, spent_seconds
from pertxogai.search.descent import descend
from pertxogai.search.equations import Equations
from pertxogai.search.freedom import Freedom, freedom
from pertxogai.search.rank import wide
from pertxogai.search.rounding import solution_of
from pertxogai.search.unknowns import By, Unknowns
from pertxogai.search.values import (
    NM, drawn_at, lengths_of, stretch_of, told_best, value_of, values_of)

GOOD = Limit(2)
"""Within what each word is met on the program's places, its length and its direction."""
MOST_VALUES = 6
"""The most values that take the place of constraints."""
MOST_TRIED = 60
"""The most constraints that are tried for each."""
MOST_ASKED, MOST_SECONDS = 200, 2.0
"""The most drawings of which the program is asked, and the seconds of a processor after which no
more are. What is constructed takes three drawings at most in the gallery, and 0.13 s."""
LEAST_ASKED = 6
"""The drawings of which it is asked whatever the time: so what takes few of them, and has places by
then, is constructed on a slow machine too, and on one that stood still meanwhile."""
MANY_PIECES = 10 ** 6
_FIRST = (Equal, Tangent, PointOn, Symmetric, Midpoint, Collinear)
"""What is only measured rather than others: these need a size that may be unknown."""


@dataclass(frozen=True)
class Swap:
    """A constraint that is only measured, and the value that is told in its place, if any."""

    gone: Constraint
    value: Constraint | None = None


@dataclass(frozen=True)
class Construction:
    """What was told to the program beside the drawing or in the place of parts of it, and what came
    of it. chosen: the values of what is free. swaps: what was only measured. pieces: into how many
    the program sees it fall, 0 where it is placed. left_out: what couldn't be spelled. deviations:
    of the designer's own constraints, and of what the shapes imply, on the program's places."""

    chosen: tuple[Constraint, ...]
    swaps: tuple[Swap, ...]
    judgement: Judgement | None = None
    pieces: int = MANY_PIECES
    left_out: tuple[Constraint, ...] = ()
    deviations: tuple[Deviation, ...] = ()

    def is_good(self) -> bool:
        """Whether the program places it, and each word is met there."""
        return self.pieces == 0 and not self.unmet()

    def solution(self) -> Solution | None:
        """Where the program places it."""
        return self.judgement.solution if self.judgement else None

    def values(self) -> tuple[Constraint, ...]:
        """All that was told besides the drawing: what was chosen, then what follows."""
        follow = (each.value for each in self.swaps if each.value is not None)
        return (*self.chosen, *follow)

    def unmet(self) -> tuple[Deviation, ...]:
        """The words that aren't met, by what of each is off."""
        return tuple(GOOD.beyond(self.deviations))

    def worth(self) -> tuple[int, int, int]:
        """The less, the better: pieces, then words that aren't met, then nanometres."""
        worst = greatest(self.deviations, Unit.NM)
        return self.pieces, len(self.unmet()), worst.amount if worst else 0


def construct(drawing: Drawing, equations: Equations, x: Array, free: Freedom,
              program: Solver) -> Construction | None:
    """The construction by found values of a drawing that is solved where the unknowns are x; the
    best where none is good, and None where none could be tried."""
    trials = _Trials(drawing, program)
    found: list[tuple[Construction, Array]] = []
    for chosen, swaps in _ways(drawing, equations, x, free):
        values = _solved(drawing, chosen, x)
        if values is not None:
            found.append((trials.construction(chosen, swaps, values), values))
            if found[-1][0].is_good():
                return found[-1][0]
    best: Construction | None = None
    for construction, values in sorted(found, key=lambda each: each[0].worth()):
        mended = _Mending(drawing, trials, values).mended(construction)
        best = mended if best is None or mended.worth() < best.worth() else best
        if best.is_good():
            break
    return best


def _ways(drawing: Drawing, equations: Equations, x: Array,
          free: Freedom) -> Iterator[tuple[tuple[Constraint, ...], tuple[Swap, ...]]]:
    """The values to choose, and what to only measure, in the order in which they are tried."""
    # A distance of lines of which nothing says that they are parallel asks for that too.
    distances = [drawing.constraints[number - 1] for number in sorted(free.crooked)]
    parallel = tuple(Parallel(each.first, each.second) for each in distances
                     if isinstance(each, ParallelDistance))
    kinds = [values_of(equations, x, free.free)]
    if free.ways():
        kinds.append(lengths_of(equations, x, free.free))
    for swaps in dict.fromkeys(((), _repeats(drawing, free))):
        for chosen in dict.fromkeys(kinds):
            yield (*parallel, *chosen), swaps


def _repeats(drawing: Drawing, free: Freedom) -> tuple[Swap, ...]:
    """What only repeats others, to be measured."""
    latest = (each.sources[0] for each in free.dependencies if each.repeats())
    constraints = (drawing.constraints[source.number - 1] for source in latest
                   if source.by is By.CONSTRAINT)
    return tuple(Swap(each) for each in constraints if not joins_points(each))


def _solved(drawing: Drawing, chosen: Sequence[Constraint], x: Array) -> Array | None:
    """The unknowns with the chosen values, which were rounded."""
    equations = Equations(_with(drawing, chosen))
    end = descend(equations, x, Budget())
    return end.x if end.is_met() else None


def _with(drawing: Drawing, chosen: Sequence[Constraint],
          swaps: Sequence[Swap] = ()) -> Drawing:
    """The drawing as it is told: with values, and without what is only measured."""
    gone = {id(each.gone) for each in swaps}
    kept = (each for each in drawing.constraints if id(each) not in gone)
    values = (each.value for each in swaps if each.value is not None)
    return Drawing(drawing.geometry, (*kept, *chosen, *values))


class _Trials:
    """Asks the program, within a number of times and a time."""

    def __init__(self, drawing: Drawing, program: Solver) -> None:
        self._drawing, self._program, self._left = drawing, program, MOST_ASKED
        self._end = spent_seconds() + MOST_SECONDS

    def are_spent(self) -> bool:
        """Whether no more are left, or no time."""
        return self._left <= 0 or (self._left <= MOST_ASKED - LEAST_ASKED
                                   and spent_seconds() >= self._end)

    def construction(self, chosen: tuple[Constraint, ...], swaps: tuple[Swap, ...],
                     x: Array) -> Construction:
        """What the program makes of the drawing with these values where the unknowns are x, and
        what is measured of the designer's own words."""
        self._left -= 1
        told = _with(self._drawing, chosen, swaps)
        places = solution_of(Unknowns(told), x)
        asked = Construction(chosen, swaps)
        try:
            judged = judge_at_once(drawn_at(told, places), self._program)
        except (ProgramError, DrawingRefused, Refusal, NotHeld):
            return asked
        left_out = tuple(told.constraints[owner.number - 1]
                         for owner in judged.asked.spelled.left_out if owner.number)
        asked = replace(asked, judgement=judged, pieces=_pieces(judged), left_out=left_out)
        if judged.solution is None:
            return asked
        return replace(asked, deviations=measure(self._drawing, judged.solution))


def _pieces(judged: Judgement) -> int:
    """Into how many pieces the program sees a drawing fall; 0 where it is placed."""
    if judged.solution is not None:
        return 0
    check = judged.asked.check
    return len(check.parts) if judged.verdict is Verdict.OPEN and check is not None else 1


class _Mending:
    """Finds what to only measure, one constraint after the other."""

    def __init__(self, drawing: Drawing, trials: _Trials, x: Array) -> None:
        self._drawing, self._trials, self._x = drawing, trials, x

    def mended(self, best: Construction) -> Construction:
        """The best construction that a greedy choice finds."""
        for _ in range(MOST_VALUES):
            better = best
            for each in self._next(best):
                if each.is_good():
                    return each
                better = min(better, each, key=Construction.worth)
            if better is best or self._trials.are_spent():
                break
            best = better
        return best

    def _next(self, best: Construction) -> Iterator[Construction]:
        """The same with one constraint more that is only measured."""
        for gone in self._candidates(best):
            for value in self._values(best, gone):
                if self._trials.are_spent():
                    return
                swaps = (*best.swaps, Swap(gone, value))
                yield self._trials.construction(best.chosen, swaps, self._x)

    def _candidates(self, best: Construction) -> list[Constraint]:
        """What may be only measured, in the order in which it is tried: what couldn't be spelled,
        then words that need a size, then the rest, and the later ones first."""
        gone = {id(each.gone) for each in best.swaps}
        left_out = set(map(id, best.left_out))

        def order(constraint: Constraint) -> tuple[bool, int]:
            kind = next((place for place, kind in enumerate(_FIRST)
                         if isinstance(constraint, kind)), len(_FIRST))
            return id(constraint) not in left_out, kind

        latest_first = (each for each in reversed(self._drawing.constraints)
                        if id(each) not in gone and not joins_points(each))
        return sorted(latest_first, key=order)[:MOST_TRIED]

    def _values(self, best: Construction, gone: Constraint) -> Iterator[Constraint]:
        """What may be told by its value once a constraint isn't said: the length of segments that
        are equal, or the unknown that is free. Nothing where nothing or more is free then."""
        equations = Equations(_with(self._drawing, best.chosen, (*best.swaps, Swap(gone))))
        if equations.unknowns.count != len(self._x):
            return
        free = freedom(equations, self._x)
        if free.ways() != 1:
            return
        yield from self._lengths(equations, free)
        column = next(told_best(equations.unknowns, free.free))
        yield value_of(equations.unknowns, column, self._x, NM)

    def _lengths(self, equations: Equations, free: Freedom) -> Iterator[Constraint]:
        """The common length of segments that are equal, of each such once."""
        unknowns, basis = equations.unknowns, wide(free.free, equations.unknowns.count)
        seen: set[str] = set()
        for each in self._drawing.constraints:
            if not (isinstance(each, Equal)
                    and isinstance(self._drawing.shape(each.first.name), Segment)):
                continue
            if basis is None or each.first.name in seen:
                continue
            seen |= {each.first.name, each.second.name}
            stretch = stretch_of(unknowns, each.first, self._x, basis)
            if stretch.is_telling(1e-3):
                yield Length(each.first, stretch.length_um(NM))
