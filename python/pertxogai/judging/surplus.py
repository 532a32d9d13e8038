"""What may go of a drawing that is over: what the designer may take away so that less is said
twice, by the rank of what the drawing says. Each is tried: the program is asked what the rest is
then, and how far the one is off is measured where the rest is placed."""
from __future__ import annotations

from collections.abc import Collection, Iterable, Iterator, Sequence
from contextlib import suppress
from dataclasses import dataclass, replace
from enum import Enum
from fractions import Fraction

from pertxogai.drawing import ORIGIN, Coincident, Constraint, Drawing
from pertxogai.drawing.places import NM_PER_UM
from pertxogai.exact import whole_up
from pertxogai.judging.finding import Finding, Group
from pertxogai.judging.freedoms import Freedoms, Gone, Twice, freedoms
from pertxogai.judging.measure.deviation import Deviation, Unit, greatest
from pertxogai.judging.measure.limit import ROUNDING_NM, Limit, amount_text, is_direction
from pertxogai.judging.measure.measuring import Deviations, measure, measure_one
from pertxogai.judging.naming import quoted
from pertxogai.judging.pieces_measured import (
    are_met_in_a_piece, has_lost, is_lost_in_pieces, off_in_pieces)
from pertxogai.judging.remembering import Remembering
from pertxogai.judging.roundings import (
    most_by_rounding, moved_by_rounding, rounded_lines)
from pertxogai.judging.settled import solution_of
from pertxogai.judging.trials import (
    Question, Trial, finer, first_good, told_by, written_by)
from pertxogai.program import Answer, Solver
from pertxogai.program.reports import Solved, Verdict, read_spare
from pertxogai.spelling import Axes, Spelled, axes_said
from pertxogai.spelling.facts import Owner

CALLS = 2000
"""The most calls of the program for it."""
ROUNDING_WORK = 20_000
"""The most constraints of the rests that are asked for with rounded values told otherwise; how far
rounding moves what is left isn't known then."""
WORK, TRIAL = 8000, 30
"""The most constraints over all drawings that are tried, and how many more each drawing counts as;
what is left is listed untried."""


class Then(Enum):
    """What the rest is without a dimension."""

    WELL = "well"
    NOT_GOOD = "well, but not good"
    """A constraint is off where the rest is placed, as a distance of edges that aren't parallel."""
    NO_PLACES = "well, but it has no places"
    OPEN = "open"
    OVER = "over still"
    """Another dimension has to be removed too."""


@dataclass(frozen=True)
class Surplus:
    """A removable dimension, what the rest is without it, and its deviation where the rest is
    placed: it is redundant if that is within the limit. off: None if the rest has no positions, or
    if more is free without the dimension. then: None if it wasn't tried. others: those that it
    follows from or conflicts with, as the program names them, and with them what is no line of the
    sketch and by rank is needed too. rounding: by how much the rounded values of the rest change
    `off`, in the same unit."""

    number: int
    name: str
    off: Deviation | None
    then: Then | None = None
    limit: Limit = Limit()
    others: tuple[str, ...] = ()
    """Those that it follows from, as the program names them, of those that by rank take part in
    something that is too many; none where it wasn't asked, keeps it, or doesn't name enough."""
    rounding: int = 0
    in_part: bool = False
    """Whether the others say only a part of it, by rank."""
    beside: frozenset[int] = frozenset()
    """The places of the others that were left out when it was measured, since more than one has to
    go. Its group is one without these."""
    beyond: Deviation | None = None
    """What of the rest is off the most, by its place in the drawing, where the rest isn't good."""
    lacks: bool = False
    """Whether the rest is open once those of `beside` have gone with it; where by rank something is
    missing all the same, whether more is free then."""

    def rest(self, drawing: Drawing) -> str:
        """What the rest is without it, for people to read; empty if it wasn't tried."""
        if self.then is Then.OVER and self.lacks:
            return f"{self.then.value}, and open once enough is removed"
        if self.then is None or self.beyond is None:
            return "" if self.then is None else self.then.value
        off = f"{quoted(self.beyond.called(drawing))} is off by {amount_text(self.beyond)}"
        return f"{self.then.value}: {off}"

    def repeats(self) -> bool | None:
        """Whether it is redundant; None if that can't be told."""
        if self.off is None or self.may_be_rounding():
            return None
        return self.off.amount <= self.limit.amount

    def others_by_numbers(self, finding: Finding | None) -> Group:
        """The others of its group, by numbers: of the group that the search found for it, or of the
        only one with it. None if the program names some, or if its deviation isn't known."""
        if finding is None or self.others or self.off is None:
            return ()
        groups = {True: finding.repeats, False: finding.contradictions, None: finding.in_doubt}
        with_it = [group for group in groups[self.repeats()] if self.name in group]
        its_own = [group for group in with_it if group[0] == self.name]
        found = its_own[:1] or (with_it if len(with_it) == 1 else [])
        return tuple(name for group in found for name in group if name != self.name)

    def untold(self) -> Surplus:
        """The same, without how far it is off."""
        return replace(self, off=None, rounding=0)

    def opens(self) -> bool:
        """Whether more is missing without it, and without what has to go beside it."""
        return self.lacks

    def may_be_rounding(self) -> bool:
        """Whether rounded values move its deviation past the limit, so that it isn't known whether
        it is redundant."""
        if self.off is None:
            return False
        least, most = self.off.amount - self.rounding, self.off.amount + self.rounding
        return least <= self.limit.amount < most


def what_may_go(question: Question, asked: Trial) -> tuple[Surplus, ...]:
    """What may go of a drawing that is over by what was asked of it: contradictions first, those
    that are off by least before others. Where the rank can't be told, what the program names.
    Raises ProgramError."""
    drawing = question.drawing
    free = freedoms(drawing)
    if free is None:
        return untried_surplus(drawing, spare_at_once(drawing, asked, question.program))
    numbers = _spare_by_rank(drawing, free)
    trials = _Trials(question, free)
    with suppress(_Enough):
        trials.try_all(numbers)
    untried = [number for number in numbers if number not in trials.found]
    found = [*trials.found.values(), *untried_surplus(drawing, untried)]
    return tuple(sorted(_consistent(found, free.excess, trials), key=_order))


def untried_surplus(drawing: Drawing, numbers: Iterable[int]) -> tuple[Surplus, ...]:
    """Dimensions that weren't tried."""
    return tuple(Surplus(number, drawing.called(number), None) for number in numbers)


def _spare_by_rank(drawing: Drawing, free: Freedoms) -> list[int]:
    """The constraints without which less is said twice where all others hold but lengths; one
    without which a corner comes apart only where there is no other. A direction that only holds
    others straight says nothing twice, so it is none of these."""
    numbers = [number for number in range(1, len(drawing.constraints) + 1) if free.fewer([number])]
    others = [number for number in numbers
              if not (_is_corner(drawing, number) and free.freed([number]))]
    return others or numbers


def _is_corner(drawing: Drawing, number: int) -> bool:
    """Whether a constraint joins points of two shapes."""
    joins = drawing.constraints[number - 1]
    return isinstance(joins, Coincident) and ORIGIN not in (joins.first, joins.second)


def _consistent(found: Sequence[Surplus], excess: int, trials: _Trials) -> Iterator[Surplus]:
    """What may go. Where one alone is too much and one repeats the rest, so do all; so does what
    holds together somewhere: one that is off by more is so on another shape of its rest, and that
    isn't told; nor is what idle ones are off."""
    repeats = excess == 1 and any(each.repeats() for each in found)
    for each in found:
        elsewhere = each.repeats() is False and (repeats or each.number in trials.met)
        is_told = not elsewhere and each.number not in trials.idle
        yield each if is_told else each.untold()


def where_all_hold(found: Iterable[Surplus]) -> tuple[Surplus, ...]:
    """What may go of a drawing of which all constraints hold together somewhere: what is off by
    more is so on another shape of its rest, and that isn't told."""
    told = (each.untold() if each.repeats() is False else each for each in found)
    return tuple(sorted(told, key=_order))


def _order(each: Surplus) -> tuple[bool, int, int, int]:
    """Contradictions, by how far they are off; then what isn't measured; then repeats. Behind all
    of these what leaves a rest that isn't good."""
    kind = {False: 0, None: 1, True: 2}[each.repeats()]
    off = each.off.amount if each.off is not None and not kind else 0
    return each.then is Then.NOT_GOOD, kind, off, each.number


def spare_at_once(drawing: Drawing, asked: Trial, program: Solver) -> list[int]:
    """The places of the constraints that the program calls spare in one spelling, but for those
    that are needed by rank."""
    owners = _spare(asked.spelled, program).union(*_circuits(asked.axes))
    numbers = sorted({owner.number for owner in owners if owner.number and not owner.shape})
    free = freedoms(drawing)
    if free is None:
        return numbers
    return [number for number in numbers if free.fewer([number])]


def _spare(spelled: Spelled, program: Solver) -> set[Owner]:
    spare = read_spare(written_by(program, "spare", spelled.sketch.text()))
    return {owner for each in spare for owner in spelled.owners[each.number - 1]}


def _circuits(axes: Axes) -> list[frozenset[Owner]]:
    """Who tells again what others tell, with these others, of each that tells nothing new."""
    found = [equation.owners.union(*(axes.equations[mark].owners for mark in told.marks))
             for equation, told in axes.surplus()]
    return found + [axes.directions.owners(leans.first, leans.second) | {leans.owner}
                    for leans in axes.conflicts()]


class _Enough(Exception):
    """The program was called as often as may be, or enough was tried."""


class _Counted:
    """A program that may be called `CALLS` times."""

    def __init__(self, program: Solver) -> None:
        self._program = program
        self._left = CALLS

    def ask(self, words: Sequence[str], text: str) -> Answer:
        """What the program answers. Raises _Enough."""
        self._left -= 1
        if self._left < 0:
            raise _Enough
        return self._program.ask(words, text)


class _Trials:
    """A drawing that is over, tried without some of its constraints: each rest once, as that of a
    line that stands many times. found: what may go, by its place. idle: the places of those that
    hold where another of the rest is off, which says nothing, as of the direction of an edge that
    has shrunk to nothing. met: those that hold somewhere with all that they take part with in what
    is too many."""

    def __init__(self, question: Question, free: Freedoms) -> None:
        self.drawing, self.free, self.limit = question.drawing, free, question.limit
        self.program = _Counted(Remembering(question.program))
        self.found: dict[int, Surplus] = {}
        self.idle: set[int] = set()
        self.met: set[int] = set()
        self._known: dict[tuple[Constraint, ...], Trial] = {}
        self._fine: dict[tuple[Constraint, ...], Trial] = {}
        self._stay: frozenset[int] = frozenset()
        self._work, self._rounding_work = WORK, ROUNDING_WORK

    def try_all(self, numbers: Sequence[int]) -> None:
        """Tries the rest without each of some constraints, and without some of the last that are
        too many beside it; and then how far rounding moves what is off. Raises _Enough."""
        last = self._last(numbers)
        self._stay = self._may_stay(last.numbers)
        for number in dict.fromkeys((*last.numbers, *numbers)):
            self.found[number] = self._try(number, self._others(number, last))
        for number in numbers:
            tried = self.found[number]
            self.found[number] = self._with_rounding(tried, tried.beside | {number})

    def _last(self, numbers: Sequence[int]) -> Gone:
        """The last constraints without which nothing is said twice, and nothing more is free where
        there are such."""
        gone = Gone(self.free)
        for may_free in (False, True):
            for number in reversed(numbers):
                if number not in gone.numbers:
                    gone.take(number, may_free)
        return gone

    def _may_stay(self, last: Sequence[int]) -> frozenset[int]:
        """Those of the last constraints that are too many by rank and not by the program: it is
        told once what a line says that goes on from another's end and is collinear with it. None of
        so many that no work would be left to try any."""
        stay: frozenset[int] = frozenset()
        if len(last) * (TRIAL + len(self.drawing.constraints)) > WORK // 2:
            return stay
        for number in last:
            gone = frozenset(last) - stay - {number}
            if gone and self._without(gone).verdict is not Verdict.OVER:
                stay |= {number}
        return stay

    def _others(self, number: int, last: Gone) -> frozenset[int]:
        """Those of the last that have to go beside a constraint, if it isn't enough: all but one of
        those that may stay then, one that contradicts the others before one that repeats them, and
        else the nearest. So what is in the groups of both is measured against what contradicts."""
        if self.free.fewer([number]) == self.free.excess:
            return frozenset()
        stays = min(last.instead(number), key=lambda other: (
            other not in self.found or self.found[other].repeats() is not False,
            abs(other - number)))
        return frozenset(last.numbers) - {stays, number} - self._stay

    def _try(self, number: int, others: frozenset[int]) -> Surplus:
        """What is to be said of a constraint that goes beside others."""
        gone = others | {number}
        asked, is_freed = self._without(gone), bool(self.free.freed(gone))
        off = None
        if asked.verdict is not Verdict.OVER and not is_freed:
            off = self.limit.told(self._off(number, gone, asked))
        beyond = self._beyond(frozenset({number}))
        then = _then(self._without(frozenset({number}))) if beyond is None else Then.NOT_GOOD
        lacks = asked.verdict is Verdict.OPEN and (is_freed or not self.free.lacks)
        return self._noted(Surplus(number, self.drawing.called(number), off, then, self.limit,
                                   in_part=self.free.twice(number) is Twice.IN_PART, beside=others,
                                   beyond=beyond, lacks=lacks), gone)

    def _beyond(self, gone: frozenset[int]) -> Deviation | None:
        """What is off the most where the rest without some constraints is placed, by more than the
        limit: by its place in the drawing. Raises _Enough."""
        rest = without(self.drawing, gone)
        most = self._off_the_most(rest, self._without(gone))
        if most is not None and self._without(gone).spelled.near:
            self._spend_on(rest)
            most = self._off_the_most(rest, self._without_finely(gone))
        if most is None or most.number is None:
            return most
        return replace(most, number=self._kept(gone)[most.number - 1])

    def _kept(self, gone: frozenset[int]) -> list[int]:
        """The places of the constraints of a rest in the drawing."""
        return [number for number in range(1, len(self.drawing.constraints) + 1)
                if number not in gone]

    def _off_the_most(self, rest: Drawing, asked: Trial) -> Deviation | None:
        """What of a rest is off the most where it is placed, by more than the limit."""
        if asked.verdict is not Verdict.WELL or not isinstance(asked.solved, Solved):
            return None
        found = [*self.limit.beyond(measure(rest, solution_of(rest, asked, asked.solved)))]
        return greatest(found, Unit.NM) or greatest(found, Unit.PPB)

    def _without(self, gone: frozenset[int]) -> Trial:
        """What the program says of the drawing without some constraints. Raises _Enough."""
        rest = without(self.drawing, gone)
        if rest.constraints not in self._known:
            self._spend_on(rest)
            self._known[rest.constraints] = first_good(
                Question(rest, self.program, self.limit), quick=True)
        return self._known[rest.constraints]

    def _without_finely(self, gone: frozenset[int]) -> Trial:
        """The same with its angles told as finely as can be. Raises _Enough."""
        rest = without(self.drawing, gone)
        if rest.constraints not in self._fine:
            self._fine[rest.constraints] = finer(
                Question(rest, self.program, self.limit), self._without(gone))
        return self._fine[rest.constraints]

    def _spend_on(self, rest: Drawing) -> None:
        """Counts a rest that is tried. Raises _Enough where they are too many."""
        self._work -= TRIAL + len(rest.constraints)
        if self._work < 0 and self._known:
            raise _Enough

    def _off(self, number: int, gone: frozenset[int], asked: Trial) -> Deviations:
        """How far a constraint is off on the places of the rest, or of a piece of it."""
        if asked.verdict is Verdict.OPEN:
            return (off_in_pieces(self.drawing, number, asked, self.program)
                    or self._off_by_sums(number, gone))
        if not isinstance(asked.solved, Solved):
            return ()
        places = solution_of(without(self.drawing, gone), asked, asked.solved)
        return measure_one(self.drawing, places, number)

    def _with_rounding(self, tried: Surplus, gone: frozenset[int]) -> Surplus:
        """The same, of what is off by no more than rounding is looked at for, where the angles of
        the rest are told as finely as can be; and by how much its other rounded values move
        that."""
        if tried.off is None or tried.off.amount > most_by_rounding(self.drawing, tried.off):
            return tried
        asked, off = self._measured_finely(tried.number, tried.off, gone)
        lines = self._rounded_lines(asked.spelled, gone)
        self._spend_on_rounding(2 * len(lines))
        rounding = moved_by_rounding(asked.spelled, lines, off, lambda spelled: greatest(
            self._off(tried.number, gone, told_by(asked, spelled, self.program)), off.unit))
        return self._noted(replace(tried, off=off, rounding=rounding), gone)

    def _noted(self, tried: Surplus, gone: frozenset[int]) -> Surplus:
        """The same, noted where it holds idly, or with all that it takes part with."""
        if not tried.repeats():
            return tried
        if self._beyond(gone) or self._is_lost(tried.number, gone):
            self.idle.add(tried.number)
        elif tried.beside and self._are_met(company := self.free.company(tried.number), gone):
            self.met |= company
        return tried

    def _are_met(self, numbers: Collection[int], gone: frozenset[int]) -> bool:
        """Whether some constraints hold on the places of a rest, or on one piece of it."""
        asked = self._without(gone)
        if asked.verdict is Verdict.OPEN:
            return are_met_in_a_piece(self.drawing, numbers, asked, self.program, self.limit)
        if not isinstance(asked.solved, Solved):
            return False
        places = solution_of(without(self.drawing, gone), asked, asked.solved)
        return not any(any(self.limit.beyond(measure_one(self.drawing, places, each)))
                       for each in numbers)

    def _is_lost(self, number: int, gone: frozenset[int]) -> bool:
        """Whether a constraint was measured where an edge has come to nothing."""
        asked = self._without(gone)
        if asked.verdict is Verdict.OPEN:
            return is_lost_in_pieces(self.drawing, number, asked, self.program)
        return isinstance(asked.solved, Solved) and has_lost(
            self.drawing, solution_of(without(self.drawing, gone), asked, asked.solved))

    def _measured_finely(self, number: int, off: Deviation,
                         gone: frozenset[int]) -> tuple[Trial, Deviation]:
        """What the program says of a rest with its angles told as finely as can be, and how far a
        constraint is off there; as it was measured, where none of them takes part."""
        asked = self._without(gone)
        if set(asked.spelled.near).isdisjoint(self._rounded_lines(asked.spelled, gone)):
            return asked, off
        self._spend_on_rounding(1)
        fine = self._without_finely(gone)
        there = self.limit.told(self._off(number, gone, fine))
        return (asked, off) if there is None else (fine, there)

    def _spend_on_rounding(self, rests: int) -> None:
        """Counts the rests that are asked for. Raises _Enough where they are too many."""
        self._rounding_work -= rests * len(self.drawing.constraints)
        if self._rounding_work < 0:
            raise _Enough

    def _rounded_lines(self, spelled: Spelled, gone: frozenset[int]) -> list[int]:
        """The lines of a rest of which the value was rounded, and of whose words one by rank takes
        part in something that is too many; from 1."""
        kept = self._kept(gone)
        among = {each if each.shape else Owner(kept.index(each.number) + 1)
                 for each in self.free.among() if each.shape or each.number not in gone}
        return [line for line in rounded_lines(spelled)
                if not among.isdisjoint(spelled.owners[line - 1])]

    def _off_by_sums(self, number: int, gone: frozenset[int]) -> Deviations:
        """How far a constraint is off what the rest says of x and y; nothing where that doesn't
        tell all that it says, as by which angle a direction is off."""
        others = gone - {number}
        owner = Owner(number - sum(other < number for other in others))
        rest = axes_said(without(self.drawing, gone)).system
        said = axes_said(without(self.drawing, others)).equations
        values = [rest.reduced(each.form) for each in said if owner in each.owners]
        if not values or any(each.terms for each in values):
            return ()
        off_um = max(max(each.number, -each.number) for each in values)
        off_nm = whole_up(Fraction(off_um) * NM_PER_UM)
        of = self.drawing.constraints[number - 1]
        if is_direction(of) and ROUNDING_NM < off_nm <= self.limit.amount:
            return ()
        return Deviation(number, of, off_nm, Unit.NM),


def _then(asked: Trial) -> Then:
    """What a rest is by what was asked of it."""
    if asked.verdict is Verdict.WELL:
        return Then.WELL if isinstance(asked.solved, Solved) else Then.NO_PLACES
    return Then.OPEN if asked.verdict is Verdict.OPEN else Then.OVER


def without(drawing: Drawing, gone: Collection[int]) -> Drawing:
    """The drawing without the constraints of these places, from 1."""
    return Drawing(drawing.geometry, tuple(
        each for number, each in enumerate(drawing.constraints, 1) if number not in gone))
