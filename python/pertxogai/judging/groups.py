"""Against which others a dimension of a drawing that is over is too many, as the program's `why`
names them.

The group of a dimension is the least of the kept lines that it follows from: without any one of
them it wouldn't. What has to go beside it is left out before it, so it is in no group. A line may
be said by several of the designer's words; then all of them are named, but for those that by rank
it follows without. What is no line of the sketch is named with them where by rank the dimension
doesn't follow without it, as the direction of a side by which the lines were chosen; but for what
joins points. Of what asks several equations the program may leave out one alone, and of what is
several lines, or a line together with others, one that is another's too: then the group isn't that
of the dimension, and there is none."""
from __future__ import annotations

from collections.abc import Collection, Mapping, Sequence
from contextlib import suppress
from dataclasses import replace
from itertools import islice
from types import MappingProxyType

from pertxogai.drawing import Coincident, Concentric
from pertxogai.judging.freedoms import Freedoms, Twice, freedoms
from pertxogai.judging.jets import TooMany
from pertxogai.judging.naming import Names
from pertxogai.judging.trials import written_by
from pertxogai.program import Solver
from pertxogai.program.reports import CheckReport, WhyReport, read_why
from pertxogai.program.reports.why import WORK, work_of
from pertxogai.spelling.facts import Owner

MOST = 64
"""The most dimensions of which the group is asked for."""
TOGETHER = 8 * WORK
"""How much the program may have to do for all of them: some ten seconds."""


def groups_of(names: Names, program: Solver, numbers: Mapping[int, Collection[int]],
              check: CheckReport) -> Mapping[int, tuple[str, ...]]:
    """The others in the group of each of these dimensions, by its place: of the first of them, as
    many as are answered soon, and only where the program leaves a line of it out. numbers: each
    with those that go beside it. check: what the program says of the sketch. Raises
    ProgramError."""
    found: dict[int, frozenset[Owner]] = {}
    left = TOGETHER
    for number, beside in islice(numbers.items(), MOST):
        if work_of(check, False) > left:
            break
        order = _told_last(names, Owner(number), frozenset(map(Owner, beside)))
        report = _why(names, program, order)
        found[number] = _others(names, report, order, Owner(number))
        left -= work_of(check, report.stays_over())
    free = freedoms(names.drawing)
    told = {number: names.owners(others if free is None or not free.excess
                                 else _by_rank(names, free, number, others))
            for number, others in found.items()}
    return MappingProxyType({number: others for number, others in told.items() if others})


def _by_rank(names: Names, free: Freedoms, number: int,
             others: frozenset[Owner]) -> frozenset[Owner]:
    """Those of a group that by rank take part in something that is too much. Of a dimension, all of
    which follows from others, no more than are needed, and with them what is no line of the sketch
    and is needed too. None where not all of it follows from these, or where none of the group is
    needed: the rank alone says then what it follows from, and the program nothing."""
    found = others & free.among()
    if free.twice(number) is Twice.WHOLE:
        silent = free.among().difference(*names.spelled.owners)
        with suppress(TooMany):
            if not free.follows(number, others | silent):
                return frozenset()
            needed = _needed(free, number, found, silent)
            named = frozenset(each for each in needed if each in found or _is_named(names, each))
            return named if found & needed else frozenset()
    return found


def _is_named(names: Names, owner: Owner) -> bool:
    """Whether a group names a constraint that is no line of the sketch. It names neither the ends
    of an arc nor what joins points: in the sketch such points are one element."""
    return not owner.shape and not isinstance(
        names.drawing.constraints[owner.number - 1], (Coincident, Concentric))


def _needed(free: Freedoms, number: int, found: frozenset[Owner],
            silent: frozenset[Owner]) -> frozenset[Owner]:
    """Those of a group, and of what is no line of the sketch, without which a dimension wouldn't
    follow. The others, the latest of them first, take part in something else that is too much. What
    is no line of the sketch stands in for none of a group. Raises TooMany."""
    needed = found | silent
    for some in (silent - found, found):
        last_first = sorted((each for each in some if not each.shape),
                            key=lambda owner: owner.number, reverse=True)
        needed = _without_idle(free, number, needed, last_first)
    return needed


def _without_idle(free: Freedoms, number: int, needed: frozenset[Owner],
                  some: Sequence[Owner]) -> frozenset[Owner]:
    """Those of a set from which a dimension follows, without those of some, one after the other,
    without which it follows too. Where it follows without all of these, it does at each step, so
    that they are asked about at once. Raises TooMany."""
    if not some:
        return needed
    if free.follows(number, needed.difference(some)):
        return needed.difference(some)
    if len(some) == 1:
        return needed
    half = len(some) // 2
    fewer = _without_idle(free, number, needed, some[:half])
    return _without_idle(free, number, fewer, some[half:])


def _told_last(names: Names, owner: Owner, beside: frozenset[Owner]) -> Sequence[int]:
    """The places of the lines, last those of a dimension, and behind them those of what goes beside
    it: the program leaves the last ones out that it can."""
    owners = names.spelled.owners
    return sorted(range(len(owners)), key=lambda place: (
        owner in owners[place] or not beside.isdisjoint(owners[place]),
        owner not in owners[place]))


def _why(names: Names, program: Solver, order: Sequence[int]) -> WhyReport:
    """What `why` says of the lines in this order. Raises ProgramError."""
    lines = tuple(names.spelled.sketch.constraints[place] for place in order)
    text = replace(names.spelled.sketch, constraints=lines).text()
    return read_why(written_by(program, "why", text))


def _others(names: Names, report: WhyReport, order: Sequence[int], owner: Owner
            ) -> frozenset[Owner]:
    """The others in the group of a dimension."""
    owners = names.spelled.owners
    group: set[Owner] = set()
    for part in report.parts:
        for each in part.left_out:
            if owner in owners[order[each.number - 1]]:
                for number in (each.number, *each.because):
                    group |= owners[order[number - 1]]
    return frozenset(group - {owner})
