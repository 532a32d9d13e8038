"""The command Judge: what the program says of a sketch, and how far each constraint is off."""
from __future__ import annotations

from collections.abc import Iterator, Mapping
from dataclasses import dataclass, replace
from enum import Enum
from functools import cached_property

from pertxogai.drawing import words_of
from pertxogai.exits import MissingLibrary
from pertxogai.judging import (
    CountedDrawing, GoodJudgement, NotGood, Surplus, good_of, judge)
from pertxogai.judging.finding import PlacesBy
from pertxogai.judging.measure import Deviation, Limit, Unit, amount_text
from pertxogai.judging.remembering import Remembering
from pertxogai.output.drawing_text import drawing_lines
from pertxogai.output.finding_text import freedoms_text
from pertxogai.output.verdict_text import verdict_text
from pertxogai.program import Program, Solver
from pertxogai.program.reports import Verdict
from pertxogai_freecad.sketches import ReadSketch
from pertxogai_freecad.trouble import troubles

BY_NUMBERS = " (by numbers)"


class Standing(Enum):
    """How a constraint stands in its sketch; the values are shown."""

    HOLDS = "holds"
    OFF = "off"
    REDUNDANT = "redundant"
    CONFLICTING = "conflicting"
    MAY_GO = "removable"
    IN_PART = "redundant in part"
    """Some of what it says is redundant: a tangency at an end also says where the end lies."""
    LEFT_OUT = "left out"
    NOT_ASKED = "doesn't constrain"
    UNKNOWN = ""
    """The sketch isn't placed, and the constraint isn't removable."""


@dataclass(frozen=True)
class Row:
    """What is told of one constraint of FreeCAD's. index: FreeCAD's number, from 0. says: its
    words, or why it is left out. off: how far it is off, and who says so; empty where that isn't
    known."""

    index: int
    name: str
    says: str
    off: str
    standing: Standing


@dataclass(frozen=True)
class JudgedSketch:
    """A sketch of a document, judged."""

    read: ReadSketch
    judged: CountedDrawing
    program: Program

    @property
    def verdict(self) -> Verdict:
        """The program's verdict."""
        return self.judged.judgement.verdict

    @cached_property
    def good(self) -> GoodJudgement | NotGood:
        """What may be relied on of it, or why nothing may."""
        return good_of(self.judged)

    def headline(self) -> str:
        """The verdict, with the trade's word."""
        return f"{self.read.label} is {verdict_text(self.verdict)}"

    def freedoms(self) -> str:
        """How many degrees of freedom it has, and who says so."""
        if self.judged.finding is not None:
            return freedoms_text(self.judged.finding)
        return self.judged.not_searched or "degrees of freedom: not counted"

    def tolerance(self) -> str:
        """Within what the program places it."""
        judgement = self.judged.judgement
        if judgement.length_tolerance_nm is None:
            return "not placed by the program"
        angle_ppb = self._angle_ppb()
        return f"placed within {judgement.length_tolerance_nm} nm and {angle_ppb} ppb"

    def _angle_ppb(self) -> int:
        from pertxogai.judging.states import WithPlaces

        state = self.judged.judgement.state
        assert isinstance(state, WithPlaces)
        return state.angle_ppb

    def lines(self) -> Iterator[str]:
        """All that is told of it, as ./pertxogai judge tells it."""
        return drawing_lines(self.judged)

    def rows(self) -> tuple[Row, ...]:
        """What is told of each constraint, in FreeCAD's order."""
        return tuple(sorted(_rows(self), key=lambda each: each.index))


def judge_sketch(read: ReadSketch, program: Program, limit: Limit) -> JudgedSketch:
    """What the program says of a sketch, with its degrees of freedom by numbers. Raises Trouble."""
    found, asks = read.found, Remembering(program)
    with troubles():
        judgement = judge(found.drawing, asks, limit=limit)
        aside = tuple(f"{each.name} ({each.why.value})" for each in found.aside)
        judged = CountedDrawing(found.label, found.drawing, judgement, aside=aside, limit=limit)
        return JudgedSketch(read, _searched(judged, asks), program)


def _searched(judged: CountedDrawing, program: Solver) -> CountedDrawing:
    """The same with its degrees of freedom; without numpy or scipy, with what to install."""
    from pertxogai.search import search_judged

    try:
        finding = search_judged(judged.drawing, judged.judgement, program)
    except MissingLibrary as missing:
        return replace(judged, not_searched=str(missing))
    return replace(judged, finding=finding)


def _rows(judged: JudgedSketch) -> Iterator[Row]:
    read, found = judged.read, judged.read.found
    surplus = surplus_by_index(judged)
    for index in sorted({number - 1 for number in found.numbers}):
        numbers = read.numbers(index)
        says = "; ".join(words_of(read.drawing.constraints[each - 1]) for each in numbers)
        name = read.drawing.called(numbers[0])
        if index in surplus:
            yield Row(index, name, says, *of_surplus(read, surplus[index]))
        else:
            yield Row(index, name, says, *_measured(judged, numbers))
    for each in found.aside:
        yield Row(each.number - 1, each.name, each.why.value, "", Standing.NOT_ASKED)
    yield from (Row(each.number - 1, each.what, each.why, "", Standing.LEFT_OUT)
                for each in found.left_out if each.number is not None)


def surplus_by_index(judged: JudgedSketch) -> Mapping[int, Surplus]:
    """What may go by FreeCAD's numbers; of a constraint that is several in the drawing the
    first."""
    found: dict[int, Surplus] = {}
    for each in judged.judged.surplus():
        found.setdefault(judged.read.index(each.number), each)
    return found


def of_surplus(read: ReadSketch, each: Surplus) -> tuple[str, Standing]:
    """How far a constraint of FreeCAD's is off that may go, and how it stands to the others."""
    if len(read.numbers(read.index(each.number))) > 1:
        return "", Standing.IN_PART
    standing = {True: Standing.REDUNDANT, False: Standing.CONFLICTING, None: Standing.MAY_GO}
    return amount_text(each.off) if each.off is not None else "", standing[each.repeats()]


def _measured(judged: JudgedSketch, numbers: tuple[int, ...]) -> tuple[str, Standing]:
    """How far a constraint is off on the places, and who has placed them."""
    of = judged.judged
    placed = of.judgement.deviations
    deviations = placed or (of.finding.deviations if of.finding else ())
    mine = [each for each in deviations if each.number in numbers]
    if not mine:
        return "", Standing.UNKNOWN
    by = BY_NUMBERS if not placed and of.places_by() is PlacesBy.NUMBERS else ""
    off = next(of.limit.beyond(mine), None)
    standing = Standing.HOLDS if off is None else Standing.OFF
    return amount_text(off or _greatest(mine)) + by, standing


def _greatest(deviations: list[Deviation]) -> Deviation:
    """The greatest deviation of one constraint: that in nanometres, before that of an angle."""
    of_length = [each for each in deviations if each.unit is Unit.NM]
    return max(of_length or deviations, key=lambda each: each.amount)
