"""What the program answers on a document: the judgement, its plan, its other shapes, its claim."""
from __future__ import annotations

from dataclasses import dataclass, field
from functools import cached_property
from typing import TYPE_CHECKING
from uuid import uuid4

from pertxogai.board.construction import PlayedConstruction
from pertxogai.board.drawing_json import Sight
from pertxogai.board.judgement_json import places_shown
from pertxogai.board.panel import Untold
from pertxogai.board.held import redrawn
from pertxogai.board.placed_parts import LaidPart, parts_laid, shown_between
from pertxogai.board.protocol import Judgement as JudgementJson, Places
from pertxogai.drawing import Drawing, Parameter, Place, um_of_mm
from pertxogai.exits import MissingLibrary
from pertxogai.judging import (
    DrawingRefused, Judgement, TooMuch, WeighedJudgement, too_much, weighed, with_choices)
from pertxogai.judging.edited import EditedDrawing
from pertxogai.judging.finding import Finding
from pertxogai.judging.judged_drawing import JudgedDrawing
from pertxogai.judging.judgement import judge_edited
from pertxogai.judging.measure import Solution
from pertxogai.judging.measure.solution import MissingPlace
from pertxogai.judging.settled import solution_of
from pertxogai.judging.shortage import shortage_of
from pertxogai.language import NotHeld, Refusal
from pertxogai.language.claim import Claim
from pertxogai.language.flips import Flip, Flips
from pertxogai.output.construction import Construction
from pertxogai.output.picture.drawings import DrawnPlaces
from pertxogai.output.placed_elements import elements_placed
from pertxogai.program import ProgramError, Solver, Status
from pertxogai.program.reports import (
    ClaimFails, Flipped, Plan, Refused, Shape, Solved, Verdict, Verified, read_answer, read_flips,
    read_plan, read_verify)
from pertxogai.search import check_libraries, search, searched_within

if TYPE_CHECKING:
    from pertxogai.ranging import Range, Ranging
    from pertxogai.search.searched import Searched

SEARCH_SECONDS = 0.5
"""Seconds of a processor after which a shape for what is open isn't looked for any more."""


NOT_PLACED = "the drawing isn't well and placed, so there is nothing to show"


class NotPlaced(Exception):
    """What is asked for needs a drawing that is well and placed. The message is one line."""


@dataclass
class BoardDrawing:
    """A drawing and the judgement on it, by a program that is asked for more. sight, told: what
    the page was told of it last, and of the judgement on it; None where that was trouble. name:
    that of what is told so; of the same text another worker may find another shape, or none in
    time."""

    edited: EditedDrawing
    program: Solver
    sight: Sight | None = None
    told: JudgementJson | None = None
    name: str = field(default_factory=lambda: uuid4().hex)
    rangings: dict[tuple[str, ...], Ranging] = field(default_factory=dict)
    ranges: dict[Parameter, Range] = field(default_factory=dict)

    @property
    def drawing(self) -> Drawing:
        """The drawing."""
        return self.edited.drawing

    @cached_property
    def judgement(self) -> Judgement:
        """The judgement, in which what may go isn't measured. Raises ProgramError, Refusal,
        NotHeld."""
        return judge_edited(self.edited, self.program)

    def ranging(self, left_out: tuple[str, ...]) -> Ranging:
        """What finds its ranges. left_out: what its file has and it can't say. Raises NoRange, and
        as `judgement`."""
        from pertxogai.ranging import Ranging

        if left_out not in self.rangings:
            self.rangings[left_out] = Ranging.of(
                self.drawing, self.program, self.judgement.limit, left_out)
        return self.rangings[left_out]

    def range_of(self, of: Parameter, left_out: tuple[str, ...]) -> Range:
        """The range of a value or a dimension, found once. Raises as `ranging`."""
        ranging = self.ranging(left_out)
        if of not in self.ranges:
            self.ranges[of] = ranging.range_of(of)
        return self.ranges[of]

    @cached_property
    def too_much(self) -> TooMuch | Untold:
        """Where the drawing is over, what is left out of it, or why that can't be told. Raises as
        `judgement`."""
        if self.judgement.verdict is not Verdict.OVER:
            return TooMuch(())
        known = () if isinstance(self.weighing, Untold) else self.weighing.surplus
        dispensable = {each.number for each in known if each.off is not None}
        try:
            return too_much(self.judgement.names, self.program, dispensable)
        except ProgramError as error:
            return Untold.by(error)

    @cached_property
    def weighing(self) -> WeighedJudgement | Untold:
        """The judgement with what may go measured, and with what comes of other choices where it
        is well and isn't met, or why that can't be told. Raises as `judgement`."""
        judgement = self.judgement
        try:
            return with_choices(weighed(judgement, self.program), self.program)
        except ProgramError as error:
            return Untold.by(error)

    @property
    def weighed(self) -> Judgement:
        """The judgement, with what may go measured, and what comes of other choices, where the
        program does that. Raises as `judgement`."""
        return self.judgement if isinstance(self.weighing, Untold) else self.weighing

    def with_file(self, judgement: Judgement, left_out: tuple[str, ...]) -> JudgedDrawing:
        """The drawing with a judgement on it, and what of its file it can't say; of what is open,
        with the shape that is shown."""
        return JudgedDrawing("", self.drawing, judgement, left_out, finding=self.finding,
                             not_searched=self.not_searched)

    @property
    def text(self) -> str:
        """The drawing in the language."""
        return self.judgement.asked.spelled.sketch.text()

    @cached_property
    def searched(self) -> Searched | None:
        """What was searched of what is open; None of all else, without numpy or scipy, and where no
        shape was found that meets all that is asked."""
        if self.judgement.verdict is not Verdict.OPEN:
            return None
        try:
            found = searched_within(self.drawing, SEARCH_SECONDS)
        except MissingLibrary:
            return None
        return found if found.is_met() else None

    @cached_property
    def finding(self) -> Finding | None:
        """What was found so."""
        if self.searched is None:
            return None
        return self.searched.finding(
            measured=lambda solution: self.edited.measured(solution).all)

    @cached_property
    def constructed(self) -> Finding | None:
        """What was found, with the program's places where it constructs the drawing by values that
        were found."""
        if self.searched is None:
            return None
        return self.searched.finding_with(self.judgement, self.program)

    @cached_property
    def clashing(self) -> Finding | None:
        """What can't all be met of what is open, by a search as long as that of `judge`, where none
        on the board found a shape; None where this one finds a shape, which isn't shown."""
        is_open = self.judgement.verdict is Verdict.OPEN
        if not is_open or self.not_searched or self.searched is not None:
            return None
        finding = search(self.drawing)
        return finding if finding.solution is None else None

    @property
    def not_searched(self) -> str:
        """Why no shape is looked for of what is open; empty where one is."""
        if self.judgement.verdict is not Verdict.OPEN:
            return ""
        try:
            check_libraries()
            return ""
        except MissingLibrary as error:
            return str(error)

    @cached_property
    def parts(self) -> tuple[LaidPart, ...]:
        """Where the drawing is open, and no shape of all of it is found, each part laid on it."""
        if self.judgement.verdict is not Verdict.OPEN or self.searched is not None:
            return ()
        return parts_laid(self.judgement, self.program)

    def shown(self) -> Solution | None:
        """Where all is shown: as it is placed, as a shape of what is open was found, or as its
        parts are laid; None for where it is drawn."""
        if self.finding is not None:
            return self.finding.solution
        if self.judgement.solution is None and self.parts:
            return shown_between(self.drawing, self.parts)
        return self.judgement.solution

    def as_shown(self) -> Drawing:
        """The drawing with its places where it is shown; as it is drawn where nothing is known of
        these."""
        try:
            where = DrawnPlaces(self.drawing, self.shown())
            return redrawn(self.drawing, lambda ref: Place(*map(um_of_mm, where.at(ref))),
                           lambda name: um_of_mm(where.radius(name)))
        except (ProgramError, DrawingRefused, Refusal, NotHeld, MissingPlace):
            return self.drawing

    def placed(self, before: BoardDrawing | None) -> Places | None:
        """Where all lies as it is placed, as the page is told it; as it was told of a drawing
        before, where all of that is placed so."""
        solution = self.judgement.solution
        if before and before.told and solution == before.judgement.solution:
            return before.told["placed"]
        return None if solution is None else places_shown(DrawnPlaces(self.drawing, solution))

    def solution(self) -> Solution:
        """Where it is placed. Raises NotPlaced."""
        if self.judgement.solution is None:
            raise NotPlaced(NOT_PLACED)
        return self.judgement.solution

    def solved(self) -> Solved:
        """The places, as the program has printed them. Raises NotPlaced."""
        solved = self.judgement.asked.solved
        if not isinstance(solved, Solved) or self.judgement.solution is None:
            raise NotPlaced(NOT_PLACED)
        return solved

    @cached_property
    def plan(self) -> Plan:
        """The plan of what is well. Raises NotPlaced."""
        if self.judgement.verdict is not Verdict.WELL:
            raise NotPlaced("the drawing isn't well, so it has no construction")
        return read_plan(self.program.ask(["plan"], self.text).text)

    @cached_property
    def short(self) -> str:
        """By how much the dimensions beneath a fault miss each other; empty where there is no
        fault, or that isn't known. Raises as `judgement`."""
        return shortage_of(self.judgement, self.program)

    def construction(self) -> PlayedConstruction:
        """The steps to be watched. Raises NotPlaced."""
        placed = elements_placed(self.judgement, self.solved())
        return PlayedConstruction(Construction(self.judgement, self.plan, placed))

    def flipped(self, steps: tuple[int, ...]) -> Solution | Flipped:
        """Where the other shape lies, in which the choices of these steps are turned over; else
        what the program answers instead. Raises NotPlaced, Refusal."""
        self.solution()
        text = Flips(self.judgement.asked.spelled.sketch, (Flip(steps),)).text()
        report = self.program.ask(["flips", f"place={self.judgement.place.value}"], text)
        if report.status is not Status.DONE:
            refused = read_answer(("flips",), report)
            raise Refusal(refused) if isinstance(refused, Refused) else NotPlaced(report.text)
        (answer,) = read_flips(report.text)
        if not isinstance(answer.answer, Shape):
            return answer
        return solution_of(self.drawing, self.judgement.asked, answer.answer)

    def claim(self) -> Claim:
        """What is shown, as a claim. Raises NotPlaced."""
        solved = self.solved()
        return Claim(self.judgement.asked.spelled.sketch, self.plan.steps, solved.places,
                     solved.length_tolerance_nm, solved.angle_tolerance_ppb)

    def verified(self) -> Verified | ClaimFails:
        """What the program says of that claim. Raises NotPlaced."""
        return read_verify(self.program.ask(["verify"], self.claim().text()).text)
