"""What the program says of a completed drawing: whether it is well and placed, and stays so where a
value is a little more or less."""
from __future__ import annotations

from collections.abc import Iterator, Sequence
from dataclasses import dataclass, replace
from fractions import Fraction

from pertxogai import language
from pertxogai.completing.proposal import MOST_SECONDS
from pertxogai.drawing import (
    AngleBetween, Constraint, Degrees, Diameter, Distance, Drawing, Length, PointLineDistance,
    Radius, XDistance, YDistance)
from pertxogai.judging import (
    DrawingRefused, JudgedDrawing, Names, PlaceBy, Question, Trial, first_good, reasons_against)
from pertxogai.judging.edited import EditedDrawing
from pertxogai.judging.judgement import judge_trial
from pertxogai.judging.limits import check_fits
from pertxogai.judging.measure import Limit
from pertxogai.judging.remembering import Remembering
from pertxogai.judging.trials import written_by
from pertxogai.judging.within import Wider, within
from pertxogai.language import NotHeld, Refusal
from pertxogai.program import Solver, Status
from pertxogai.program.reports import Solved, Verdict, read_parts
from pertxogai.search.budget import spent_seconds

MOST_ASKED = 400
"""The most drawings of which the program is asked."""
ROOM = (Fraction(101, 100), Fraction(99, 100))
"""How many times as large a value is tried."""
ROOM_DEGREES = (Fraction(1, 2), Fraction(-1, 2))
"""How many degrees more an angle is tried."""
Valued = (Length, Distance, XDistance, YDistance, PointLineDistance, Radius, Diameter)


@dataclass(frozen=True)
class State:
    """What the program says of a drawing. lacks: how many of the constraints that its spelled
    sketch needs are missing, by the counts of the program's report. left_out: how many constraints
    couldn't be spelled. unplaced: how many of its parts have no places; None where that wasn't
    asked."""

    verdict: Verdict
    is_placed: bool
    lacks: int
    left_out: int
    unplaced: int | None = None

    @staticmethod
    def of(trial: Trial) -> State:
        """What a trial says."""
        check = trial.check
        return State(trial.verdict, isinstance(trial.solved, Solved),
                     0 if check is None else 2 * check.elements - 3 - check.constraints,
                     len(trial.spelled.left_out))

    def is_better_than(self, before: State) -> bool:
        """Whether less is missing, and nothing is lost."""
        if self.verdict is Verdict.OVER or self.left_out > before.left_out:
            return False
        if before.unplaced is not None and (self.unplaced or 0) > before.unplaced:
            return False
        return self.is_placed or self.verdict is Verdict.OPEN and self.lacks < before.lacks


@dataclass(frozen=True)
class Tried:
    """A drawing with what was worked out of it, and what the program says of it; None where it
    takes no such drawing."""

    edited: EditedDrawing
    trial: Trial | None


class Trials:
    """Tries drawings of the same shapes by the program, within a number of them, and until so many
    seconds of a processor are spent: so a busy machine finds the same."""

    def __init__(self, program: Solver, limit: Limit, seconds: float = MOST_SECONDS) -> None:
        self._program, self._limit = Remembering(Wider(program, limit)), limit
        self._left, self._end = MOST_ASKED, spent_seconds() + seconds
        self._known: dict[tuple[Constraint, ...], Tried] = {}

    def is_over(self) -> bool:
        """Whether no more may be tried."""
        return self._left <= 0 or spent_seconds() >= self._end

    def state(self, drawing: Drawing, by_parts: bool = False) -> State | None:
        """What the program says, `by_parts` also of which parts have places; None where it takes no
        such drawing. Raises ProgramError."""
        trial = self._trial(drawing)
        if trial is None:
            return None
        state = State.of(trial)
        if by_parts and not state.is_placed:
            return replace(state, unplaced=self._unplaced(trial))
        return state

    def _unplaced(self, trial: Trial) -> int:
        """How many parts have no places."""
        if trial.verdict is not Verdict.OPEN:
            return 1
        keys = f"place={PlaceBy.POINTS.value}", within(trial.spelled)
        report = read_parts(
            written_by(self._program, "parts", trial.spelled.sketch.text(), *keys))
        return sum(not isinstance(part.shape, Solved) for part in report.parts)

    def better(self, drawing: Drawing, more: Constraint, before: State) -> State | None:
        """What the program says of a drawing with one constraint more, where less is missing then
        and nothing is lost, also where its value is a little more or less; else None. Raises
        ProgramError."""
        first: State | None = None
        for constraint in (more, *_near(more)):
            told = replace(drawing, constraints=(*drawing.constraints, constraint))
            state = self.state(told, by_parts=True)
            if state is None or not state.is_better_than(before):
                return None
            first = first or state
        return first

    def judged(self, drawing: Drawing) -> JudgedDrawing | None:
        """A drawing that is good, but for what its file has and it can't express, with the
        judgement on it; None where it isn't. Raises ProgramError."""
        tried = self._tried(drawing)
        if tried.trial is None or not isinstance(tried.trial.solved, Solved):
            return None
        drawing = tried.edited.drawing
        judgement = judge_trial(tried.edited, tried.trial, self._question(drawing))
        judged = JudgedDrawing("", drawing, judgement, limit=self._limit)
        alone = judged
        if drawing.not_drawn:
            said = replace(drawing, not_drawn=())
            alone = JudgedDrawing("", said, judgement, limit=self._limit)
        return None if reasons_against(alone) else judged

    def without_room(self, drawing: Drawing, places: range) -> Constraint | None:
        """Of the constraints of a drawing at some places, from 0, the last by which it has no
        places where its value is a little more or less: it is no good choice, as it holds only as
        it was read. Raises ProgramError."""
        known = self._tried(drawing).edited
        for place in reversed(places):
            before, after = drawing.constraints[:place], drawing.constraints[place + 1:]
            for other in _near(drawing.constraints[place]):
                edited = EditedDrawing(drawing.with_numbers((*before, other, *after)), known)
                self._left -= 1
                trial = self._ask(edited)
                if trial is None or not isinstance(trial.solved, Solved):
                    return drawing.constraints[place]
        return None

    def completion(self, drawing: Drawing) -> tuple[Names, Sequence[language.Constraint]] | None:
        """What the program's own completion adds to the spelled sketch of a drawing, and the names
        of that; None where it is well, or no completion is found. Raises ProgramError."""
        trial = self._trial(drawing)
        if trial is None or trial.verdict is not Verdict.OPEN:
            return None
        answer = self._program.ask(("complete",), trial.spelled.sketch.text())
        if answer.status is not Status.DONE:
            return None
        names = Names(drawing, trial.spelled, trial.axes.facts.refs)
        whole = language.Sketch.parse(answer.text)
        return names, whole.constraints[len(trial.spelled.sketch.constraints):]

    def _trial(self, drawing: Drawing) -> Trial | None:
        self._left -= 1
        return self._tried(drawing).trial

    def _tried(self, drawing: Drawing) -> Tried:
        """A drawing with what the program says of it, asked once."""
        constraints = drawing.constraints
        if constraints not in self._known:
            edited = EditedDrawing(drawing)
            self._known[constraints] = Tried(edited, self._ask(edited))
        return self._known[constraints]

    def _ask(self, edited: EditedDrawing) -> Trial | None:
        """What the program says of a drawing; None where it takes no such drawing."""
        try:
            check_fits(edited.drawing)
            return first_good(self._question(edited.drawing), spelled=edited.readings())
        except (DrawingRefused, Refusal, NotHeld):
            return None

    def _question(self, drawing: Drawing) -> Question:
        return Question(drawing, self._program, self._limit)


def _near(constraint: Constraint) -> Iterator[Constraint]:
    """The same with its value a little more, and a little less."""
    if isinstance(constraint, Valued):
        yield from (replace(constraint, value_um=constraint.value_um * by) for by in ROOM)
    elif isinstance(constraint, AngleBetween) and isinstance(constraint.value, Degrees):
        angle = constraint.value.value
        yield from (replace(constraint, value=Degrees(angle + by)) for by in ROOM_DEGREES)
