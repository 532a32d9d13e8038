"""How the program is asked to place a drawing with dimensions off: as it placed the drawing itself,
where that meets each constraint there but for rounding; else as any drawing."""
from __future__ import annotations

from collections import Counter
from collections.abc import Callable, Iterable, Iterator, Sequence
from contextlib import suppress
from dataclasses import replace
from fractions import Fraction
from functools import cached_property

from pertxogai.drawing import Drawing, DrawingUnsound
from pertxogai.fitting.affine import Probe
from pertxogai.fitting.encoding import Encoding, Offs
from pertxogai.fitting.leaning import Turning
from pertxogai.fitting.template import Template, Told
from pertxogai.fitting.toleranced import Moving
from pertxogai.fitting.tries import AskBy, Luck, Lying, Tried, Tries
from pertxogai.judging import DrawingRefused, Judgement, Question, Trial, first_good
from pertxogai.judging.edited import EditedDrawing
from pertxogai.judging.judgement import FINE_NM, judge_trial
from pertxogai.judging.limits import check_fits
from pertxogai.judging.measure import Deviation, Limit, Solution, Unit
from pertxogai.judging.trials import answered, finer, placed
from pertxogai.language import NotHeld, Refusal
from pertxogai.program import ProgramError, Solver
from pertxogai.program.reports import Solved, Verdict
from pertxogai.spelling import Care, Rails, Style, written
from pertxogai.spelling.facts import Facts

Turned = frozenset[tuple[int, Fraction]]
"""The numbers of angles that lie off, and by how many degrees."""
ROUNDED_NM = 10
"""By no more all is met but for the rounding of places."""
ENOUGH = 2
"""Once this number of cases with the same angles is asked for, their sketch is kept."""
STYLE = Style.VALUES
"""The style that is tried first; a drawing that is placed by another is asked for as any."""

FINE = Care(fine=True, within=4e-10)
"""Angles that are no ratios are told within 0.4 nanometres for each metre."""


NO_TRIES: Tries = {}


class NotPlaced(Exception):
    """A drawing isn't placed, or a constraint isn't met. The message says why."""


class OffDrawing(EditedDrawing):
    """A drawing with dimensions off. It counts as drawn where the drawing itself does, also where
    a segment is drawn far off its angle: else it could take another side."""

    def __init__(self, drawing: Drawing, itself: EditedDrawing) -> None:
        super().__init__(drawing, itself)
        self._drawn = itself.facts.drawn

    @cached_property
    def facts(self) -> Facts:
        """All that it says."""
        self.analysis.facts = replace(super().facts, drawn=self._drawn)
        return self.analysis.facts


class Asking:
    """Asks for a drawing with dimensions off. nominal: what becomes of the drawing itself."""

    def __init__(self, drawing: Drawing, program: Solver, limit: Limit) -> None:
        self._known, self._program, self._limit = EditedDrawing(drawing), program, limit
        self._moving = Moving(drawing)
        check_fits(drawing)
        question = Question(drawing, program, limit)
        asked = first_good(question, spelled=self._known.readings())
        self.nominal: Judgement = judge_trial(self._known, asked, question)
        self._care = FINE if self._needs_fine(asked) else Care()
        self._most_nm = max(ROUNDED_NM, _greatest(self.nominal.deviations))
        self._met: Judgement | None = None
        if self._is_plain(asked):
            self._met = self._finely(self._known) if self._care.fine else self.nominal
        self._luck = {way: Luck() for way in AskBy}
        self._lengths: dict[int, None] = {}
        self._angles: tuple[int, ...] = ()
        self._turning: Template | None = None
        self._templates: dict[Turned, Template | None] = {}
        self._seen: Counter[Turned] = Counter()

    def _needs_fine(self, asked: Trial) -> bool:
        """Whether the drawing was asked for again with fine angles."""
        return bool(asked.spelled.near) and (self.nominal.asked is not asked or
                                             not _is_exact(self.nominal.deviations))

    def _is_plain(self, asked: Trial) -> bool:
        """Whether a drawing is placed by its first reading and the first style, with all told."""
        return (isinstance(asked.solved, Solved) and asked.spelled.style is STYLE
                and asked.axes is self._known.analysis.interpretations[0].axes
                and not any((asked.grown, asked.frozen, asked.off, asked.spelled.left_out)))

    def begin(self, lengths: Iterable[int], angles: Iterable[int] = ()) -> None:
        """Says which dimensions may be off."""
        self._lengths, self._angles = dict.fromkeys(lengths), tuple(angles)
        if self._angles:
            with suppress(DrawingUnsound, NotHeld, Refusal):
                self._turning = self._made_turning()

    def lying(self, offs: Offs, tried: Tries = NO_TRIES) -> Lying:
        """Where the drawing lies with the dimensions of some numbers off, by so much. tried: what
        came of ways that were tried already. Raises NotPlaced, DrawingUnsound where a dimension
        can't have such a value, and the exceptions of `judge`."""
        found = Tried()
        for way in self._ways(offs, self._is_again):
            found = tried.get(way) or self._by(way, offs)
            self._luck[way].note(found)
            if found.is_last:
                break
        if found.lying is None:
            raise NotPlaced(found.why)
        return found.lying

    def expected(self, cases: Sequence[Offs]) -> list[tuple[AskBy, ...]]:
        """The ways to ask for each of a few cases, as far as that is known before they are asked
        for."""
        seen = self._seen + Counter(map(self._turned, cases))
        return [tuple(self._ways(each, lambda turned: self._is_kept(turned, seen)))
                for each in cases]

    def _ways(self, offs: Offs, is_again: Callable[[Turned], bool]) -> Iterator[AskBy]:
        """The ways to ask for a case, in turn, without those that mostly failed lately. is_again:
        whether so many cases with the same angles off are asked for that their sketch is kept."""
        turns = any(number not in self._lengths for number in offs)
        if turns and self._turning is not None and self._luck[AskBy.TURNED].is_left:
            yield AskBy.TURNED
        if (not turns or is_again(self._turned(offs))) and self._luck[AskBy.KEPT].is_left:
            yield AskBy.KEPT
        if self._met is not None and self._care_with(offs).fine and self._luck[AskBy.FINE].is_left:
            yield AskBy.FINE
        yield AskBy.ANY

    def tries(self, offs: Offs, ways: Sequence[AskBy]) -> Tries:
        """What comes of ways to ask for a case, up to the last that has to be tried, or that raises
        an exception: that one is left to be tried where the case is asked for."""
        found = {}
        with suppress(DrawingRefused, DrawingUnsound, NotHeld, ProgramError, Refusal):
            for way in ways:
                found[way] = self._by(way, offs)
                if found[way].is_last:
                    break
        return found

    def _by(self, way: AskBy, offs: Offs) -> Tried:
        """What comes of one way, which doesn't depend on what was asked for before. Raises the
        exceptions of `judge`."""
        drawing = self._moving.moved(offs)
        match way:
            case AskBy.TURNED:
                return self._told(drawing, self._turning, offs)
            case AskBy.KEPT:
                turned = self._turned(offs)
                lengths = {number: off for number, off in offs.items() if number in self._lengths}
                return self._told(drawing, self._kept(turned), lengths)
            case AskBy.FINE:
                judged = self._finely(OffDrawing(drawing, self._known))
                return Tried() if judged is None else self._of(judged)
            case AskBy.ANY:
                return self._of(self._judged(OffDrawing(drawing, self._known)))

    def _turned(self, offs: Offs) -> Turned:
        """The angles among the dimensions that are off."""
        return frozenset(each for each in offs.items() if each[0] not in self._lengths)

    def _is_again(self, turned: Turned) -> bool:
        """Whether the sketch with these angles off is kept, now that one more case with them is
        asked for."""
        self._seen[turned] += 1
        return self._is_kept(turned, self._seen)

    def _is_kept(self, turned: Turned, seen: Counter[Turned]) -> bool:
        """Whether the sketch with these angles off is kept where so many cases with each set of
        angles were asked for."""
        return turned in self._templates or seen[turned] >= ENOUGH

    def _care_with(self, offs: Offs) -> Care:
        """How angles are told with these dimensions off: finely where one of them is an angle,
        since few angles have ratios."""
        return self._care if all(number in self._lengths for number in offs) else FINE

    def _told(self, drawing: Drawing, template: Template | None, offs: Offs) -> Tried:
        """What comes of asking by a sketch that is known."""
        told = None if template is None else template.told(offs)
        if template is None or told is None:
            return Tried(is_asked=False)
        return Tried(self._measured(drawing, told, template.placed(told, offs, self._program)))

    def _measured(self, drawing: Drawing, told: Told, solution: Solution | None) -> Lying | None:
        """Where a drawing lies, if all is met there as in the drawing itself."""
        if solution is None or self._met is None or self._met.measurement is None:
            return None
        deviations = self._met.measurement.redrawn(drawing, solution).all
        off_nm = _greatest(deviations)
        if off_nm > self._most_nm or any(self._limit.beyond(deviations)):
            return None
        is_near = told.is_near and not _is_exact(deviations)
        return None if is_near else Lying(solution, off_nm)

    def _kept(self, turned: Turned) -> Template | None:
        """The sketch of the drawing with these angles off; None where there is none."""
        if turned not in self._templates:
            self._templates[turned] = None
            with suppress(DrawingUnsound, NotHeld, Refusal):
                self._templates[turned] = self._made(dict(turned))
        return self._templates[turned]

    def _made(self, turned: Offs) -> Template | None:
        """The sketch of the drawing with angles so far off."""
        if self._met is None or not self._lengths:
            return None
        probe, asked = Probe(self._lengths), self._met.asked
        there = self._encoded({**turned, **probe.offs()})
        here = self._encoded(turned) if turned else Encoding(asked.axes, asked.rails, asked.spelled)
        if here is None or there is None or (turned and here.spelled.near):
            return None
        trial = Trial(here.spelled, here.axes, here.rails, place=asked.place)
        return Template.of(self._known.drawing, trial, probe, there)

    def _made_turning(self) -> Template | None:
        """The sketch of the drawing, of which the lines turn with its angles."""
        if self._met is None:
            return None
        probe, asked = Probe((*self._lengths, *self._angles)), self._met.asked
        here, there = Encoding(asked.axes, asked.rails, asked.spelled), self._encoded(probe.offs())
        if there is None:
            return None
        turning = Turning.of(here, there, FINE, probe)
        trial = Trial(here.spelled, here.axes, here.rails, place=asked.place)
        return None if turning is None else Template.of(self._known.drawing, trial, probe, there,
                                                        turning)

    def _encoded(self, offs: Offs) -> Encoding | None:
        """How the drawing is encoded with dimensions off; None where something is told twice."""
        edited = OffDrawing(self._moving.moved(offs), self._known)
        axes = next(edited.readings()).axes
        if axes.surplus() or axes.conflicts():
            return None
        rails = Rails(axes, STYLE)
        return Encoding(axes, rails, written(axes, rails, STYLE, self._care_with(offs)))

    def _finely(self, edited: EditedDrawing) -> Judgement | None:
        """What becomes of a drawing that is asked for with fine angles at once; None where it isn't
        met as the drawing itself is."""
        axes = next(edited.readings()).axes
        if axes.surplus() or axes.conflicts():
            return None
        rails = Rails(axes, STYLE)
        spelled = written(axes, rails, STYLE, FINE)
        if spelled.left_out or spelled.near:
            return None
        asked = placed(answered(rails, spelled, self._program), self._program)
        if not isinstance(asked.solved, Solved):
            return None
        question = Question(edited.drawing, self._program, self._limit)
        judged = judge_trial(edited, asked, question)
        return judged if _greatest(judged.deviations) <= self._most_nm else None

    def _judged(self, edited: EditedDrawing) -> Judgement:
        """What becomes of a drawing that is asked for as any; with its angles told finely where all
        is met so but for rounding. `judge` keeps a near ratio by which no length is further off;
        but what is checked may hang on the angle, and be off by more than rounding."""
        check_fits(edited.drawing)
        question = Question(edited.drawing, self._program, self._limit)
        asked = first_good(question, spelled=edited.readings())
        fine = finer(question, asked) if isinstance(asked.solved, Solved) else asked
        if fine is not asked:
            finely = judge_trial(edited, fine, question)
            if finely.solution is not None and _greatest(finely.deviations) <= self._most_nm:
                return finely
        return judge_trial(edited, asked, question)

    def _of(self, judged: Judgement) -> Tried:
        """Where a drawing lies that was judged, or why it doesn't count."""
        why = self._why_not(judged)
        if why or judged.solution is None:
            return Tried(why=why)
        return Tried(Lying(judged.solution, _greatest(judged.deviations)))

    def _why_not(self, judged: Judgement) -> str:
        """Why what was placed doesn't count; nothing where it does."""
        if judged.solution is None:
            return ("it can't be placed as drawn" if judged.verdict is Verdict.WELL
                    else f"it is {judged.verdict.value}")
        if judged.left_out or judged.frozen:
            return "not all of it is passed to the program there"
        beyond = next(iter(self._limit.beyond(judged.deviations)), None)
        return "" if beyond is None else "a constraint isn't met"


def _is_exact(deviations: Iterable[Deviation]) -> bool:
    """Whether nothing is off by so much that finer angles are asked for."""
    return all(each.amount <= FINE_NM for each in deviations)


def _greatest(deviations: Iterable[Deviation]) -> int:
    """How far the constraint is off that is off most, in nanometres."""
    return max((each.amount for each in deviations if each.unit is Unit.NM), default=0)
