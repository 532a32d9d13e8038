"""Dimensions the rest of a drawing: what is free by numbers is told as a designer would, and the
program has the last word."""
from __future__ import annotations

from collections.abc import Iterable, Iterator
from dataclasses import replace
from functools import cached_property

from pertxogai.completing.trials import Trials, State
from pertxogai.completing.choosing import (
    SECONDS, TASTES, Choice, Left, Relate, Taste, candidates, choose, choose_places, is_along_axes,
    is_direction, tied, with_more, with_relations)
from pertxogai.completing.figure import Figure, Sketched
from pertxogai.completing.proposal import Completion, NoProposal, Proposal, WhyNot
from pertxogai.completing.slack import Slack, Remaining
from pertxogai.completing.from_program import Words
from pertxogai.completing.written import (
    as_drawn, as_written, is_near, room_of, with_drawn_values)
from pertxogai.drawing import Constraint, Drawing
from pertxogai.judging import Question, first_good, reasons_against
from pertxogai.judging.freedoms import freedoms
from pertxogai.judging.limits import check_fits
from pertxogai.judging.measure import Limit
from pertxogai.program import Solver
from pertxogai.program.reports import Verdict
from pertxogai.search.searched import searched

ROUNDS = 6
"""The most dimensions that are given up for others since they leave their values no room."""


class OpenDrawing:
    """A sound drawing that is to be completed: what of it is free, the trials by the program, and
    what the program says of the drawing itself, asked only where that is needed."""

    def __init__(self, drawing: Drawing, program: Solver, limit: Limit, seconds: float) -> None:
        self.drawing, self.trials = drawing, Trials(program, limit, seconds)
        self._search = searched(drawing)
        self.slack = None if self._search.has_vanished() else Slack.of(drawing)
        self._question = Question(drawing, program, limit)
        self._completed: dict[Choice, Completion | None] = {}

    @cached_property
    def state(self) -> State:
        """What the program says of it. Raises as `completion_of`."""
        return State.of(first_good(self._question))

    def is_over(self) -> bool:
        """Whether the program calls it over. Raises as `completion_of`."""
        return self.state.verdict is Verdict.OVER

    def why_not(self) -> WhyNot | None:
        """Why nothing is to be proposed; None where something is free. Where nothing is said twice
        by numbers, the program isn't asked about the drawing itself: it is asked about what is
        proposed, and where the first proposal isn't good, whether the drawing is over. Raises as
        `completion_of`."""
        slack = self.slack
        if slack is not None and slack.ways.shape[1] and not slack.says_twice:
            return None
        if self.is_over():
            return WhyNot.OVER
        if slack is None:
            if not self._search.found.is_solved():
                return WhyNot.NO_PLACES
            return WhyNot.VANISHED if self._search.has_vanished() else WhyNot.TOO_MUCH
        if slack.ways.shape[1]:
            return None
        return WhyNot.NOTHING if self.state.verdict is Verdict.WELL else WhyNot.RIGID

    def completion(self, choice: Choice) -> Completion | None:
        """The completion by a choice; None where it isn't good. Raises ProgramError."""
        if choice not in self._completed:
            self._completed[choice] = self._complete(self._told_apart(choice))
        return self._completed[choice]

    def _told_apart(self, choice: Choice) -> Choice:
        """A choice of which nothing is missing without what ties the whole, by rank. Of two points
        that are level, x says how far they are apart only with what keeps them level: the search
        sees none of that, as it looks at small motions there."""
        turning = tuple(filter(is_direction, choice.datum))
        if not turning or not any(map(is_along_axes, choice.own)):
            return choice
        free = freedoms(with_more(self.drawing, choice.own))
        if free is None or not free.lacks:
            return choice
        rest = tuple(each for each in choice.datum if each not in turning)
        return Choice((*choice.own, *turning), rest)

    def _complete(self, choice: Choice) -> Completion | None:
        """The completion by a choice, without what ties the whole where that isn't placed."""
        for datum in dict.fromkeys((choice.datum, ())):
            added = (*choice.own, *datum)
            judged = self.trials.judged(with_more(self.drawing, added))
            if judged is not None and judged.judgement.solution is not None:
                return Completion(tuple(self._beside_drawn(choice)), tuple(map(Proposal, datum)),
                                  judged, datum == choice.datum)
        return None

    def _beside_drawn(self, choice: Choice) -> Iterator[Proposal]:
        """What is proposed by a choice; beside what isn't as drawn stands how it is drawn."""
        assert self.slack is not None
        for each, there in zip(choice.own, as_written(self.slack, choice).own):
            yield Proposal(each, drawn=None if there == each else there)


def completion_of(drawing: Drawing, program: Solver, limit: Limit,
                  seconds: float) -> Completion | NoProposal:
    """What completes a sound drawing, without what each line fixes; after these seconds of a
    processor nothing more is tried. Raises ProgramError, DrawingRefused, Refusal, NotHeld."""
    check_fits(drawing)
    whole = OpenDrawing(drawing, program, limit, seconds)
    why = whole.why_not()
    if why is None:
        found = _first_tied(map(whole.completion, _choices(whole)))
        if found is not None:
            return found
        why = WhyNot.OVER if whole.is_over() else WhyNot.STUCK
    judged = whole.trials.judged(drawing) if why is WhyNot.NOTHING else None
    is_good = judged is not None and not reasons_against(judged)
    return NoProposal(why, whole.state.verdict, whole.state.is_placed, is_good)


def _first_tied(found: Iterable[Completion | None]) -> Completion | None:
    """The first that ties the whole, of the first few; else the first."""
    best: Completion | None = None
    for count, completion in enumerate(found, 1):
        if completion is not None and completion.ties_the_whole:
            return completion
        best = best or completion
        if best is not None and count >= len(TASTES):
            break
    return best


def _choices(whole: OpenDrawing) -> Iterator[Choice]:
    """What may complete it, with room for each value, in the order in which it is tried: only the
    first where the program calls the drawing over."""
    slack, trials = whole.slack, whole.trials
    assert slack is not None
    ways = (*(_by_rank(slack, taste, trials) for taste in TASTES), _by_places(slack, trials),
            *(_one_by_one(slack, taste, whole) for taste in TASTES), _told_back(slack, whole))
    for way in ways:
        yield from way
        if trials.is_over() or whole.is_over():
            return


def _by_rank(slack: Slack, taste: Taste, trials: Trials) -> Iterator[Choice]:
    """What completes it by rank, with room for each value: the drawn values first, and then those
    where the drawing is placed. A value that has no room there is tried once as it is drawn, with
    the others placed beside it, and then given up."""
    first, there = len(slack.drawing.constraints), slack
    for _ in range(ROUNDS):
        chosen = choose(there, taste)
        if chosen is None:
            return
        choice = replace(chosen, own=(*there.drawing.constraints[first:], *chosen.own))
        yield from with_drawn_values(slack, choice, trials)
        room = room_of(slack.drawing, choice, trials)
        if room.is_enough():
            yield choice
        if room.tight is None or trials.is_over():
            return
        drawn = _as_drawn(slack, room.tight) if there is slack else None
        there, taste = (drawn, taste) if drawn is not None else (slack, taste.without(room.tight))


def _as_drawn(slack: Slack, tight: Constraint) -> Slack | None:
    """A drawing with a dimension that has the value as drawn; None where that is near the given
    one, or no places are found."""
    drawn = as_drawn(tight, Sketched(slack.drawing))
    if drawn is None or is_near(tight, drawn):
        return None
    return Slack.of(with_more(slack.drawing, [drawn]), SECONDS)


def _by_places(slack: Slack, trials: Trials) -> Iterator[Choice]:
    """What completes it by x and y of points, and radii."""
    choice = choose_places(slack)
    if choice is None:
        return
    yield from with_drawn_values(slack, choice, trials)
    if room_of(slack.drawing, choice, trials).is_enough():
        yield choice


# -- where that isn't enough


def _one_by_one(slack: Slack, taste: Taste, whole: OpenDrawing) -> Iterator[Choice]:
    """What completes it where each constraint is taken once the program sees less missing with it,
    and finds places for all that had some, also with a little more and a little less."""
    related, trials = with_relations(slack, taste), whole.trials
    chosen = list(related.drawing.constraints[len(slack.drawing.constraints):])
    told, left = related.drawing, Left(Remaining.all(related))
    state = trials.state(told, by_parts=True) or whole.state
    for constraint, demand in candidates(related, taste, left):
        if left.remaining.after(demand) is None or trials.is_over():
            continue
        better = trials.better(told, constraint, state)
        if better is not None and left.take(demand):
            told, state = with_more(told, [constraint]), better
            chosen.append(constraint)
        if state.is_placed and left.is_nothing():
            choice = Choice(tuple(chosen), tied(related, left.remaining) or ())
            yield from with_drawn_values(slack, choice, trials)
            yield choice
            return


def _told_back(slack: Slack, whole: OpenDrawing) -> Iterator[Choice]:
    """What completes it as the program completes its spelled sketch: that may be spelled otherwise
    with each line more, so it is asked again."""
    there, trials = with_relations(slack, Taste((), Relate.LEVEL)), whole.trials
    state = trials.state(there.drawing, by_parts=True) or whole.state
    for _ in range(ROUNDS):
        more = _told_back_once(there, state, trials)
        if more is None:
            return
        there, state = more
        if state.is_placed:
            chosen = there.drawing.constraints[len(slack.drawing.constraints):]
            choice = Choice(tuple(chosen), tied(there, Remaining.all(there)) or ())
            yield from with_drawn_values(slack, choice, trials)
            yield choice
            return


def _told_back_once(slack: Slack, state: State, trials: Trials) -> tuple[Slack, State] | None:
    """A drawing with what one completion of it adds, as far as that is better; None where nothing
    of it is."""
    completion = None if trials.is_over() else trials.completion(slack.drawing)
    if completion is None:
        return None
    names, added = completion
    words, told, remaining = Words(names, Figure(slack.placed)), slack.drawing, Remaining.all(slack)
    for constraint, demand in slack.demands([each for it in added for each in words.of(it)]):
        more = remaining.after(demand, ties_the_whole=True)
        better = trials.better(told, constraint, state) if more is not None else None
        if more is not None and better is not None:
            remaining, state, told = more, better, with_more(told, [constraint])
    there = Slack.of(told) if told is not slack.drawing else None
    return (there, state) if there is not None else None
