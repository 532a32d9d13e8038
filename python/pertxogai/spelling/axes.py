"""What a drawing says of x and y: each class of lines of known directions has two axes, and along
them its parallels, right angles, shifts, middles and mirrors are equations. """
from __future__ import annotations

from collections import Counter
from collections.abc import Hashable
from functools import cached_property
from typing import NamedTuple, Protocol

from pertxogai.cached import copied
from pertxogai.classes import Classes
from pertxogai.drawing import X_AXIS
from pertxogai.spelling.directions import Directions
from pertxogai.spelling.facts import (
    DATUM, ORIGIN_KNOT, Apart, Fact, Facts, HalfOf, Knot, Leans, LengthOf, Line, Middle, Mirror,
    Off, Owner, RadiusOf, Shift, Sized, Stays)
from pertxogai.spelling.lean import SQUARE, Lean
from pertxogai.spelling.linear import Form, LinearSystem, Number, Redundant
from pertxogai.spelling.lines import Lines


class Coordinate(NamedTuple):
    """A point's coordinate in a frame, in micrometres: along its first line, or `upwards`, to that
    line's left."""

    frame: int
    upwards: bool
    knot: Knot


class Frame(NamedTuple):
    """A class of lines of known directions; its first axis runs as `line` is drawn."""

    number: int
    line: Line
    way: tuple[Number, Number]

    def along(self, upwards: bool, place: tuple[Number, Number]) -> Number:
        """A drawn place along an axis, times the length of `way`."""
        a, b = self.way
        x, y = place
        return a * y - b * x if upwards else a * x + b * y


class Equation(NamedTuple):
    """A form that is 0, and who says so."""

    form: Form
    owners: frozenset[Owner]


class Says(Protocol):
    """A fact that has one owner."""

    @property
    def owner(self) -> Owner: ...


class Axes:
    """The frames of a drawing, its linear equations, and the facts that aren't equations. A
    distance along an axis becomes an equation once its direction is settled, which `settled_axes`
    does."""

    def __init__(self, facts: Facts, lines: Lines) -> None:
        self.facts = facts
        self.lines = lines
        self.directions = Directions()
        for leans in lines.leans:
            self.directions.tell(leans._replace(
                first=lines.leader(leans.first), second=lines.leader(leans.second)))
        self._merge_parallels()
        self.frames: list[Frame] = []
        self._of_root: dict[Line, Frame] = {}
        self._leans: dict[Line, Lean] = {}
        self._signs: dict[tuple[int, bool, Knot, Knot], int] = {}
        self._make_frames()
        self._across = {(self.frame(line).number, self.fixed_axis(line))
                        for line in self.lines.all()}
        self.system = LinearSystem(rank)
        self._frames_of: dict[Knot, set[int]] = {}
        self.equations: list[Equation] = []
        self.told: list[tuple[Equation, Redundant]] = []
        self.loose: list[Apart | Off] = []
        self._lines_say()
        for fact in facts.facts:
            self._say(fact)

    def replaced(self, number: int | None, equation: Equation,
                 without: Apart | Off | None = None) -> Axes:
        """The same with one equation replaced, or a new one, and without a distance; to be settled
        again, which `with_equation` does."""
        other = copied(self)
        equations = list(self.equations)
        if number is None:
            equations.append(equation)
        else:
            equations[number] = equation
        other.system, other.equations, other.told = LinearSystem(rank), [], []
        other._frames_of = {}
        other.loose = [fact for fact in self.loose if fact is not without]
        for each in equations:
            other.tell(each.form, each.owners)
        return other

    def revalued(self, facts: Facts) -> Axes | None:
        """The same of facts that differ by the numbers of lengths alone, to be settled anew; None
        where they differ otherwise."""
        if not self.facts.says_but_for_lengths(facts):
            return None
        other = copied(self._of_lines)
        other.facts = facts
        other.system = self._of_lines.system.copied()
        other._frames_of = {knot: set(each) for knot, each in self._of_lines._frames_of.items()}
        other.equations, other.told = [*self._of_lines.equations], [*self._of_lines.told]
        other.loose = []
        for fact in facts.facts:
            other._say(fact)
        return other

    @cached_property
    def _of_lines(self) -> Axes:
        """The same, of which the lines have told their equations alone."""
        other = copied(self)
        other.system, other._frames_of = LinearSystem(rank), {}
        other.equations, other.told, other.loose = [], [], []
        other._lines_say()
        return other

    def redrawn(self, facts: Facts) -> Axes | None:
        """The same for facts that differ only in drawn positions; None if a point is drawn on
        another side than before."""
        other = copied(self)
        other.facts = facts
        other.frames = [each._replace(way=facts.direction(each.line)) for each in self.frames]
        other._of_root = {root: other.frames[each.number] for root, each in self._of_root.items()}
        other._signs = {}
        is_so = all(other.sign(other.frames[frame], upwards, first, second) == sign
                    for (frame, upwards, first, second), sign in self._signs.items())
        return other if is_so else None

    def surplus(self) -> list[tuple[Equation, Redundant]]:
        """The equations that are redundant, except for radii that are given again as they are."""
        return [(equation, told) for equation, told in self.told
                if told.amount or not all(isinstance(key, RadiusOf)
                                          for key in equation.form.terms)]

    def conflicts(self) -> list[Leans]:
        """The directions that differ from what follows from the others."""
        return [leans for leans in self.directions.told
                if self.directions.between(leans.first, leans.second) != leans.lean]

    def contradictions(self) -> int:
        """How many equations and directions contradict the others."""
        return sum(bool(each.amount) for _, each in self.told) + len(self.conflicts())

    def repeats(self, later_alone: bool = False) -> frozenset[Owner]:
        """The constraints that say only what follows already and is no line of a sketch: that a
        point is itself or lies on its own line, a direction that follows from others, a known
        size; and of sizes those from which it follows, unless the later alone are asked for."""
        found = {*self.facts.repeats, *self.lines.repeats}
        more = {fact.owner for fact in self.facts.facts if not isinstance(fact, Leans)}
        found |= {leans.owner for leans in self.directions.told
                  if leans not in self.conflicts()} - more
        surplus = self.surplus()
        for equation, told in self.told:
            if (equation, told) not in surplus:
                marks = () if later_alone else told.marks
                found |= equation.owners.union(*(self.equations[mark].owners for mark in marks))
        return frozenset(found)

    # -- frames

    def _merge_parallels(self) -> None:
        """Makes two parallels that share a point one line, the first such in turn."""
        known: dict[tuple[Line, Line], bool] = {}
        while True:
            pair = next((pair for pair in self.lines.sharers()
                         if self._parallel(known, pair) and self._may_be_one(*pair)
                         and self._may_be_one(*reversed(pair))), None)
            if pair is None:
                return
            self.lines.join(*pair)

    def _parallel(self, known: dict[tuple[Line, Line], bool], pair: tuple[Line, Line]) -> bool:
        """Whether two lines are parallel, by what is known from before."""
        found = known.get(pair)
        if found is None:
            lean = self.directions.between(*pair)
            found = known[pair] = lean is not None and lean.level()
        return found

    def _may_be_one(self, line: Line, other: Line) -> bool:
        """Whether a line may be made one with a parallel: not where it is parallel to an axis since
        two points that it has already are level, which may be by what the other says of its own
        points. Then each has to say that for itself."""
        return not any(self.lines.leader(each) == line and self._is_level_by(line, other, ends)
                       for each, ends in self.facts.implied.items())

    def _is_level_by(self, line: Line, other: Line, ends: tuple[Knot, Knot]) -> bool:
        """Whether a line is parallel to an axis by two points, of which the other line adds
        none."""
        lean = self.directions.between(X_AXIS, line)
        own, others = ({each.knot for each in self.lines.members(one)} for one in (line, other))
        return (lean is not None and (lean.level() or lean.upright())
                and others.isdisjoint({*ends} - own))

    def _make_frames(self) -> None:
        classes: dict[Line, list[Line]] = {}
        for line in [X_AXIS, *self.lines.all()]:
            classes.setdefault(self.directions.bearing(line).root, []).append(line)
        for root, members in classes.items():
            line = X_AXIS if X_AXIS in members else self._chief(members)
            frame = Frame(len(self.frames), line, self.facts.direction(line))
            self.frames.append(frame)
            self._of_root[root] = frame

    def _chief(self, members: list[Line]) -> Line:
        """The line with the most that are parallel or square to it, the first of several."""
        leans = [self.directions.bearing(line).lean for line in members]
        counted = Counter(map(_cross, leans))
        return max(members, key=lambda line: counted[_cross(self.directions.bearing(line).lean)])

    def frame(self, line: Line) -> Frame:
        """The frame of a line's class of directions."""
        return self._of_root[self.directions.bearing(line).root]

    def lean(self, line: Line) -> Lean:
        """The direction of a line against the first axis of its frame."""
        known = self._leans.get(line)
        if known is None:
            known = self.directions.between(self.frame(line).line, line)
            assert known is not None
            self._leans[line] = known
        return known

    def fixed_axis(self, line: Line) -> bool | None:
        """Which coordinate all points of a line share: True if the line is vertical in its frame;
        None if it is oblique."""
        lean = self.lean(line)
        return True if lean.level() else False if lean.upright() else None

    # -- equations

    def tell(self, form: Form, owners: frozenset[Owner]) -> None:
        """Adds the equation form = 0."""
        equation = Equation(form, owners)
        told = self.system.add(form, len(self.equations))
        self.equations.append(equation)
        for key in form.terms:
            if isinstance(key, Coordinate):
                self._frames_of.setdefault(key.knot, set()).add(key.frame)
        if told is not None:
            self.told.append((equation, told))

    def at(self, frame: int, upwards: bool, knot: Knot) -> Form:
        """A coordinate as a form."""
        return Form.of(Coordinate(frame, upwards, knot))

    def between(self, frame: int, upwards: bool, first: Knot, second: Knot) -> Form:
        """The difference of two points' coordinates as a form."""
        if first == second:
            return Form()
        return Form({Coordinate(frame, upwards, second): 1, Coordinate(frame, upwards, first): -1})

    def _lines_say(self) -> None:
        for upwards in (False, True):
            self.tell(self.at(DATUM, upwards, ORIGIN_KNOT), frozenset())
        for line in self.lines.all():
            axis = self.fixed_axis(line)
            if axis is not None:
                self._line_says(line, axis)

    def _line_says(self, line: Line, upwards: bool) -> None:
        """That all points of a line share a coordinate, but for those of which that is why its
        direction is known."""
        frame = self.frame(line)
        members = self.lines.members(line)
        level: Classes[Knot] = Classes()
        knots = {member.knot for member in members}
        for each, ends in self.facts.implied.items():
            if self.lines.leader(each) == line and knots.issuperset(ends):
                level.join(*ends)
        first = members[0].knot
        for member in sorted(members[1:], key=lambda each: each.owner is None):
            if not level.join(first, member.knot):
                continue
            owners = frozenset({member.owner} if member.owner else set())
            if member is members[1] or not owners:
                owners |= self.directions.owners(frame.line, line)
            self.tell(self.between(frame.number, upwards, first, member.knot), owners)

    def _say(self, fact: Fact) -> None:
        match fact:
            case Sized(form, owner):
                self.tell(form, frozenset({owner}))
            case Shift(first, second, upwards, value, owner):
                run = self.between(DATUM, upwards, first, second)
                self.tell(run - value, frozenset({owner}))
            case Stays(knot, place, owner):
                self.tell(self.at(DATUM, False, knot) - Form(number=place.x_um),
                          frozenset({owner}))
                self.tell(self.at(DATUM, True, knot) - Form(number=place.y_um), frozenset({owner}))
            case Middle(middle, first, second, owner):
                frame = self._frame_of_middle(fact)
                for upwards in (False, True):
                    ends = self.at(frame, upwards, first) + self.at(frame, upwards, second)
                    self.tell(ends - self.at(frame, upwards, middle).times(2), frozenset({owner}))
            case Mirror():
                self._mirror(fact)
            case Off():
                self._off(fact)
            case Apart():
                self.loose.append(fact)

    def _frame_of_middle(self, fact: Middle) -> int:
        """The frame that knows most of the three points, the datum's where they are alike."""
        knots = (fact.middle, fact.first, fact.second)
        if ORIGIN_KNOT in knots:
            return DATUM
        known = Counter(key.frame for equation in self.equations for key in equation.form.terms
                        if isinstance(key, Coordinate) and key.knot in knots)
        best = max(known.values(), default=0)
        return min((number for number, count in known.items() if count == best), default=DATUM)

    def _mirror(self, fact: Mirror) -> None:
        line = self.lines.leader(fact.line)
        upwards = self.fixed_axis(line)
        if upwards is None:
            for knot in (fact.first, fact.second):
                half = Form.of(HalfOf(fact.owner))
                self.loose.append(Off(knot, fact.line, half, fact.owner))
            return
        frame = self.frame(line).number
        on_line = self.at(frame, upwards, self.lines.members(line)[0].knot)
        ends = self.at(frame, upwards, fact.first) + self.at(frame, upwards, fact.second)
        self.tell(ends - on_line.times(2), frozenset({fact.owner}))

    def _off(self, fact: Off) -> None:
        line = self.lines.leader(fact.line)
        upwards = self.fixed_axis(line)
        if upwards is None:
            self.loose.append(fact)
            return
        frame = self.frame(line)
        on_line = self.lines.members(line)[0].knot
        sign = self.sign(frame, upwards, on_line, fact.point)
        step = self.between(frame.number, upwards, on_line, fact.point)
        self.tell(step - fact.value.times(sign), frozenset({fact.owner}))

    def sign(self, frame: Frame, upwards: bool, first: Knot, second: Knot) -> int:
        """On which side of the first point the second is drawn along an axis."""
        key = (frame.number, upwards, first, second)
        known = self._signs.get(key)
        if known is None:
            start, end = (frame.along(upwards, self.facts.drawn[knot]) for knot in (first, second))
            known = self._signs[key] = 1 if end >= start else -1
        return known

    def frames_of(self, knot: Knot) -> set[int]:
        """The numbers of the frames in which an equation has a coordinate of the point."""
        return self._frames_of.get(knot, set())

    def has_rails(self, frame: Frame, upwards: bool) -> bool:
        """Whether distances along an axis of a frame are given from lines across it."""
        return frame.number == DATUM or (frame.number, upwards) in self._across

    def owners(self, form: Form) -> frozenset[Owner]:
        """The constraints by which the form is reduced."""
        return frozenset(owner for mark in self.system.sources(form)
                         for owner in self.equations[mark].owners)

    def forget(self, fact: Apart) -> None:
        """Removes a distance that has become an equation."""
        self.loose.remove(fact)


def rank(unknown: Hashable) -> int:
    """Sizes are solved for first, so that coordinates stay."""
    return 0 if isinstance(unknown, (LengthOf, RadiusOf)) else 1


def _cross(lean: Lean) -> frozenset[Lean]:
    return frozenset({lean, lean + SQUARE})
