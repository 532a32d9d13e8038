"""How far the places that a drawing was stored with are off its constraints.

The program's `measure` tells it of the sketch that the drawing is spelled as. A point lies where
its file has it, to a whole nanometre. A line of the sketch runs through the two points that it is
told by, and a line that all points of one x or one y share through the first of them. What the
program can't be asked so is measured here, on the same places: what isn't spelled just as it is
said, and what is told with lines or points of help, which no file has."""
from __future__ import annotations

from collections.abc import Collection, Iterable, Iterator, Mapping, Sequence
from dataclasses import dataclass, replace
from fractions import Fraction
from math import isqrt

from pertxogai import language
from pertxogai.drawing import ORIGIN, Arc, Circle, Drawing
from pertxogai.exact import Vector, cross, dot, square, whole_up
from pertxogai.judging.judgement import Judgement
from pertxogai.judging.measure.deviation import Deviation, Unit
from pertxogai.judging.measure.limit import MOST
from pertxogai.judging.measure.measuring import measure
from pertxogai.judging.measure.solution import Solution
from pertxogai.language import Refusal
from pertxogai.language.numbers import nearest_whole
from pertxogai.language.places import Placed, PlacedLine, PlacedPoint
from pertxogai.program import Solver
from pertxogai.program.reports import Measured, MeasuredOff, NotAReport, Refused, read_answer
from pertxogai.spelling.facts import DATUM, ORIGIN_KNOT, Facts, Knot, Owner
from pertxogai.spelling.rails import Rail
from pertxogai.spelling.writing import Track

PPB = 10 ** 9
NM_PER_UM = 1000


@dataclass(frozen=True)
class StoredOff:
    """By how much the stored places are off what some of the designer's words say together: what
    the places give, less what is said, in whole nanometres or ppb, rounded away from 0. turned:
    whether an angle is the other way round than it is drawn."""

    names: tuple[str, ...]
    amount: int
    unit: Unit
    turned: bool = False


@dataclass(frozen=True)
class StoredOffs:
    """How far the stored places are off.

    by_program: each of the words that the program measured whole, in the order of their first
    lines; of several lines that the same words say the one that is off most, in nm and in ppb.
    length_nm and angle_ppb: the least tolerances within which the program says that these hold;
    None where it wasn't asked. others: what else the drawing says, and what its shapes imply, as
    it was measured here. first: of the lines that the program measured the first that is beyond the
    limit, in the drawing's own units; else the first that is turned; None where all hold."""

    by_program: tuple[StoredOff, ...]
    length_nm: int | None
    angle_ppb: int | None
    others: tuple[Deviation, ...]
    first: StoredOff | None = None


def as_stored(judged: Judgement, program: Solver) -> StoredOffs:
    """How far the stored places of a judged drawing are off. Raises ProgramError; Refusal where the
    program refuses the places, as those of a text that is too long."""
    stored = _Stored(judged)
    told = _ask_measure(judged, stored, program)
    owners = judged.asked.spelled.owners
    numbers = {each.number for place in stored.lines for each in _words(owners[place])
               if not each.shape}
    others = tuple(each for each in measure(judged.names.drawing, _solution(judged.names.drawing))
                   if each.number not in numbers)
    if told is None:
        return StoredOffs((), None, None, others)
    offs = _by_words(judged, stored.lines, told.offs)
    length = whole_up(Fraction(told.tolerances.length_nm, judged.asked.spelled.scale))
    return StoredOffs(offs, length, told.tolerances.angle_ppb, others,
                      _first(judged, stored.lines, told.offs))


def _solution(drawing: Drawing) -> Solution:
    """The stored places and radii, in whole nanometres."""
    drawn = {ref: drawing.drawn(ref) for ref in drawing.points()}
    points = {ref: (nearest_whole(at.x_um * NM_PER_UM), nearest_whole(at.y_um * NM_PER_UM))
              for ref, at in drawn.items()}
    radii = {each.name: nearest_whole(drawing.drawn_radius_um(each.name) * NM_PER_UM)
             for each in drawing.geometry if isinstance(each, (Circle, Arc))}
    return Solution(points, radii)


def _ask_measure(judged: Judgement, stored: _Stored, program: Solver) -> Measured | None:
    """What `measure` says of the lines that can be measured; None where there is none."""
    if not stored.lines:
        return None
    spelled = judged.asked.spelled
    elements = tuple(each for each in spelled.sketch.elements if each.name in stored.places)
    lines = tuple(spelled.sketch.constraints[place] for place in stored.lines)
    sketch = replace(spelled.sketch, elements=elements, constraints=lines)
    places = "".join(f"{each.text()}\n" for each in stored.places.values())
    words = "measure", f"within={min(MOST, judged.limit.amount * spelled.scale)}"
    answer = program.ask(words, f"{sketch.text()}{places}end\n")
    told = read_answer(words, answer)
    if isinstance(told, Refused):
        raise Refusal(told)
    if not isinstance(told, Measured):
        raise NotAReport(f"the program doesn't measure the stored places: {answer.text.strip()}")
    return told


def _by_words(judged: Judgement, lines: Sequence[int],
              offs: Sequence[MeasuredOff]) -> tuple[StoredOff, ...]:
    """What the program measured of these lines, by the words that say each; of several lines that
    the same words say, the one that is off most in each unit. Of lines of help alone nothing is
    told."""
    found: dict[tuple[tuple[str, ...], Unit], StoredOff] = {}
    for place, off in zip(lines, offs):
        names = judged.names.owners(_words(judged.asked.spelled.owners[place]))
        mine = _stored_off(names, off, judged.asked.spelled.scale)
        before = found.get((names, mine.unit))
        if before is not None:
            most = max(before, mine, key=lambda each: abs(each.amount))
            mine = replace(most, turned=before.turned or mine.turned)
        if names:
            found[names, mine.unit] = mine
    return tuple(found.values())


def _first(judged: Judgement, lines: Sequence[int],
           offs: Sequence[MeasuredOff]) -> StoredOff | None:
    """What of these lines the program measured to be off by more than the limit, the first; else
    the first that is turned."""
    spelled = judged.asked.spelled
    found = [_stored_off(judged.names.owners(_words(spelled.owners[place])), off, spelled.scale)
             for place, off in zip(lines, offs)]
    beyond = (each for each in found if abs(each.amount) > judged.limit.amount)
    return next(beyond, None) or next((each for each in found if each.turned), None)


def _words(owners: Iterable[Owner]) -> list[Owner]:
    """Those that say a line, without what is only of help."""
    return [each for each in owners if each.number]


def _lines_of_whole_words(owners: Sequence[Collection[Owner]],
                          lines: Iterable[int]) -> tuple[int, ...]:
    """Those of these lines of which each word has all its lines among them: a word of which a part
    isn't measured counts as measured nowhere."""
    left = set(lines)
    while True:
        partly = {word for place, line in enumerate(owners) if place not in left
                  for word in _words(line)}
        gone = {place for place in left if partly.intersection(_words(owners[place]))}
        if not gone:
            return tuple(sorted(left))
        left -= gone


def _stored_off(names: tuple[str, ...], off: MeasuredOff, scale: int) -> StoredOff:
    unit = Unit(off.unit.value)
    size = whole_up(Fraction(abs(off.amount), scale if unit is Unit.NM else 1))
    return StoredOff(names, size if off.amount > 0 else -size, unit, off.turned is not None)


class _Stored:
    """The elements of a sketch where their drawing has them, so many times as large as the sketch
    is. places: by their names. lines: the places of the constraints between these that are spelled
    just as they are said, each by words of which all lines are."""

    def __init__(self, judged: Judgement) -> None:
        self._asked = judged.asked
        spelled = judged.asked.spelled
        self._facts = _stored_facts(judged.names.drawing, judged.asked.axes.facts, spelled.scale)
        self._knots = {name: knot for knot, name in spelled.points.items()}
        self.places: Mapping[str, Placed] = {
            each.name: at for each in spelled.sketch.elements
            if (at := self._place(each)) is not None}
        exact = not (judged.frozen or judged.grown)
        self.lines = _lines_of_whole_words(spelled.owners, self._measurable()) if exact else ()

    def _measurable(self) -> Iterator[int]:
        """The constraints that are said just so, between placed elements, but for those of words of
        which a part isn't in the sketch."""
        spelled = self._asked.spelled
        rounded = {*(each.number for each in spelled.rounded), *spelled.near}
        for place, line in enumerate(spelled.sketch.constraints):
            if (place + 1 not in rounded and set(line.names()) <= self.places.keys()
                    and spelled.left_out.isdisjoint(spelled.owners[place])):
                yield place

    def _place(self, element: language.Element) -> Placed | None:
        """Where an element lies; None of help, and where two points of a line are one."""
        if isinstance(element, language.Line):
            return self._line(element)
        knot = self._knots.get(element.name)
        if knot is None:
            return None
        x, y = self._facts.drawn[knot]
        return PlacedPoint(element.name, nearest_whole(x), nearest_whole(y))

    def _line(self, element: language.Line) -> PlacedLine | None:
        track = self._asked.spelled.tracks.get(element.name)
        if track is None:
            return None
        way, through = self._way(track), self._through(track)
        size = isqrt(whole_up(square(way) * PPB * PPB))
        if not size:
            return None
        drawn = element.x2_um - element.x1_um, element.y2_um - element.y1_um
        ahead = 1 if dot(way, drawn) >= 0 else -1
        b, a = (nearest_whole(Fraction(ahead * each * PPB * PPB) / size) for each in way)
        return PlacedLine(element.name, -a, b, nearest_whole(Fraction(cross((b, a), through), PPB)))

    def _way(self, track: Track) -> Vector:
        """The direction in which a line of the sketch runs, or against it."""
        if not isinstance(track, Rail):
            return self._facts.direction(track)
        a, b = (1, 0) if track.frame == DATUM else self._facts.direction(
            self._asked.axes.frames[track.frame].line)
        return (a, b) if track.upwards else (-b, a)

    def _through(self, track: Track) -> Vector:
        """A place of a line of the sketch: of the first of the points that it is told by."""
        if not isinstance(track, Rail):
            return self._facts.drawn[self._facts.own[track][0]]
        if track.datum():
            return 0, 0
        offset = self._asked.rails.offset(track)
        return self._facts.drawn[next(
            each.knot for each, value in self._asked.rails.members[track].items()
            if value == offset)]


def _stored_facts(drawing: Drawing, facts: Facts, scale: int) -> Facts:
    """The facts with each of the designer's points where it is stored, in nanometres of the
    sketch: of points that are one the first."""
    at: dict[Knot, Vector] = {ORIGIN_KNOT: (0, 0)}
    for ref, knot in facts.refs.items():
        if ref != ORIGIN and knot not in at:
            place = drawing.drawn(ref)
            at[knot] = place.x_um * NM_PER_UM * scale, place.y_um * NM_PER_UM * scale
    return replace(facts, drawn=at)
