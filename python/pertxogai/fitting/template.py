"""The sketch by which a drawing was placed, with other lengths and angles: a case is asked for by
it, so that the drawing isn't encoded anew for each. Where its points come to lie is measured on the
drawing as ever, so a sketch that says something else shows."""
from __future__ import annotations

from collections.abc import Mapping
from dataclasses import dataclass, field, replace
from fractions import Fraction
from functools import cached_property, lru_cache

from pertxogai.drawing import Arc, Circle, Drawing
from pertxogai.exact import whole_near
from pertxogai.fitting.affine import Affine, Affines, Probe
from pertxogai.fitting.encoding import Encoding, Offs
from pertxogai.fitting.leaning import Turning
from pertxogai.judging import Trial
from pertxogai.judging.measure import Solution
from pertxogai.judging.settled import settled
from pertxogai.judging.turning import KnownSum, known_sum
from pertxogai.judging.within import within
from pertxogai.language import Constraint, Distance, On
from pertxogai.program import Solver, Status
from pertxogai.program.reports import Solved, read_answer
from pertxogai.spelling import Rails, Spelled
from pertxogai.spelling.facts import RadiusOf

NM_PER_UM = 1000
Changing = Mapping[int, Affine]
"""The values that change, by the place of the constraint in the sketch, from 0."""


@dataclass(frozen=True)
class Told:
    """A sketch with dimensions off: its text, and how the drawing is asked for by it. is_near:
    whether an angle is told by a ratio next to it."""

    text: str
    asked: Trial
    is_near: bool


@dataclass(frozen=True)
class Template:
    """asked: how the drawing was placed. distances: the values of the sketch that change. radii:
    those of all circles and arcs. shifts: where the printed places lie along x and y. numbers: the
    dimensions that may be off: none that changes what is 0 in the sketch, which is another one
    then. turning: how its lines turn with angles off; None where none of `numbers` is an angle."""

    drawing: Drawing
    asked: Trial
    distances: Changing
    radii: Mapping[str, Affine]
    shifts: tuple[Affine, Affine]
    numbers: frozenset[int]
    turning: Turning | None = None
    _scaled: dict[int, Template] = field(default_factory=dict, init=False, repr=False,
                                         compare=False)
    """The same at other scales."""

    @staticmethod
    def of(drawing: Drawing, asked: Trial, probe: Probe, there: Encoding,
           turning: Turning | None = None) -> Template | None:
        """That of a drawing that was placed. there: how it is encoded with the offs of the probe.
        None where that differs by more than lengths, and angles that turn its lines."""
        spelled = asked.spelled
        other = there.spelled if turning is None else turning.back(there.spelled, probe.offs())
        if not spelled.tied() or other is None or not _are_alike(spelled, other):
            return None
        distances = _distances(spelled, other, probe)
        radii = _radii(drawing, asked.rails, there.rails, probe)
        shifts = [_shift(asked, there, probe, upwards) for upwards in (False, True)]
        if distances is None or radii is None or shifts[0] is None or shifts[1] is None:
            return None
        loose = {number for each in distances.values() if not each.at for number in each.slopes}
        return Template(drawing, asked, distances, radii, (shifts[0], shifts[1]),
                        probe.numbers - loose, turning)

    def placed(self, told: Told, offs: Offs, program: Solver) -> Solution | None:
        """Where a drawing with these dimensions off is placed by that sketch; None where it isn't.
        Raises ProgramError."""
        words = "solve", f"place={told.asked.place.value}", within(told.asked.spelled)
        answer = program.ask(words, told.text)
        solved = read_answer(words, answer) if answer.status is Status.DONE else None
        if not isinstance(solved, Solved):
            return None
        return self._settled(settled(self.drawing, told.asked, solved).solution, offs)

    def told(self, offs: Offs) -> Told | None:
        """The sketch with these dimensions off; None where one of them may not be, where a value
        can't be told in whole micrometres at any scale, or isn't above 0, or where a line becomes
        level or upright. Raises NotHeld where one is beyond the language's."""
        if not self.numbers.issuperset(offs):
            return None
        values = self._changed(offs)
        scale = self._scale(values) if all(value > 0 for value in values.values()) else None
        return None if scale is None else self._at(scale)._told(values, offs)

    def _changed(self, offs: Offs) -> dict[int, Fraction]:
        """The distances that change, in micrometres, by their places."""
        constraints = self.asked.spelled.sketch.constraints
        return {place: value for place, value in self._distances.values(offs).items()
                if isinstance(constraints[place], Distance)}

    @cached_property
    def _distances(self) -> Affines[int]:
        return Affines(self.distances)

    @cached_property
    def _sizes(self) -> Affines[str]:
        return Affines(self.radii)

    def _scale(self, values: Mapping[int, Fraction]) -> int | None:
        """How many times as large as the drawing the sketch is told with these values: as it is,
        where they are whole micrometres then, else as encoding anew does; None where some aren't
        then either."""
        spelled = self.asked.spelled
        if _are_whole(values, spelled.scale):
            return spelled.scale
        scale = spelled.sheet.scale(values)
        return scale if _are_whole(values, scale) else None

    def _at(self, scale: int) -> Template:
        """The same at another scale."""
        spelled = self.asked.spelled
        if scale == spelled.scale:
            return self
        if scale not in self._scaled:
            other = spelled.scaled(scale)
            turning = None if self.turning is None else self.turning.scaled(other)
            self._scaled[scale] = replace(self, asked=replace(self.asked, spelled=other),
                                          turning=turning)
        return self._scaled[scale]

    def _told(self, values: Mapping[int, Fraction], offs: Offs) -> Told | None:
        """The sketch at its scale, with these values and these dimensions off."""
        lines = self._lines(values)
        if self.turning is None:
            return Told("\n".join(lines), self.asked, bool(self.asked.spelled.near))
        turned, spelled = self.turning.turned(offs), self.asked.spelled
        if turned is None:
            return None
        asked = replace(self.asked, spelled=replace(spelled, headings=turned.headings))
        return Told("\n".join(self.turning.lines(lines, turned)), asked, turned.tied.is_near)

    def _lines(self, values: Mapping[int, Fraction]) -> list[str]:
        """The lines of the sketch's text with these values. Raises NotHeld."""
        spelled = self.asked.spelled
        lines, first = spelled.sketch.text().split("\n"), 1 + len(spelled.sketch.elements)
        for place, value in values.items():
            constraint = spelled.sketch.constraints[place]
            assert isinstance(constraint, Distance)
            length_um = value.numerator * spelled.scale // value.denominator
            lines[first + place] = _line(constraint, length_um)
        return lines

    def _settled(self, found: Solution, offs: Offs) -> Solution | None:
        """The places and radii with the dimensions off; None where places aren't whole nanometres,
        or a radius isn't above 0."""
        by = [(each.value(offs) - each.at) * NM_PER_UM for each in self.shifts]
        if any(each.denominator != 1 for each in by):
            return None
        x_nm, y_nm = (each.numerator for each in by)
        points = (found.points if not any(by) else
                  {ref: (x + x_nm, y + y_nm) for ref, (x, y) in found.points.items()})
        radii = {name: whole_near(value * NM_PER_UM)
                 for name, value in self._sizes.values(offs).items()}
        if any(radius <= 0 for radius in radii.values()):
            return None
        return replace(found, points=points, radii=radii)


def _are_whole(values: Mapping[int, Fraction], scale: int) -> bool:
    """Whether values are whole micrometres, so many times as large."""
    return all(scale % value.denominator == 0 for value in values.values())


@lru_cache(maxsize=4096)
def _line(distance: Distance, length_um: int) -> str:
    """The line of a distance of another length. Raises NotHeld."""
    return replace(distance, length_um=length_um).text()


def _are_alike(one: Spelled, other: Spelled) -> bool:
    """Whether two encodings differ at most by the values of lengths, where nothing of them is left
    out or told from behind a line."""
    if any((one.left_out, other.left_out, one.behind, other.behind)):
        return False
    names = [[type(each), each.name] for each in one.sketch.elements]
    return (names == [[type(each), each.name] for each in other.sketch.elements]
            and one.points == other.points and one.tracks == other.tracks
            and len(one.sketch.constraints) == len(other.sketch.constraints)
            and all(map(_is_alike, one.sketch.constraints, other.sketch.constraints)))


def _is_alike(one: Constraint, other: Constraint) -> bool:
    """Whether two constraints differ at most by a length; that may be none on the one side."""
    if isinstance(other, Distance) and isinstance(one, (Distance, On)):
        return one.names() == other.names()
    return one == other


def _values(spelled: Spelled) -> list[Fraction | None]:
    """The length that each constraint of a sketch tells, exactly, in micrometres of the drawing;
    None of one that tells none."""
    found = [_value(each, spelled.scale) for each in spelled.sketch.constraints]
    for each in spelled.rounded:
        found[each.number - 1] = Fraction(each.exact_um)
    return found


def _value(constraint: Constraint, scale: int) -> Fraction | None:
    if isinstance(constraint, Distance):
        return Fraction(constraint.length_um, scale)
    return Fraction(0) if isinstance(constraint, On) else None


def _distances(one: Spelled, other: Spelled, probe: Probe) -> Changing | None:
    """The values that change; None where one doesn't change evenly."""
    found: dict[int, Affine] = {}
    for place, (at, there) in enumerate(zip(_values(one), _values(other))):
        if at is None or there is None or at == there:
            continue
        value = probe.affine(at, there)
        if value is None:
            return None
        found[place] = value
    return found


def _radii(drawing: Drawing, one: Rails, other: Rails,
           probe: Probe) -> Mapping[str, Affine] | None:
    """The radii of circles and arcs; None where one isn't told, or doesn't change evenly."""
    found: dict[str, Affine] = {}
    for rim in drawing.geometry:
        if isinstance(rim, (Circle, Arc)):
            at, there = (rails.size(RadiusOf(rim.name)) for rails in (one, other))
            value = None if at is None or there is None else probe.affine(Fraction(at),
                                                                          Fraction(there))
            if value is None:
                return None
            found[rim.name] = value
    return found


def _shift(asked: Trial, there: Encoding, probe: Probe, upwards: bool) -> Affine | None:
    """Where the printed places lie along an axis of the datum: on a line of the sketch that is the
    other axis, or by what is told of their coordinates; None where that changes by more than its
    value."""
    if any(each.rail and each.rail.datum() and each.rail.upwards == upwards
           for each in asked.spelled.headings):
        return Affine(Fraction(0), {})
    one, other = (known_sum(axes, upwards, asked.spelled.points)
                  for axes in (asked.axes, there.axes))
    if one is None or other is None:
        return Affine(Fraction(0), {}) if one is other else None
    return _of_sums(one, other, probe) if one.factors == other.factors else None


def _of_sums(one: KnownSum, other: KnownSum, probe: Probe) -> Affine | None:
    """By what two sums of coordinates put the places, the other with the probe's offs."""
    total = one.total()
    return probe.affine(Fraction(one.value) / total, Fraction(other.value) / total)
