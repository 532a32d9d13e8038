"""Whether a line of the sketch is just what a dimension says, and how far off the dimension is
then."""
from __future__ import annotations

from fractions import Fraction

from pertxogai import language
from pertxogai.drawing import (
    Diameter, Distance, Length, PointRef, Radius, Which, XDistance, YDistance)
from pertxogai.judging.naming import Names
from pertxogai.spelling.facts import ORIGIN_KNOT, Knot
from pertxogai.spelling.rails import Rail
from pertxogai.spelling.writing import Spelled

RUNS = XDistance, YDistance
"""What has a side: what the others give on the other one is below zero."""


def off_um(names: Names, number: int, line: language.Distance, off_nm: int) -> Fraction | None:
    """What the others give, less what a dimension says, in micrometres of the drawing, where a
    line of the sketch that it says is off by so many nanometres; None where the line isn't just
    what it says."""
    line = _over_its_rail(names.spelled, line)
    times, said_nm = _times_said(names, number, line), 1000 * line.length_um
    given_nm = said_nm + off_nm
    if not isinstance(names.drawing.constraints[number - 1], RUNS):
        # A height that the others turn over is below zero; what the dimension says has no side.
        given_nm = abs(given_nm)
    return Fraction(times * (given_nm - said_nm), 1000 * names.spelled.scale) if times else None


def _over_its_rail(spelled: Spelled, line: language.Distance) -> language.Distance:
    """A height that is told from a line of help, as one over the rail that the line is behind."""
    behind = spelled.behind.get(line.second)
    if behind is None:
        return line
    height_um = line.length_um - behind.back_um * spelled.scale
    return language.Distance(line.first, behind.rail, max(1, height_um))


def _times_said(names: Names, number: int, line: language.Distance) -> int:
    """How many times a line of the sketch is what a dimension says: twice of a diameter, which is
    spelled by its radius; -1 times where what it says is below zero; 0 times where the line
    doesn't say it as it is."""
    said_um = Fraction(line.length_um, names.spelled.scale)
    match names.drawing.constraints[number - 1]:
        case Length(segment, value_um) if value_um == said_um:
            ends = (PointRef(segment.name, each) for each in (Which.START, Which.END))
            return int(_runs(names, line, *ends))
        case Distance(first, second, value_um) if value_um == said_um:
            return int(_runs(names, line, first, second))
        case XDistance(first, second, value_um) | YDistance(first, second, value_um) if (
                abs(value_um) == said_um and line.second in names.spelled.tracks):
            return int(_runs(names, line, first, second)) * (1 if value_um > 0 else -1)
        case Radius(_, value_um) if value_um == said_um:
            return 1
        case Diameter(_, value_um) if value_um == 2 * said_um:
            return 2
    return 0


def _runs(names: Names, line: language.Distance, first: PointRef, second: PointRef) -> bool:
    """Whether a distance runs from one of two points to the other, or to a rail that has it; or
    between points of help, where what is told twice is spelled so."""
    points = names.spelled.points
    if not {*points.values(), *names.spelled.tracks}.intersection(line.names()):
        return True
    one, other = names.refs[first], names.refs[second]
    return any(points.get(end) == line.first and line.second in _carriers(names, far)
               for end, far in ((one, other), (other, one)))


def _carriers(names: Names, knot: Knot) -> set[str | None]:
    """What a point is in the sketch, and the rails that have it."""
    spelled, name = names.spelled, names.spelled.points.get(knot)
    rails = {each: track for each, track in spelled.tracks.items() if isinstance(track, Rail)}
    through = {line.carrier for line in spelled.sketch.constraints
               if isinstance(line, language.On) and line.point == name and line.carrier in rails}
    datum = {each for each, rail in rails.items() if knot == ORIGIN_KNOT and rail.datum()}
    return {name, *through, *datum}
