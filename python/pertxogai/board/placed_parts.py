"""Each part of a drawing as the program places it by itself, laid on the drawing."""
from __future__ import annotations

import math
from collections.abc import Iterator, Mapping, Sequence
from dataclasses import dataclass

from pertxogai.board.laying import Piece, in_turn
from pertxogai.drawing import ORIGIN, Circle, Drawing, PointRef, points_of
from pertxogai.drawing.geometry import Arc
from pertxogai.judging import Judgement
from pertxogai.judging.measure import Solution
from pertxogai.judging.printed import PrintedPlaces
from pertxogai.judging.turning import axis_of, known_sum
from pertxogai.output.picture.fitting import Motion
from pertxogai.output.picture.marks import PointMm
from pertxogai.program import Solver
from pertxogai.program.reports import PlacedPart, Solved, read_parts
from pertxogai.spelling.axes import Axes
from pertxogai.spelling.facts import DATUM, Knot, RadiusOf
from pertxogai.spelling.linear import Form, Number
from pertxogai.spelling.writing import Spelled


@dataclass(frozen=True)
class LaidPart:
    """A part by its number: where its points come to lie, in millimetres, and the radii of its
    rims."""

    number: int
    points: dict[PointRef, PointMm]
    radii: dict[str, float]


def parts_laid(judgement: Judgement, program: Solver) -> tuple[LaidPart, ...]:
    """The parts of which the designer knows a point, and which the program places."""
    text = judgement.asked.spelled.sketch.text()
    report = read_parts(program.ask(["parts"], text).text)
    return tuple(_laid_parts(judgement, report.parts))


def shown_between(drawing: Drawing, parts: Sequence[LaidPart]) -> Solution:
    """Where each point is shown while the drawing is open: as the first part that has it is laid,
    else as it is drawn; in nm, to look at."""
    points = {ref: _nm(spot) for part in reversed(parts) for ref, spot in part.points.items()}
    for ref in drawing.points():
        place = drawing.drawn(ref)
        points.setdefault(ref, (round(place.x_um * 1000), round(place.y_um * 1000)))
    radii = {name: round(radius * 1e6) for part in parts for name, radius in part.radii.items()}
    for shape in drawing.geometry:
        if isinstance(shape, (Circle, Arc)):
            radii.setdefault(shape.name, round(drawing.drawn_radius_um(shape.name) * 1000))
    return Solution(points, radii)


def _nm(spot: PointMm) -> tuple[int, int]:
    return round(spot[0] * 1e6), round(spot[1] * 1e6)


def _laid_parts(judgement: Judgement, parts: tuple[PlacedPart, ...]) -> Iterator[LaidPart]:
    refs = _refs(judgement)
    spots = {name: drawn(judgement, mine[0]) for name, mine in refs.items()}
    fixed = {name: (0.0, 0.0) for name, mine in refs.items() if ORIGIN in mine}
    pieces = (_piece(judgement, part.part.number, part.shape, spots) for part in parts
              if isinstance(part.shape, Solved))
    found = in_turn([piece for piece in pieces if piece.points], spots, fixed)
    for piece, motion in sorted(found, key=lambda each: each[0].number):
        points = {ref: motion.of(spot)
                  for name, spot in piece.points.items() for ref in refs[name]}
        yield LaidPart(piece.number, points, _radii(judgement, points))


def _refs(judgement: Judgement) -> dict[str, list[PointRef]]:
    """The designer's points behind each point of the sketch."""
    names = judgement.names
    found: dict[str, list[PointRef]] = {}
    for ref, knot in names.refs.items():
        if knot in names.spelled.points:
            found.setdefault(names.spelled.points[knot], []).append(ref)
    return found


def _piece(judgement: Judgement, number: int, shape: Solved, known: Mapping[str, PointMm]) -> Piece:
    """A part as it is placed by itself, and what of it the drawing fixes against the datum."""
    axes, spelled = judgement.asked.axes, judgement.asked.spelled
    plate = PrintedPlaces.of(shape.places, spelled.scale)
    points = {name: (float(x) / 1e3, float(y) / 1e3)
              for name, (x, y) in plate.points.items() if name in known}
    axis = plate.axis(spelled.headings, DATUM) or _told_axis(axes, spelled, plate)
    if axis is None:
        return Piece(number, points)
    dx, dy = (_shift(axes, spelled, plate, axis, upwards) for upwards in (False, True))
    return Piece(number, points, Motion(float(axis[0]), -float(axis[1])), dx, dy)


def _told_axis(axes: Axes, spelled: Spelled, plate: PrintedPlaces) -> PointMm | None:
    """The direction of the datum's x axis in a part, of length 1, where no line of it says that,
    but the drawing does."""
    spots = {knot: plate.points[name] for knot, name in _knots(spelled, plate).items()}
    found = axis_of(axes, spots)
    if found is None:
        return None
    length = math.hypot(*map(float, found))
    return float(found[0]) / length, float(found[1]) / length


def _shift(axes: Axes, spelled: Spelled, plate: PrintedPlaces, axis: Sequence[Number | float],
           upwards: bool) -> float | None:
    """How far a part is shifted along an axis, in millimetres, once it is turned: by a line that is
    told from the other axis, or by points of which the coordinate is told, or a sum of several;
    None where there is neither."""
    for each in spelled.headings:
        if each.rail and each.rail.datum() and each.rail.upwards == upwards \
                and each.name in plate.lines:
            return (float(each.at_um) - _along(axis, upwards, plate.foot(each.name))) / 1e3
    knots = _knots(spelled, plate)
    told = known_sum(axes, upwards, knots)
    if told is None:
        return None
    here = sum(float(factor) * _along(axis, upwards, plate.points[knots[knot]])
               for knot, factor in told.factors.items())
    return (float(told.value) - here) / float(told.total()) / 1e3


def _knots(spelled: Spelled, plate: PrintedPlaces) -> dict[Knot, str]:
    """The points of a part, by what they are of the drawing."""
    return {knot: name for knot, name in spelled.points.items() if name in plate.points}


def _along(axis: Sequence[Number | float], upwards: bool, spot: Sequence[Number]) -> float:
    """How far a place lies along an axis, or along its left."""
    (a, b), (x, y) = map(float, axis), map(float, spot)
    return a * y - b * x if upwards else a * x + b * y


def drawn(judgement: Judgement, ref: PointRef) -> PointMm:
    """Where a point is drawn, in millimetres."""
    place = judgement.names.drawing.drawn(ref)
    return float(place.x_um) / 1e3, float(place.y_um) / 1e3


def _radii(judgement: Judgement, points: dict[PointRef, PointMm]) -> dict[str, float]:
    """The radii of the rims of which all points are there: as told, else as drawn."""
    return {shape.name: _radius(judgement, shape.name)
            for shape in judgement.names.drawing.geometry
            if isinstance(shape, (Circle, Arc)) and all(ref in points for ref in points_of(shape))}


def _radius(judgement: Judgement, name: str) -> float:
    told = judgement.asked.rails.number(Form.of(RadiusOf(name)))
    um = told if told is not None and told > 0 else judgement.names.drawing.drawn_radius_um(name)
    return float(um) / 1e3
