"""All elements of a placed sketch, lines of help too, carried to the datum's frame, to look at."""
from __future__ import annotations

from collections.abc import Mapping
from dataclasses import dataclass

from pertxogai.judging import Judgement
from pertxogai.judging.printed import PrintedPlaces, in_datum
from pertxogai.language import PlacedCircle, PlacedLine
from pertxogai.output.picture.fitting import Motion, fitted
from pertxogai.output.picture.marks import PointMm
from pertxogai.program.reports import Shape
from pertxogai.spelling.facts import DATUM


@dataclass(frozen=True)
class ElementPoint:
    """A point or centre, in millimetres."""

    at: PointMm


@dataclass(frozen=True)
class ElementLine:
    """A line without ends: a place on it, and its direction of length 1."""

    through: PointMm
    way: PointMm


Element = ElementPoint | ElementLine


def elements_placed(judgement: Judgement, shape: Shape) -> Mapping[str, Element]:
    """Each element of the sketch where it is placed, in the datum's frame."""
    spelled = judgement.asked.spelled
    plate = PrintedPlaces.of(shape.places, spelled.scale)
    level = in_datum(judgement.asked.axes, spelled, plate)
    per = 1e6 * spelled.scale
    motion = _motion(plate, level, judgement)
    found: dict[str, Element] = {}
    for each in shape.places:
        if isinstance(each, PlacedLine):
            a, b = each.a_ppb / 1e9, each.b_ppb / 1e9
            way = motion.cos * b + motion.sin * a, motion.sin * b - motion.cos * a
            found[each.name] = ElementLine(motion.of((a * each.c_nm / per, b * each.c_nm / per)),
                                           way)
        elif isinstance(each, PlacedCircle):
            found[each.name] = ElementPoint(motion.of((each.x_nm / per, each.y_nm / per)))
        else:
            x, y = level[each.name]
            found[each.name] = ElementPoint((x / 1e6, y / 1e6))
    return found


def _motion(plate: PrintedPlaces, level: Mapping[str, tuple[int, int]],
            judgement: Judgement) -> Motion:
    """The motion from the printed frame to the datum's."""
    pairs = [((float(x) / 1e3, float(y) / 1e3), (level[name][0] / 1e6, level[name][1] / 1e6))
             for name, (x, y) in plate.points.items()]
    if len({first for first, _ in pairs}) > 1:
        return fitted(pairs)
    axis = plate.axis(judgement.asked.spelled.headings, DATUM)
    cos, sin = (float(axis[0]), -float(axis[1])) if axis else (1.0, 0.0)
    turn = Motion(cos, sin)
    (x, y), (u, v) = turn.of(pairs[0][0]), pairs[0][1]
    return Motion(cos, sin, u - x, v - y)
