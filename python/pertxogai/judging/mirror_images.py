"""Two points that are symmetric to a slanted line lie on either side of it. Where one of them is
placed, the other is drawn across, since its drawn side tells the program where to place it."""
from __future__ import annotations

from dataclasses import replace

from pertxogai.exact import Vector, between, cross, root, square
from pertxogai.judging.printed import PrintedPlaces
from pertxogai.program.reports import PartsReport, Solved
from pertxogai.spelling.axes import Axes
from pertxogai.spelling.facts import Apart, HalfOf, Line, Off
from pertxogai.spelling.linear import Number
from pertxogai.spelling.writing import Spelled


def with_image_across(axes: Axes, spelled: Spelled, report: PartsReport,
                      fact: Apart | Off) -> Axes:
    """The axes, with the mirror image of a point drawn across the line from where the point is
    placed. fact: how far a point is from a line, as the placed parts tell it."""
    image = _image(axes, fact)
    if image is None or not isinstance(fact, Off):
        return axes
    line = axes.lines.leader(fact.line)
    height = _placed_height(spelled, report, fact, line)
    if not height or (axes.facts.left(image.point, line) > 0) == (height < 0):
        return axes
    drawn = {**axes.facts.drawn, image.point: _moved(axes, image, line, -height)}
    return axes.redrawn(replace(axes.facts, drawn=drawn)) or axes


def _image(axes: Axes, fact: Apart | Off) -> Off | None:
    """How far the mirror image of a point is from the line; None where the point has none."""
    if not any(isinstance(key, HalfOf) for key in fact.value.terms):
        return None
    return next((each for each in axes.loose if isinstance(each, Off) and each is not fact
                 and each.owner == fact.owner), None)


def _placed_height(spelled: Spelled, report: PartsReport, fact: Off, line: Line) -> Number:
    """How far a point is placed to the left of a line, in micrometres, below 0 to its right; 0
    where no part has both."""
    name = spelled.points[fact.point]
    track = next((key for key, track in spelled.tracks.items() if track == line), None)
    for part in report.parts:
        if isinstance(part.shape, Solved) and track is not None:
            plate = PrintedPlaces.of(part.shape.places, spelled.scale)
            if name in plate.points and track in plate.lines:
                return plate.left_of(track, name)
    return 0


def _moved(axes: Axes, image: Off, line: Line, height: Number) -> Vector:
    """Where a point is drawn that is moved across a line, to so many micrometres to its left."""
    (a, b), spot = axes.facts.direction(line), axes.facts.drawn[image.point]
    size = root(square((a, b)))
    start = axes.facts.drawn[axes.facts.own[line][0]]
    shift = (height - cross((a, b), between(start, spot)) / size) / size
    return spot[0] - b * shift, spot[1] + a * shift
