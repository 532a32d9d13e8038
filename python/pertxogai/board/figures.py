"""Figures of several shapes that a tool draws by one edit, as lines of the drawing."""
from __future__ import annotations

import math
from collections.abc import Iterable, Iterator
from dataclasses import replace
from fractions import Fraction

from pertxogai.board.line_reader import asking, drawn
from pertxogai.board.mapping import rounded
from pertxogai.drawing import (
    Anchor, Arc, Circle, Drawing, Place, PointRef, Segment, Shape, Which, WordFault, points_of)
from pertxogai.drawing.geometry import Point
from pertxogai.drawing.numbers import mm_text
from pertxogai.drawing.shorthands import Expansion

LEAST_SIDES, MOST_SIDES = 3, 40
"""How many sides a regular polygon may have."""
STRAIGHT = math.sin(math.radians(0.5))
"""The sine of the least angle between a direction and the way to the end of an arc that begins in
it."""


def slot(drawing: Drawing, name: str, centres: tuple[Anchor, ...],
         radius_um: Fraction) -> Expansion:
    """A slot: the sides NAMERight and NAMELeft, the arcs NAMEEnd and NAMEStart round two centres,
    which touch them and are equal. Raises WordFault where the centres are one."""
    if len(centres) != 2:
        raise WordFault(name, "needs two centres")
    whole = _with_slot(drawing, name, centres, radius_um)
    return Expansion(whole.geometry[len(drawing.geometry):],
                     whole.constraints[len(drawing.constraints):])


def _with_slot(drawing: Drawing, name: str, centres: tuple[Anchor, ...],
               radius_um: Fraction) -> Drawing:
    first, second = (_place(drawing, each) for each in centres)
    dx, dy = float(second.x_um - first.x_um), float(second.y_um - first.y_um)
    length = math.hypot(dx, dy)
    if not length:
        raise WordFault(name, "has its two centres in one place: draw them apart")
    aside = dy / length * float(radius_um), -dx / length * float(radius_um)
    for line in _slot_lines(name, centres, (first, second), aside):
        drawing = replace(drawing, geometry=(
            *drawing.geometry, *drawn(drawing.geometry, line.split()).shapes))
    touches = ("Right", "End"), ("End", "Left"), ("Left", "Start"), ("Start", "Right")
    for one, other in touches:
        drawing = asking(drawing, ["tangent", f"{name}{one}", f"{name}{other}"])
    return asking(drawing, ["equal", f"{name}End", f"{name}Start"])


def polygon(drawing: Drawing, name: str, spots: tuple[Anchor, ...], sides: int) -> Expansion:
    """A regular polygon: the construction circle NAME round a centre, and on it the sides
    NAMESide1, NAMESide2, .. counter-clockwise from a corner, which are equal. Raises WordFault
    where the corner is the centre, or there are too few or too many sides."""
    if len(spots) != 2 or not LEAST_SIDES <= sides <= MOST_SIDES:
        raise WordFault(str(sides), f"sides: a polygon has from {LEAST_SIDES} to {MOST_SIDES}")
    centre, corner = (_place(drawing, each) for each in spots)
    x, y = float(corner.x_um - centre.x_um), float(corner.y_um - centre.y_um)
    radius = Fraction(round(math.hypot(x, y)))
    if not radius:
        raise WordFault(name, "has its corner in its centre: draw them apart")
    names = [f"{name}Side{number}" for number in range(1, sides + 1)]
    shapes: list[Shape] = [Circle(name, spots[0], radius, construction=True)]
    first: Anchor = spots[1]
    for number, side in enumerate(names, 1):
        turn = 2 * math.pi * number / sides
        way = (x * math.cos(turn) - y * math.sin(turn), x * math.sin(turn) + y * math.cos(turn))
        last: Anchor = PointRef(names[0], Which.START)
        shapes.append(Segment(side, first, _beside(centre, way, 1) if number < sides else last))
        first = PointRef(side, Which.END)
    asks = [["on", f"{side}.start", name] for side in names]
    return _figure(drawing, shapes, [*asks, ["equal", *names]])


def centre_rectangle(drawing: Drawing, name: str, spots: tuple[Anchor, ...]) -> Expansion:
    """A rectangle round its centre, with a corner: the centre is a point that stands, or the
    construction point NAMECentre. Raises WordFault where the corner is level with the centre, or
    upright above or below it."""
    if len(spots) != 2:
        raise WordFault(name, "needs a centre and a corner")
    centre, corner = (_place(drawing, each) for each in spots)
    opposite = Place(2 * centre.x_um - corner.x_um, 2 * centre.y_um - corner.y_um)
    line = f"rectangle {name} {_words(opposite)} {_words(spots[1])}"
    said = drawn(drawing.geometry, line.split())
    middle = str(spots[0]) if isinstance(spots[0], PointRef) else f"{name}Centre"
    mark = [] if isinstance(spots[0], PointRef) else [Point(middle, centre, construction=True)]
    whole = Expansion((*said.shapes, *mark), said.constraints)
    corners = f"{name}Bottom.start {name}Top.start"
    more = _figure(drawing, whole.shapes, [["symmetric", *corners.split(), "about", middle]])
    return Expansion(whole.shapes, (*whole.constraints, *more.constraints))


def tangent_arc(drawing: Drawing, name: str, spots: tuple[Anchor, ...]) -> Expansion:
    """An arc that goes on from the end of a segment or an arc in its direction, to a place. Raises
    WordFault where nothing ends there, or the place lies straight ahead."""
    begins = spots[0] if len(spots) == 2 else None
    edge = _ending(drawing, begins) if isinstance(begins, PointRef) else None
    if begins is None or edge is None:
        raise WordFault(name, "needs the end of a segment or an arc to begin in: click one")
    start, end = (_place(drawing, each) for each in spots)
    u, v = _direction(drawing, edge)
    x, y = float(end.x_um - start.x_um), float(end.y_um - start.y_um)
    away, aside = math.hypot(x, y), u * y - v * x
    if abs(aside) <= STRAIGHT * away:
        raise WordFault(name, "would run straight on: draw a segment, or end it beside")
    size = away ** 2 / (2 * aside)
    centre = rounded(float(start.x_um) - v * size, float(start.y_um) + u * size)
    ends = spots if aside > 0 else spots[::-1]
    arc = Arc(name, centre, ends[0], ends[1])
    return _figure(drawing, [arc], [["tangent", edge.shape, name]])


def _ending(drawing: Drawing, point: PointRef) -> PointRef | None:
    """The end of a segment or an arc in a point: that of the last one which is drawn."""
    found = [ref for shape in drawing.geometry if isinstance(shape, (Segment, Arc))
             for ref in points_of(shape)
             if ref.which is not Which.CENTRE and drawing.meetings.same(ref, point)]
    return found[-1] if found else None


def _direction(drawing: Drawing, end: PointRef) -> tuple[float, float]:
    """The direction in which a segment or an arc would go on beyond an end of it."""
    is_end = end.which is Which.END
    other = PointRef(end.shape, Which.START if is_end else Which.END)
    place = drawing.drawn(end)
    if isinstance(drawing.shape(end.shape), Segment):
        x, y = _way(drawing.drawn(other), place)
    else:
        u, v = _way(drawing.drawn(PointRef(end.shape, Which.CENTRE)), place)
        x, y = (-v, u) if is_end else (v, -u)
    length = math.hypot(x, y)
    return x / length, y / length


def _way(start: Place, end: Place) -> tuple[float, float]:
    """The way from one place to another, in micrometres."""
    return float(end.x_um - start.x_um), float(end.y_um - start.y_um)


def _figure(drawing: Drawing, shapes: Iterable[Shape], asks: Iterable[list[str]]) -> Expansion:
    """Some shapes behind those of a drawing, with what is asked of them, each by a line's words."""
    made = tuple(shapes)
    whole = replace(drawing, geometry=(*drawing.geometry, *made), constraints=())
    for words in asks:
        whole = asking(whole, words)
    return Expansion(made, whole.constraints)


def _slot_lines(name: str, centres: tuple[Anchor, ...], places: tuple[Place, Place],
                aside: tuple[float, float]) -> Iterator[str]:
    """The lines of a slot, its right side so far aside of its centres, in micrometres."""
    (start, end), (low, high) = map(_words, centres), (
        [_words(_beside(place, aside, side)) for place in places] for side in (1, -1))
    yield f"segment {name}Right {low[0]} {low[1]}"
    yield f"arc {name}End {end} {name}Right.end {high[1]}"
    yield f"segment {name}Left {name}End.end {high[0]}"
    yield f"arc {name}Start {start} {name}Left.end {name}Right.start"


def _beside(place: Place, aside: tuple[float, float], side: int) -> Place:
    """A place beside another, to the next micrometre."""
    return rounded(float(place.x_um) + side * aside[0], float(place.y_um) + side * aside[1])


def _place(drawing: Drawing, spot: Anchor) -> Place:
    """Where a spot is drawn."""
    return drawing.drawn(spot) if isinstance(spot, PointRef) else spot


def _words(spot: Anchor) -> str:
    """A spot as it is written."""
    if isinstance(spot, PointRef):
        return str(spot)
    return f"{mm_text(spot.x_um)} {mm_text(spot.y_um)}"
