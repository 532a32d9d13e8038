"""Where the designer's points lie, and how large the rims are: in whole nanometres, in the datum's
frame."""
from __future__ import annotations

from collections.abc import Callable
from functools import cache, partial
from typing import NamedTuple

from pertxogai.drawing import ORIGIN, Arc, Circle, Drawing, PointRef
from pertxogai.exact import whole_near
from pertxogai.judging.measure.solution import PointNm, Solution
from pertxogai.judging.printed import PrintedPlaces, in_datum
from pertxogai.judging.sizes import Sizes
from pertxogai.judging.trials import Trial
from pertxogai.program.reports import Shape
from pertxogai.spelling.facts import ORIGIN_KNOT, RadiusOf

NM_PER_UM = 1000


class Settled(NamedTuple):
    """The places of a drawing, and the circles of which nothing tells the size, which are as they
    are drawn."""

    solution: Solution
    unsized: tuple[str, ...]


def settled(drawing: Drawing, asked: Trial, shape: Shape) -> Settled:
    """What was printed for a drawing, carried to the datum's frame and rounded there. A circle
    whose radius would have to be 0 or less by what is told, and that the places tell no other, is
    as it is drawn, so that what tells its radius is measured as off."""
    points = _points(asked, shape)
    radii = _radii(drawing, asked, cache(partial(_sizes, asked, points)))
    drawn = {name: whole_near(drawing.drawn_radius_um(name) * NM_PER_UM) for name in radii}
    found = {name: radius or drawn[name] for name, radius in radii.items()}
    unsized = (name for name, radius in radii.items() if radius is None)
    return Settled(Solution(points, found), tuple(unsized))


def solution_of(drawing: Drawing, asked: Trial, shape: Shape) -> Solution:
    """The places alone."""
    return settled(drawing, asked, shape).solution


def _points(asked: Trial, shape: Shape) -> dict[PointRef, PointNm]:
    """Where each of the designer's points lies."""
    spelled = asked.spelled
    at = in_datum(asked.axes, spelled, PrintedPlaces.of(shape.places, spelled.scale))
    return {ref: at[spelled.points[knot]] if knot in spelled.points else (0, 0)
            for ref, knot in asked.axes.facts.refs.items() if ref != ORIGIN}


def _sizes(asked: Trial, points: dict[PointRef, PointNm]) -> Sizes:
    """What the placed points tell of sizes."""
    facts = asked.axes.facts
    spots = {knot: points[ref] for ref, knot in facts.refs.items() if ref != ORIGIN}
    return Sizes(facts, {**spots, ORIGIN_KNOT: (0, 0)})


def _radii(drawing: Drawing, asked: Trial,
           sizes: Callable[[], Sizes]) -> dict[str, int | None]:
    """Each rim's radius: the one that is told; None where nothing tells it, 0 where it would be 0
    or less. Where one is told to be that, since its centre lies across a line that it touches,
    others may rest on it: then each has the one that the places tell. sizes: what the places tell,
    which few drawings need."""
    told = {rim.name: asked.rails.size(RadiusOf(rim.name)) for rim in drawing.geometry
            if isinstance(rim, (Circle, Arc))}
    is_across = any(each is not None and each <= 0 for each in told.values())
    found: dict[str, int | None] = {}
    for name, size in told.items():
        found[name] = sizes().radius_nm(name) if size is None or is_across else None
        if found[name] is None and size is not None:
            found[name] = max(0, whole_near(size * NM_PER_UM))
    return found
