"""What the buttons change in a document: each change is one step of FreeCAD's own undo."""
from __future__ import annotations

import math
from collections.abc import Iterable, Iterator, Sequence
from contextlib import contextmanager
from typing import Any

import FreeCAD
import Sketcher

from pertxogai.drawing import Constraint, Drawing, PointRef, Which
from pertxogai.files.freecad.adding import entry_of
from pertxogai.files.freecad.constraints import Entry, Kind
from pertxogai.judging import GoodJudgement
from pertxogai.judging.measure import Solution
from pertxogai.judging.measure.upright import upright
from pertxogai_freecad.freecad_types import OwnDocument, OwnSketch
from pertxogai_freecad.sketches import ReadSketch
from pertxogai_freecad.trouble import Trouble

NM_PER_MM = 1e6
TYPES = {
    Kind.COINCIDENT: "Coincident", Kind.HORIZONTAL: "Horizontal", Kind.VERTICAL: "Vertical",
    Kind.PARALLEL: "Parallel", Kind.TANGENT: "Tangent", Kind.DISTANCE: "Distance",
    Kind.DISTANCE_X: "DistanceX", Kind.DISTANCE_Y: "DistanceY", Kind.ANGLE: "Angle",
    Kind.PERPENDICULAR: "Perpendicular", Kind.RADIUS: "Radius", Kind.EQUAL: "Equal",
    Kind.POINT_ON_OBJECT: "PointOnObject", Kind.DIAMETER: "Diameter",
}
"""FreeCAD's words for the kinds of constraint that are proposed."""
VALUED = {Kind.DISTANCE, Kind.DISTANCE_X, Kind.DISTANCE_Y, Kind.ANGLE, Kind.RADIUS, Kind.DIAMETER}


@contextmanager
def one_step(document: OwnDocument, name: str) -> Iterator[None]:
    """What is done within, and what FreeCAD moves then, is one step of its undo, or isn't done at
    all. Raises Trouble where FreeCAD refuses it."""
    document.openTransaction(name)
    try:
        yield
        document.recompute()
    except Exception as error:  # FreeCAD raises ValueError, TypeError and errors of its own.
        document.abortTransaction()
        raise Trouble(f"FreeCAD refuses it, and nothing is changed: {error}") from error
    document.commitTransaction()


def remove(read: ReadSketch, index: int) -> None:
    """Takes a constraint away, by FreeCAD's number from 0. Raises Trouble where the sketch was
    changed since it was read."""
    read.check_constraints()
    name = read.drawing.called(read.numbers(index)[0])
    with one_step(read.sketch.Document, f"Remove {name} (Pertxogai)"):
        read.sketch.delConstraint(index)


def add(read: ReadSketch, drawing: Drawing, constraints: Iterable[Constraint]) -> None:
    """Adds constraints of a drawing that was completed. Raises Trouble where the sketch was changed
    since it was read: constraints name shapes by their numbers."""
    read.check_unchanged()
    added = [constraint_of(entry_of(drawing, each)) for each in constraints]
    plural = "dimension" if len(added) == 1 else "dimensions"
    with one_step(read.sketch.Document, f"Add {len(added)} {plural} (Pertxogai)"):
        for each in added:
            read.sketch.addConstraint(each)


def constraint_of(entry: Entry) -> Any:
    """An entry as a constraint of FreeCAD's."""
    words: list[int | float] = []
    for end in (entry.first, entry.second):
        if end.there:
            words += [end.shape, int(end.position)] if end.is_point else [end.shape]
    if entry.kind in VALUED:
        words.append(float(entry.value))
    return Sketcher.Constraint(TYPES[entry.kind], *words)


def place(read: ReadSketch, good: GoodJudgement) -> None:
    """Moves the sketch's shapes to the places of its judgement, which is good. Raises Trouble where
    the sketch was changed since it was read."""
    read.check_unchanged()
    level = upright(good.solution)
    geometry = list(read.sketch.Geometry)
    for count, shape in read.curves().items():
        _settle(geometry[count], shape.name, level)
    marks = [read.sketch.getConstruction(count) for count in range(len(geometry))]
    with one_step(read.sketch.Document, "Place (Pertxogai)"):
        read.sketch.Geometry = geometry
        _mark(read.sketch, marks)


def _mark(sketch: OwnSketch, marks: Sequence[bool]) -> None:
    """Makes each curve construction geometry or not as it was: FreeCAD takes a point for part of
    the outline once it is stored anew."""
    for count, is_construction in enumerate(marks):
        if sketch.getConstruction(count) != is_construction:
            sketch.setConstruction(count, is_construction)


def _settle(curve: Any, name: str, level: Solution) -> None:
    """Moves one of FreeCAD's curves to where its shape is placed."""
    def at(which: Which) -> Any:
        x, y = level.points[PointRef(name, which)]
        return FreeCAD.Vector(float(x) / NM_PER_MM, float(y) / NM_PER_MM, 0)

    kind = curve.TypeId
    if kind == "Part::GeomPoint":
        curve.X, curve.Y = at(Which.AT).x, at(Which.AT).y
    elif kind == "Part::GeomLineSegment":
        curve.StartPoint, curve.EndPoint = at(Which.START), at(Which.END)
    else:
        curve.Center, curve.Radius = at(Which.CENTRE), float(level.radii[name]) / NM_PER_MM
    if kind == "Part::GeomArcOfCircle":
        _turn(curve, at(Which.CENTRE), at(Which.START), at(Which.END))


def _turn(arc: Any, centre: Any, start: Any, end: Any) -> None:
    """Turns an arc to its ends, counter-clockwise from start to end; one that is seen from behind
    runs from its end to its start."""
    first, last = (math.atan2(it.y - centre.y, it.x - centre.x) for it in (start, end))
    if arc.Axis.z < 0:
        first, last = math.pi - last, math.pi - first
    first = (first - arc.AngleXU) % (2 * math.pi)
    opening = (last - arc.AngleXU - first) % (2 * math.pi)
    arc.setParameterRange(first, first + opening)
