"""Drawings as DXF by ezdxf, in millimetres: segments and arcs with their ends, construction on
a layer of its own."""
from __future__ import annotations

import io
import math
from collections.abc import Iterable, Iterator, Sequence
from typing import TYPE_CHECKING

from pertxogai.exits import MissingLibrary
from pertxogai.output.picture.marks import Bow, Dot, Manner, Mark, PointMm, Ring, Stroke
from pertxogai.output.release import Release
from pertxogai.program.reports import CircleEntity, Entity, PointEntity

if TYPE_CHECKING:
    from ezdxf.layouts.layout import Modelspace

MILLIMETRES = 4
EDGES, CONSTRUCTION = "EDGES", "CONSTRUCTION"


def dxf_text(marks: Iterable[Mark], release: Release = Release.R2010) -> str:
    """The marks of a picture, in millimetres, as a DXF drawing. Raises MissingLibrary without
    ezdxf."""
    try:
        from ezdxf.filemanagement import new
    except ImportError:
        raise MissingLibrary(
            "ezdxf is missing, which writes DXF: apt-get install python3-ezdxf, and run it by"
            " /usr/bin/python3; or pip install ezdxf"
        ) from None
    document = new(release.value, setup=["linetypes"])
    document.units = MILLIMETRES
    document.header["$MEASUREMENT"] = 1
    document.layers.add(EDGES)
    document.layers.add(CONSTRUCTION, linetype="DASHED", color=8)
    _draw(document.modelspace(), [*marks])
    text = io.StringIO()
    document.write(text)
    return text.getvalue()


def without_corners(marks: Iterable[Mark]) -> tuple[Mark, ...]:
    """The marks without the points that an edge of the part shows already: where it ends, or its
    centre. A machine may take a point for a place to drill."""
    all_marks = tuple(marks)
    shown = {place for mark in all_marks if mark.ink.manner is not Manner.CONSTRUCTION
             for place in _corners(mark)}
    return tuple(mark for mark in all_marks if not (isinstance(mark, Dot) and mark.at in shown))


def _corners(mark: Mark) -> Iterator[PointMm]:
    """The ends and the centre of an edge."""
    if isinstance(mark, (Stroke, Bow)):
        yield from (mark.start, mark.end)
    if isinstance(mark, (Ring, Bow)):
        yield mark.centre


def marks_of(entities: Iterable[Entity]) -> tuple[Mark, ...]:
    """The entities of the program's own `dxf` as marks in millimetres: its points, circles, and
    lines with ends."""
    return tuple(map(_mark, entities))


def _mark(entity: Entity) -> Mark:
    if isinstance(entity, PointEntity):
        return Dot((entity.x_nm / 1e6, entity.y_nm / 1e6))
    if isinstance(entity, CircleEntity):
        return Ring((entity.x_nm / 1e6, entity.y_nm / 1e6), entity.radius_nm / 1e6)
    return Stroke(
        (entity.x1_nm / 1e6, entity.y1_nm / 1e6), (entity.x2_nm / 1e6, entity.y2_nm / 1e6)
    )


def _draw(space: Modelspace, marks: Sequence[Mark]) -> None:
    """Draws all marks, and says from where to where they reach, by which viewers show them."""
    for mark in marks:
        _add(space, mark)
    places = [place for mark in marks for place in _furthest(mark)]
    if places:
        xs, ys = zip(*places)
        space.reset_extents((min(xs), min(ys), 0), (max(xs), max(ys), 0))


def _furthest(mark: Mark) -> Iterator[PointMm]:
    """Places of which the box is that of a mark."""
    if isinstance(mark, Dot):
        yield mark.at
    elif isinstance(mark, Ring):
        (x, y), radius = mark.centre, mark.radius
        yield from ((x - radius, y - radius), (x + radius, y + radius))
    else:
        yield from (mark.start, mark.end)
    if isinstance(mark, Bow):
        yield from _turning(mark)


def _turning(arc: Bow) -> Iterator[PointMm]:
    """Where an arc is furthest to the right, up, to the left and down of its circle."""
    (x, y), radius, (first, last) = arc.centre, math.dist(arc.centre, arc.start), _angles(arc)
    for turn, (right, up) in enumerate(((1, 0), (0, 1), (-1, 0), (0, -1))):
        if (90 * turn - first) % 360 <= (last - first) % 360:
            yield x + right * radius, y + up * radius


def _add(space: Modelspace, mark: Mark) -> None:
    """Adds a mark to the drawing."""
    layer = {"layer": CONSTRUCTION if mark.ink.manner is Manner.CONSTRUCTION else EDGES}
    if isinstance(mark, Dot):
        space.add_point(mark.at, dxfattribs=layer)
    elif isinstance(mark, Ring):
        space.add_circle(mark.centre, mark.radius, dxfattribs=layer)
    elif isinstance(mark, Stroke):
        space.add_line(mark.start, mark.end, dxfattribs=layer)
    else:
        space.add_arc(
            mark.centre, math.dist(mark.centre, mark.start), *_angles(mark), dxfattribs=layer
        )


def _angles(arc: Bow) -> tuple[float, float]:
    """Where an arc starts and ends, in degrees from 0 to 360."""
    (x, y), start, end = arc.centre, arc.start, arc.end
    first, last = math.atan2(start[1] - y, start[0] - x), math.atan2(end[1] - y, end[0] - x)
    return math.degrees(first) % 360, math.degrees(last) % 360
