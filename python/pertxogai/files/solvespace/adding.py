"""Constraints as SolveSpace's records: those that are proposed where dimensions are missing. What
each form means is as `constraints` reads it."""
from __future__ import annotations

from collections.abc import Iterator, Mapping
from dataclasses import dataclass
from fractions import Fraction

from pertxogai.drawing import (
    ORIGIN, X_AXIS, Y_AXIS, AngleBetween, Coincident, Concentric, Constraint, Degrees,
    Diameter, Distance, Drawing, Equal, Horizontal, Length, Pair, Parallel, Perpendicular,
    PointLineDistance, PointOn, PointRef, Radius, Segment, ShapeRef, Vertical, Which, XDistance,
    YDistance, line_of, run_um, turn, way)
from pertxogai.files.contents import NotSayable
from pertxogai.files.solvespace.constraints import (
    X_NORMAL, X_PLANE, Y_NORMAL, Y_PLANE, Kind)
from pertxogai.files.solvespace.shapes import Drawn

_UM_PER_MM = 1000
_PLANES = {X_AXIS: Y_PLANE, Y_AXIS: X_PLANE}
"""The reference plane that shows as each axis."""


@dataclass(frozen=True)
class Handles:
    """SolveSpace's numbers of a sketch: its group, its plane, its shapes by their names, and
    whether the plane is the xy plane, whose axes the reference planes stand on."""

    group: int
    plane: int
    shapes: Mapping[str, Drawn]
    is_level: bool

    def entity(self, ref: ShapeRef) -> int:
        """A shape. Raises NotSayable."""
        if ref in _PLANES:
            return self._upright(_PLANES[ref])
        return self._drawn(ref.name).number << 16

    def point(self, ref: PointRef) -> int:
        """A point, or the origin of the plane. Raises NotSayable."""
        if ref == ORIGIN:
            return self.plane | 2
        entities = self._drawn(ref.shape).entities()
        return next(handle for handle, each in entities.items() if each == ref)

    def along(self, is_y: bool) -> int:
        """What a distance along an axis is projected on. Raises NotSayable."""
        return self._upright(Y_NORMAL if is_y else X_NORMAL)

    def off(self, is_y: bool) -> int:
        """The plane from which a coordinate is measured. Raises NotSayable."""
        return self._upright(Y_PLANE if is_y else X_PLANE)

    def _upright(self, handle: int) -> int:
        if not self.is_level:
            raise NotSayable("its plane isn't the xy plane, so it has no axes there")
        return handle

    def _drawn(self, name: str) -> Drawn:
        if name not in self.shapes:
            raise NotSayable(f"{name} isn't drawn in its plane")
        return self.shapes[name]


Fields = Mapping[str, int | str]
"""Of a record, its numbers by their names: handles, and a value as it is written."""


def addition_lines(drawing: Drawing, constraint: Constraint, handles: Handles,
                   number: int) -> Iterator[bytes]:
    """The lines of the record of a constraint of a drawing that was read from a file, as its
    constraint of that number. Raises NotSayable where SolveSpace has none."""
    kind, fields = _record(drawing, constraint, handles)
    yield f"Constraint.h.v={number:08x}".encode("ascii")
    yield f"Constraint.type={int(kind)}".encode("ascii")
    yield f"Constraint.group.v={handles.group:08x}".encode("ascii")
    yield f"Constraint.workplane.v={handles.plane:08x}".encode("ascii")
    for name, value in fields.items():
        text = value if isinstance(value, str) else f"{value:08x}"
        yield f"Constraint.{name}={text}".encode("ascii")
    yield from (b"Constraint.other=0", b"Constraint.other2=0", b"Constraint.reference=0")
    if constraint.name is not None:
        yield f"Constraint.comment={constraint.name}".encode("utf-8", "replace")
    yield from (b"AddConstraint", b"")


def _record(drawing: Drawing, constraint: Constraint, handles: Handles) -> tuple[Kind, Fields]:
    match constraint:
        case (Length() | Distance() | PointLineDistance() | Radius() | Diameter() | XDistance()
              | YDistance() | AngleBetween()):
            return _dimension(drawing, constraint, handles)
        case Coincident(first, second):
            return Kind.PTS_COINCIDENT, _points(handles, first, second)
        case Concentric(one, other):
            centres = (PointRef(each.name, Which.CENTRE) for each in (one, other))
            return Kind.PTS_COINCIDENT, _points(handles, *centres)
        case PointOn(point, curve):
            return _on(drawing, handles, point, curve)
    return _relation(drawing, constraint, handles)


def _relation(drawing: Drawing, constraint: Constraint, handles: Handles) -> tuple[Kind, Fields]:
    """A constraint of shapes without a value."""
    match constraint:
        case Horizontal(of) | Vertical(of):
            kind = Kind.HORIZONTAL if isinstance(constraint, Horizontal) else Kind.VERTICAL
            if isinstance(of, Pair):
                return kind, _points(handles, of.first, of.second)
            return kind, {"entityA.v": handles.entity(of)}
        case Parallel():
            return Kind.PARALLEL, _shapes(handles, constraint.first, constraint.second)
        case Perpendicular(at=None):
            return Kind.PERPENDICULAR, _shapes(handles, constraint.first, constraint.second)
        case Equal(first, second):
            is_edge = isinstance(drawing.shape(first.name), Segment)
            return (Kind.EQ_LENGTH if is_edge else Kind.EQUAL_RADIUS,
                    _shapes(handles, first, second))
    raise NotSayable(f"SolveSpace has no constraint for {line_of(constraint)}")


def _dimension(drawing: Drawing, constraint: Constraint, handles: Handles) -> tuple[Kind, Fields]:
    """A constraint with a value."""
    match constraint:
        case Length(segment, value_um):
            ends = (PointRef(segment.name, which) for which in (Which.START, Which.END))
            return Kind.PT_PT_DISTANCE, {"valA": _mm(value_um), **_points(handles, *ends)}
        case Distance(first, second, value_um):
            return Kind.PT_PT_DISTANCE, {"valA": _mm(value_um), **_points(handles, first, second)}
        case PointLineDistance():
            return Kind.PT_LINE_DISTANCE, _off(drawing, constraint, handles)
        case Radius(rim, value_um):
            return Kind.DIAMETER, {"valA": _mm(2 * value_um), "entityA.v": handles.entity(rim)}
        case Diameter(rim, value_um):
            return Kind.DIAMETER, {"valA": _mm(value_um), "entityA.v": handles.entity(rim)}
        case XDistance() | YDistance():
            return _run(drawing, constraint, handles)
        case AngleBetween(first, second):
            asked = turn(drawing, constraint)
            if isinstance(asked, Degrees) and X_AXIS not in (first, second):
                return Kind.ANGLE, {"valA": _number(abs(asked.value)),
                                    **_shapes(handles, first, second)}
    raise NotSayable(f"SolveSpace has no constraint for {line_of(constraint)}")


def _run(drawing: Drawing, run: XDistance | YDistance, handles: Handles) -> tuple[Kind, Fields]:
    """How far a point lies from the origin, or from another, along an axis."""
    value, is_y = _mm(run_um(drawing, run)), isinstance(run, YDistance)
    if run.first == ORIGIN:
        return Kind.PT_PLANE_DISTANCE, {"valA": value, "ptA.v": handles.point(run.second),
                                        "entityA.v": handles.off(is_y)}
    return Kind.PROJ_PT_PT_DISTANCE, {"valA": value, **_points(handles, run.first, run.second),
                                      "entityA.v": handles.along(is_y)}


def _off(drawing: Drawing, off: PointLineDistance, handles: Handles) -> Fields:
    """How far a point lies off a line: SolveSpace counts to the right of it, from its start to its
    end, as above 0."""
    (dx, dy), start = way(drawing, off.line), drawing.drawn(PointRef(off.line.name, Which.START))
    at = drawing.drawn(off.point)
    is_left = dx * (at.y_um - start.y_um) - dy * (at.x_um - start.x_um) > 0
    return {"valA": _mm(-off.value_um if is_left else off.value_um),
            "ptA.v": handles.point(off.point), "entityA.v": handles.entity(off.line)}


def _on(drawing: Drawing, handles: Handles, point: PointRef,
        curve: ShapeRef) -> tuple[Kind, Fields]:
    fields = {"ptA.v": handles.point(point), "entityA.v": handles.entity(curve)}
    if curve in _PLANES:
        return Kind.PT_IN_PLANE, fields
    if isinstance(drawing.shape(curve.name), Segment):
        return Kind.PT_ON_LINE, fields
    return Kind.PT_ON_CIRCLE, fields


def _points(handles: Handles, first: PointRef, second: PointRef) -> Fields:
    return {"ptA.v": handles.point(first), "ptB.v": handles.point(second)}


def _shapes(handles: Handles, first: ShapeRef, second: ShapeRef) -> Fields:
    return {"entityA.v": handles.entity(first), "entityB.v": handles.entity(second)}


def _mm(value_um: Fraction) -> str:
    return _number(value_um / _UM_PER_MM)


def _number(value: Fraction) -> str:
    return f"{float(value):.20f}"
