"""Constraints as FreeCAD's entries of a sketch: those that are proposed where dimensions are
missing. What each form means is as `constraints` reads it."""
from __future__ import annotations

import math
from fractions import Fraction
from xml.sax.saxutils import quoteattr

from pertxogai.drawing import (
    ORIGIN, X_AXIS, Y_AXIS, AngleBetween, Coincident, Concentric, Constraint, Degrees, Diameter,
    Distance, Drawing, Equal, Horizontal, Length, Pair, Parallel, Perpendicular, PointLineDistance,
    PointOn, PointRef, Radius, ShapeRef, Tangent, Vertical, Which, XDistance, YDistance, run_um,
    turn)
from pertxogai.files.freecad.constraints import X_NUMBER, Y_NUMBER, End, Entry, Kind, Position
from pertxogai.files.freecad.shapes import number_of

NOWHERE = End(-2000, Position.NONE)
"""No place is named."""
_UM_PER_MM = 1000
_POSITIONS = {Which.AT: Position.START, Which.START: Position.START, Which.END: Position.END,
              Which.CENTRE: Position.MIDDLE}
_PLAIN = {Parallel: Kind.PARALLEL, Perpendicular: Kind.PERPENDICULAR, Equal: Kind.EQUAL,
          Tangent: Kind.TANGENT, Concentric: Kind.COINCIDENT}


def addition_tag(drawing: Drawing, constraint: Constraint) -> bytes:
    """The tag of a constraint of a drawing that was read from a file."""
    entry = entry_of(drawing, constraint)
    places = zip(("First", "Second", "Third"), (entry.first, entry.second, entry.third))
    named = " ".join(f'{word}="{end.shape}" {word}Pos="{int(end.position)}"'
                     for word, end in places)
    name = quoteattr(constraint.name or "")
    return (f'<Constrain Name={name} Type="{int(entry.kind)}" Value="{entry.value:.16f}" {named} '
            'LabelDistance="10.0000000000000000" LabelPosition="0.0000000000000000" IsDriving="1" '
            'IsInVirtualSpace="0" IsActive="1" />\n').encode("utf-8", "xmlcharrefreplace")


def entry_of(drawing: Drawing, constraint: Constraint) -> Entry:
    """A constraint as an entry. Raises ValueError at one that is never proposed."""
    match constraint:
        case (Length() | Distance() | PointLineDistance() | Radius() | Diameter() | XDistance()
              | YDistance() | AngleBetween()):
            return _dimension(drawing, constraint)
        case Horizontal(of) | Vertical(of):
            kind = Kind.HORIZONTAL if isinstance(constraint, Horizontal) else Kind.VERTICAL
            if isinstance(of, Pair):
                return _entry(kind, of.first, of.second)
            return _entry(kind, of)
        case Coincident(first, second):
            return _entry(Kind.COINCIDENT, first, second)
        case Concentric(one, other):
            return _entry(Kind.COINCIDENT, PointRef(one.name, Which.CENTRE),
                          PointRef(other.name, Which.CENTRE))
        case PointOn(point, curve):
            return _entry(Kind.POINT_ON_OBJECT, point, curve)
        case Parallel() | Perpendicular(at=None) | Equal() | Tangent(at=None):
            return _entry(_PLAIN[type(constraint)], constraint.first, constraint.second)
    raise ValueError(constraint)


def _dimension(drawing: Drawing, constraint: Constraint) -> Entry:
    """A constraint with a value."""
    match constraint:
        case Length(segment, value_um):
            return _entry(Kind.DISTANCE, segment, value=_mm(value_um))
        case Distance(first, second, value_um):
            return _entry(Kind.DISTANCE, first, second, _mm(value_um))
        case PointLineDistance(point, line, value_um):
            return _entry(Kind.DISTANCE, point, line, _mm(value_um))
        case Radius(rim, value_um):
            return _entry(Kind.RADIUS, rim, value=_mm(value_um))
        case Diameter(rim, value_um):
            return _entry(Kind.DIAMETER, rim, value=_mm(value_um))
        case XDistance() | YDistance():
            kind = Kind.DISTANCE_X if isinstance(constraint, XDistance) else Kind.DISTANCE_Y
            return _ahead(kind, constraint.first, constraint.second, run_um(drawing, constraint))
        case AngleBetween(first, second):
            asked = turn(drawing, constraint)
            if isinstance(asked, Degrees):
                return _angle_entry(first, second, asked.value)
    raise ValueError(constraint)


def _ahead(kind: Kind, first: PointRef, second: PointRef, value_um: Fraction) -> Entry:
    """An x or y distance as FreeCAD has it: from the point that lies behind."""
    if value_um < 0:
        first, second = second, first
    return _entry(kind, first, second, _mm(abs(value_um)))


def _angle_entry(first: ShapeRef, second: ShapeRef, value: Fraction) -> Entry:
    """An angle in radians, above 0 where it is one of two edges."""
    radians = math.radians(value)
    if first == X_AXIS:
        return _entry(Kind.ANGLE, second, value=radians)
    if radians < 0:
        first, second = second, first
    return _entry(Kind.ANGLE, first, second, abs(radians))


def _entry(kind: Kind, first: PointRef | ShapeRef, second: PointRef | ShapeRef | None = None,
           value: float = 0.0) -> Entry:
    return Entry(kind, _end(first), NOWHERE if second is None else _end(second), NOWHERE, value, "")


def _end(of: PointRef | ShapeRef) -> End:
    """A point or a shape by FreeCAD's numbers."""
    if of == ORIGIN:
        return End(X_NUMBER, Position.START)
    if of in (X_AXIS, Y_AXIS):
        return End(X_NUMBER if of == X_AXIS else Y_NUMBER, Position.NONE)
    if isinstance(of, PointRef):
        return End(number_of(of.shape), _POSITIONS[of.which])
    return End(number_of(of.name), Position.NONE)


def _mm(value_um: Fraction) -> float:
    return float(value_um / _UM_PER_MM)
