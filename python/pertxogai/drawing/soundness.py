"""Whether a drawing says what can be: each shape and each constraint of it."""

from __future__ import annotations

from bisect import bisect_left
from collections.abc import Iterator
from fractions import Fraction

from pertxogai.drawing.checks import MOST_UM, check_point, check_size
from pertxogai.drawing.constraint_checks import (
    check_constraint, check_expression, check_tolerance)
from pertxogai.drawing.constraints import Symmetric
from pertxogai.drawing.drawing import Drawing
from pertxogai.drawing.geometry import Anchor, Arc, Circle, Segment, Shape
from pertxogai.drawing.named_shapes import NamedShapes, points_of, shares, spot_of
from pertxogai.drawing.names import check_constraint_name, check_shape_name
from pertxogai.drawing.numbers import MOST_MM, mm_text
from pertxogai.drawing.references import Pair, PointRef, ShapeRef, Which
from pertxogai.drawing.refusal import DrawingUnsound, WordFault
from pertxogai.drawing.tolerances.check import check_checks
from pertxogai.drawing.values.table import Values, check_value_name


def faults(drawing: Drawing, sound: Drawing = Drawing()) -> tuple[DrawingUnsound, ...]:
    """What is unsound about a drawing, at most one fault for each value, shape or constraint.
    Shapes are examined only if all values are sound, and constraints only if all shapes are.
    `sound`: a sound drawing from which this one was made; what is unchanged isn't examined
    again."""
    return (tuple(_value_faults(drawing, sound)) or tuple(_shape_faults(drawing, sound))
            or tuple(_constraint_faults(drawing, sound)) + tuple(_check_faults(drawing)))


def checked(drawing: Drawing, sound: Drawing = Drawing()) -> Drawing:
    """The drawing itself; raises its first DrawingUnsound. `sound`: as for `faults`."""
    for fault in faults(drawing, sound):
        raise fault
    return drawing


def _value_faults(drawing: Drawing, sound: Drawing) -> Iterator[DrawingUnsound]:
    if drawing.values is sound.values:
        return
    values, taken = Values(drawing.values), set[str]()
    for each in drawing.values:
        try:
            check_value_name(each.name)
            if each.name in taken:
                raise WordFault(each.name, "is a value already: take another name")
            values.quantity(each.name)
            taken.add(each.name)
        except WordFault as fault:
            yield DrawingUnsound(f"value {each.name}", fault.word, fault.what)


def _shape_faults(drawing: Drawing, sound: Drawing) -> Iterator[DrawingUnsound]:
    scene = NamedShapes(values=drawing.scene.values)
    known = {id(each) for each in sound.geometry if not shares(each)}
    for shape in drawing.geometry:
        try:
            if id(shape) not in known or scene.has(shape.name):
                check_shape(scene, shape)
            scene.add(shape)
        except WordFault as fault:
            yield DrawingUnsound(shape.name, fault.word, fault.what)


def _constraint_faults(drawing: Drawing, sound: Drawing) -> Iterator[DrawingUnsound]:
    names: set[str] = set()
    known = {id(each) for each in sound.constraints} if _kinds(drawing) == _kinds(sound) else set()
    of_values = drawing.values == sound.values
    for number, constraint in enumerate(drawing.constraints, start=1):
        try:
            if constraint.name is not None:
                check_name(constraint.name, names)
            if id(constraint) not in known:
                check_constraint(drawing.scene, constraint)
                check_tolerance(constraint)
            if id(constraint) not in known or not of_values:
                check_expression(drawing.scene, constraint)
        except WordFault as fault:
            yield DrawingUnsound(drawing.called(number), fault.word, fault.what)


def _check_faults(drawing: Drawing) -> Iterator[DrawingUnsound]:
    """The first check that says what can't be measured."""
    try:
        check_checks(drawing.scene, drawing.tolerancing.checks)
    except WordFault as fault:
        yield DrawingUnsound("a check", fault.word, fault.what)


def _kinds(drawing: Drawing) -> list[tuple[str, type[Shape]]]:
    """What of the shapes decides on what can be said of them: their names and kinds."""
    return [(shape.name, type(shape)) for shape in drawing.geometry]


def ends_made_one(drawing: Drawing) -> tuple[int, str] | None:
    """The number of the first constraint by which both ends of a segment or an arc coincide, with
    the shape's name; None if there is none."""
    said = drawing.constraints
    if _closed_shape(drawing) is None:
        return None
    number = bisect_left(range(len(said)), True, key=lambda count: _closed_shape(
        Drawing(drawing.geometry, said[:count + 1])) is not None) + 1
    name = _closed_shape(Drawing(drawing.geometry, said[:number]))
    assert name is not None
    return number, name


def mirrored_in_itself(drawing: Drawing) -> tuple[int, str] | None:
    """The number of the first constraint by which both ends of a segment are mirror images in it,
    with the segment's name; None if there is none. Points that coincide count as one."""
    return next(((number, each.about.name) for number, each in enumerate(drawing.constraints, 1)
                 if isinstance(each, Symmetric) and isinstance(each.about, ShapeRef)
                 and _are_ends(drawing, Pair(each.first, each.second), each.about)), None)


def _are_ends(drawing: Drawing, pair: Pair, line: ShapeRef) -> bool:
    """Whether two points coincide with both ends of a segment."""
    if not isinstance(drawing.shape(line.name), Segment):
        return False
    leader = drawing.meetings.leader
    ends = PointRef(line.name, Which.START), PointRef(line.name, Which.END)
    return set(map(leader, ends)) == {leader(pair.first), leader(pair.second)}


def _closed_shape(drawing: Drawing) -> str | None:
    """The first segment or arc of which both ends are one point."""
    same = drawing.meetings.same
    return next((shape.name for shape in drawing.geometry if isinstance(shape, Segment | Arc)
                 and same(PointRef(shape.name, Which.START), PointRef(shape.name, Which.END))),
                None)


def check_name(name: str, taken: set[str]) -> None:
    """Takes a constraint's name; raises WordFault where it is none, or taken."""
    check_constraint_name(name)
    if name in taken:
        raise WordFault(name, "is a constraint already: take another name")
    taken.add(name)


def check_shape(scene: NamedShapes, shape: Shape) -> None:
    """Raises WordFault unless the shape may be added to those that stand."""
    check_shape_name(shape.name)
    if scene.values.has(shape.name):
        raise WordFault(shape.name, "is a value already: take another name")
    if scene.has(shape.name):
        raise WordFault(shape.name, "is drawn already: take another name")
    spots = tuple(spot_of(shape, ref.which) for ref in points_of(shape))
    places = tuple(_place(scene, spot) for spot in spots)
    match shape:
        case Circle():
            check_size(shape.radius_um, "radius")
        case Segment() if places[0] == places[1]:
            raise WordFault(shape.name, "is drawn from a place to itself: draw its ends apart")
        case Arc() if places[0] in places[1:]:
            raise WordFault(shape.name, "has an end drawn at its centre: draw them apart")
        case Arc() if places[1] == places[2]:
            raise WordFault(shape.name, "ends where it starts: draw a circle, or its ends apart")


def _place(scene: NamedShapes, spot: Anchor) -> tuple[Fraction, Fraction]:
    if isinstance(spot, PointRef):
        check_point(scene, spot)
        spot = scene.drawn(spot)
    for value in (spot.x_um, spot.y_um):
        if abs(value) > MOST_UM:
            raise WordFault(mm_text(value), f"is beyond {MOST_MM} mm: draw it nearer")
    return spot.x_um, spot.y_um
