"""Lines that ask: a constraint's word, what it is asked of, and its value."""

from __future__ import annotations

from collections.abc import Callable, Iterable
from dataclasses import replace
from enum import Enum

from pertxogai.drawing.checks import check_line
from pertxogai.drawing.constraints import (
    AngleBetween, Coincident, Collinear, Concentric, Constraint, Diameter, Distance, Equal, Fixed,
    Horizontal, Length, Midpoint, Parallel, ParallelDistance, Perpendicular, PointLineDistance,
    PointOn, Radius, Symmetric, Tangent, Vertical, XDistance, YDistance)
from pertxogai.drawing.cursor import Cursor
from pertxogai.drawing.numbers import WrittenLength
from pertxogai.drawing.references import ORIGIN, X_AXIS, Pair, PointRef, ShapeRef, Which
from pertxogai.drawing.refusal import WordFault


class ConstraintWord(Enum):
    """The words that ask."""

    COINCIDENT = "coincident"
    ON = "on"
    HORIZONTAL = "horizontal"
    VERTICAL = "vertical"
    PARALLEL = "parallel"
    PERPENDICULAR = "perpendicular"
    COLLINEAR = "collinear"
    ANGLE = "angle"
    LENGTH = "length"
    DISTANCE = "distance"
    X = "x"
    Y = "y"
    RADIUS = "radius"
    DIAMETER = "diameter"
    TANGENT = "tangent"
    EQUAL = "equal"
    CONCENTRIC = "concentric"
    SYMMETRIC = "symmetric"
    MIDPOINT = "midpoint"
    FIXED = "fixed"


def read_constraints(word: ConstraintWord, words: Cursor, name: str | None
                     ) -> tuple[Constraint, ...]:
    """The constraints that a line asks for; the cursor stands behind the line's first word.

    A word that takes two shapes takes more as well, and says the same of the first and each
    further one. Such a line is several constraints, and has no name."""
    asked = tuple(_read_all(word, words, name))
    words.end()
    if name is not None and len(asked) != 1:
        raise WordFault(name, f"names {len(asked)} constraints: write a line for each of them")
    return asked


def _read_all(word: ConstraintWord, words: Cursor, name: str | None) -> Iterable[Constraint]:
    match word:
        case ConstraintWord.COINCIDENT:
            first, rest = _points(words)
            return (Coincident(first, each, name) for each in rest)
        case ConstraintWord.ON:
            return (PointOn(words.point(), words.shape(), name),)
        case ConstraintWord.HORIZONTAL:
            return (Horizontal(of, name) for of in _levels(words))
        case ConstraintWord.VERTICAL:
            return (Vertical(of, name) for of in _levels(words))
        case ConstraintWord.TANGENT:
            return (Tangent(*_touching(words), name),)
        case ConstraintWord.PERPENDICULAR:
            return (Perpendicular(*_touching(words), name),)
        case ConstraintWord.SYMMETRIC:
            return (_symmetric(words, name),)
        case ConstraintWord.MIDPOINT:
            return (Midpoint(words.point(), words.shape("a segment"), name),)
        case ConstraintWord.FIXED:
            return tuple(Fixed(each, name) for each in _things(words, 1))
        case (ConstraintWord.PARALLEL | ConstraintWord.COLLINEAR | ConstraintWord.EQUAL
              | ConstraintWord.CONCENTRIC):
            return _same(word, words, name)
        case _:
            return _read_valued(word, words, name)


def _same(word: ConstraintWord, words: Cursor, name: str | None) -> Iterable[Constraint]:
    """The same of the first shape and each further one."""
    first = words.shape()
    rest = [words.shape("a second shape")]
    while words.left():
        rest.append(words.shape())
    for second in rest:
        match word:
            case ConstraintWord.PARALLEL:
                yield Parallel(first, second, name)
            case ConstraintWord.COLLINEAR:
                yield Collinear(first, second, name)
            case ConstraintWord.EQUAL:
                yield Equal(first, second, name)
            case ConstraintWord.CONCENTRIC:
                yield Concentric(first, second, name)


def _read_valued(word: ConstraintWord, words: Cursor, name: str | None) -> Iterable[Constraint]:
    match word:
        case ConstraintWord.ANGLE:
            return (_angle(words, name),)
        case ConstraintWord.DISTANCE:
            return (_distance(words, name),)
        case ConstraintWord.X | ConstraintWord.Y:
            return (_read_run(word, words, name),)
        case ConstraintWord.LENGTH:
            return _sizes(words, lambda shape, it: Length(
                shape, it.value_um, name, expression=it.expression, tolerance=it.tolerance))
        case ConstraintWord.RADIUS:
            return _sizes(words, lambda shape, it: Radius(
                shape, it.value_um, name, expression=it.expression, tolerance=it.tolerance))
        case ConstraintWord.DIAMETER:
            return _sizes(words, lambda shape, it: Diameter(
                shape, it.value_um, name, expression=it.expression, tolerance=it.tolerance))
    raise AssertionError(word)


def _sizes(words: Cursor, made: Callable[[ShapeRef, WrittenLength], Constraint]
           ) -> Iterable[Constraint]:
    """One size for each of some shapes."""
    shapes = [words.shape()]
    while words.left() > 1 and not words.begins_value():
        shapes.append(words.shape())
    value = words.length()
    return tuple(made(shape, value) for shape in shapes)


def _points(words: Cursor) -> tuple[PointRef, list[PointRef]]:
    first, rest = words.point(), [words.point("a second point")]
    while words.left():
        rest.append(words.point())
    return first, rest


def _things(words: Cursor, least: int) -> list[PointRef | ShapeRef]:
    things = [words.thing() for _ in range(least)]
    while words.left():
        things.append(words.thing())
    return things


def _levels(words: Cursor) -> Iterable[ShapeRef | Pair]:
    """Segments, each by itself; or points, the first with each further one."""
    things = _things(words, 1)
    if all(isinstance(each, ShapeRef) and not _is_round(words, each) for each in things):
        return [each for each in things if isinstance(each, ShapeRef)]
    first, *rest = (_as_point(words, each) for each in things)
    if not rest:
        raise WordFault(str(things[0]), "is one point: write a second one, or a segment")
    return [Pair(first, each) for each in rest]


def _is_round(words: Cursor, ref: ShapeRef) -> bool:
    return PointRef(ref.name, Which.CENTRE) in words.scene.points(ref.name)


def _as_point(words: Cursor, thing: PointRef | ShapeRef) -> PointRef:
    if isinstance(thing, PointRef):
        return thing
    if _is_round(words, thing):
        return PointRef(thing.name, Which.CENTRE)
    raise WordFault(thing.name, f"is no point: write {thing.name}.start or {thing.name}.end")


def _touching(words: Cursor) -> tuple[ShapeRef, ShapeRef, Pair | None]:
    """Two shapes; or an end of each, where they also meet."""
    first, second = words.thing(), words.thing("a second shape")
    if isinstance(first, ShapeRef) and isinstance(second, ShapeRef):
        return first, second, None
    for each, other in ((first, second), (second, first)):
        if isinstance(each, ShapeRef):
            raise WordFault(each.name, f"is a whole shape, and {other} an end: write an end of "
                                       "each, or two whole shapes")
    assert isinstance(first, PointRef) and isinstance(second, PointRef)
    return ShapeRef(first.shape), ShapeRef(second.shape), Pair(first, second)


def _symmetric(words: Cursor, name: str | None) -> Symmetric:
    """Two points, or the ends of a segment; `about`; a segment, an axis or a point."""
    thing = words.thing()
    if isinstance(thing, ShapeRef) and not _is_round(words, thing):
        check_line(words.scene, thing, datum=False)
        first, second = PointRef(thing.name, Which.START), PointRef(thing.name, Which.END)
    else:
        first, second = _as_point(words, thing), words.point("a second point")
    words.took("about")
    about = words.thing("a segment, an axis or a point")
    if isinstance(about, ShapeRef) and _is_round(words, about):
        about = _as_point(words, about)
    return Symmetric(first, second, about, name)


def _angle(words: Cursor, name: str | None) -> AngleBetween:
    """A segment, whose angle is to the x axis, or two; and the angle."""
    first = words.shape("a segment")
    is_one = words.left() <= 1 or words.begins_value()
    lines = (X_AXIS, first) if is_one else (first, words.shape("a segment"))
    angle = words.angle()
    return AngleBetween(*lines, angle.value, angle.sense, name, expression=angle.expression,
                        tolerance=angle.tolerance)


def _distance(words: Cursor, name: str | None
              ) -> Distance | PointLineDistance | ParallelDistance:
    """Two points, a point and a line in either order, or two parallel lines."""
    first, second = (_point_or_line(words, words.thing(meant))
                     for meant in ("a point or a segment", "a second point or a segment"))
    return replace(_distance_of(first, second, words.length()), name=name)


def _distance_of(first: PointRef | ShapeRef, second: PointRef | ShapeRef,
                 it: WrittenLength) -> Distance | PointLineDistance | ParallelDistance:
    value, expression, tolerance = it.value_um, it.expression, it.tolerance
    match first, second:
        case (PointRef() as one, PointRef() as other):
            return Distance(one, other, value, expression=expression, tolerance=tolerance)
        case (PointRef() as point, ShapeRef() as line) | (ShapeRef() as line, PointRef() as point):
            return PointLineDistance(point, line, value, expression=expression, tolerance=tolerance)
        case (ShapeRef() as line, ShapeRef() as parallel):
            return ParallelDistance(line, parallel, value, expression=expression,
                                    tolerance=tolerance)
    raise AssertionError(first, second)


def _point_or_line(words: Cursor, thing: PointRef | ShapeRef) -> PointRef | ShapeRef:
    if isinstance(thing, ShapeRef) and _is_round(words, thing):
        return _as_point(words, thing)
    return thing


def _read_run(word: ConstraintWord, words: Cursor, name: str | None) -> XDistance | YDistance:
    """One point, told from the origin, or two; and how far the second lies from the first."""
    first, second = ORIGIN, words.point()
    if words.left() and not words.begins_value():
        first, second = second, words.point()
    it = words.length()
    kind: type[XDistance] | type[YDistance] = (
        XDistance if word is ConstraintWord.X else YDistance)
    return kind(first, second, it.value_um, it.sense, name, expression=it.expression,
                tolerance=it.tolerance)
