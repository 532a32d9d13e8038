"""Whether a constraint says what can be, of shapes that stand."""

from __future__ import annotations

from fractions import Fraction
from typing import TYPE_CHECKING, assert_never

from pertxogai.drawing.checks import (
    MOST_UM, check_line, check_point, check_rim, check_size, is_rim, standing)
from pertxogai.drawing.constraints import (
    VALUED, AngleBetween, AngleValue, Coincident, Collinear, Concentric, Constraint, Degrees,
    Diameter, Distance, Equal, Fixed, Horizontal, Length, Midpoint, Parallel, ParallelDistance,
    Perpendicular, PointLineDistance, PointOn, Radius, Sense, Symmetric, Tangent, Valued, Vertical,
    XDistance, YDistance)
from pertxogai.drawing.geometry import Point
from pertxogai.drawing.named_shapes import NamedShapes
from pertxogai.drawing.numbers import (
    MOST_MM, MOST_RATIO, angle_text, degrees_of, mm_text, um_of)
from pertxogai.drawing.references import DATUM_NAMES, Pair, PointRef, ShapeRef, Which
from pertxogai.drawing.refusal import WordFault
from pertxogai.drawing.tolerances.tolerance import read_tolerance, split_tolerance
from pertxogai.exact import whole_up

if TYPE_CHECKING:
    from pertxogai.drawing.values.expression import Expression


def check_constraint(scene: NamedShapes, constraint: Constraint) -> None:
    """Raises WordFault unless the constraint's shapes, points and values are what it takes."""
    try:
        _check(scene, constraint)
    except WordFault as fault:
        if not isinstance(constraint, VALUED) or constraint.expression is None:
            raise
        raise _of_expression(constraint, constraint.expression, fault) from None


def check_expression(scene: NamedShapes, constraint: Constraint) -> None:
    """Raises WordFault where the value of a constraint isn't what its expression comes to, or
    is read with another sense."""
    if not isinstance(constraint, VALUED) or constraint.expression is None:
        return
    found: Fraction | Degrees
    if isinstance(constraint, AngleBetween):
        found = Degrees(degrees_of(constraint.expression, scene.values))
        told: Fraction | AngleValue = constraint.value
    else:
        found, told = um_of(constraint.expression, scene.values), constraint.value_um
    if found != told:
        raise WordFault(constraint.expression.text, "comes to another value than the constraint's: "
                        "remove the expression, or compute the value from it")
    if isinstance(constraint, (XDistance, YDistance, AngleBetween)):
        _check_sign(constraint.expression, constraint.sense)


def check_tolerance(constraint: Constraint) -> None:
    """Raises WordFault where the tolerance of a constraint isn't what its text says."""
    if not isinstance(constraint, VALUED) or constraint.tolerance is None:
        return
    tolerance = constraint.tolerance
    _, word = split_tolerance(f"0 {tolerance.text}")
    if read_tolerance(word, isinstance(constraint, AngleBetween)) != tolerance:
        raise WordFault(tolerance.text, "isn't the text of the constraint's tolerance: write both "
                        "alike, such as +0.2-0.1, and the greater deviation first")


def _check_sign(expression: Expression, sense: Sense) -> None:
    """Raises WordFault where an expression is read with another sense than a constraint has."""
    if expression.has_sign and sense is Sense.DRAWN:
        raise WordFault(expression.text, "has a sign in front, and the constraint takes its side "
                        "from the drawing: remove the sign")
    if not expression.has_sign and sense is Sense.SIGNED:
        raise WordFault(expression.text, "has no sign in front, and the constraint's value says on "
                        "which side: write one in front")


def _of_expression(constraint: Valued, expression: Expression, fault: WordFault) -> WordFault:
    """A fault of what an expression comes to, told of the expression."""
    if isinstance(constraint, AngleBetween):
        word = text = angle_text(constraint.value, constraint.sense is Sense.SIGNED)
    else:
        word = mm_text(constraint.value_um)
        text = f"{mm_text(Fraction(_whole_nm(constraint.value_um), 1000))} mm"
    if fault.word != word:
        return fault
    what = fault.what.partition(":")[0]
    return WordFault(expression.text, f"comes to {text}, and that {what}: change a value in it")


def _whole_nm(value_um: Fraction) -> int:
    """A length as it is told, in nanometres: never rounded to a limit that it misses."""
    nm = value_um * 1000
    return int(nm) if abs(value_um) < 1 else whole_up(abs(nm)) * (1 if nm > 0 else -1)


def _check(scene: NamedShapes, constraint: Constraint) -> None:
    match constraint:
        case Coincident(first, second):
            _check_points(scene, first, second)
            _check_not_both_ends(first, second)
        case PointOn(point, curve):
            _check_point_on(scene, point, curve)
        case Horizontal(Pair(first, second)) | Vertical(Pair(first, second)):
            _check_points(scene, first, second)
        case Horizontal(ShapeRef() as line) | Vertical(ShapeRef() as line):
            check_line(scene, line, datum=False)
        case Midpoint(point, segment):
            check_point(scene, point)
            check_line(scene, segment, datum=False)
            _check_not_own(point, segment)
        case Symmetric(first, second, about):
            _check_symmetric(scene, first, second, about)
        case Fixed(what):
            _check_fixed(scene, what)
        case (AngleBetween() | Length() | Distance() | XDistance() | YDistance() | Radius()
              | PointLineDistance() | ParallelDistance() | Diameter()):
            _check_measured(scene, constraint)
        case _:
            _check_shapes(scene, constraint)


def _check_shapes(scene: NamedShapes, constraint: Parallel | Collinear | Perpendicular | Tangent
                  | Equal | Concentric | Horizontal | Vertical) -> None:
    """Constraints of two shapes."""
    match constraint:
        case Parallel(first, second) | Collinear(first, second):
            _check_lines(scene, first, second)
        case Perpendicular(first, second, at):
            _check_lines(scene, first, second)
            _check_ends(scene, first, second, at)
        case Tangent(first, second, at):
            _check_touching(scene, first, second)
            _check_ends(scene, first, second, at)
        case Equal(first, second):
            _check_equal(scene, first, second)
        case Concentric(first, second):
            _check_rims(scene, first, second)
        case Horizontal() | Vertical():
            raise AssertionError(constraint)
        case _:
            assert_never(constraint)


def _check_measured(scene: NamedShapes, constraint: Valued) -> None:
    match constraint:
        case AngleBetween(line, other, value, sense):
            _check_lines(scene, line, other)
            _check_angle(value, sense)
        case Length(segment, value_um):
            check_line(scene, segment, datum=False)
            check_size(value_um, "length")
        case Distance(first, second, value_um):
            _check_points(scene, first, second)
            check_size(value_um, "distance")
        case XDistance(first, second) | YDistance(first, second):
            _check_points(scene, first, second)
            _check_run(constraint)
        case PointLineDistance(point, line, value_um):
            check_point(scene, point)
            check_line(scene, line)
            _check_not_own(point, line)
            check_size(value_um, "distance")
        case ParallelDistance(line, other, value_um):
            _check_lines(scene, line, other)
            check_size(value_um, "distance")
        case Radius(rim, value_um) | Diameter(rim, value_um):
            check_rim(scene, rim)
            check_size(value_um, type(constraint).__name__.lower())
        case _:
            assert_never(constraint)


def _check_points(scene: NamedShapes, first: PointRef, second: PointRef) -> None:
    check_point(scene, first)
    check_point(scene, second)
    if first == second:
        raise WordFault(str(second), "stands twice: write two different points")


def _check_not_both_ends(first: PointRef, second: PointRef) -> None:
    if first.shape == second.shape and {first.which, second.which} == {Which.START, Which.END}:
        raise WordFault(str(second), f"would leave {first.shape} without a length: write a point "
                                     "of another shape, or draw a circle or a point instead")


def _check_different(first: ShapeRef, second: ShapeRef) -> None:
    if first == second:
        raise WordFault(second.name, "stands twice: write two different shapes")


def _check_lines(scene: NamedShapes, first: ShapeRef, second: ShapeRef) -> None:
    check_line(scene, first)
    check_line(scene, second)
    _check_different(first, second)
    if {first.name, second.name} <= DATUM_NAMES:
        raise WordFault(second.name, "is an axis, like the other: write a segment for one of them")


def _check_rims(scene: NamedShapes, first: ShapeRef, second: ShapeRef) -> None:
    check_rim(scene, first)
    check_rim(scene, second)
    _check_different(first, second)


def _check_point_on(scene: NamedShapes, point: PointRef, curve: ShapeRef) -> None:
    check_point(scene, point)
    if not is_rim(scene, curve):
        check_line(scene, curve)
    _check_not_own(point, curve)


def _check_not_own(point: PointRef, shape: ShapeRef) -> None:
    if point.shape == shape.name:
        raise WordFault(str(point), f"is a point of {shape.name} itself: write another point")


def _check_touching(scene: NamedShapes, first: ShapeRef, second: ShapeRef) -> None:
    for each in (first, second):
        if not is_rim(scene, each):
            check_line(scene, each)
    _check_different(first, second)
    if not is_rim(scene, first) and not is_rim(scene, second):
        raise WordFault(second.name, "is no circle or arc: two segments on one line are "
                                     "`collinear`")


def _check_ends(scene: NamedShapes, first: ShapeRef, second: ShapeRef, at: Pair | None) -> None:
    if at is None:
        return
    for point, shape in ((at.first, first), (at.second, second)):
        check_point(scene, point)
        if point.shape != shape.name or point.which not in (Which.START, Which.END):
            raise WordFault(str(point), f"is no end of {shape.name}: write {shape.name}.start or "
                                        f"{shape.name}.end")


def _check_equal(scene: NamedShapes, first: ShapeRef, second: ShapeRef) -> None:
    if is_rim(scene, first) or is_rim(scene, second):
        _check_rims(scene, first, second)
        return
    check_line(scene, first, datum=False)
    check_line(scene, second, datum=False)
    _check_different(first, second)


def _check_symmetric(scene: NamedShapes, first: PointRef, second: PointRef,
                     about: ShapeRef | PointRef) -> None:
    _check_points(scene, first, second)
    if isinstance(about, ShapeRef):
        check_line(scene, about)
        if {str(first), str(second)} == {f"{about.name}.start", f"{about.name}.end"}:
            raise WordFault(about.name, "would be without a length: write another segment")
        return
    check_point(scene, about)
    if about in (first, second):
        raise WordFault(str(about), "stands twice: write a third point, or a segment")


def _check_fixed(scene: NamedShapes, what: PointRef | ShapeRef) -> None:
    if isinstance(what, PointRef):
        check_point(scene, what)
    else:
        standing(scene, what.name, what.name)
    name = what.shape if isinstance(what, PointRef) else what.name
    if name in DATUM_NAMES:
        raise WordFault(name, "is the datum, which is fixed from the start: leave the line out")
    if isinstance(what, ShapeRef) and isinstance(scene.shape(name), Point):
        raise WordFault(name, "is a point: fix it by a PointRef")


def _check_angle(value: AngleValue, sense: Sense) -> None:
    word = angle_text(value, sense is Sense.SIGNED)
    match value:
        case Degrees(degrees) if degrees % 180 == 0:
            raise WordFault(word, "is no angle of two lines that cross: write `parallel` instead")
        case Degrees(degrees) if sense is Sense.DRAWN and not 0 < degrees < 180:
            raise WordFault(word, "is no angle: write one above 0 and below 180 degrees")
        case Degrees(degrees) if abs(degrees) > 360:
            raise WordFault(word, "is more than a whole turn: write at most 360 degrees")
    if not isinstance(value, Degrees) and (
            value.p == 0 or value.q < 0 or max(abs(value.p), value.q) > MOST_RATIO
            or (sense is Sense.DRAWN and value.p < 0)):
        raise WordFault(word, f"is no ratio: both numbers are at most {MOST_RATIO}, and the "
                              "first isn't 0")


def _check_run(constraint: XDistance | YDistance) -> None:
    value_um = constraint.value_um
    if abs(value_um) > MOST_UM:
        raise WordFault(mm_text(value_um), f"is beyond {MOST_MM} mm: write less")
    if constraint.sense is Sense.DRAWN and value_um < 0:
        raise WordFault(mm_text(value_um), "has a minus where the drawing is to decide")
