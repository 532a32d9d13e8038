"""Drawings that were made otherwise than from text: what is unsound about them is named."""

from fractions import Fraction

import pytest

from pertxogai.drawing import (
    ORIGIN, X_AXIS, AngleBetween, Arc, Circle, Coincident, Degrees, Diameter, Distance, Drawing,
    DrawingUnsound, Equal, Fixed, Horizontal, Length, Pair, Point, PointRef, Ratio, Segment, Sense,
    ShapeRef, Tangent, Which, XDistance, checked, faults, place_mm, um_of_mm)

HERE, THERE, UP = place_mm(0, 0), place_mm(40, 0), place_mm("0", "12.5")
EDGE, SIDE, HOLE = ShapeRef("Edge"), ShapeRef("Side"), ShapeRef("Hole")
SHAPES = (Point("A", HERE), Segment("Edge", HERE, THERE), Segment("Side", PointRef("A"), UP),
          Circle("Hole", UP, Fraction(5000)))
MM = Fraction(1000)


def told(shapes=SHAPES, constraints=()):
    return [str(fault) for fault in faults(Drawing(shapes, constraints))]


def test_a_sound_drawing():
    drawing = Drawing(SHAPES, (Length(EDGE, MM), Horizontal(EDGE, "Level")))
    assert checked(drawing) is drawing


@pytest.mark.parametrize("shape,word,where", [
    (Point("Left top", HERE), "Left top", "without blanks"),
    (Point("A", HERE), "A", "take another name"),
    (Point("XAxis", HERE), "XAxis", "the datum's own name"),
    (Segment("Top", HERE, HERE), "Top", "draw its ends apart"),
    (Segment("Top", HERE, PointRef("B")), "B", "write its line further up"),
    (Segment("Top", HERE, PointRef("Top")), "Top", "write its line further up"),
    (Segment("Top", HERE, PointRef("Edge")), "Edge", "write Edge.start or Edge.end"),
    (Circle("Bore", HERE, Fraction(0)), "0", "above 0"),
    (Circle("Bore", HERE, Fraction(1, 2)), "0.0005", "write 0.001 or more"),
    (Circle("Bore", HERE, um_of_mm(1000001)), "1000001", "beyond 1000000 mm"),
    (Arc("Bow", HERE, THERE, THERE), "Bow", "its ends apart"),
    (Arc("Bow", HERE, HERE, THERE), "Bow", "draw them apart"),
    (Point("B", place_mm(0, -1000001)), "-1000001", "draw it nearer"),
])
def test_unsound_shape(shape, word, where):
    fault, = faults(Drawing((*SHAPES, shape)))
    assert (fault.where, fault.word) == (shape.name, word)
    assert where in fault.what
    assert str(fault) == f"{shape.name}: '{word}' {fault.what}"
    with pytest.raises(DrawingUnsound):
        checked(Drawing((*SHAPES, shape)))


@pytest.mark.parametrize("constraint,word", [
    (Length(EDGE, Fraction(0)), "0"),
    (Length(EDGE, MM, "a: b"), "a: b"),
    (Length(EDGE, MM, ""), ""),
    (Length(X_AXIS, MM), "XAxis"),
    (Distance(ORIGIN, ORIGIN, MM), "Origin"),
    (Diameter(HOLE, Fraction(-1000)), "-1"),
    (Coincident(PointRef("A"), PointRef("A", Which.START)), "A.start"),
    (Coincident(PointRef("A"), PointRef("Z")), "Z"),
    (Tangent(EDGE, HOLE, Pair(PointRef("Edge", Which.END), PointRef("Hole", Which.CENTRE))),
     "Hole.centre"),
    (Tangent(EDGE, HOLE, Pair(PointRef("Side", Which.END), PointRef("Hole", Which.CENTRE))),
     "Side.end"),
    (Equal(EDGE, X_AXIS), "XAxis"),
    (AngleBetween(EDGE, SIDE, Degrees(Fraction(-60))), "-60deg"),
    (AngleBetween(EDGE, SIDE, Degrees(Fraction(180)), Sense.SIGNED), "+180deg"),
    (AngleBetween(EDGE, SIDE, Degrees(Fraction(361)), Sense.SIGNED), "+361deg"),
    (AngleBetween(EDGE, SIDE, Ratio(0, 1)), "0/1"),
    (AngleBetween(EDGE, SIDE, Ratio(-1, 1)), "-1/1"),
    (AngleBetween(EDGE, SIDE, Ratio(1, 10001)), "1/10001"),
    (XDistance(ORIGIN, PointRef("A"), Fraction(-1)), "-0.001"),
    (Fixed(ORIGIN), "Origin"),
    (Fixed(ShapeRef("A")), "A"),
])
def test_unsound_constraint(constraint, word):
    fault, = faults(Drawing(SHAPES, (constraint,)))
    assert fault.word == word
    assert "\n" not in str(fault)


def test_each_constraint_is_told_by_its_name_or_place():
    wrong = (Length(EDGE, Fraction(0)), Length(EDGE, MM, "Width"), Length(HOLE, MM, "Depth"),
             Length(EDGE, MM, "Width"))
    assert [line.split(":")[0] for line in told(constraints=wrong)] == [
        "constraint 1 (length Edge 0)", "Depth", "Width"]


def test_shapes_come_first():
    assert told((Point("B", HERE), Point("B", HERE)), (Length(EDGE, MM),)) == [
        "B: 'B' is drawn already: take another name"]


@pytest.mark.parametrize("value,um", [
    ("12.5", Fraction(12500)), (0.1, Fraction(100)), (3, Fraction(3000)),
    (Fraction(1, 3), Fraction(1000, 3)), ("-25.4", Fraction(-25400)), (1e-3, Fraction(1))])
def test_millimetres(value, um):
    assert um_of_mm(value) == um


@pytest.mark.parametrize("value", ["", "twelve", float("nan"), float("inf"), "1,5"])
def test_no_millimetres(value):
    with pytest.raises(ValueError, match="is no number of millimetres"):
        um_of_mm(value)
