"""What the drawn places decide: the turn of an angle, the touch of two rims, the sign of a run."""

from fractions import Fraction

import pytest

from pertxogai.drawing import (
    X_AXIS, Degrees, Meetings, PointRef, ShapeRef, Slope, Touch, Which, read_drawing, run_um,
    touch, turn, way)


def turned(*lines):
    drawing = read_drawing("\n".join(lines))
    return turn(drawing, drawing.constraints[-1])


def degrees(value):
    return Degrees(Fraction(value))


# the end of a segment from 0 0, the angle to the x axis as it is written, the turn
AXIS = [
    ("40 30", "60deg", degrees(60)),
    ("40 -30", "60deg", degrees(-60)),
    ("-40 30", "60deg", degrees(120)),
    ("-40 -30", "60deg", degrees(-120)),
    ("40 30", "120deg", degrees(60)),
    ("-40 30", "120deg", degrees(120)),
    ("0 30", "60deg", degrees(60)),
    ("40 0", "60deg", degrees(60)),
    ("-40 0", "60deg", degrees(120)),
    ("0 30", "90deg", degrees(90)),
    ("-1 -30", "90deg", degrees(-90)),
    ("40 -30", "+60deg", degrees(60)),
    ("40 30", "-60deg", degrees(-60)),
    ("40 30", "+240deg", degrees(-120)),
    ("40 30", "-200deg", degrees(160)),
    ("40 30", "3/4", Slope(3, 4, False)),
    ("40 -30", "3/4", Slope(-3, 4, False)),
    ("-40 30", "3/4", Slope(-3, 4, True)),
    ("-40 -30", "3/4", Slope(3, 4, True)),
    ("40 30", "+1/1", Slope(1, 1, False)),
    ("-10 30", "+1/1", Slope(1, 1, False)),
    ("-30 30", "+1/1", Slope(1, 1, False)),
    ("-31 30", "+1/1", Slope(1, 1, True)),
    ("-40 -30", "+1/1", Slope(1, 1, True)),
    ("30 -40", "+1/1", Slope(1, 1, True)),
    ("30 -30", "+1/1", Slope(1, 1, False)),
    ("0 -30", "+1/0", Slope(1, 0, True)),
    ("0 -30", "1/0", Slope(-1, 0, False)),
]


@pytest.mark.parametrize("end,value,expected", AXIS)
def test_angle_to_the_axis(end, value, expected):
    assert turned(f"segment Flank 0 0 {end}", f"angle Flank {value}") == expected


# two segments that share the corner 0 0, and the corner's angle of 60 degrees
CORNERS = [
    ("0 0 10 0", "First.start 5 9", degrees(60)),
    ("0 0 10 0", "First.start 5 -9", degrees(-60)),
    ("0 0 10 0", "First.start -1 9", degrees(60)),
    ("10 0 0 0", "First.end 5 9", degrees(-120)),
    ("10 0 0 0", "First.end 5 -9", degrees(120)),
    ("0 0 10 0", "5 9 First.start", degrees(-120)),
    ("10 0 0 0", "5 9 First.end", degrees(60)),
    ("10 0 0 0", "-1 9 First.end", degrees(60)),
]


@pytest.mark.parametrize("first,second,expected", CORNERS)
def test_angle_of_a_corner(first, second, expected):
    lines = (f"segment First {first}", f"segment Second {second}")
    found = turned(*lines, "angle First Second 60deg")
    assert found == expected


def test_corner_by_words():
    lines = ("segment First 0 0 10 0", "segment Second 9 1 8 9")
    assert turned(*lines, "angle First Second 120deg") == degrees(120)
    joined = (*lines, "coincident First.end Second.start")
    assert turned(*joined, "angle First Second 120deg") == degrees(60)
    assert turned(*joined, "angle First Second 60deg") == degrees(120)


def test_turn_of_a_segment_to_another_is_opposite():
    lines = ("segment First 0 0 10 0", "segment Second 0 5 5 9")
    assert turned(*lines, "angle First Second 30deg") == degrees(30)
    assert turned(*lines, "angle Second First 30deg") == degrees(-30)
    assert turned(*lines, "angle First YAxis 90deg") == degrees(90)


@pytest.mark.parametrize("place,expected", [
    ("15 0", Touch.OUTSIDE), ("10 0", Touch.OUTSIDE), ("9.999 0", Touch.INSIDE),
    ("0 0", Touch.INSIDE), ("-3 4", Touch.INSIDE)])
def test_touch(place, expected):
    for order in ("Big Small", "Small Big"):
        drawing = read_drawing(f"circle Big 0 0 10\ncircle Small {place} 4\ntangent {order}")
        assert touch(drawing, drawing.constraints[0]) is expected


@pytest.mark.parametrize("line,expected", [
    ("x A 40", 40000), ("x B 40", -40000), ("y A 3", 3000), ("y B 0", 0), ("x A B 9", -9000),
    ("x B A 9", 9000), ("x A B +9", 9000), ("y A C 5", 5000)])
def test_run(line, expected):
    drawing = read_drawing(f"point A 5 0\npoint B -5 -5\npoint C 5 0\n{line}")
    assert run_um(drawing, drawing.constraints[0]) == expected


def test_points_that_are_one_count_as_drawn_where_the_first_is():
    text = "point P 20 15\npoint Q -20 10\ncoincident P Origin\ny P Q 10\nx Q P 20"
    drawing = read_drawing(text)
    assert [run_um(drawing, each) for each in drawing.constraints[1:]] == [10000, 20000]
    text = "segment First 0 0 10 0\nsegment Second 3 5 8 2\ncoincident Second.start First.end"
    assert way(read_drawing(text), ShapeRef("Second")) == (-2000, 2000)


def test_ways():
    drawing = read_drawing("segment Edge 3 4 1 -2.5")
    assert way(drawing, ShapeRef("Edge")) == (-2000, -6500)
    assert way(drawing, X_AXIS) == (1, 0)
    assert way(drawing, ShapeRef("YAxis")) == (0, 1)


def test_meetings():
    drawing = read_drawing(
        "point A 0 0\nsegment Edge A 10 0\narc Fillet 10 5 10 0 15 5\nsegment Up 15 5 15 20\n"
        "tangent Edge.end Fillet.start\ncoincident Up.start Fillet.end")
    meetings = Meetings(drawing)
    start, end = (PointRef("Edge", which) for which in (Which.START, Which.END))
    assert meetings.same(PointRef("A"), start)
    assert not meetings.same(start, end)
    assert meetings.same(end, PointRef("Fillet", Which.START))
    corner = meetings.corner(ShapeRef("Up"), ShapeRef("Fillet"))
    assert (str(corner.first), str(corner.second)) == ("Up.start", "Fillet.end")
    assert meetings.corner(ShapeRef("Edge"), ShapeRef("Up")) is None
