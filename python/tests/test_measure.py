"""Each constraint on each geometry that it takes: held exactly, and off by a known amount.

The drawing holds each constraint exactly as it is drawn. It is measured as drawn, and turned by
the angle of a 3-4-5 triangle and moved; then with one point pushed by a few nanometres, for
which the amounts were worked out by hand."""

from fractions import Fraction
from math import isqrt

import pytest

from pertxogai.drawing import Arc, Circle, PointRef, Which, read_drawing
from pertxogai.exact import Root, off, quotient
from pertxogai.judging.measure import (
    Because, Frame, MissingPlace, Solution, Unit, greatest, measure, measure_placed)
from pertxogai.judging.measure.measuring import measure_one

SHAPES = """\
point O 0 0
point A 30 40
point B 60 80
point C 30 0
point D 0 40
point E -30 40
point P 30 10
point M -8.4 28.8
segment Base 0 0 60 0
segment Side 0 0 0 30
segment Rise 0 0 30 40
segment Next 10 0 40 40
segment Far 0 20 60 20
segment Back 40 0 20 0
segment Diag 0 0 30 -30
circle Hole 20 10 5
circle Rim 20 10 10
circle Twin 35 10 5
circle Inner 20 16 4
circle Ring 60 10 3
arc Bow 60 10 60 0 70 10
arc Bay 60 -20 80 -20 60 0
"""

# line, the point that is pushed, by x and y in nm, the amount in nm, the amount in ppb
PUSHES = [
    ("coincident O Rise.start", "Rise.start", 3, 4, 5, None),
    ("coincident Bow.start Base.end", "Bow.start", -6, 8, 10, None),
    ("coincident O Origin", "O", 0, 2, 2, None),
    ("on C Base", "C", 5, 7, 7, None),
    ("on A Rise", "A", 4, -3, 5, None),
    ("on C XAxis", "C", 9, -2, 2, None),
    ("on D YAxis", "D", 3, 8, 3, None),
    ("on P Rim", "P", -4, 0, 4, None),
    ("on P Rim", "P", 0, 6, 1, None),
    ("on Base.end Bow", "Base.end", 0, -3, 3, None),
    ("on Bow.start Bay", "Bow.start", 0, 6, 6, None),
    ("horizontal Base", "Base.end", 0, 6, 6, 100),
    ("horizontal Back", "Back.start", 0, 6, 6, 300),
    ("horizontal O C", "C", 3, -2, 2, None),
    ("horizontal A D", "D", 0, 1, 1, None),
    ("horizontal Hole Twin", "Twin.centre", 0, 5, 5, None),
    ("vertical Side", "Side.end", 3, 0, 3, 100),
    ("vertical A C", "A", -2, 9, 2, None),
    ("vertical O Side.end", "Side.end", 4, 0, 4, None),
    ("parallel Base Far", "Far.end", 0, -12, 12, 200),
    ("parallel Base Back", "Back.end", 0, 4, 4, 200),
    ("parallel Rise Next", "Next.end", -4, 3, 5, 100),
    ("parallel Far XAxis", "Far.start", 0, 6, 6, 100),
    ("perpendicular Base Side", "Side.end", 3, 0, 3, 100),
    ("perpendicular Side.start Base.start", "Base.start", 0, 30, 30, 500),
    ("perpendicular Side.start Base.start", "Side.end", 3, 0, 3, 100),
    ("perpendicular Far YAxis", "Far.end", 0, -6, 6, 100),
    ("collinear Base Back", "Back.end", 0, 4, 4, 200),
    ("collinear Back XAxis", "Back.start", 0, 4, 4, 200),
    ("collinear YAxis Side", "Side.end", 3, 0, 3, 100),
    ("angle Base Side 90deg", "Side.end", 3, 0, 3, 100),
    ("angle Side Base -90deg", "Base.end", 0, 6, 3, 100),
    ("angle Diag 45deg", "Diag.end", 3, 3, 5, 100),
    ("angle Diag Side 135deg", "Side.end", 3, 0, 3, 100),
    ("angle Rise 4/3", "Rise.end", -4, 3, 5, 100),
    ("angle Base Rise +4/3", "Rise.end", 4, -3, 5, 100),
    ("angle Rise Base -4/3", "Base.end", 0, 6, 5, 100),
    ("angle Rise Back 4/3", "Back.end", 0, 2, 2, 100),
    ("length Base 60", "Base.end", -7, 0, 7, None),
    ("length Base 60", "Base.end", 0, 6, 1, None),
    ("length Rise 50", "Rise.end", 3, 4, 5, None),
    ("distance O A 50", "A", -3, -4, 5, None),
    ("distance Origin B 100", "B", 6, 8, 10, None),
    ("distance Hole Twin 15", "Twin.centre", 2, 0, 2, None),
    ("distance A Base 40", "A", 5, -3, 3, None),
    ("distance C Rise 24", "C", 4, -3, 5, None),
    ("distance YAxis A 30", "A", 2, 9, 2, None),
    ("distance Base Far 20", "Far.start", 0, 5, 5, None),
    ("distance XAxis Far 20", "Far.end", 0, -4, 4, None),
    ("distance Far XAxis 20", "Far.end", 0, -4, 4, None),
    ("distance Rise Next 8", "Next.end", 4, -3, 5, None),
    ("x A 30", "A", 2, 50, 2, None),
    ("x A B +30", "B", -3, 0, 3, None),
    ("x B A -30", "A", 3, 1, 3, None),
    ("x B A 30", "A", -3, 1, 3, None),
    ("y A 40", "A", 9, 4, 4, None),
    ("y C A 40", "C", 9, 4, 4, None),
    ("y A C -40", "C", 0, -2, 2, None),
    ("tangent Base Rim", "Rim.centre", 0, 3, 3, None),
    ("tangent Rim XAxis", "Rim.centre", 0, -4, 4, None),
    ("tangent Base Bow", "Bow.centre", 8, 2, 2, None),
    ("tangent Rim Twin", "Twin.centre", -6, 0, 6, None),
    ("tangent Inner Rim", "Inner.centre", 0, 2, 2, None),
    ("tangent Bow Bay", "Bay.centre", 0, -3, 3, None),
    ("tangent Base.end Bow.start", "Bow.centre", 2, 0, 2, 200),
    ("tangent Base.end Bow.start", "Bow.start", 0, 5, 5, 0),
    ("tangent Bay.end Bow.start", "Bay.centre", 6, 0, 3, 300),
    ("equal Base Far", "Far.end", 5, 0, 5, None),
    ("equal Rise Next", "Next.end", -3, -4, 5, None),
    ("concentric Hole Rim", "Rim.centre", 3, 4, 5, None),
    ("concentric Ring Bow", "Ring.centre", 0, 2, 2, None),
    ("symmetric O B about A", "B", 6, 8, 5, None),
    ("symmetric A E about YAxis", "E", -3, 4, 5, None),
    ("symmetric C M about Rise", "M", -3, -4, 5, None),
    ("midpoint C Base", "C", 0, -4, 4, None),
    ("midpoint C Base", "Base.end", 10, 0, 5, None),
    ("fixed A", "A", 3, 4, 5, None),
    ("fixed Rise", "Rise.end", 0, -2, 2, None),
    ("fixed Hole", "Hole.centre", 0, 1, 1, None),
    ("fixed Bow", "Bow.end", 0, 7, 7, None),
    ("fixed Bow.centre", "Bow.centre", 6, 8, 10, None),
]

# line, the rim whose radius is changed, by how many nm, the amount in nm
RADII = [
    ("radius Hole 5", "Hole", 3, 3),
    ("radius Bow 10", "Bow", -3, 3),
    ("diameter Rim 20", "Rim", -2, 4),
    ("diameter Bay 40", "Bay", 1, 2),
    ("equal Hole Twin", "Twin", 4, 4),
    ("equal Rim Bow", "Bow", -4, 4),
    ("on P Rim", "Rim", 6, 6),
    ("tangent Base Rim", "Rim", 2, 2),
    ("tangent Rim Twin", "Twin", 2, 2),
    ("tangent Inner Rim", "Inner", 2, 2),
    ("tangent Inner Rim", "Rim", 5, 5),
    ("fixed Hole", "Hole", -9, 9),
]

TURNED = Frame((Fraction(1_000_003), Fraction(-77)), (300_000_000, 400_000_000))


def drawing_with(*lines):
    return read_drawing(SHAPES + "\n".join(lines))


def carried(frame, x, y):
    """A way of the drawing, in the frame of the numbers."""
    dx, dy = frame.right
    size = isqrt(dx * dx + dy * dy)
    return Fraction(x * dx - y * dy, size), Fraction(x * dy + y * dx, size)


def as_drawn(drawing, frame=Frame()):
    """The drawing's places as they are drawn, in nanometres, in this frame."""
    points = {}
    for ref in drawing.points():
        place = drawing.drawn(ref)
        x, y = carried(frame, place.x_um * 1000, place.y_um * 1000)
        points[ref] = (frame.origin[0] + x, frame.origin[1] + y)
    radii = {shape.name: drawing.drawn_radius_um(shape.name) * 1000
             for shape in drawing.geometry if isinstance(shape, (Circle, Arc))}
    return Solution(points, radii, frame)


def ref_of(text):
    name, _, which = text.partition(".")
    return PointRef(name, Which(which or "at"))


def pushed(solution, point, x_nm, y_nm):
    """The solution with one point pushed by a way of the drawing."""
    ref = ref_of(point)
    dx, dy = carried(solution.frame, x_nm, y_nm)
    x, y = solution.points[ref]
    return Solution({**solution.points, ref: (x + dx, y + dy)}, solution.radii, solution.frame)


def amounts(drawing, solution):
    """What the drawing's one constraint is off in nm and in ppb."""
    found = {each.unit: each.amount for each in measure(drawing, solution) if each.number == 1}
    return found[Unit.NM], found.get(Unit.PPB)


@pytest.mark.parametrize("frame", [Frame(), TURNED], ids=["drawn", "turned"])
@pytest.mark.parametrize("line,point,x,y,nm,ppb", PUSHES)
def test_point_pushed(line, point, x, y, nm, ppb, frame):
    drawing = drawing_with(line)
    solution = as_drawn(drawing, frame)
    assert amounts(drawing, solution) == (0, None if ppb is None else 0)
    assert amounts(drawing, pushed(solution, point, x, y)) == (nm, ppb)


@pytest.mark.parametrize("line,rim,by,nm", RADII)
def test_radius_changed(line, rim, by, nm):
    drawing = drawing_with(line)
    solution = as_drawn(drawing)
    assert amounts(drawing, solution) == (0, None)
    radii = {**solution.radii, rim: solution.radii[rim] + by}
    assert amounts(drawing, Solution(solution.points, radii)) == (nm, None)


def test_one_constraint_is_measured_by_itself():
    # The second is 30 mm long by its words, and 4 nm more on these places; the hole has none.
    drawing = read_drawing("segment Base 0 0 60 0\nsegment Side 0 0 0 30\ncircle Hole 9 9 3\n"
                           "x Hole 9\nlength Base 60\nlength Side 30\n")
    spots = {"Base.start": (0, 0), "Base.end": (60_000_000, 0), "Side.start": (0, 0),
             "Side.end": (0, 30_000_004)}
    solution = Solution({ref_of(name): spot for name, spot in spots.items()})
    (off,) = measure_one(drawing, solution, 3)
    assert (off.number, off.of, off.amount, off.unit) == (3, drawing.constraints[2], 4, Unit.NM)
    with pytest.raises(MissingPlace):
        measure_one(drawing, solution, 1)


def test_every_constraint_has_a_case():
    words = {line.split()[0] for line, *_ in PUSHES + RADII}
    assert len(words) == 20


def test_angle_of_thirty_degrees():
    # 100 mm at 30 degrees: x is 86602540.378.. nm, and 0.378 nm less lies 0.19 nm to the left
    # of the ray, which is 1.9 parts of 10^9 of 100 mm.
    drawing = read_drawing("segment Slant 0 0 86.60254 50\nangle Slant 30deg")
    assert amounts(drawing, as_drawn(drawing)) == (1, 2)
    solution = pushed(as_drawn(drawing), "Slant.end", -50, 87)
    # Square to 30 degrees lies (-0.5, 0.866..): 25 + 75.34.. = 100.34 nm, and 0.19 more.
    assert amounts(drawing, solution) == (101, 1006)


def test_angle_with_a_forgotten_sign():
    drawing = read_drawing("segment Slant 0 0 40 30\nangle Slant -3/4")
    # Twice the angle of tangent 3/4 has the sine 24/25: 48 mm of 50.
    assert amounts(drawing, as_drawn(drawing)) == (48_000_000, 960_000_000)


def test_angle_that_runs_backward():
    drawing = read_drawing("segment Base 0 0 50 0\nangle Base +90deg")
    turned = Solution({ref_of("Base.start"): (0, 0), ref_of("Base.end"): (3, -40_000_000)})
    # It runs down: within 3 nm of the opposite of what was asked for, twice 40 mm off.
    assert amounts(drawing, turned) == (2 * 40_000_000 + 1 - 3, 2 * 10 ** 9 - 75)


def test_rims_that_touch_as_drawn():
    drawing = read_drawing("circle Big 0 0 10\ncircle Small 7 0 4\ntangent Big Small")
    centres = {ref_of("Big.centre"): (0, 0), ref_of("Small.centre"): (14_000_000, 0)}
    radii = {"Big": 10_000_000, "Small": 4_000_000}
    assert amounts(drawing, Solution(centres, radii)) == (8_000_000, None)


def test_tangent_at_a_shared_corner_sees_a_kink():
    text = "segment Edge 0 0 50 0\narc Fillet 50 10 Edge.end 60 10\ntangent Edge Fillet"
    drawing = read_drawing(text)
    assert amounts(drawing, as_drawn(drawing)) == (0, 0)
    solution = pushed(as_drawn(drawing), "Fillet.centre", 100, 0)
    # Over 10 mm the radius leans by 100 nm, though the edge is 10 mm from the centre still.
    assert amounts(drawing, solution) == (100, 10_000)


@pytest.mark.parametrize("on", ["on Edge.end Rim", "on Mark Rim\ncoincident Mark Edge.end"])
def test_tangent_at_an_end_that_lies_on_the_rim(on):
    text = "segment Edge 0 0 50 0\ncircle Rim 50 10 10\npoint Mark 50 0\ntangent Rim Edge\n"
    drawing = read_drawing(text + on)
    assert amounts(drawing, as_drawn(drawing)) == (0, 0)
    solution = pushed(as_drawn(drawing), "Rim.centre", 100, 0)
    assert amounts(drawing, solution) == (100, 10_000)


def test_what_shapes_imply():
    text = ("point A 0 0\nsegment Edge A 50 0\narc Fillet 50 10 Edge.end 60 10\n"
            "outer circle Pin 80 0 5\nouter segment Rail 0 -20 90 -20")
    drawing = read_drawing(text)
    solution = as_drawn(drawing)
    implied = measure(drawing, solution)
    assert [str(each.of) for each in implied] == [
        "Edge.start shares a point with A", "Fillet.start shares a point with Edge.end",
        "Fillet.start is an end of the arc Fillet", "Fillet.end is an end of the arc Fillet",
        "Pin.centre is given from outside as Pin", "Rail.start is given from outside as Rail",
        "Rail.end is given from outside as Rail"]
    assert {each.amount for each in implied} == {0}
    for point, amount in [("A", 5), ("Edge.end", 5), ("Pin.centre", 5), ("Rail.end", 5)]:
        assert greatest(measure(drawing, pushed(solution, point, 3, 4)), Unit.NM).amount == amount
    off = pushed(solution, "Fillet.end", -7, 0)
    worst = greatest(measure(drawing, off), Unit.NM)
    assert (worst.of.because, worst.amount, worst.called(drawing)) == (
        Because.RIM, 7, "Fillet.end is an end of the arc Fillet")


def test_greatest_is_told_with_its_name():
    drawing = read_drawing("segment Base 0 0 60 0\nLeft width: length Base 60\nhorizontal Base")
    solution = pushed(as_drawn(drawing), "Base.end", 9, 6)
    found = measure(drawing, solution)
    assert greatest(found, Unit.NM).called(drawing) == "Left width"
    assert greatest(found, Unit.PPB).called(drawing) == "constraint 2 (horizontal Base)"
    assert greatest((), Unit.NM) is None


def test_segment_that_was_placed_as_a_point():
    drawing = drawing_with("parallel Base Far")
    solution = pushed(as_drawn(drawing), "Far.end", -60_000_000, 0)
    assert amounts(drawing, solution)[1] == 10 ** 9
    flat = drawing_with("on C Base")
    assert amounts(flat, pushed(as_drawn(flat), "Base.end", -60_000_000, 0)) == (30_000_000, None)


def test_missing_places_are_told():
    drawing = read_drawing("point A 0 0\npoint B 5 0\npoint C 9 0\n"
                           "distance A B 5\ndistance B C 4")
    part = Solution({ref_of("A"): (0, 0), ref_of("B"): (5_000_000, 0)})
    with pytest.raises(MissingPlace, match="no place of C was printed"):
        measure(drawing, part)
    assert [each.number for each in measure_placed(drawing, part)] == [1]


def test_great_numbers_stay_exact():
    drawing = read_drawing("point A 0 0\npoint B 1000000 0\ndistance A B 1000000")
    solution = Solution({ref_of("A"): (0, 0), ref_of("B"): (10 ** 12, 1_000_001)})
    # The square of 10^6 + 1 over 2 * 10^12 is 0.500001: not 0.5, and not 0.
    assert amounts(drawing, solution) == (1, None)
    exact = Solution({ref_of("A"): (0, 0), ref_of("B"): (Fraction(10 ** 12 * 3, 5),
                                                         Fraction(10 ** 12 * 4, 5))})
    assert amounts(drawing, exact) == (0, None)


@pytest.mark.parametrize("below", [4, Fraction(4)])
def test_a_quotient_by_a_root_is_compared_exactly(below):
    """3 / root(4) is 1.5, and -3 / root(4) is -1.5."""
    more, less = quotient(3, below), quotient(-3, below)
    assert more == Root(1, 9, below) and less == Root(-1, 9, below)
    limits = [-2, Fraction(-3, 2), -1, 0, 1, Fraction(3, 2), 2]
    assert [more.at_most(each) for each in limits] == [False] * 5 + [True] * 2
    assert [more.at_least(each) for each in limits] == [True] * 6 + [False]
    assert [less.at_most(each) for each in limits] == [False] + [True] * 6
    assert [less.at_least(each) for each in limits] == [True] * 2 + [False] * 5
    assert [off(more, wanted) for wanted in (0, 1, 2, 7)] == [2, 1, 1, 6]


def test_the_root_of_a_whole_number_is_compared_exactly():
    """The root of 10 is 3.16, that of 16 is 4."""
    assert [off(Root(1, 10), wanted) for wanted in (-1, 0, 3, 4, 9)] == [5, 4, 1, 1, 6]
    assert [off(Root(1, 16), wanted) for wanted in (-4, 0, 3, 4, 5)] == [8, 4, 1, 0, 1]
    assert [off(Root(1, square), 0) for square in (0, 1, 2)] == [0, 1, 2]
    for square in (10, 16, 10 ** 24 - 1, 10 ** 24, 10 ** 24 + 1):
        for wanted in (-1, 3, 4, 10 ** 12):
            assert off(Root(1, square), wanted) == off(Root(1, Fraction(square)), wanted)
