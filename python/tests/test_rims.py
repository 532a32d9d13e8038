"""Rims that cross edges or one another: each case worked out by hand."""
from __future__ import annotations

import random
from itertools import permutations

import pytest

from pertxogai.drawing import PointRef, Which, read_drawing
from pertxogai.judging import judge
from pertxogai.judging.edges import Chord, Edge
from pertxogai.judging.insides import Loop, Loops
from pertxogai.judging.rims import Rim, Round
from shared_drawings import LINK

MM = 1_000_000
CIRCLE = Round((0, 0), 5 * MM)
UPPER = Round((0, 0), 5 * MM, ((5 * MM, 0), (-5 * MM, 0)))
"""The half circle above the x axis."""
THREE_QUARTERS = Round((0, 0), 5 * MM, ((0, 5 * MM), (5 * MM, 0)))
"""From the top to the left, the bottom and the right."""


def chord(x1: float, y1: float, x2: float, y2: float) -> Chord:
    return Chord((round(x1 * MM), round(y1 * MM)), (round(x2 * MM), round(y2 * MM)))


@pytest.mark.parametrize(("ends", "cuts"), [
    ((-9, 3, 9, 3), True),       # Through it: 3 is less than 5.
    ((0, 0, 9, 0), True),        # From its centre to beyond.
    ((-3, 0, 3, 0), False),      # Within it.
    ((6, -9, 6, 9), False),      # Past it.
    ((5, -9, 5, 9), False),      # It touches.
    ((4.9991, -9, 4.9991, 9), False),  # It cuts 0.9 micrometres deep.
    ((4.9989, -9, 4.9989, 9), True),   # It cuts 1.1 micrometres deep.
    ((5, 0, 9, 0), False),       # It ends on the circle, outside.
    ((5, 0, 0, 0), False),       # It ends on the circle, inside.
    ((3, 4, -3, 4), False),      # A chord from rim to rim.
    ((6, 3, 9, 3), False),       # On a line that cuts it, but before it.
])
def test_a_segment_cuts_a_circle_or_touches_it(ends, cuts):
    assert CIRCLE.is_cut_by(chord(*ends)) is cuts


@pytest.mark.parametrize(("arc", "ends", "cuts"), [
    (UPPER, (0, 0, 0, 9), True),
    (UPPER, (0, 0, 0, -9), False),
    (UPPER, (-9, 3, 9, 3), True),
    (UPPER, (-9, -3, 9, -3), False),
    (UPPER, (5, -9, 5, 9), False),
    (THREE_QUARTERS, (0, 0, 9, 9), False),   # Through the quarter that is left out.
    (THREE_QUARTERS, (0, 0, -9, 9), True),
    (THREE_QUARTERS, (0, 0, 9, -9), True),
    (THREE_QUARTERS, (0, 0, 0, 9), False),   # Through its start.
])
def test_a_segment_cuts_the_part_of_the_circle_that_an_arc_is(arc, ends, cuts):
    assert arc.is_cut_by(chord(*ends)) is cuts


@pytest.mark.parametrize(("x", "radius", "crosses"), [
    (8, 4, True),     # 8 is less than 5 + 4.
    (9, 4, False),    # They touch from outside.
    (10, 4, False),
    (1, 4, False),    # The one touches the other from inside.
    (2, 4, True),
    (0, 4, False),
])
def test_two_circles_cross_or_touch(x, radius, crosses):
    assert CIRCLE.crosses(Round((x * MM, 0), radius * MM)) is crosses


def test_two_arcs_cross_where_both_are():
    # The circles cross at x = 4, y = 3 and -3.
    assert UPPER.crosses(Round((8 * MM, 0), 5 * MM))
    above = Round((8 * MM, 0), 5 * MM, ((13 * MM, 0), (3 * MM, 0)))
    below = Round((8 * MM, 0), 5 * MM, ((3 * MM, 0), (13 * MM, 0)))
    assert UPPER.crosses(above) and not UPPER.crosses(below)


PLATE = """rectangle Plate 0 0 118 79
circle Hole 47 28 5
circle Other 90 28 5
coincident PlateBottom.start Origin
length PlateBottom 120
length PlateRight 80
x Hole {x}
y Hole 30
diameter Hole 12
x Other 90
y Other 30
diameter Other 10
"""


@pytest.mark.parametrize(("x", "told"), [
    (45, []),
    (6, []),                                           # It touches the left edge.
    (5, ["PlateLeft and Hole cross, but are drawn apart"]),
    (116, ["PlateRight and Hole cross, but are drawn apart"]),
    (79, []),                                          # 90 - 79 = 6 + 5
    (80, ["Hole and Other cross, but are drawn apart"]),
    (200, ["Hole is drawn on the other side of the outline, at PlateBottom"]),
])
def test_a_hole_that_leaves_its_plate_is_told(program, x, told):
    found = judge(read_drawing(PLATE.format(x=x)), program)
    assert [each.text() for each in found.warnings] == told


@pytest.mark.parametrize("y", [-0.4, 0.4])
def test_a_rim_round_a_place_on_an_edge_is_on_no_side_of_it(program, y):
    """Its centre is drawn above the edge, or below, and is placed on it, to a nanometre."""
    text = ("rectangle Plate 0 0 118 79\ncircle Notch 47 " + str(y) + " 5\n"
            "coincident PlateBottom.start Origin\nlength PlateBottom 120\nlength PlateRight 80\n"
            "on Notch PlateBottom\nx Notch 45\ndiameter Notch 12\n")
    assert not judge(read_drawing(text), program).warnings


SLOPE = """segment Base 0 0 40 0
segment Slope Base.end 10 30
segment Back Slope.end Base.start
circle Hole 12 9 3
coincident Base.start Origin
horizontal Base
length Base 41
x Slope.end 10
y Slope.end 31
x Hole {x}
y Hole 9
radius Hole 3
"""


@pytest.mark.parametrize(("x", "told"), [
    # The slope runs from 41, 0 to 10, 31: x + y = 41.
    (12, []),
    (40, ["Hole is drawn on the other side of the outline, at Base"]),
    (-9, ["Hole is drawn on the other side of the outline, at Base"]),
])
def test_a_hole_beside_a_triangle_is_told(program, x, told):
    found = judge(read_drawing(SLOPE.format(x=x)), program)
    assert [each.text() for each in found.warnings] == told


def test_what_is_drawn_so_is_not_told(program):
    text = PLATE.format(x=5).replace("circle Hole 47", "circle Hole 3")
    assert not judge(read_drawing(text), program).warnings
    text = PLATE.format(x=5).replace("circle Hole", "construction circle Hole")
    assert not judge(read_drawing(text), program).warnings


@pytest.mark.parametrize(("lines", "told"), [
    ("concentric Hole East\n", False),                  # In the middle of the rounded end.
    ("on Hole XAxis\nx Hole 60\n", False),
    ("on Hole XAxis\nx Hole 59.999\n", False),
    ("on Hole XAxis\nx Hole 60.001\n", False),
    ("on Hole XAxis\nx Hole 90\n", True),
])
def test_what_lies_on_the_chord_of_an_arc_lies_within(program, lines, told):
    found = judge(read_drawing(LINK + lines), program)
    assert [each.text() for each in found.warnings] == (
        ["Hole is drawn on the other side of the outline, at Lower"] if told else [])


@pytest.mark.parametrize("x", [9, 10, 50])
def test_a_hole_that_is_drawn_on_the_rest_of_the_circle_of_an_arc_lies_within(program, x):
    """The ends are rounded by 10 about 0 0 and about 60 0; placed is the hole at 100."""
    text = ("segment Lower 0 -10 60 -10\narc East 60 0 Lower.end 60 10\n"
            "segment Upper East.end 0 10\narc West 0 0 Upper.end Lower.start\n"
            f"circle Hole {x} 0 4\n" + LINK.partition("circle Hole 59 1 4\n")[2] + "on Hole XAxis\nx Hole 100\n")
    assert [each.text() for each in judge(read_drawing(text), program).warnings] == [
        "Hole is drawn on the other side of the outline, at Lower"]


@pytest.mark.parametrize(("at", "edge"), [
    ("60 77", "PlateTop"), ("60 2", "PlateBottom"), ("3 40", "PlateLeft"), ("116 40", "PlateRight")])
def test_a_hole_that_is_asked_for_on_an_edge_is_on_no_side_of_it(program, at, edge):
    other = "x Hole 60" if edge in ("PlateTop", "PlateBottom") else "y Hole 40"
    text = (f"rectangle Plate 0 0 118 79\ncircle Hole {at} 5\ncoincident PlateBottom.start Origin\n"
            "length PlateBottom 120\nlength PlateRight 80\ndiameter Hole 12\n"
            f"on Hole {edge}\n{other}\n")
    told = [each.text() for each in judge(read_drawing(text), program).warnings]
    assert not any("other side" in each for each in told)


def test_an_outline_that_begins_on_the_edge_of_another_is_on_no_side_of_it(program):
    text = ("rectangle A 0 0 40 30\nrectangle B 38 5 80 25\ncoincident ABottom.start Origin\n"
            "length ABottom 40\nlength ARight 30\non BBottom.start ARight\nlength BBottom 40\n"
            "length BRight 20\ny BBottom.start 5\n")
    told = [each.text() for each in judge(read_drawing(text), program).warnings]
    assert not any("other side" in each for each in told)


ECCENTRIC = """circle Disc 0 0 20
circle Bore 1 0 6
coincident Disc Origin
on Bore XAxis
radius Disc 20
radius Bore 6
x Bore {x}
"""
FLANGE = """circle Disc 0 0 20
rectangle Key -2 -2 2 2
coincident Disc Origin
radius Disc 20
length KeyBottom 4
length KeyRight 4
x KeyBottom.start {x}
y KeyBottom.start -2
"""


@pytest.mark.parametrize(("text", "x", "told"), [
    # The centre of Disc lies in what Disc goes round, or doesn't: Disc never lies in it.
    (ECCENTRIC, "3", []), (ECCENTRIC, "10", []),
    (ECCENTRIC, "40", ["Bore is drawn on the other side of the outline, at Disc"]),
    (FLANGE, "-1", []), (FLANGE, "+5", []), (FLANGE, "-9", []),
    (FLANGE, "+40", ["KeyBottom is drawn on the other side of the outline, at Disc"])])
def test_a_circle_that_goes_round_something_does_not_lie_in_it(program, text, x, told):
    found = judge(read_drawing(text.format(x=x)), program)
    assert [each.text() for each in found.warnings] == told


LENS = Round((0, 0), 9 * MM), Round((4 * MM, 0), 10 * MM)
"""Two circles that cross, since 4 is more than 1: each has the centre of the other."""
EQUAL = Round((0, 0), 10 * MM), Round((4 * MM, 0), 10 * MM)
WITHIN = Round((0, 0), 5 * MM), Round((4 * MM, 0), 10 * MM)
"""The first lies in the second: 5 and 4 are less than 10."""
APART = Round((0, 0), 9 * MM), Round((29 * MM, 0), 10 * MM)


@pytest.mark.parametrize(("drawn", "placed", "leaves"), [
    (LENS, EQUAL, []), (EQUAL, LENS, []), (LENS, LENS[::-1], []), (LENS, APART, [("A", "B")]),
    (WITHIN, APART, [("A", "B")]), (WITHIN, WITHIN[::-1], [("A", "B"), ("B", "A")])])
def test_circles_that_cross_drawn_and_placed_lie_on_no_side_of_each_other(drawn, placed, leaves):
    rims = [Rim(name, *each) for name, *each in zip("AB", drawn, placed)]
    assert [*Loops([None, None]).leavers(rims)] == leaves


CUT = """circle Disc 0 0 {drawn}
rectangle Key -20 -8 20 30
coincident Disc Origin
radius Disc {placed}
length KeyBottom 28
length KeyRight 38
x KeyBottom.start -8
y KeyBottom.start -8
"""


@pytest.mark.parametrize(("drawn", "placed"), [(9, 9), (9, 12), (12, 9), (12, 12), (12, 20)])
def test_a_circle_that_crosses_an_outline_lies_on_no_side_of_it(program, drawn, placed):
    """It crosses the lower edge, 8 below its centre, drawn and placed. The first corner is 21.5 from the
    centre as it is drawn, and 11.3 where it is placed; the left edge is 20 from it, and then 8."""
    found = judge(read_drawing(CUT.format(drawn=drawn, placed=placed)), program)
    assert [each.text() for each in found.warnings] == ["KeyLeft and Disc cross, but are drawn apart"]


def circle(chance: random.Random) -> Round:
    return Round((chance.randint(-9, 9) * MM, chance.randint(-9, 9) * MM), chance.randint(1, 9) * MM)


def triangle(name: str, chance: random.Random) -> list[Edge]:
    """Its edges, as they are drawn and as they are placed."""
    def corners() -> list[tuple[int, int]]:
        return [(chance.randint(-9, 9) * MM, chance.randint(-9, 9) * MM) for _ in range(3)]

    drawn, placed = corners(), corners()
    return [Edge(f"{name}{at}", (PointRef(f"{name}{at}", Which.START), PointRef(f"{name}{at}", Which.END)),
                 Chord(drawn[at - 1], drawn[at]), Chord(placed[at - 1], placed[at])) for at in range(3)]


@pytest.mark.parametrize("seed", range(40))
def test_what_leaves_an_outline_is_found_as_by_trying_each_two(seed):
    chance = random.Random(seed)
    rims = [Rim(f"C{number}", circle(chance), circle(chance)) for number in range(6)]
    edges = [*triangle("S", chance), *triangle("T", chance)]
    ends = [(PointRef(f"{each.name[0]}{(at - 1) % 3}"), PointRef(f"{each.name[0]}{at % 3}"))
            for at, each in enumerate(edges)]
    loops = [*(Loop(each.name, (), (each,)) for each in rims),
             Loop("S0", tuple(edges[:3]), ()), Loop("T0", tuple(edges[3:]), ())]
    left = [(one.name, other.name) for one, other in permutations(loops, 2)
            if one.lies_within(other, False) is not one.lies_within(other, True)
            and not any(one.is_unsure(other, each) for each in (False, True))
            and not all(one.crosses(other, each) for each in (False, True))]
    found = Loops([*ends, *(None for _ in rims)]).leavers([*edges, *rims])
    assert sorted(found) == sorted(left)
