"""Edges that turn back on each other: each case worked out by hand, and drawn where it lies."""
from __future__ import annotations

from fractions import Fraction

import pytest

from pertxogai.drawing import Arc, Circle, Drawing, parameters, read_drawing
from pertxogai.judging import judge
from pertxogai.judging.departures import Comparison, warnings
from pertxogai.judging.edges import Edges
from pertxogai.judging.good import reasons_against
from pertxogai.judging.judged_drawing import JudgedDrawing
from pertxogai.judging.measure import Solution
from pertxogai.ranging import FaultKind, Ranging

QUESTION = "are the start and end of {} swapped?"
FLAT = "the angle between them is 0"


def as_drawn(drawing: Drawing) -> Solution:
    """The drawn places, for drawings that are drawn exactly."""
    rims = [each.name for each in drawing.geometry if isinstance(each, Circle | Arc)]
    return Solution({ref: drawing.scene.drawn_nm(ref) for ref in drawing.points()},
                    {name: round(drawing.drawn_radius_um(name) * 1000) for name in rims})


def told(text: str) -> list[str]:
    drawing = read_drawing(text)
    return [each.text() for each in warnings(drawing, as_drawn(drawing))]


def back(one: str, other: str, at: str, what: str) -> str:
    return f"{one} and {other} turn back on each other at {at}: {what}"


INNER = """segment Shelf 80 20 25 20
{}
segment Wall {} 20 60
"""
OUTER = """segment Right 80 0 80 38
{}
segment Top {} 0 50
"""
SLOT = """segment Lower 0 -8 30 -8
{}
segment Upper {} 0 8
arc West 0 0 Upper.end Lower.start
"""


@pytest.mark.parametrize(("outline", "right", "wrong", "edges"), [
    # About 25 25 the quarter from the left, 20 25, to the bottom, 25 20.
    (INNER, "arc Fillet 25 25 20 25 Shelf.end", "arc Fillet 25 25 Shelf.end 20 25",
     ("Shelf", "Fillet", "Wall")),
    # About 68 38 the quarter from the right, 80 38, to the top, 68 50.
    (OUTER, "arc Corner 68 38 Right.end 68 50", "arc Corner 68 38 68 50 Right.end",
     ("Right", "Corner", "Top")),
    # About 30 0 the half from the bottom, 30 -8, to the top, 30 8; or through 22 0, into the slot.
    (SLOT, "arc East 30 0 Lower.end 30 8", "arc East 30 0 30 8 Lower.end",
     ("Lower", "East", "Upper")),
])
def test_an_arc_that_is_drawn_the_wrong_way_round_is_told(outline, right, wrong, edges):
    first, arc, last = edges
    ends = {True: f"{arc}.start", False: f"{arc}.end"}
    begins_first = right.split()[4] == f"{first}.end"
    assert told(outline.format(right, ends[not begins_first])) == []
    assert told(outline.format(wrong, ends[begins_first])) == [
        back(first, arc, f"{first}.end", QUESTION.format(arc)),
        back(arc, last, ends[begins_first], QUESTION.format(arc))]


def test_arcs_that_go_on_from_each_other_are_not_told():
    # An S: the upper half about 0 0, from 5 0 to -5 0, and the lower half about -10 0, from -15 0.
    assert told("arc Over 0 0 5 0 -5 0\narc Under -10 0 -15 0 Over.end\n") == []
    # A circle of two halves.
    assert told("arc Over 0 0 5 0 -5 0\narc Under 0 0 Over.end Over.start\n") == []


OVAL = """arc Right -3 0 1.2 -5.6 1.2 5.6
arc Nose 0 4 {}
arc Left 3 0 {} -1.2 -5.6
arc Tail 0 -4 Left.end Right.start
"""
"""Arcs of radius 7 and 2: they touch where the lines of their centres, 3 aside and 4 up, meet them:
3/5 and 4/5 of 7 from the centre of the greater."""


def test_an_arc_between_arcs_that_is_drawn_the_wrong_way_round_is_told():
    assert told(OVAL.format("Right.end -1.2 5.6", "Nose.end")) == []
    assert told(OVAL.format("-1.2 5.6 Right.end", "Nose.start")) == [
        back("Right", "Nose", "Right.end", QUESTION.format("Nose")),
        back("Nose", "Left", "Nose.start", QUESTION.format("Nose"))]


@pytest.mark.parametrize("text", [
    # A heart: two half circles touch in its notch, 0 0, and go down to a tip.
    "arc East 5 0 10 0 0 0\narc West -5 0 East.end -10 0\n"
    "segment Left West.end 0 -20\nsegment Right Left.end East.start\n",
    # One half of a ball of yin and yang: the half circle, and an S from 0 10 to 0 -10.
    "arc Rim 0 0 0 -10 0 10\narc Head 0 5 Rim.end 0 0\narc Tail 0 -5 Rim.start Head.end\n",
    # What three coins of radius 1, 2 and 3 leave free, whose centres are 3, 4 and 5 apart.
    "arc One 0 0 1 0 0 1\narc Two 3 0 1.8 1.6 One.start\narc Three 0 4 One.end Two.start\n",
])
def test_arcs_that_are_meant_to_turn_back_are_not_told(text):
    assert told(text) == []


HOOK = "segment Base 0 {} 10 0\narc Hook 10 -{radius} Base.end {left} -{radius}\n"
"""From the end of the base, which runs to the right, an arc back to the left."""


@pytest.mark.parametrize(("start", "radius", "is_told"), [
    ("0", "5", True),
    # The end of the radius lies aside of the base by half of what the start of the base does.
    ("0.0018", "5", True),      # 0.9 micrometres
    ("0.0022", "5", False),     # 1.1 micrometres
    # A twentieth of it, on a radius of 0.5 mm, of which a thousandth is half a micrometre.
    ("0.009", "0.5", True),     # 0.45 micrometres
    ("0.011", "0.5", False),    # 0.55 micrometres
])
def test_a_single_end_is_told_to_a_micrometre(start, radius, is_told):
    left = 10 - Fraction(radius)
    text = HOOK.format(start, radius=radius, left=float(left))
    assert told(text) == [back("Base", "Hook", "Base.end", FLAT)] * is_told


@pytest.mark.parametrize("text", [
    # A segment that goes back over another one.
    "segment There 0 0 40 0\nsegment Back There.end 10 0\n",
    # Another edge ends there too.
    "segment Base 0 0 10 0\narc Hook 10 -5 Base.end 5 -5\nsegment More Base.end 20 0\n",
    "construction segment Base 0 0 10 0\narc Hook 10 -5 Base.end 5 -5\n",
    "segment Base 0 0 10 0\nconstruction arc Hook 10 -5 Base.end 5 -5\n",
    "outer segment Base 0 0 10 0\narc Hook 10 -5 Base.end 5 -5\n",
    # They end in two places.
    "segment Base 0 0 10 0\narc Hook 10 -5 10 0 5 -5\n",
    # The arc crosses the base, and turns back to its other side.
    "segment Base 0 0 10 0\narc Hook 5 0 Base.end Base.start\n",
])
def test_what_is_no_corner_of_the_part_is_not_told(text):
    assert told(text) == []


def test_ends_that_a_word_joins_are_one():
    text = "segment Base 0 0 10 0\narc Hook 10 -5 10 0 5 -5\n"
    for word in ("tangent Base.end Hook.start", "coincident Base.end Hook.start"):
        assert told(f"{text}{word}\n") == [back("Base", "Hook", "Base.end", FLAT)]


def test_what_is_drawn_to_go_on_is_not_asked_for():
    # Drawn about 15 15 the arc leaves the shelf to the left and up, and ends at the wall to the
    # right and down; it is placed about 25 25.
    drawn = INNER.format("arc Fillet 15 15 Shelf.end 20 25", "Fillet.end")
    placed = read_drawing(INNER.format("arc Fillet 25 25 Shelf.end 20 25", "Fillet.end"))
    assert [each.text() for each in warnings(read_drawing(drawn), as_drawn(placed))] == [
        back("Shelf", "Fillet", "Shelf.end", FLAT), back("Fillet", "Wall", "Fillet.end", FLAT)]


def test_they_are_no_departures():
    drawing = read_drawing(INNER.format("arc Fillet 25 25 Shelf.end 20 25", "Fillet.end"))
    there = as_drawn(drawing)
    assert Comparison(drawing, there.radii).departures(Edges(drawing, there), False) == ()


BRACKET = """segment Bottom 0 0 79 0
segment End Bottom.end 80 21
segment Shelf End.end 25 21
arc Fillet {}
segment Wall Fillet.{} 20 58
segment Top Wall.end 0 58
segment Back Top.end Bottom.start
coincident Bottom.start Origin
horizontal Bottom Shelf Top
vertical End Wall Back
tangent Shelf Fillet
tangent Fillet Wall
radius Fillet 5
length Bottom 80
length End 20
length Top 20
length Back 60
"""


@pytest.mark.parametrize(("arc", "last", "count"), [
    ("25 26 20 26 Shelf.end", "start", 0),
    ("25 26 Shelf.end 20 26", "end", 2),
])
def test_a_bracket_is_good_and_its_fillet_is_told(program, arc, last, count):
    drawing = read_drawing(BRACKET.format(arc, last))
    found = judge(drawing, program)
    assert [each.text() for each in found.warnings] == [
        back("Shelf", "Fillet", "Shelf.end", QUESTION.format("Fillet")),
        back("Fillet", "Wall", "Fillet.end", QUESTION.format("Fillet"))][:count]
    assert reasons_against(JudgedDrawing("bracket", drawing, found)) == ()


def test_a_range_ends_where_edges_turn_back(program):
    drawing = read_drawing("""segment Base 0 0 40 0
arc Hook 40 5 Base.end 45 5
coincident Base.start Origin
horizontal Base
x Base.end +40
tangent Base Hook
radius Hook 5
horizontal Hook.centre Hook.end
""")
    ranging = Ranging.of(drawing, program)
    (across,) = (each for each in parameters(drawing) if each.present == 40)
    fault = ranging.fault(across, Fraction(-10))
    assert fault is not None and fault.kind is FaultKind.DEPARTURE
    assert back("Base", "Hook", "Base.end", FLAT) in fault.text
