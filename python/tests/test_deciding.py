"""Which constraints a fault of a sketch is about: those that decide how the elements lie at which the step that fails
joins its clusters."""
from __future__ import annotations

import pytest

from conftest import TOP
from pertxogai.drawing import read_drawing
from pertxogai.judging import concerned, judge, judge_sketch
from pertxogai.judging.deciding import deciding
from pertxogai.output import sketch_json, sketch_lines
from pertxogai.program import Program
from pertxogai.program.reports import read_plan

POINTS = "sketch 1\npoint A 0 0\npoint B 80 0\npoint C 90 50\npoint D 10 60\n"
QUADRILATERAL = POINTS + """line AB 0 0 80 0
circle K 30 12 12
on A AB
on B AB
distance A B 80
distance B C 51
distance C D 82
distance D A 61
distance A C 140
tangent AB K
distance A K 32
end
"""
"""A B and B C reach 131 from A, and A C asks for 140. D and K hang on these without taking part."""
UNTOLD = POINTS + """distance A D 61
distance D B 90
distance A B 80
distance D C 82
distance C B 51
point E 130 10
distance A E {}
distance C E 60
end
"""
"""E lies by A and by C, of which no line gives the distance: the first five lengths decide it."""


def of_fault(text: str, program: Program) -> list[str]:
    return [each.text() for each in concerned(judge_sketch("it", text, program))]


def test_the_three_lengths_of_a_triangle_within_a_larger_sketch(program: Program) -> None:
    judged = judge_sketch("it", QUADRILATERAL, program)
    three = ["distance A B 80", "distance B C 51", "distance A C 140"]
    assert [each.text() for each in concerned(judged)] == three
    assert sketch_json(judged)["fault"]["constraints"] == three
    assert [line for line in sketch_lines(judged) if line.startswith("    of ")] == [f"    of {each}" for each in three]


def test_where_no_length_is_given_between_two_all_that_hold_them_are_named(program: Program) -> None:
    """A and C are less than 200 apart, so that 300 and 60 don't meet at E."""
    found = of_fault(UNTOLD.format(300), program)
    assert found == ["distance A D 61", "distance D B 90", "distance A B 80", "distance D C 82", "distance C B 51",
                     "distance A E 300", "distance C E 60"]


def test_a_triangle_by_itself(program: Program) -> None:
    text = (TOP / "examples/no-triangle.sketch").read_text()
    assert of_fault(text, program) == ["distance A B 5", "distance A C 1", "distance B C 1"]


CHAIN = """verdict well
elements 5
constraints 7
steps 3
leaf c1 : distance A B 4
leaf c2 : distance A C 3
leaf c3 : distance B C 5
leaf c4 : distance A D 3
leaf c5 : distance B D 3
leaf c6 : distance C E 2
leaf c7 : distance D E 2
step s1 joins c3 c2 c1 at C A B keeps c1 turn +
step s2 joins s1 c5 c4 at B D A keeps s1 turn -
step s3 joins s2 c7 c6 at D E C keeps s2 turn +
"""


@pytest.mark.parametrize("step, numbers", [(1, {1, 2, 3}), (2, {1, 4, 5}), (3, {1, 2, 3, 4, 5, 6, 7})])
def test_beneath_the_least_cluster_that_has_both(step: int, numbers: set[int]) -> None:
    """Of s1 the second step needs A and B, which c1 ties alone; of s2 the third needs C and D, which only all five do."""
    plan = read_plan(CHAIN)
    of = {leaf.number for leaf in deciding(plan, step)}
    assert of == numbers


def test_of_many_the_first_are_listed(program: Program) -> None:
    """Twelve of the 19 lengths of a chain of triangles, and how many more there are."""
    points = "".join(f"point P{k} {10 * k} {(k % 2) * 10}\n" for k in range(11))
    sides = "distance P0 P1 14\n" + "".join(
        f"distance P{k - 2} P{k} 20\ndistance P{k - 1} P{k} 14\n" for k in range(2, 10))
    text = f"sketch 1\n{points}{sides}distance P0 P10 300\ndistance P9 P10 14\nend\n"
    judged = judge_sketch("it", text, program)
    lines = [line for line in sketch_lines(judged) if line.startswith(("    of ", "    and of "))]
    assert len(concerned(judged)) == 19 and len(lines) == 13
    assert lines[-1] == "    and of 7 more"


def test_of_a_tolerance_no_other_grid_is_advised_since_judge_takes_the_finest(program):
    """Two lines that are nearly parallel meet so far away that a point there is 184 mm off."""
    found = judge_sketch("wide", (TOP / "examples/faults/wide-apart.sketch").read_text(), program)
    advice = [line for line in sketch_lines(found) if "what to do" in line]
    assert len(advice) == 1 and "nearly parallel" in advice[0] and "grid" not in advice[0]


def test_of_a_drawing_a_fault_is_about_the_dimensions_that_decide_it_too(program):
    """60 and 50 are too short for 200; the hole hangs on the triangle and takes no part."""
    found = judge(read_drawing(
        "point A 0 0\npoint B 78 1\npoint C 40 45\nsegment Base A B\nsegment Right B C\n"
        "segment Left C A\ncircle Hole 38 20 4\ncoincident A Origin\nhorizontal Base\n"
        "Long: length Base 200\nShort: length Right 60\nOther: length Left 50\nx Hole 100\n"
        "distance Hole Base 12\ndiameter Hole 8\n"), program)
    assert found.failure is not None and found.failure.dimensions == ("Long", "Short", "Other")


ANGLED = """point A 0 0
point B 100 0
point C 50 30
segment S A B
segment T B C
segment U C A
coincident A Origin
horizontal S
W: length S 100
An: angle S T 150deg
L: length U 30
"""
SQUARE = """rectangle P 0 0 100 100
coincident PBottom.start Origin
H: equal PBottom PRight
W: length PBottom 100
circle C 30 20 4
D: diameter C 8
D1: distance C.centre PBottom.start 20
D2: distance C.centre PRight.end 50
"""
FOLDED = """point A 0 0
point B 30 0
point C 70 0
point D 40 40
segment S A B
segment T B C
segment U C D
segment V D A
coincident A Origin
H1: horizontal S
H2: horizontal T
L1: length S 30
L2: length T 40
L3: length U 20
L4: length V 30
"""


def blamed(drawing: str, program: Program) -> tuple[str, ...]:
    found = judge(read_drawing(drawing), program).failure
    assert found is not None
    return found.dimensions


def test_what_only_turns_all_that_meets_is_left_out(program: Program) -> None:
    """T runs 100 sin 30 degrees = 50 from A, wherever S points, and C on it is to be 30 from A."""
    assert blamed(ANGLED, program) == ("W", "An", "L")


def test_between_points_the_directions_that_decide_are_named_and_no_other(program: Program) -> None:
    """20 and 50 are too short for the diagonal of the square. That hangs on the bottom and the right edge: their
    lengths, and the right angle, which the directions of these two give. Those of the top and the left edge place the
    fourth corner alone."""
    assert blamed(SQUARE, program) == ("constraint 1 (horizontal PBottom)", "constraint 2 (vertical PRight)",
                                       "H", "W", "D1", "D2")


def test_what_keeps_a_chain_straight_decides_though_its_length_is_greatest_there(program: Program) -> None:
    """A and C are 30 + 40 apart since both edges are horizontal: without one of these the chain bends, and 20 and 30
    may meet."""
    assert blamed(FOLDED, program) == ("H1", "H2", "L1", "L2", "L3", "L4")


@pytest.mark.parametrize("base", ["200", "20"])
def test_a_length_of_which_a_half_is_used_is_named(base: str, program: Program) -> None:
    """M halves Base: half of 200 is more than 50 and 40 reach over, half of 20 is as much as they differ by."""
    assert blamed("segment S 0 0 62 1\nsegment T S.start 29 41\nsegment U T.end S.end\npoint M 31 0\n"
                  f"segment V M T.end\nHalf: midpoint M S\nBase: length S {base}\nSide: length T 50\n"
                  "Median: length V 40\n", program) == ("Half", "Base", "Side", "Median")


def test_where_something_is_redundant_all_that_the_construction_uses_are_named(program: Program) -> None:
    """A second `horizontal S` says what the first says: rank can't tell them apart."""
    again = ANGLED.replace("horizontal S\n", "horizontal S\nhorizontal S\n")
    assert set(blamed(again, program)) >= {"W", "An", "L", "constraint 2 (horizontal S)"}
