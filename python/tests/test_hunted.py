"""The least drawings of what hunts and readers found answered wrongly and no other test has, each
with what is true of it by hand."""
from __future__ import annotations

import pytest

from pertxogai.drawing import read_drawing
from pertxogai.judging import Then, judge
from pertxogai.judging.good import Lack, reasons_against
from pertxogai.judging.judged_drawing import JudgedDrawing
from pertxogai.program import Program
from pertxogai.program.reports import Verdict
from test_answers import ref_of

HALF = "segment Flat -9 0 11 1\narc Round 0 1 Flat.end Flat.start\nlength Flat 20\n"
TRIANGLE = "segment A {} {}\nsegment B A.end {}\nsegment C B.end A.start\n"
PLATE = "rectangle P 0 0 31 19\ncoincident PBottom.start Origin\nlength PBottom 30\nlength PRight 20\n"


@pytest.mark.parametrize("text, places, radii", [
    # Its centre is the middle of 20, so the radius is 10.
    (HALF + "symmetric Round.start Round.end about Round.centre\ncoincident Round Origin\n"
     "horizontal Flat\n", {"Flat.start": (-10, 0), "Flat.end": (10, 0)}, {"Round": 10}),
    # The ends are 10 beside the axis and 4 below the centre: root (100 + 16).
    (HALF + "symmetric Round.start Round.end about YAxis\ny Flat.start -4\ny Round.centre 0\n",
     {"Flat.end": (10, -4), "Round.centre": (0, 0)}, {"Round": 10.770330}),
    # Along A lie (40 40 + 45 45 - 30 30) / 80 = 34.0625 of C, and root (45 45 - 34.0625 34.0625)
    # = 29.406566 over it, all of it 7 m to the right of the origin and 9 m above it.
    (TRIANGLE.format("7000 9000", "7040 9002", "7038 9030") + "length A 40\nlength B 30\n"
     "length C 45\nx A.start 7000\ny A.start 9000\nhorizontal A\n",
     {"A.end": (7040, 9000), "B.end": (7034.0625, 9029.406566)}, {}),
    # The diagonal of 30 and 20 is root 1300, of which no sketch has all digits.
    (PLATE + "segment D PBottom.start PRight.end\nsegment E 50 1 86 2\nequal D E\nx E.start 50\n"
     "y E.start 0\nhorizontal E\n", {"E.end": (86.055513, 0)}, {}),
])
def test_what_is_good_lies_where_a_hand_finds_it(
        text: str, places: dict[str, tuple[float, float]], radii: dict[str, float],
        program: Program) -> None:
    drawing = read_drawing(text)
    found = judge(drawing, program)
    assert found.verdict is Verdict.WELL
    assert not list(reasons_against(JudgedDrawing("it", drawing, found)))
    for name, told in places.items():
        lies = found.solution.spot(ref_of(name))
        assert max(abs(nm - mm * 1e6) for nm, mm in zip(lies, told)) <= 2, name
    for name, mm in radii.items():
        assert abs(found.solution.radius(name) - mm * 1e6) <= 2, name


def test_the_ends_of_an_arc_of_no_radius_lack_that_alone(program: Program) -> None:
    """Three points have 6 freedoms, less the arc's own, 2 of the centre and an axis for each
    end."""
    found = judge(read_drawing("arc A 0 0 10 0 0 10\ncoincident A Origin\non A.start XAxis\n"
                               "on A.end YAxis\n"), program)
    assert found.verdict is Verdict.OPEN and found.left_out == ("the ends of A",)
    assert found.missing.count == 1 and found.whole.text() == ""


def test_corners_of_more_than_180_degrees_are_not_good(program: Program) -> None:
    """No triangle has corners of 100 and 95 degrees; these three lines make one of 80, 85 and
    15."""
    drawing = read_drawing(TRIANGLE.format("0 0", "40 0", "30 30") + "coincident A.start Origin\n"
                           "horizontal A\nlength A 40\nWide: angle A B 100deg\n"
                           "Wider: angle B C 95deg\n")
    found = judge(drawing, program)
    off = {drawing.called(each.constraint) for each in
           reasons_against(JudgedDrawing("it", drawing, found)) if each.lack is Lack.OFF}
    assert off and off <= {"Wide", "Wider"}


def test_a_hole_between_two_sides_has_no_height(program: Program) -> None:
    """From the sides 30 and 85 make 115, and the width says 120. Without one of the three nothing
    is too much, and how high the hole lies is still told by nothing."""
    found = judge(read_drawing(
        "rectangle P 0 0 100 60\ncircle H 25 30 6\nWidth: length PBottom 120\nlength PRight 80\n"
        "diameter H 12\nLeft: distance H PLeft 30\nRight: distance H PRight 85\n"), program)
    assert found.verdict is Verdict.OVER
    assert found.loose == ("no dimension gives the y of H.centre",)
    gone = {each.name: each for each in found.surplus}
    for name in ("Width", "Left", "Right"):
        assert gone[name].then is Then.OPEN and gone[name].off.amount == 5_000_000


def test_a_point_is_further_from_the_far_side_of_a_slot_by_its_width(
        program: Program) -> None:
    """The slot is 10.9 wide, P2 lies beside it, 15.9 from the near side and 23.1 from the other: 7.2
    more. Without any one of the four that say so nothing is too much. The symmetry, which holds P3,
    has no words in the sketch language, so that the program calls the rest just enough."""
    found = judge(read_drawing(
        "point P1 8.2 37\npoint P2 14.8 32.6\npoint P3 21.6 28.2\n"
        "segment S4 76.1 -0.4 107.6 -5.2\narc A5 108.5 0 S4.end 109.4 5.5\n"
        "segment S6 A5.end 77.8 10.4\narc A7 77 5.1 S6.end S4.start\n"
        "symmetric P1 P3 about P2\ntangent S4 A5\ntangent A5 S6\ntangent S6 A7\ntangent A7 S4\n"
        "Same: equal A5 A7\nNear: distance P2 S6 15.9\ndistance P1 P2 8\n"
        "distance P3 A5.centre 91.4\nWide: diameter A5 10.9\nangle S6 +171.1deg\nlength S6 32\n"
        "Far: distance P2 S4 23.1\ndistance P1 S4.end 108.1\n"), program)
    assert found.verdict is Verdict.OVER
    assert {"Same", "Near", "Wide", "Far"} <= {each.name for each in found.surplus}


UPRIGHTS = ("segment Short 0 1 0 22\nsegment Long 0 0 0 33\nvertical Short.start Long.end\n"
            "on Short.end Long\nvertical Long.start Long.end\n")


def test_an_edge_that_is_upright_by_another_says_nothing_twice(program: Program) -> None:
    """Two edges have 8 freedoms, less 3; the whole moves along x and y, so 3 dimensions are
    missing: three of the four heights are told by nothing else."""
    found = judge(read_drawing(UPRIGHTS), program)
    assert (found.verdict, found.missing.count, found.surplus) == (Verdict.OPEN, 3, ())
    assert found.whole.text() == "moved"
    whole = judge(read_drawing(UPRIGHTS + "circle Hole 9 8 3\ncoincident Long.start Origin\n"
                               "y Short.start 5\nlength Short 20\nlength Long 30\ndiameter Hole 6\n"
                               "distance Hole Short 9\ny Hole 8\n"), program)
    assert whole.verdict is Verdict.WELL and not whole.left_out
    for name, told in (("Short.end", (0, 25)), ("Long.end", (0, 30)), ("Hole.centre", (9, 8))):
        assert whole.solution.spot(ref_of(name)) == tuple(mm * 1_000_000 for mm in told), name


def test_a_slot_whose_ends_are_level_says_nothing_twice(program: Program) -> None:
    """Four points and two centres have 12 freedoms, less 2 of the arcs, 4 touches and 3 words; of
    the 3 that are left 2 move the whole, so its length is missing."""
    found = judge(read_drawing(
        "segment Right 4 0 4 26\narc Top 0 26 Right.end -4 26\nsegment Left Top.end -4 0\n"
        "arc Foot 0 0 Left.end Right.start\ntangent Right Top\ntangent Top Left\n"
        "tangent Left Foot\ntangent Foot Right\nequal Top Foot\n"
        "distance Right.start Left.end 8\nhorizontal Right.start Left.end\n"), program)
    assert (found.verdict, found.missing.count, found.surplus) == (Verdict.OPEN, 1, ())
    assert found.whole.text() == "moved"
