"""What a drawing lacks and what it says twice, by rank: counted by hand, as unknowns less equations
less the ways in which the whole may be moved. No program is asked."""
from __future__ import annotations

from decimal import Decimal, localcontext
from fractions import Fraction

import pytest

from pertxogai.drawing import AngleBetween, read_drawing
from pertxogai.judging.equations import Plane, Unknowns
from pertxogai.judging.freedoms import Freedoms, freedoms
from pertxogai.judging.jets import EXACT, FLOATS, Steps
from pertxogai.judging.like_places import LENGTHS, like_places

TRIANGLE = "segment A 0 0 40 1\nsegment B A.end 38 30\nsegment C B.end A.start\n"
QUADRILATERAL = ("segment A 0 0 40 1\nsegment B A.end 42 30\nsegment C B.end 1 33\n"
                 "segment D C.end A.start\n")
TOUCHED = QUADRILATERAL + "circle K 21 11 10\npoint P 20 1\non P A\non P K\ntangent A K\n"


def free_of(text: str) -> Freedoms:
    found = freedoms(read_drawing(text))
    assert found is not None
    return found


def circuits(text: str) -> list[list[int]]:
    """The constraints, by number, of which one is too many."""
    return [sorted(owner.number for owner in each if not owner.shape)
            for each in free_of(text).too_many()]


@pytest.mark.parametrize("text, lacks, whole", [
    ("point P 10 10\n", 0, "moved"),  # A turn of a point about itself moves nothing.
    ("point P 10 10\ndistance P Origin 14\n", 0, "turned"),
    ("point P 10 10\nx P 10\ny P 10\n", 0, ""),
    ("point P 30 1\non P XAxis\n", 0, "moved along x"),
    ("circle H 30 1 5\non H YAxis\nradius H 5\n", 0, "moved along y"),
    ("circle C 10 10 5\ncoincident C Origin\n", 1, ""),  # Its size.
    ("circle C 10 10 5\ncoincident C Origin\nradius C 5\n", 0, ""),
    ("circle C Origin 5\n", 1, ""),
    ("segment L Origin 40 40\nangle L 45deg\n", 1, ""),  # Its length.
    ("segment L Origin 40 40\nlength L 50\n", 0, "turned"),
    ("segment L Origin 40 40\nsegment M L.end 70 40\nangle L 45deg\nhorizontal M\nlength M 30\n", 1, ""),
    ("segment L 0 0 40 40\nangle L 45deg\n", 1, "moved"),
    # It slides along a line through the origin that has a direction.
    ("segment L 5 4 40 40\non Origin L\nangle L 45deg\nlength L 50\n", 0, "moved"),
    ("segment S 10 0 10 10\non S.start XAxis\nvertical S\nlength S 10\n", 0, "moved along x"),
    (TRIANGLE, 3, "moved and turned"),
    (TRIANGLE + "length A 40\nlength B 30\nlength C 50\n", 0, "moved and turned"),
    # Three angles say as much as two: a size is missing.
    (TRIANGLE + "angle A B 60deg\nangle B C 70deg\n", 1, "moved and turned"),
    # An isosceles triangle of which two angles are told has no size: they repeat each other.
    (TRIANGLE + "equal B C\nangle B C 50deg\nangle A B 65deg\n", 1, "moved and turned"),
    # Four equal sides leave a side and an angle.
    (QUADRILATERAL + "equal A B C D\n", 2, "moved and turned"),
    # A parallelogram has 3 dimensions; a circle that touches a side in a point lacks its size and place.
    (TOUCHED + "parallel A C\nparallel B D\n", 5, "moved and turned"),
    # An arc has a centre, a radius and two directions; a tangent at its start leaves the end.
    ("segment S 0 0 20 0\narc A 20 5 S.end 25 5\ntangent S A\nlength S 20\n", 2, "moved and turned"),
])
def test_what_is_lacking(text: str, lacks: int, whole: str) -> None:
    found = free_of(text)
    assert (found.lacks, found.whole.text()) == (lacks, whole)


@pytest.mark.parametrize("text, together", [
    (TRIANGLE + "length A 40\nlength B 30\nlength C 50\nangle A B 90deg\n", [[1, 2, 3, 4]]),
    # Equal sides and both angles: one angle follows from the other; a length is another matter.
    (TRIANGLE + "equal B C\nlength B 36\nangle B C 58deg\nangle A B 61deg\n", [[1, 3, 4]]),
    # In a rectangle the width, told of a side and as the distance of the two others, is told twice.
    (QUADRILATERAL + "parallel A C\nparallel B D\nperpendicular A B\nangle C 34deg\n"
     "distance C.end B 30.244\nlength A 33.05\ndistance A.start B.end 37.4\n", [[2, 5, 6]]),
    # Four right angles are one too many.
    (QUADRILATERAL + "perpendicular A B\nperpendicular B C\nperpendicular C D\nperpendicular D A\n",
     [[1, 2, 3, 4]]),
    # By their directions, told as angles, the sides are parallel, so opposite lengths are equal.
    (QUADRILATERAL + "angle A +30deg\nangle B +120deg\nangle C +210deg\nangle D +300deg\nlength A 40\n"
     "length C 40\n", [[2, 4, 5, 6]]),
    # A point is on a segment, and in its middle.
    ("segment S 0 0 40 0\npoint P 20 1\nmidpoint P S\non P S\n", [[1, 2]]),
    # B is on the x axis, so that its distance is its x, and its y has no part in it.
    ("point A 0 0\npoint B 40 0\ndistance A B 40\ncoincident A Origin\nx B 40\ny B 0\n", [[1, 2, 3]]),
    # A circle touches a level edge in P, so P lies straight below the circle's centre.
    (TOUCHED + "horizontal A\nx P 20\nx K 20\n", [[3, 4, 5, 6]]),
    # Where a circle touches an edge, or another circle, is no matter of the parallelogram beside it.
    (TOUCHED + "parallel A C\nparallel B D\nequal A C\n", [[4, 5, 6]]),
    (TOUCHED + "circle J 20 -9 10\npoint R 21 1\non R K\non R J\ntangent K J\nparallel A C\nparallel B D\n"
     "equal A C\n", [[7, 8, 9]]),
    # What has no shape says nothing twice: 98.19 along x, and 78.8 in all.
    ("point P 20 30\npoint Q 100 47\nx P Q +98.19\ndistance P Q 78.8\n", []),
])
def test_what_is_told_twice(text: str, together: list[list[int]]) -> None:
    assert circuits(text) == together


def test_two_too_many_of_which_none_goes_alone() -> None:
    """A and B are equal by their lengths too; and three sides with an angle are one too many."""
    found = free_of(TRIANGLE + "length A 40\nlength B 30\nlength C 50.02\nequal A B\nangle A B 90deg\n")
    assert found.excess == 2
    assert all(found.fewer([number]) == 1 for number in range(1, 6))
    pairs = {(one, other) for one in range(1, 6) for other in range(one + 1, 6)
             if found.fewer([one, other]) == 2}
    # Without both C and the angle, or without both A and B, the rest still says something twice.
    assert pairs == {(1, 2), (1, 3), (1, 4), (1, 5), (2, 3), (2, 4), (2, 5), (3, 4), (4, 5)}


def test_what_is_freed_without_a_constraint() -> None:
    """Of a coincidence one of two equations may be too many; the other is needed then."""
    found = free_of("point A 0 0\npoint B 40 0\ncoincident A Origin\nx A 0\nx B 40\ny B 0\n")
    assert (found.excess, found.fewer([1]), found.freed([1])) == (1, 1, 1)
    assert (found.fewer([2]), found.freed([2])) == (1, 0)
    assert (found.fewer([3]), found.freed([3])) == (0, 1)


def test_what_is_told_aside_is_left_out_of_what_is_too_many() -> None:
    found = free_of(QUADRILATERAL + "perpendicular A B\nperpendicular B C\nperpendicular C D\n"
                    "perpendicular D A\nlength A 40\nlength C 40\n")
    assert found.excess == 2
    without_the_last = [sorted(owner.number for owner in each) for each in found.too_many([4])]
    assert len(without_the_last) == 1 and {5, 6} <= set(without_the_last[0])


@pytest.mark.parametrize("text, lacks", [
    # An edge goes on from the end of another: its line says where its own end lies, and no more.
    # Three points have 6 coordinates, less that and 3 of the whole.
    ("segment A 0 0 10 0\nsegment B A.end 20 0.1\ncollinear A B\n", 2),
    ("segment A 0 0 10 0\nsegment B 10 0 20 0.1\ncoincident A.end B.start\ncollinear A B\n", 2),
    # An edge along the axis that begins in the origin: its length is missing.
    ("segment B 0 0 20 0.1\ncoincident B.start Origin\ncollinear B XAxis\n", 1),
    # Without a corner both ends are told: 8 coordinates less 2 and 3.
    ("segment A 0 0 10 0\nsegment B 15 0 25 0.1\ncollinear A B\n", 3)])
def test_a_line_from_a_corner_says_nothing_twice(text, lacks) -> None:
    found = free_of(text)
    assert (found.lacks, found.excess) == (lacks, 0)


KINDS = """segment A 1 2 40 5
segment B A.end 38 30
circle C 12 40 6
circle D 30 52 9
arc E 60 10 70 10.5 61 20
circle F 70 70 4
point P 18 14
point Q 25 33
on P A
on Q C
horizontal A
vertical P Q
parallel A B
perpendicular A B
collinear A B
angle A B 71deg
angle B 4/3
length A 40
distance P Q 20
x P 12
y P Q +14
distance P B 13
distance A XAxis 9
radius E 10
diameter C 12
tangent C D
tangent B D
tangent C E
equal A B
equal C D
concentric E F
symmetric P Q about A
symmetric A.start B.end about P
midpoint Q B
fixed D
fixed E
"""


def test_slopes_are_those_of_the_numbers() -> None:
    """By difference quotients."""
    drawing = read_drawing(KINDS)
    unknowns = Unknowns.of(drawing)
    at = [float(each) for each in unknowns.drawn()]
    jets = [jet for _, jet in Plane(unknowns, at, FLOATS).all()]
    step = 1e-6
    for place in range(unknowns.size):
        ends = []
        for by in (-step, step):
            moved = list(at)
            moved[place] += by
            ends.append([jet.value for _, jet in Plane(unknowns, moved, FLOATS).all()])
        for jet, before, after in zip(jets, *ends):
            assert jet.slope.get(place, 0.0) == pytest.approx((after - before) / (2 * step), abs=1e-6)


def test_a_place_like_the_drawing_holds_all_but_lengths() -> None:
    text = TRIANGLE + "equal B C\nlength B 36\nangle B C 58deg\nangle A B 61deg\nhorizontal A\n"
    with localcontext(EXACT):
        plane = next(like_places(read_drawing(text), Steps()))
        for constraint in plane.drawing.constraints:
            off = max(abs(jet.value) for jet in plane.asked(constraint))
            if isinstance(constraint, LENGTHS):
                assert off > Decimal("0.01")
            else:
                assert off < Decimal("1e-40")


def test_directions_that_contradict_are_left_general() -> None:
    """The angles at the base of an isosceles triangle are told to be 61 and 70 degrees."""
    text = TRIANGLE + "equal B C\nangle A B 61deg\nangle A C 70deg\nangle B C 40deg\n"
    with localcontext(EXACT):
        plane = next(like_places(read_drawing(text), Steps()))
        for constraint in plane.drawing.constraints:
            off = max(abs(jet.value) for jet in plane.asked(constraint))
            assert isinstance(constraint, AngleBetween) or off < Decimal("1e-40")


@pytest.mark.parametrize("right", ["perpendicular {}", "angle {} 90deg", "angle {} 1/0"])
def test_directions_that_contradict_leave_right_angles(right: str) -> None:
    """The sides of a rectangle are equal in pairs, and of its four angles one follows from the
    others. Its width is told twice. Only its height is told once, so it has to stay."""
    angles = "".join(f"{right.format(each)}\n" for each in ("A B", "B C", "C D"))
    found = free_of(QUADRILATERAL + angles + "angle D A 80deg\nlength A 40\nlength B 32\nlength C 40\n")
    assert (found.lacks, found.excess) == (0, 2)
    assert [number for number in range(1, 8) if found.may_go(number)] == [1, 2, 3, 4, 5, 7]


def test_a_rank_that_takes_too_long_is_not_told(monkeypatch: pytest.MonkeyPatch) -> None:
    monkeypatch.setattr("pertxogai.judging.freedoms.Steps", lambda: Steps(10))
    assert freedoms(read_drawing(TRIANGLE + "length A 41\n")) is None


def test_a_right_angle_more_is_the_same_turned() -> None:
    from pertxogai.drawing import Degrees, Slope
    from pertxogai.judging.trigonometry import way_of

    ahead, left = way_of(Degrees(Fraction(60)))
    assert abs(ahead - Fraction(1, 2)) < Fraction(1, 10 ** 75)
    assert abs(left * left - Fraction(3, 4)) < Fraction(1, 10 ** 75)
    assert way_of(Degrees(Fraction(150))) == (-left, ahead)
    assert way_of(Degrees(Fraction(-120))) == (-ahead, -left)
    assert way_of(Slope(3, 4, True)) == (-4, -3)
