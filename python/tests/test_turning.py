"""A shape that is rigid by its lengths lies to the axes as its drawing says; and the radii that only
touches tell."""
from __future__ import annotations

from math import sqrt

import pytest

from pertxogai.drawing import PointRef, Which, read_drawing
from pertxogai.judging import judge
from pertxogai.judging.good import GoodJudgement, Lack, good_of, reasons_against
from pertxogai.judging.judged_drawing import JudgedDrawing

SIDES = ("segment A 0 0 40 2\nsegment B A.end 38 30\nsegment C B.end A.start\nlength A 40\n"
         "length B 30\nlength C 45\n")


def judged(text: str, program) -> JudgedDrawing:
    drawing = read_drawing(text)
    return JudgedDrawing("it", drawing, judge(drawing, program))


def way(found: GoodJudgement, name: str) -> tuple[float, float]:
    """The way of a segment, in mm."""
    (x, y), (u, v) = (found.solution.spot(PointRef(name, which))
                      for which in (Which.START, Which.END))
    return (u - x) / 1e6, (v - y) / 1e6


@pytest.mark.parametrize("words, name, dx, dy", [
    ("horizontal A", "A", 40, 0),
    ("vertical A.start B.end", "C", 0, -45),  # Drawn above A.start, and C runs from there.
    ("y A.start A.end 20", "A", sqrt(40 ** 2 - 20 ** 2), 20),
    ("y A.start A.end -20", "A", sqrt(40 ** 2 - 20 ** 2), -20),
    ("x A.start B.end 3", "C", -3, -sqrt(45 ** 2 - 3 ** 2)),
    ("y A.end B.end 20", "B", -sqrt(30 ** 2 - 20 ** 2), 20),  # B is drawn to the left,
    ("x A.end B.end 5", "B", -5, sqrt(30 ** 2 - 5 ** 2)),     # and upwards.
    ("angle C 3/4", "C", -45 * 0.8, -45 * 0.6),
    ("parallel C YAxis\nx B.end 7\ny B.end 9", "C", 0, -45),
])
def test_a_triangle_of_three_lengths_is_turned_by_one_word(words, name, dx, dy, program):
    found = good_of(judged(SIDES + words + "\n", program))
    assert isinstance(found, GoodJudgement) and not found.judged.judgement.warnings
    x, y = way(found, name)
    assert abs(x - dx) <= 3e-6 and abs(y - dy) <= 3e-6


@pytest.mark.parametrize("words, name, dx, dy", [
    ("y A.start A.end -20", "A", -sqrt(40 ** 2 - 20 ** 2), -20),
    ("x A.start B.end +3", "C", -3, -sqrt(45 ** 2 - 3 ** 2)),
])
def test_what_a_sign_tells_leaves_the_other_side_to_the_drawing(words, name, dx, dy, program):
    """The same triangle, drawn to the left: A runs there, and B ends above, whatever sign the way
    across has."""
    left = SIDES.replace("40 2", "-40 2").replace("38 30", "-38 30")
    found = good_of(judged(left + words + "\n", program))
    assert isinstance(found, GoodJudgement)
    assert way(found, name) == pytest.approx((dx, dy), abs=3e-6)


def test_a_point_of_it_lies_where_it_is_told(program):
    found = good_of(judged(SIDES + "angle A 30deg\nx B.end 7\n", program))
    assert isinstance(found, GoodJudgement)
    assert found.solution.spot(PointRef("B", Which.END))[0] == 7_000_000


def test_what_can_not_be_turned_so_is_not_good(program):
    """No way of 40 rises by 50."""
    why, = reasons_against(judged(SIDES + "y A.start A.end +50\n", program))
    assert why.lack in (Lack.OFF, Lack.NO_PLACES)


@pytest.mark.parametrize("words, radius_nm", [
    ("circle A 0 0 10\ncircle B 21 0 8\nradius A 10\ndistance A B 20\ntangent A B\n", 10_000_000),
    # Inside: the centres are 4 apart, and A is the greater.
    ("circle A 0 0 10\ncircle B 3 0 6\nradius A 10\ndistance A B 4\ntangent A B\n", 6_000_000),
    # On the rim of B lies P, at 3 4.
    ("circle B 0 0 8\npoint P 3 5\ncoincident B Origin\nx P 3\ny P 4\non P B\n", 5_000_000),
    # B is as large as A, which the line below it tells.
    ("segment S -9 -7 9 -7\ncircle A 0 0 3\ncircle B 30 0 4\ncoincident A Origin\ny S.start -7\n"
     "y S.end -7\nx S.start -9\nx S.end 9\ntangent S A\nequal A B\nx B 30\ny B 0\n", 7_000_000),
    # The root of 2 in mm is 1.414213562: rounded once.
    ("circle B 0 0 8\npoint P 3 5\ncoincident B Origin\nx P 1\ny P 1\non P B\n", 1_414_214),
])
def test_a_radius_is_that_of_what_touches_it(words, radius_nm, program):
    found = good_of(judged(words, program))
    assert isinstance(found, GoodJudgement), found
    assert found.solution.radius("B") == radius_nm


def test_two_touches_that_tell_two_radii(program):
    """The line is 7 away, the point 5: the first is met, and the other is off by 2."""
    text = ("segment S -9 -7 9 -7\ncircle B 0 0 3\npoint P 3 4\ncoincident B Origin\ny S.start -7\n"
            "y S.end -7\nx S.start -9\nx S.end 9\nfixed P\ntangent S B\non P B\n")
    found = judged(text, program)
    assert {each.lack for each in reasons_against(found)} <= {Lack.OFF, Lack.VERDICT}
    assert isinstance(good_of(found), Exception)


def test_circles_that_are_equal_and_of_no_size_have_none(program):
    text = ("circle A 0 0 3\ncircle B 30 0 4\ncoincident A Origin\nequal A B\nx B 30\ny B 0\n")
    found = judged(text, program)
    sizes = [each.text for each in reasons_against(found) if each.lack is Lack.NO_SIZE]
    assert sizes == ["no size is given for A", "no size is given for B"]


def test_a_touch_that_leaves_no_radius_tells_none(program):
    """The centres are 5 apart, and A reaches 10: B can't touch it from outside."""
    text = "circle A 0 0 10\ncircle B 21 0 8\nradius A 10\ndistance A B 5\ntangent A B\n"
    found = judged(text, program)
    assert Lack.OFF in [each.lack for each in reasons_against(found)]
    assert found.judgement.unsized == ("B",)
