"""Points that are symmetric to a slanted line: each lies on its own side of it, and angles that no
ratio is near are met also where much depends on them."""
from __future__ import annotations

from math import cos, pi, radians, sin, tan
from pathlib import Path

import pytest

from pertxogai.drawing import PointRef, Which, read_drawing
from pertxogai.judging import JudgedDrawing, Judgement, judge_at_once, reasons_against
from pertxogai.judging.trials import Question, ask
from pertxogai.program import Solver
from pertxogai.program.reports import Verdict
from pertxogai.spelling import Care, Style, axes_of

DRAWINGS = Path(__file__).parent / "drawings"
MIRRORED = (DRAWINGS / "mirrored-in-a-slanted-line.drawing").read_text()
HOUSE = (DRAWINGS / "house.drawing").read_text()


def placed(text: str, point: PointRef, program: Solver) -> tuple[float, float]:
    """Where a point of a good drawing is placed, in nm."""
    drawing = read_drawing(text)
    found: Judgement = judge_at_once(drawing, program)
    assert not reasons_against(JudgedDrawing("", drawing, found))
    assert found.solution is not None
    x, y = found.solution.spot(point)
    return float(x), float(y)


@pytest.mark.parametrize("degrees", [0.0001, 0.0056, 20, 88.9, 89.5477, 90, 90.0001, 120, 150, 179])
def test_an_image_lies_across_the_line_at_each_angle(degrees: float, program: Solver) -> None:
    text = MIRRORED.replace("angle Mirror 1/1", f"angle Mirror +{degrees}deg")
    x, y = placed(text, PointRef("Q", Which.AT), program)
    turn = 2 * degrees * pi / 180  # P lies 50 to the right, on the x axis.
    assert abs(x - 50e6 * cos(turn)) < 20 and abs(y - 50e6 * sin(turn)) < 20


@pytest.mark.parametrize(("first", "second"), [
    ("51 1", "1 51"), ("51 1", "40 1"),  # As they lie, and both on the side of P.
    ("20 30", "30 10"), ("20 30", "1 51"),  # P is drawn on the other side, and Q so too, or not.
    ("51 1", "40 39"),  # Q is drawn on the line.
])
def test_an_image_lies_across_the_line_however_it_is_drawn(first: str, second: str,
                                                           program: Solver) -> None:
    text = MIRRORED.replace("point P 51 1", f"point P {first}")
    text = text.replace("point Q 1 51", f"point Q {second}")
    x, y = placed(text, PointRef("Q", Which.AT), program)
    assert abs(x) < 5 and abs(y - 50e6) < 5


def test_an_image_that_has_distances_lies_across_the_line(program: Solver) -> None:
    """Q is drawn on the side of P, to the right of R, and lies to its left."""
    text = MIRRORED.replace("point Q 1 51", "point Q 40 1\npoint R 20 -20")
    text += "distance Q R 20\ndistance R Mirror.start 45\n"
    x, y = placed(text, PointRef("Q", Which.AT), program)
    assert abs(x) < 5 and abs(y - 50e6) < 5


@pytest.mark.parametrize("degrees", [0.0001, 0.0056, 11.3108, 78.6891, 89.9999])
def test_a_roof_meets_each_angle(degrees: float, program: Solver) -> None:
    """By 1/5, 0 and 1/0 lies no other ratio. The one rafter rises from 0, 40 at 45 degrees, the
    other from 60, 40."""
    text = HOUSE.replace("angle RoofR 45deg", f"angle RoofR {degrees}deg")
    x, y = placed(text, PointRef("RoofR", Which.START), program)
    run = 60e6 * tan(radians(degrees)) / (1 + tan(radians(degrees)))
    assert abs(x - run) < 20 and abs(y - 40e6 - run) < 20


def test_two_angles_that_lead_to_one_line_are_both_told_finely(program: Solver) -> None:
    """Both are told of B, each by a line of help of its own."""
    drawing = read_drawing(
        "segment A 0 0 40 0\nsegment B A.end 60 30\nsegment C B.end 10 40\nhorizontal A\n"
        "coincident A.start Origin\nlength A 40\nlength B 36\nlength C 50\n"
        "angle A B 123.6877deg\nangle C B 64.7777deg\n")
    asked = ask(Question(drawing, program), axes_of(drawing), Style.VALUES_NEAR, Care(fine=True))
    assert asked.verdict is Verdict.WELL and not asked.spelled.near


@pytest.mark.parametrize("degrees", ["151.699", "151.6991", "151.6992"])
def test_a_line_of_help_turns_nothing_over(degrees: str, program: Solver) -> None:
    """West is drawn at 61.69924 degrees to South, the arc tangent of 26/14, so up to 151.69924 it
    runs as it is drawn."""
    text = ("segment South 0 0 31 0\nsegment East South.end 44 27\nsegment North East.end 14 26\n"
            "segment West North.end South.start\nequal South East North West\nlength South 30\n"
            f"angle South West {degrees}deg\n")
    x, y = placed(text, PointRef("West", Which.START), program)
    turn = radians(float(degrees))
    assert abs(x - 30e6 * cos(turn)) < 50 and abs(y - 30e6 * sin(turn)) < 50
