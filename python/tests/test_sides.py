"""What a constraint puts on a side of a segment or a point, and lies on the other side: each worked
out by hand."""
from __future__ import annotations

from math import atan2, degrees

import pytest

from pertxogai.drawing import Drawing, PointRef, Which, read_drawing
from pertxogai.judging import judge
from pertxogai.judging.departures import DepartureKind, warnings
from pertxogai.judging.measure import Solution
from pertxogai.program.library import quickest
from pertxogai.ranging import Ranging

MM = 10 ** 6
LEANING = """segment Base Origin 60 0
horizontal Base
length Base 60
segment Up Origin 40 10
length Up 50
Lean: angle Base Up +{}deg
circle C 30 20 3
distance C Up 10
y C 20
radius C 3
"""
"""C is drawn left of Up, which is drawn at 14.04 degrees."""
EDGE = "segment S 0 0 40 0\n"
TIED = "point A -100 -100\npoint B -60 -80\ncoincident A Origin\n"
"""B is drawn right of A and above it. The origin is, too."""


@pytest.mark.parametrize(("lean", "x_mm", "is_across"), [
    # Left of Up at 58 degrees: 20 / tan 58 - 10 / sin 58.
    (58, .7056, False),
    # Up is drawn more than 45 degrees off, so it counts as drawn at 60 degrees: C is right of that,
    # at 20 / tan 60 + 10 / sin 60.
    (60, 23.0940, True)])
def test_a_circle_that_changes_sides_with_a_signed_angle_is_warned_of(
        lean: int, x_mm: float, is_across: bool) -> None:
    drawing = read_drawing(LEANING.format(lean))
    found = judge(drawing, quickest())
    assert found.solution is not None
    x, _ = found.solution.spot(PointRef("C", Which.CENTRE))
    assert float(x) / MM == pytest.approx(x_mm, abs=1e-4)
    told = ["C is drawn on the other side of Up"] * is_across
    assert [each.text() for each in found.warnings] == told


def test_the_range_of_the_angle_ends_there() -> None:
    ranging = Ranging.of(read_drawing(LEANING.format(58)), quickest())
    of, = (each for each in ranging.parameters() if each.called(ranging.drawing) == "Lean")
    high = ranging.range_of(of).high
    assert float(high.at) == pytest.approx(degrees(atan2(10, 40)) + 45, abs=1e-4)
    assert high.fault.text == "C is drawn on the other side of Up"


def test_what_is_tied_to_the_origin_by_a_point_that_is_drawn_elsewhere_is_warned_of() -> None:
    """A counts as drawn in the origin, and so B as drawn to its left and below it."""
    found = judge(read_drawing(TIED + "x A B 40\ny A B 20\n"), quickest())
    assert found.solution is not None
    assert found.solution.spot(PointRef("B", Which.AT)) == (-40 * MM, -20 * MM)
    assert [each.text() for each in found.warnings] == ["B is drawn on the other side of A"]


def placed(drawing: Drawing, places: dict[str, tuple[float, float]]) -> Solution:
    """All as it is drawn, but for some points."""
    spots = {ref: drawing.scene.drawn_nm(ref) for ref in drawing.points()}
    spots.update({ref: (round(x * MM), round(y * MM)) for ref in spots
                  for name, (x, y) in places.items() if str(ref) == name})
    return Solution(spots, {})


@pytest.mark.parametrize(("text", "places", "told"), [
    (EDGE + "point P 20 5\ndistance P S 5\n", {"P": (20, -5)}, [("P", "S")]),
    (EDGE + "point P 20 5\ndistance P S 5\n", {"P": (90, 5)}, []),
    # Two constraints say it, and it is told once.
    (EDGE + "circle C 20 5 5\ndistance C S 5\ntangent C S\n", {"C.centre": (20, -5)},
     [("C", "S")]),
    (EDGE + "circle C 20 5 5\ntangent S C\n", {"C.centre": (20, -5)}, [("C", "S")]),
    (EDGE + "arc A 20 5 25 5 15 5\ndistance A S 5\n", {"A.centre": (20, -5)},
     [("A.centre", "S")]),
    # Construction lines have sides too.
    ("construction " + EDGE + "point P 20 5\ndistance P S 5\n", {"P": (20, -5)}, [("P", "S")]),
    (EDGE + "segment T 0 9 40 8\nparallel S T\ndistance S T 9\n",
     {"T.start": (0, -9), "T.end": (40, -9)}, [("T", "S")]),
    # One end of T alone: what is across isn't all of it.
    (EDGE + "segment T 0 9 40 8\nparallel S T\ndistance S T 9\n", {"T.end": (40, -9)}, []),
    # It is drawn on the line, or within a micrometre of it; or it is placed so.
    (EDGE + "point P 20 0\ndistance P S 5\n", {"P": (20, -5)}, []),
    (EDGE + "point P 20 0.001\ndistance P S 5\n", {"P": (20, -5)}, []),
    (EDGE + "point P 20 5\ndistance P S 0.001\n", {"P": (20, -.001)}, []),
    # S runs the other way than it is drawn, which is warned of: so both sides of it are.
    (EDGE + "point P 20 5\ndistance P S 5\n", {"S.start": (40, 0), "S.end": (0, 0)}, []),
    # P is one with Q, which is drawn on the other side: so it isn't clear which is meant.
    (EDGE + "point Q 20 -5\npoint P 20 5\ncoincident P Q\ndistance P S 5\n", {"P": (20, -5)}, []),
    # They touch in a point that is told: an end, or one that lies on both.
    (EDGE + "arc A 40 5 S.end 40 10\ntangent S A\n", {"A.centre": (40, -5), "A.end": (45, -5)}, []),
    (EDGE + "circle C 20 5 5\non S.end C\ntangent S C\n", {"C.centre": (40, -5)}, []),
    # Along both axes, told once; with a sign the drawing decides nothing.
    (TIED + "x A B 40\ny A B 20\n", {"A": (0, 0), "B": (-40, -20)}, [("B", "A")]),
    (TIED + "x A B -40\ny A B -20\n", {"A": (0, 0), "B": (-40, -20)}, []),
    (TIED + "x A B 40\ny A B 20\n", {"A": (0, 0), "B": (40, 20)}, []),
    # It is drawn right of the other, or a micrometre from there; or it is placed so.
    ("point P 30 5\nx P 30\n", {"P": (-30, 5)}, [("P", "Origin")]),
    ("point P 0.001 5\nx P 30\n", {"P": (-30, 5)}, []),
    ("point P 30 5\nx P 0\n", {"P": (0, 5)}, []),
    ("circle C 20 5 3\ny C 5\n", {"C.centre": (20, -5)}, [("C", "Origin")]),
    # Of S, which leans now: it runs on, but rises in place of falling; or it runs the other way.
    ("segment S 0 10 40 0\ny S.start S.end 10\n", {"S.end": (40, 20)}, [("S.end", "S.start")]),
    ("segment S 0 0 40 0\nx S.start S.end 40\n", {"S.end": (-40, 0)}, []),
    # No constraint puts P on a side of S.
    (EDGE + "point P 20 5\nx P 20\n", {"P": (20, -5)}, []),
    ("circle C 20 5 5\ntangent C XAxis\n", {"C.centre": (20, -5)}, []),
])
def test_what_lies_on_the_other_side_is_told(
        text: str, places: dict[str, tuple[float, float]], told: list[tuple[str, str]]) -> None:
    drawing = read_drawing(text)
    found = warnings(drawing, placed(drawing, places))
    assert [each.shapes for each in found
            if getattr(each, "departure", None) is DepartureKind.ACROSS] == told


CHAIN = """segment A Origin -40 5
segment B A.end -70 30
length A 40
length B 30
"""
"""A is drawn at 173 degrees, and B at 140."""
ALONE = "segment A Origin -40 -10\nlength A 40\n"


@pytest.mark.parametrize(("text", "last_mm"), [
    # A at 10 degrees, and B at 100: 40 cos 10 + 30 cos 100, 40 sin 10 + 30 sin 100.
    (CHAIN + "angle A +10deg\nangle A B +90deg\n", (34.1829, 36.4902)),
    (CHAIN + "angle A B +90deg\nangle A +10deg\n", (34.1829, 36.4902)),
    (CHAIN + "angle B A -90deg\nangle A +10deg\n", (34.1829, 36.4902)),
    # 40 cos 60, 40 sin 60: from the x axis, or from the edge to the x axis, or to the y axis.
    (ALONE + "angle XAxis A +60deg\n", (20, 34.6410)),
    (ALONE + "angle A XAxis -60deg\n", (20, 34.6410)),
    (ALONE + "angle A YAxis +30deg\n", (20, 34.6410))])
def test_a_signed_angle_is_met_wherever_its_segment_is_drawn(
        text: str, last_mm: tuple[float, float]) -> None:
    drawing = read_drawing(text)
    found = judge(drawing, quickest())
    assert found.solution is not None and not any(found.limit.beyond(found.deviations))
    x, y = found.solution.spot(PointRef(drawing.geometry[-1].name, Which.END))
    assert (float(x) / MM, float(y) / MM) == pytest.approx(last_mm, abs=1e-4)
