"""Each word of a designer spelled in each style: asked of the program, placed, and measured.

The places are worked out by hand, in millimetres; two nanometres is what a printed number may be
off."""
from __future__ import annotations

from dataclasses import dataclass
from fractions import Fraction
from math import atan, cos, pi, sin

import pytest

from pertxogai.drawing import Degrees, PointRef, Slope, Which, read_drawing, um_of_mm
from pertxogai.judging import judge
from pertxogai.judging.measure import Unit, measure
from pertxogai.judging.settled import solution_of
from pertxogai.judging.trials import PlaceBy, Question, ask, placed
from pertxogai.language import Angle
from pertxogai.program.reports import Solved, Verdict
from pertxogai.spelling import Care, Rails, Style, axes_of, spell, written
from pertxogai.spelling.facts import Owner
from pertxogai.spelling.lean import SQUARE, Lean

VALUES, NEAR, GRID, FEET = Style.VALUES, Style.VALUES_NEAR, Style.GRID, Style.FEET
ALL = (VALUES, NEAR, GRID, FEET)
SOLVED = (VALUES, NEAR)


@dataclass(frozen=True)
class Case:
    """A word or two, a drawing that asks for them, where points come to lie, and the styles that
    apply."""

    name: str
    text: str
    places: tuple[tuple[str, str, str], ...]
    styles: tuple[Style, ...] = ALL


BAR = """segment Bar 0 0 39 1
coincident Bar.start Origin
horizontal Bar
length Bar 40
"""
CASES = (
    Case("a pinned bar", BAR, (("Bar.end", "40", "0"),)),
    Case("horizontal of two points", BAR + "point P 61 2\nhorizontal P Bar.end\nx P 60",
         (("P", "60", "0"),)),
    Case("vertical", "segment Up 0 0 1 28\ncoincident Up.start Origin\nvertical Up\nlength Up 30",
         (("Up.end", "0", "30"),)),
    Case("vertical of two points", BAR + "point P 41 9\nvertical P Bar.end\ny P 10",
         (("P", "40", "10"),)),
    Case("x and y distances", BAR + "point P 52 -8\nx Bar.end P 12\ny Bar.end P 7",
         (("P", "52", "-7"),)),
    Case("distance of points",
         BAR + "point P 30 31\ndistance P Bar.start 50\ndistance P Bar.end 30",
         (("P", "40", "30"),)),
    Case("distance from a horizontal segment", BAR + "point P 10 12\ndistance P Bar 15\nx P 10",
         (("P", "10", "15"),)),
    Case("distance from a leaning segment",
         "segment Ramp 0 0 31 39\nfixed Ramp.start\nangle Ramp 4/3\nlength Ramp 50\npoint P -7 6\n"
         "distance P Ramp 10\ndistance P Origin 10", (("Ramp.end", "30", "40"),), ()),
    Case("point on a segment", BAR + "point P 11 1\non P Bar\nx P 10", (("P", "10", "0"),)),
    Case("point on a leaning segment",
         "segment Ramp 0 0 31 39\nfixed Ramp.start\nangle Ramp 4/3\nlength Ramp 50\npoint P 14 21\non P Ramp\n"
         "distance P Origin 25", (("P", "15", "20"),)),
    Case("point on an axis", BAR + "point P 1 9\non P YAxis\ny P 10", (("P", "0", "10"),)),
    Case("point on a circle",
         "circle C 0 0 49\nfixed C\nradius C 50\npoint P 29 41\non P C\nx P 30",
         (("P", "30", "40"),), ()),
    Case("radius, centre told, point on it",
         "circle C 1 1 49\ncoincident C.centre Origin\nradius C 50\npoint P 29 41\non P C\nx P 30",
         (("P", "30", "40"),)),
    Case("diameter",
         "circle C 1 1 49\ncoincident C.centre Origin\ndiameter C 100\npoint P 29 41\non P C\nx P 30",
         (("P", "30", "40"),)),
    Case("parallel and distance of parallels",
         BAR + "segment Over 0 19 42 21\nparallel Over Bar\ndistance Over Bar 20\nx Over.start 0\nx Over.end 42",
         (("Over.start", "0", "20"), ("Over.end", "42", "20"))),
    Case("perpendicular", BAR + "segment Up Bar.end 41 22\nperpendicular Up Bar\nlength Up 25",
         (("Up.end", "40", "25"),)),
    Case("angle as a ratio", BAR + "segment Up Bar.end 69 41\nangle Up 4/3\nlength Up 50",
         (("Up.end", "70", "40"),)),
    Case("angle in degrees", BAR + "segment Up Bar.end 51 12\nangle Up 45deg\nx Up.end 50",
         (("Up.end", "50", "10"),)),
    Case("equal lengths", BAR + "segment Up Bar.end 41 22\nvertical Up\nequal Up Bar",
         (("Up.end", "40", "40"),),
         ALL),
    Case("equal radii",
         "circle A 0 0 5\ncircle B 19 1 6\ncoincident A.centre Origin\nradius A 6\nequal A B\n"
         "y B.centre 0\ntangent A B", (("B.centre", "12", "0"),), ALL),
    Case("concentric",
         "circle A 0 0 5\ncircle B 1 1 9\ncoincident A.centre Origin\nradius A 6\nconcentric A B\n"
         "radius B 10\npoint P 9 7\non P B\ny P 6", (("P", "8", "6"),)),
    Case("midpoint", BAR + "point M 19 1\nmidpoint M Bar", (("M", "20", "0"),), SOLVED),
    Case("symmetric to a point", BAR + "point P 59 1\nsymmetric P Bar.start about Bar.end",
         (("P", "80", "0"),), SOLVED),
    Case("symmetric to an axis", BAR + "point P -39 1\nsymmetric P Bar.end about YAxis",
         (("P", "-40", "0"),), SOLVED),
    Case("symmetric to a leaning line",
         "construction segment M 0 0 40 39\npoint P 51 1\npoint Q 1 51\ncoincident M.start Origin\nlength M 50\n"
         "angle M 1/1\nsymmetric P Q about M\nx P 50\ny P 0", (("Q", "0", "50"),)),
    Case("fixed", "point P 12 7\nfixed P\npoint Q 16 10\ndistance P Q 5\ny Q 10",
         (("Q", "16", "10"),), ()),
    Case("collinear",
         BAR + "segment More 50 1 70 -1\ncollinear Bar More\nx More.start 50\nlength More 20",
         (("More.end", "70", "0"),)),
    Case("tangent line and circle", BAR + "circle C 21 9 8\nradius C 8\nx C 20\ntangent C Bar",
         (("C.centre", "20", "8"),)),
    Case("tangent of a leaning line",
         "segment Ramp 0 0 31 39\ncoincident Ramp.start Origin\nangle Ramp 4/3\nlength Ramp 50\ncircle C -9 8 9\n"
         "radius C 10\ntangent C Ramp\ny C 0", (("C.centre", "-12.5", "0"),)),
    Case("tangent circles, outside",
         "circle A 0 0 5\ncircle B 11 8 5\ncoincident A.centre Origin\nradius A 6\n"
         "radius B 4\ntangent A B\ny B.centre 6", (("B.centre", "8", "6"),)),
    Case("tangent circles, inside",
         "circle A 0 0 16\ncircle B 7 7 5\ncoincident A.centre Origin\nradius A 16\n"
         "radius B 6\ntangent A B\ny B.centre 6", (("B.centre", "8", "6"),)),
    Case("tangent at a shared end: a fillet",
         "segment A 0 0 31 1\narc R 30 9 A.end 40 11\nsegment B R.end 41 40\ncoincident A.start Origin\nhorizontal A\n"
         "vertical B\ntangent A R\ntangent R B\nradius R 10\nx B.end 40\ny B.end 40",
         (("A.end", "30", "0"), ("R.centre", "30", "10"), ("R.end", "40", "10")), (VALUES, NEAR,
                                                                                   FEET)),
    Case("tangent arcs at a shared end",
         "arc A 0 0 10 1 -9 1\narc B -14 0 A.end -14 -5\ncoincident A.centre Origin\nradius A 10\n"
         "on A.start XAxis\nradius B 5\ntangent A B\nx B.centre -9\nx B.end -9",
         (("B.centre", "-9", "-12"), ("B.end", "-9", "-17")), ()),
)
NAMED = [pytest.param(case, style, id=f"{case.name} - {style.value}") for case in CASES
         for style in case.styles]


def ref_of(word: str) -> PointRef:
    name, _, which = word.partition(".")
    return PointRef(name, Which(which or "at"))


@pytest.mark.parametrize("case, style", NAMED)
def test_a_word_is_well_and_placed(case, style, program):
    drawing = read_drawing(case.text)
    asked = placed(ask(Question(drawing, program), axes_of(drawing), style), program)
    assert asked.verdict is Verdict.WELL, asked.spelled.sketch.text()
    assert isinstance(asked.solved, Solved) and asked.place is PlaceBy.BOXES, asked.solved
    solution = solution_of(drawing, asked, asked.solved)
    assert all(each.amount <= 2 for each in measure(drawing, solution) if each.unit is Unit.NM)
    for word, x, y in case.places:
        at = solution.spot(ref_of(word))
        off = at[0] - um_of_mm(x) * 1000, at[1] - um_of_mm(y) * 1000
        assert max(map(abs, off)) <= 2, (word, at)


def test_every_line_has_an_owner_that_says_it():
    spelled = spell(read_drawing(BAR), VALUES)
    owners = {owner.number for each in spelled.owners for owner in each}
    assert len(spelled.owners) == len(spelled.sketch.constraints)
    assert owners <= {1, 2, 3}


def test_lengths_that_are_no_whole_micrometres_make_the_sketch_larger():
    spelled = spell(read_drawing(BAR.replace("length Bar 40", "length Bar 1.5875")), VALUES)
    assert spelled.scale == 2
    assert not spelled.rounded


def test_a_length_without_end_is_rounded_and_told():
    drawing = read_drawing(BAR.replace("length Bar 40", "length Bar 0.33333333333"))
    spelled = spell(drawing, VALUES)
    told, = spelled.rounded
    assert abs(told.told_um - told.exact_um) < 1


def test_leans_add_up_exactly():
    assert Lean.of(Degrees(Fraction(30))) + Lean.of(Degrees(Fraction(60))) == SQUARE
    assert (Lean.of(Slope(3, 4, False)) + Lean.of(Slope(4, 3, False))).upright()
    assert Lean.of(Slope(1, 1, False)).degrees == 45
    assert (Lean.of(Slope(3, 4, True)) + -Lean.of(Slope(3, 4, False))).level()
    assert SQUARE + Lean.of(Slope(-4, 3, False)) == Lean.of(Slope(3, 4, False))
    assert Lean.of(Degrees(Fraction(45))) + Lean.of(Slope(3, 4, False)) == Lean.of(Slope(7, 1, False))


@pytest.mark.parametrize("degrees, ratio",
                         [(90, (1, 0)), (45, (1, 1)), (135, (-1, 1)), (180 - 45, (-1, 1))])
def test_right_angles_and_their_halves_are_exact(degrees, ratio):
    assert Lean.of(Degrees(Fraction(degrees))).ratio() == ratio


@pytest.mark.parametrize("degrees, tangent",
                         [(30, 3 ** -0.5), (60, 3 ** 0.5), (120, -3 ** 0.5), (150, -3 ** -0.5)])
def test_other_angles_are_near(degrees, tangent):
    p, q = Lean.of(Degrees(Fraction(degrees))).ratio()
    assert abs(atan(p / q) - atan(tangent)) < 2e-8


def test_two_ratios_are_finer_than_one():
    lean = Lean.of(Degrees(Fraction(70)))
    first, second = lean.halves()
    assert abs(first.radians() + second.radians() - lean.radians()) % pi < 1e-9
    assert Angle("A", "B", *first.ratio()) and Angle("A", "B", *second.ratio())


THREE_FOUR_FIVE = """segment A 0 0 50 0
segment B A.end 32 24
segment C B.end A.start
length A 50
angle A B 4/3
perpendicular B C
"""
PARALLELS = "segment A 0 0 50 0\nsegment B 0 20 50 21\nlength A 50\nparallel A B\n"


@pytest.mark.parametrize("text, follows, told", [
    (THREE_FOUR_FIVE + "angle A C 3000/4001", (3, 4), (3000, 4001)),
    (THREE_FOUR_FIVE + "perpendicular A C", (3, 4), (1, 0)),
    (THREE_FOUR_FIVE + "parallel A C", (-4, 3), (1, 0)),
    (PARALLELS + "angle A B 1/100", (1, 0), (-100, 1)),
    (PARALLELS + "perpendicular A B", (1, 1), (-1, 1)),
])
def test_a_contradicting_angle_is_spelled_as_it_is_told(text, follows, told):
    """Beside what follows from the others; with parallels both are turned, by 90 or 45 degrees."""
    axes = axes_of(read_drawing(text))
    spelled = written(axes, Rails(axes, VALUES), VALUES, Care(insist=True))
    *_, first, second = spelled.sketch.constraints
    assert (first, second) == (Angle("V3", "W3", *follows), Angle("V3", "W3", *told))
    assert spelled.owners[-1] == {Owner(len(read_drawing(text).constraints))}


def test_an_angle_that_follows_is_no_contradiction():
    axes = axes_of(read_drawing(THREE_FOUR_FIVE + "angle A C 3/4"))
    assert not axes.conflicts() and axes.repeats() == {Owner(4)}


def polygon(count: int, start: str, asked: str) -> str:
    """A regular polygon on a circle round the origin, drawn roughly, its first corner at `start`."""
    turns = [2 * pi * place / count for place in range(count)]
    corners = [f"{21 * cos(turn):.1f} {19 * sin(turn):.1f}" for turn in turns]
    lines = [f"segment S0 {start} {corners[1]}"]
    lines += [f"segment S{place} S{place - 1}.end {corners[place + 1]}"
              for place in range(1, count - 1)]
    lines += [f"segment S{count - 1} S{count - 2}.end S0.start", "construction circle C 1 1 20"]
    lines += [f"on S{place}.start C" for place in range(count)]
    lines += [f"equal S{place} S0" for place in range(1, count)]
    return "\n".join([*lines, "coincident C.centre Origin", asked, ""])


@pytest.mark.parametrize("text, place, at", [
    (polygon(6, "20 0", "radius C 20\nhorizontal S1"), "S3.start", (-20_000_000, 0)),
    (polygon(6, "20 0", "length S0 20\nhorizontal S1"), "S3.start", (-20_000_000, 0)),
    (polygon(6, "20 0", "x S0.start 20\non S0.start XAxis"), "S3.start", (-20_000_000, 0)),
    (polygon(6, "20 0", "radius C 20\nhorizontal S1"), "S1.start", (10_000_000, 17_320_508)),
    (polygon(5, "20 0", "radius C 20\non S0.start XAxis"), "S1.start", (6_180_340, 19_021_130)),
    (polygon(8, "20 0", "radius C 20\non S0.start XAxis"), "S1.start", (14_142_136, 14_142_136)),
])
def test_regular_polygons_are_placed(text, place, at, program):
    drawing = read_drawing(text)
    found = judge(drawing, program)
    assert found.verdict is Verdict.WELL
    assert all(each.amount <= 2 for each in found.deviations if each.unit is Unit.NM)
    spot = found.solution.spot(ref_of(place))
    assert max(abs(spot[0] - at[0]), abs(spot[1] - at[1])) <= 2


@pytest.mark.parametrize("style", ALL)
def test_a_way_from_one_axis_alone_is_spelled_in_each_style(style):
    told = spell(read_drawing("point A 2 0\nx A 2\n"), style).sketch.text()
    assert "distance P1 Y 2\n" in told
