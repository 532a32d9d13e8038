"""What a designer is told: what is missing, what is too much, what fails, what has turned, in the
drawing's words."""
from __future__ import annotations

import math
import re
from fractions import Fraction
from pathlib import Path

import pytest

from conftest import TOP
from pertxogai.drawing import PointRef, Which, read_drawing
from pertxogai.judging import DepartureKind, DrawingRefused, Then, Tie, judge
from pertxogai.judging.as_drawn import frozen_choices
from pertxogai.judging.departures import warnings
from pertxogai.judging.edge_points import Endings
from pertxogai.judging.faults import Unit as Measure
from pertxogai.judging.freedoms import freedoms
from pertxogai.judging.measure import Limit, Solution, Unit
from pertxogai.judging.missing import DIMENSIONS
from pertxogai.judging.judged_drawing import CountedDrawing, JudgedDrawing
from pertxogai.judging.shortage import shortage_of
from pertxogai.output import drawing_json, drawing_lines
from pertxogai.program.reports import Verdict, read_excess
from pertxogai.search import search, search_judged
from pertxogai.spelling import Rails, Style, axes_of
from pertxogai.spelling.facts import RadiusOf
from pertxogai.spelling.linear import Form

DRAWINGS = Path(__file__).parent / "drawings"
PLATE = """rectangle Plate 0 0 61 39
coincident PlateBottom.start Origin
Width: length PlateTop 60
Height: length PlateLeft 40
"""


def ref_of(word: str) -> PointRef:
    name, _, which = word.partition(".")
    return PointRef(name, Which(which or "at"))


def test_a_plate_is_well_and_placed_in_the_datums_frame(program):
    found = judge(read_drawing(PLATE), program)
    assert found.verdict is Verdict.WELL and found.style is Style.VALUES
    assert found.solution.spot(PointRef("PlateTop", Which.START)) == (60_000_000, 40_000_000)
    assert all(each.amount == 0 for each in found.deviations if each.unit is Unit.NM)
    assert not (found.left_out or found.frozen or found.grown or found.rounded or found.repeats
                or found.warnings)


def test_a_missing_height_is_counted_and_named_between_its_pieces(program):
    found = judge(read_drawing(PLATE.replace("Height: length PlateLeft 40\n", "")), program)
    assert found.verdict is Verdict.OPEN and found.solution is None
    assert found.missing.count == 1
    joint, = found.missing.joints
    assert joint.tie is Tie.HINGE or joint.tie is Tie.SLIDE or joint.tie is Tie.LOOSE
    shown = [name for piece in found.missing.pieces for name in piece.elements]
    assert "PlateTop.start" in shown or "PlateTop.end" in shown or "PlateRight.end" in shown
    assert not any(name.startswith(("R", "X", "Y", "N", "L")) for name in shown)


def test_two_triangles_at_a_hinge_lack_one_dimension_about_their_point(program):
    text = ("point A 0 0\npoint B 30 0\npoint C 0 40\npoint D -30 0\npoint E -30 -40\n"
            "distance A B 30\ndistance A C 40\ndistance B C 50\n"
            "distance A D 30\ndistance A E 50\ndistance D E 40\n")
    found = judge(read_drawing(text), program)
    assert found.missing.count == 1
    joint, = found.missing.joints
    assert joint.tie is Tie.HINGE and joint.shared == ("A",)
    assert joint.first.elements == ("A", "B", "C") and joint.second.elements == ("A", "D", "E")


@pytest.mark.parametrize("lines, tie, lacks", [
    ("point A 0 0\npoint B 30 0\n", Tie.LONE_PAIR, 1),
    ("point A 0 0\npoint B 30 0\ndistance A B 30\npoint C 5 9\n", Tie.LONE, 2),
    ("point A 0 0\npoint B 30 0\ndistance A B 30\n"
     "point C 5 9\npoint D 25 9\ndistance C D 20\n", Tie.LOOSE, 3),
])
def test_what_ties_loose_pieces_is_as_many_dimensions_as_are_missing(program, lines, tie, lacks):
    found = judge(read_drawing(lines), program)
    assert found.missing.count == lacks
    joint, = found.missing.joints
    assert joint.tie is tie and joint.shared == ()


ROUNDED = """point A 0 0
point B 120 0
segment Bottom A B
segment Right B 120 72
arc Round 112 72 Right.end 112 80
segment Top Round.end 0 80
segment Left Top.end A
circle West 20 40 5
circle East 100 40 5
coincident A Origin
horizontal Bottom Top
vertical Left Right
length Bottom 120
length Left 80
radius Round 8
diameter West 10
equal West East
x West 20
y West 40
x East B 20
"""


def test_what_constraints_of_other_clusters_fix_is_not_asked_for_again(program):
    """The radius joins Right.end and Round.centre to a cluster that shares nothing with the plate.
    Three dimensions would tie it; but Right is vertical, so Right.end lies above B, and two are
    enough: how far, and how the radius is turned. East lacks its y."""
    found = judge(read_drawing(ROUNDED), program)
    assert found.missing.count == 3
    ties = {joint.second.elements: joint.tie for joint in found.missing.joints}
    assert ties == {("Right.end", "Round.centre"): Tie.APART, ("East.centre",): Tie.SLIDE}
    followed = judge(read_drawing(f"{ROUNDED}y B Right.end 72\ny B East 40\n"), program)
    assert followed.verdict is Verdict.OPEN and followed.missing.count == 1


@pytest.mark.parametrize("path", sorted(DRAWINGS.glob("open-*.drawing")), ids=lambda path: path.stem)
def test_no_more_dimensions_are_asked_for_than_are_missing(program, path):
    found = judge(read_drawing(path.read_text()), program)
    asked = sum(DIMENSIONS[joint.tie] for joint in found.missing.joints)
    assert 0 < asked <= found.missing.count


def test_a_point_that_is_level_with_another_is_tied_by_two_dimensions(program):
    """The line through both is auxiliary: the first hole lacks its x and y, and the second one way
    along that line."""
    text = ("rectangle Plate 0 0 60 40\ncircle West 15 20 4\ncircle East 45 20 4\n"
            "coincident PlateBottom.start Origin\nlength PlateBottom 60\nlength PlateRight 40\n"
            "radius West 4\nequal West East\nhorizontal West East\n")
    found = judge(read_drawing(text), program)
    assert found.missing.count == 3
    ties = {joint.second.elements: joint.tie for joint in found.missing.joints}
    assert ties == {("West.centre",): Tie.LONE, ("East.centre",): Tie.SLIDE}


BRACED_PLACES = "0 0", "40 0", "40 30", "0 30", "10 60", "50 70", "44 100", "8 92"
BRACED_BARS = [(0, 1, 40), (1, 2, 30), (2, 3, 40), (3, 0, 30), (0, 2, 50), (4, 5, 41), (5, 6, 31),
               (6, 7, 37), (7, 4, 32), (4, 6, 52), (0, 4, 61), (1, 5, 71), (2, 6, 70), (3, 7, 63)]
BRACED = "".join([
    *(f"point P{number} {place}\n" for number, place in enumerate(BRACED_PLACES)),
    *(f"distance P{one} P{other} {long}\n" for one, other, long in BRACED_BARS)])
"""Two braced quadrilaterals, and four bars between them, of which three would be enough: merging doesn't
join them, since no two of the bars meet. Each bar is as long as drawn, to a whole millimetre."""


def test_what_is_too_many_though_the_pieces_are_not_found_rigid_is_told_by_rank(program):
    found = judge(read_drawing(BRACED), program)
    assert found.verdict is Verdict.OPEN and found.missing.count == 0
    among, = found.too_many
    assert len(among) == len(BRACED_BARS)


def test_what_conflicts_in_an_open_drawing_is_not_said_to_be_redundant(program):
    """By rank one of the bars is too many; their rounded lengths don't fit together."""
    drawing = read_drawing(BRACED)
    judgement = judge(drawing, program)
    found = search_judged(drawing, judgement, program)
    lines = drawing_lines(CountedDrawing("open", drawing, judgement, finding=found))
    told = [line.partition(":")[0] for line in lines if "distance P3 P7 63" in line]
    assert told == ["  can't all be met (by numbers)", "  one of these is redundant or conflicting (by rank)"]


def test_a_dimension_told_twice_repeats(program):
    found = judge(read_drawing(PLATE + "Again: x PlateBottom.end 60\n"), program)
    assert found.verdict is Verdict.OVER
    names = {each.name: each for each in found.surplus}
    assert {"Width", "Again"} <= set(names) and "Height" not in names
    assert names["Again"].repeats() and names["Width"].off.amount == 0


def test_a_dimension_that_contradicts_is_off_by_the_difference(program):
    found = judge(read_drawing(PLATE + "Again: x PlateBottom.end 60.005\n"), program)
    assert found.verdict is Verdict.OVER
    names = {each.name: each for each in found.surplus}
    assert names["Again"].repeats() is False and names["Again"].off.amount == 5000
    assert names["Width"].off.amount == 5000


BAR = "segment S 0 0 40 1\ncoincident S.start Origin\nhorizontal S\nlength S 40\n"
BENT = BAR + "segment T S.end 60 30\nlength T 35\nangle S T 120deg\n"


@pytest.mark.parametrize("text, spare", [
    # The start is at the origin, or 5 mm from it.
    (BAR + "Wrong: x S.start 5\n", {"Wrong", "constraint 1 (coincident S.start Origin)"}),
    # The two ends are one by the shape, so only the distance can go.
    (BENT + "Wrong: y S.end T.start 5\n", {"Wrong"}),
    (BENT + "Wrong: x S.end T.start -5\n", {"Wrong"})])
def test_a_distance_of_a_point_from_itself_conflicts(text, spare, program):
    found = judge(read_drawing(text), program)
    assert found.verdict is Verdict.OVER
    assert {each.name for each in found.surplus if each.then is Then.WELL} == spare
    assert [each.off.amount for each in found.surplus if each.name == "Wrong"] == [5_000_000]


ROW = "point A 0 0\npoint B 20 0\npoint C 40 0\nfixed A\ny B 0\ny C 0\nx A B +20\nx B C +20\n"
RIMS = "circle C 0 0 10\nfixed C.centre\nradius C 10\ncircle D 5 0 20\nradius D 5\ntangent C D\n"
PAIR = "point A 10 5\npoint B 20 5\nfixed A\nfixed B\n"


@pytest.mark.parametrize("text, off_mm", [
    ("point A 20 0\nfixed A\nx A -20\n", 40),  # At 20, and told at -20.
    ("point A 20 0\ny A 0\nx A 20\nx A -20\n", 40),
    ("point A 20 0\ny A 0\nx A -20\nx A -20\n", 0),
    ("point A 5 7\nx A 5\ny A -7\ny A 8\n", 15),
    ("segment L 0 0 40 30\nfixed L\npoint A -3 4\nx A -3\ny A 4\ny A -4\n", 8),
    (ROW + "x A C -40\n", 80),  # C lies at 40.
    (ROW + "x A C +40\n", 0),
    (PAIR + "symmetric A B about YAxis\n", 30),  # The image of B is at -20, and A at 10.
    (PAIR + "coincident B A\n", 10),
    (RIMS + "fixed D.centre\n", 0),  # The centres are 10 - 5 apart, whatever is drawn.
    ("point P 10 0\ny P 0\nx P -20\ndistance Origin P 20\n", 0),  # A distance has no side.
    ("point P 10 0\ny P 0\nx P -20\ndistance Origin P 30\n", 10),
    ("point P 10 0\ny P 0\nx P -20\ncircle C 0 0 5\ncoincident C.centre Origin\non P C\n"
     "radius C 18\n", 2),
])
def test_what_is_told_on_the_other_side_contradicts(program, text, off_mm):
    """By the whole way across, as the program measures it on what it places."""
    found = judge(read_drawing(text), program)
    assert found.verdict is Verdict.OVER
    answer = program.ask(("excess", "within=1000"), found.asked.spelled.sketch.text())
    left_out = [each for part in read_excess(answer.text).parts for each in part.left_out]
    scale = found.asked.spelled.scale
    assert max(abs(each.off.amount) for each in left_out) == off_mm * 1_000_000 * scale
    last = max((each for each in found.surplus if each.off), key=lambda each: each.number)
    assert last.off.amount == off_mm * 1_000_000 and last.repeats() is (off_mm == 0)


def test_what_is_spare_then_goes_only_where_it_is_not_needed_in_part(program):
    """Without the symmetry the segment is vertical twice, and all that may go of it is that it is
    told to be so: as fixed it is needed for its places."""
    text = ("segment L 10 0 10 20\nvertical L\nfixed L\n"
            "symmetric L.start L.end about XAxis\n")
    found = judge(read_drawing(text), program)
    assert [(each.number, each.off.amount) for each in found.surplus if each.off] == [
        (3, 20_000_000), (1, 0)]  # The image of (10, 0) is itself, 20 mm from (10, 20).


@pytest.mark.parametrize("text, place, at", [
    ("point A 5 0\nx A 5\ny A -20\n", "A", (5, -20)),
    ("point A 0 5\nx A -20\ny A 5\n", "A", (-20, 5)),
    ("point A 0 5\nx A 20\ny A 5\n", "A", (20, 5)),
    ("point P 10 0\ny P 0\nx P -20\ncircle C 0 0 5\ncoincident C.centre Origin\non P C\n",
     "P", (-20, 0)),
    ("circle C 0 0 10\nfixed C.centre\nradius C 10\ncircle D 5 0 20\ny D.centre 0\nradius D 5\n"
     "tangent C D\n", "D.centre", (5, 0)),
])
def test_a_point_lies_where_it_is_told_whatever_side_is_drawn(program, text, place, at):
    """Also where it is drawn on the line from which it is told."""
    found = judge(read_drawing(text), program)
    assert found.verdict is Verdict.WELL
    spot = found.solution.spot(ref_of(place))
    assert spot == (at[0] * 1_000_000, at[1] * 1_000_000)
    assert not any(each.amount for each in found.deviations)


def test_an_arc_whose_end_is_drawn_at_its_centre_by_what_is_joined_to_it(program):
    """The last radius leans as the arc itself is drawn: 12 mm to the left and 3 mm down."""
    text = "point P 0 0\narc A 12 3 10 3 0 0\nfixed A\ncoincident P A.centre\n"
    found = judge(read_drawing(text), program)
    assert found.verdict is Verdict.WELL
    assert found.solution.spot(ref_of("A.centre")) == (12_000_000, 3_000_000)
    assert found.solution.spot(ref_of("A.start")) == (10_000_000, 3_000_000)
    x, y = found.solution.spot(ref_of("A.end"))  # 2 mm from the centre, of which 8/√17 to the left.
    assert (x, y) == pytest.approx((12_000_000 - 1_940_285, 3_000_000 - 485_071), abs=2)


def test_a_surplus_that_is_no_line_of_x_or_y_is_the_programs_too(program):
    text = ("point A 0 0\npoint B 30 0\npoint C 0 40\npoint D 30 40\n"
            "S1: distance A B 30\nS2: distance A C 40\nS3: distance B C 50\nS4: distance B D 40\nS5: distance C D 30\n"
            "S6: distance A D 50\n")
    found = judge(read_drawing(text), program)
    assert found.verdict is Verdict.OVER
    assert [each.name for each in found.surplus] == ["S1", "S2", "S3", "S4", "S5", "S6"]
    assert all(each.repeats() for each in found.surplus)


def test_directions_that_contradict_are_over(program):
    text = ("segment A 0 0 40 0\nsegment B A.end 60 35\ncoincident A.start Origin\nhorizontal A\nlength A 40\n"
            "length B 40\nFirst: angle A B 120deg\nOther: angle A B 121deg\n")
    found = judge(read_drawing(text), program)
    assert found.verdict is Verdict.OVER
    assert {"First", "Other"} <= {each.name for each in found.surplus}
    assert all(each.repeats() is False for each in found.surplus if each.off is not None)


def test_an_upright_way_that_is_told_to_go_across_is_over(program):
    text = "segment A 0 0 60 1\nvertical A\nAcross: x A.start A.end 60\ny A.start A.end 5\n"
    found = judge(read_drawing(text), program)
    assert found.verdict is Verdict.OVER
    assert "Across" in {each.name for each in found.surplus}


@pytest.mark.parametrize("datum", ["", "coincident Base.start Origin\nhorizontal Base\n"])
def test_an_apex_that_is_drawn_beside_its_base_lies_above_the_middle(program, datum):
    text = ("segment Base 0 0 62 1\nsegment Left Base.start -39 81\nsegment Right Left.end Base.end\n"
            "equal Left Right\nlength Base 60\ndistance Left.end Base 40\n")
    found = judge(read_drawing(text + datum), program)
    assert found.verdict is Verdict.WELL
    apex, start, end = (found.solution.spot(PointRef(*each)) for each in (
        ("Left", Which.END), ("Base", Which.START), ("Base", Which.END)))
    assert all(math.dist(apex, foot) == pytest.approx(50_000_000, abs=2) for foot in (start, end))


def test_no_such_triangle_names_its_three_sides_and_the_gap(program):
    text = "point A 0 0\npoint B 5 0\npoint C 2 1\nLong: distance A B 5\nLeft: distance A C 1\nRight: distance B C 1\n"
    found = judge(read_drawing(text), program)
    assert found.verdict is Verdict.WELL and found.solution is None
    assert found.failure.dimensions == ("Long", "Left", "Right")
    assert set(found.failure.at) == {"A", "B", "C"}
    assert found.failure.amount.unit is Measure.SQUARE_MM
    assert found.failure.amount.low == found.failure.amount.high == Fraction(-21, 4)


def test_the_gap_is_told_in_the_drawings_size(program):
    text = ("point A 0 0\npoint B 5 0\npoint C 2 1\nLong: distance A B 5.0005\nLeft: distance A C 1\n"
            "Right: distance B C 1\n")
    found = judge(read_drawing(text), program)
    assert found.asked.spelled.scale == 2
    assert abs(found.failure.amount.low + Fraction(21, 4)) < Fraction(1, 100)


def test_a_fault_is_told_by_names_of_the_drawing_alone(program):
    """Sides of 40, 36 and 3 mm are 1 mm short. By Heron the square of the height over the 40 is
    4 * 39.5 * -0.5 * 3.5 * 36.5 / 40² = -6.30766 mm²."""
    text = ("segment A 0 0 40 0\nsegment B A.end 20 30\nsegment C B.end A.start\nlength A 40\nlength B 36\n"
            "length C 3\n")
    drawing = read_drawing(text)
    judgement = judge(drawing, program)
    found = JudgedDrawing("thin", drawing, judgement, short=shortage_of(judgement, program))
    lines = list(drawing_lines(found))
    assert lines[1:4] == [
        "  can't be placed as drawn: B.end can't be placed. A.start and A.end are 40 mm apart, and B.end is 3 mm "
        "from A.start and 36 mm from A.end: 1 mm too short to meet.",
        "    where B.end, A.end, A.start meet",
        "    the program computes height in step s1 from a number between -6.30766 and -6.30766 mm²"]
    elements = {each.name for each in judgement.asked.spelled.sketch.elements} - {"A", "B", "C"}
    assert elements.isdisjoint(re.findall(r"\w+", " ".join(lines)))


def test_an_edge_that_turned_about_is_warned_of(program):
    text = ("segment Base 0 0 40 0\nsegment Step Base.end 50 0\ncoincident Base.start Origin\nhorizontal Base Step\n"
            "length Base 40\nx Base.end Step.end -10\n")
    found = judge(read_drawing(text), program)
    assert [(each.departure, each.shapes)
            for each in found.warnings] == [(DepartureKind.TURNED, ("Step",))]


@pytest.mark.parametrize(("apart", "off_um"), [("5.05", 0), ("5", 50), ("4.95", 100)])
def test_a_circle_that_would_have_no_radius_is_measured_as_it_is_drawn(program, apart, off_um):
    # Ball touches Ring, of 5 mm, from outside as it is drawn: its radius would be apart less 5. Where
    # that is 0 or less, it keeps the drawn 0.05, and the touch is off by 5.05 less apart.
    drawing = read_drawing("circle Ring 0 0 5\ncoincident Ring.centre Origin\nradius Ring 5\n"
                           "circle Ball 5.05 0 0.05\ntangent Ball Ring\non Ball.centre XAxis\n"
                           f"distance Ball.centre Origin {apart}\n")
    judged = judge(drawing, program)
    assert judged.verdict is Verdict.WELL
    assert judged.solution.radii["Ball"] == 50_000
    assert max(each.amount for each in judged.deviations) == off_um * 1000


@pytest.mark.parametrize("line", ["circle Ball 20 5 5\ntangent Ball XAxis\n",
                                  "segment Edge 0 0 40 0\nfixed Edge\ncircle Ball 20 5 5\n"
                                  "tangent Edge Ball\n"])
def test_a_circle_dimensioned_across_the_line_that_it_touches_has_a_radius(program, line):
    # It is drawn above the line, and its centre lies 8 below: so the radius is 8.
    judged = judge(read_drawing(line + "x Ball 20\ny Ball -8\n"), program)
    assert judged.verdict is Verdict.WELL
    assert judged.solution.radii["Ball"] == 8_000_000
    assert not any(each.amount for each in judged.deviations)


def test_a_circle_that_touches_one_across_its_line_has_a_radius_too(program):
    # Ball is drawn above the line, and lies 8 below: its radius is 8. Next, 20 from there, touches it
    # from outside, so its radius is 12, and Last's, 30 from Next, is 18; Same is as large as Next.
    judged = judge(read_drawing(
        "circle Ball 20 8 8\ncircle Next 40 8 12\ncircle Last 70 8 18\ncircle Same 0 50 12\n"
        "tangent Ball XAxis\ntangent Ball Next\ntangent Next Last\nequal Same Next\n"
        "x Ball 20\ny Ball -8\nx Next 40\ny Next -8\nx Last 70\ny Last -8\nx Same 0\n"
        "y Same 50\n"), program)
    assert judged.verdict is Verdict.WELL and judged.undimensioned == ()
    assert judged.solution.radii == {"Ball": 8_000_000, "Next": 12_000_000, "Last": 18_000_000,
                                     "Same": 12_000_000}
    assert not any(each.amount for each in judged.deviations)


@pytest.mark.parametrize(("radius", "gone"), [("7", [(DepartureKind.GONE, ("Flat",))]), ("7.001", [])])
def test_an_edge_that_came_to_nothing_is_warned_of(program, radius, gone):
    """The flat of a shaft, 7 away from the centre: at the radius 7 it is a point of the circle."""
    text = ("segment Flat 7 -7 7 7\narc Round 0 0 Flat.end Flat.start\n"
            f"radius Round {radius}\ndistance Round Flat 7\n")
    found = judge(read_drawing(text), program)
    assert [(each.departure, each.shapes) for each in found.warnings] == gone


def test_a_rest_that_is_well_and_not_good_is_told_as_that(program):
    # By hand: without its upright Right leans from 100 0 to 105 on the right, so its end is 5 mm too
    # far from Left. Without the distance, or without the x, it stands upright.
    text = ("segment Left 0 0 0 40\nsegment Right 100 0 102 40\ncoincident Left.start Origin\n"
            "vertical Left\nUpright: vertical Right\nlength Left 40\nlength Right 40\n"
            "Width: distance Left Right 100\ny Right.start 0\nFar: x Right.end 105\n")
    found = judge(read_drawing(text), program)
    assert [(each.name, each.then) for each in found.surplus if each.then is not Then.OPEN] == [
        ("Width", Then.WELL), ("Far", Then.WELL), ("Upright", Then.NOT_GOOD)]
    beyond = next(each.beyond for each in found.surplus if each.name == "Upright")
    assert (beyond.called(read_drawing(text)), beyond.amount) == ("Width", 5_000_000)
    assert ("    'Upright': conflicting, off by 5 mm; without it the rest is well, but "
            "not good: 'Width' is off by 5 mm") in list(
                drawing_lines(JudgedDrawing("part", read_drawing(text), found)))


def test_each_of_many_equal_lines_is_tried(program):
    # 60 times the same: without one of them 59 are left, of which 58 are too many.
    text = ("segment A 0 0 40 0\ncoincident A.start Origin\nhorizontal A\n" + "length A 40\n" * 60)
    found = judge(read_drawing(text), program)
    assert [each.number for each in found.surplus] == [*range(3, 63)]
    assert all(each.then is Then.OVER and each.repeats() for each in found.surplus)


ROOF = ("segment Floor 0 0 60 0\nsegment Roof Floor.end 0 12\ncoincident Floor.start Origin\n"
        "horizontal Floor\nWide: length Floor 60\n")


def test_a_rest_with_an_angle_near_a_ratio_is_well(program):
    # 1/5 is 2.3e-4 degrees less than 11.3108: too much where it is told by that ratio. By two that
    # add up to it each rest meets it, as the whole does.
    text = ROOF + "x Roof.end 0\nangle Floor Roof 11.3108deg\nAgain: x Floor.end 60\n"
    found = judge(read_drawing(text), program)
    assert {each.name: (each.then, each.beyond) for each in found.surplus
            if each.repeats()} == {"Wide": (Then.WELL, None), "Again": (Then.WELL, None)}


def test_an_alternative_solution_meets_an_angle_near_a_ratio(program):
    # Roof, of 61, leads to the left as it is drawn, and has to lead to the right. By the ratio that
    # is nearest its angle is off by 2.3e-4 degrees there.
    drawing = read_drawing(ROOF + "length Roof 61\nangle Floor Roof 168.6892deg\n")
    lines = [*drawing_lines(JudgedDrawing("roof", drawing, judge(drawing, program)))]
    assert "    draw Roof.end on the other side of Floor.end, along Roof" in lines


@pytest.mark.parametrize("given", [
    # What is given from outside is given once, whichever shapes share its points.
    "outer segment Base 0 0 40 0\nouter segment Side Base.start 0 40\n",
    "outer segment Base Origin 40 0\nouter segment Side Origin 0 40\n",
    "outer point Corner 0 0\nouter segment Base Corner 40 0\nouter segment Side 0 40 Corner\n",
    # An arc's end that an edge has before it, and one that an edge has after it.
    "outer segment Base 0 0 40 0\nouter segment Side 0 0 0 40\nouter arc Round 0 0 Base.end Side.end\n",
    "outer arc Round 0 0 40 0 0 40\nouter segment Base Round.centre Round.start\n"
    "outer segment Side Round.end Round.centre\n",
])
def test_outer_shapes_that_share_their_points_say_nothing_twice(program, given):
    # By hand: the hole of radius 10 touches both edges, so its centre is 10 from each.
    text = given + "circle Hole 12 11 9\ntangent Base Hole\ntangent Side Hole\nradius Hole 10\n"
    found, free = judge(read_drawing(text), program), freedoms(read_drawing(text))
    assert found.verdict is Verdict.WELL and not (found.left_out or found.repeats)
    assert found.solution.spot(PointRef("Hole", Which.CENTRE)) == (10_000_000, 10_000_000)
    assert (free.lacks, free.excess, free.whole.ways) == (0, 0, 0)


def test_a_constraint_that_joins_what_is_given_apart_contradicts(program):
    text = ("outer segment Base 0 0 40 0\nouter segment Side 0 1 0 40\n"
            "coincident Side.start Base.start\npoint P 20 20\nx P 20\ny P 20\n")
    assert judge(read_drawing(text), program).verdict is Verdict.OVER


@pytest.mark.parametrize(("x", "told"), [
    ("80", []), ("0", []),
    ("80.001", ["Post.start lies beyond the end of Base, but is drawn between its ends"]),
    ("-0.001", ["Post.start lies beyond the end of Base, but is drawn between its ends"])])
@pytest.mark.parametrize("line", ["", "construction ", "outer "])
def test_a_point_that_leaves_its_edge_is_warned_of(program, line, x, told):
    text = (f"{line}segment Base 0 0 80 0\nsegment Post 50 0 50 41\non Post.start Base\n"
            f"vertical Post\nx Post.start {x}\nlength Post 40\n")
    text += "" if line == "outer " else "fixed Base\n"
    found = judge(read_drawing(text), program)
    assert [each.text() for each in found.warnings] == ([] if line else told)


def test_a_point_that_is_drawn_beyond_its_edge_may_lie_there(program):
    text = ("segment Base 0 0 80 0\nsegment Post 90 0 90 41\nfixed Base\non Post.start Base\n"
            "vertical Post\nx Post.start 100\nlength Post 40\n")
    assert not judge(read_drawing(text), program).warnings


@pytest.mark.parametrize("long", ["2300", "2301", "2000", "1500.001"])
def test_an_edge_that_ends_on_another_does_not_cross_it(program, long):
    """A strut ends on a slanted rafter: by the rounding its end lies some nanometres beyond it."""
    text = (TOP / "python" / "tests" / "drawings" / "roof-truss.drawing").read_text()
    found = judge(read_drawing(text.replace("distance West SW 2300", f"distance West SW {long}")), program)
    assert found.solution is not None and not found.warnings


@pytest.mark.parametrize("text", [
    # B lies on A, and is drawn beside it.
    "segment A 0 0 90 50\nsegment B 20 13 60 35\ncoincident A.start Origin\nlength A 103\n"
    "angle A +29deg\ncollinear A B\ndistance A.start B.start 25\nlength B 40.{0}\n",
    # A strut ends in the middle of a slanted rafter.
    "segment A 0 0 97 41\nsegment B 48 20 60 -30\ncoincident A.start Origin\nlength A 103.{0}\n"
    "angle A +23deg\nmidpoint B.start A\nlength B 50\nangle B -77deg\n",
    # A strut ends in the end of C, which lies on A.
    "segment A 0 0 90 50\nsegment C 20 13 60 35\nsegment B 60 35 70 0\ncoincident A.start Origin\n"
    "length A 103\nangle A +29deg\ncollinear A C\ndistance A.start C.start 25\nlength C 40.{0}\n"
    "coincident B.start C.end\nlength B 30\nangle B -71deg\n",
])
@pytest.mark.parametrize("digits", [0, 137, 274, 411])
def test_an_edge_on_the_line_of_another_does_not_cross_it(program, text, digits):
    found = judge(read_drawing(text.format(digits)), program)
    assert found.solution is not None
    assert not [each for each in found.warnings if "cross" in each.text()]


def test_which_edges_end_on_the_line_of_another():
    # B and C lie on the line of A; D ends in the end of C, E in the middle of B, and F nowhere.
    drawing = read_drawing(
        "segment A 0 0 10 0\nsegment B 20 0 30 0\nsegment C 40 0 50 0\nsegment D C.end 50 9\n"
        "segment E 25 0 25 9\nsegment F 5 5 5 9\ncollinear A B\ncollinear B C\nmidpoint E.start B\n")
    met = Endings(drawing)
    pairs = {one + other for one in "ABCDEF" for other in "ABCDEF" if one < other
             and met.meet(one, other)}
    assert pairs == {"AB", "AC", "BC", "AD", "BD", "CD", "AE", "BE", "CE"}
    assert all(met.meet(one, other) == met.meet(other, one) for one in "ABC" for other in "DEF")


def test_the_shortest_edge_has_a_length(program):
    text = "segment Up 0 0 16 -8\ncoincident Up.start Origin\nangle Up +4/3\nlength Up 0.001\n"
    assert not judge(read_drawing(text), program).warnings


def test_a_corner_on_the_other_side_is_warned_of(program):
    text = ("segment Base 0 0 40 0\nsegment Up Base.end 41 20\ncoincident Base.start Origin\nhorizontal Base\n"
            "length Base 40\ny Base.end Up.end -20\nvertical Up\n")
    found = judge(read_drawing(text), program)
    assert DepartureKind.OTHER_SIDE in [each.departure for each in found.warnings]


@pytest.mark.parametrize("aside_nm, is_turned", [(1, False), (-1, False), (-999, False), (-2000, True)])
def test_edges_in_one_line_turn_to_no_side(aside_nm, is_turned):
    """Both go along 4/3, drawn bent to the left; rounding puts the end of B on either side of A's line."""
    drawing = read_drawing("segment A 0 0 16 12\nsegment B A.end 32 24.5\ncollinear A B\n")
    spots = {ref_of("A.start"): (0, 0), ref_of("A.end"): (16_000_000, 12_000_000),
             ref_of("B.start"): (16_000_000, 12_000_000), ref_of("B.end"): (32_000_000, 24_000_000 + aside_nm)}
    found = [each.departure for each in warnings(drawing, Solution(spots))]
    assert found == [DepartureKind.OTHER_SIDE] * is_turned


@pytest.mark.parametrize("x, y, crosses", [
    (50, -10, ""), (20, -10, "A and B"), (20, 0, ""), (20, 1, ""), (39, -19, "A and B"), (41, -10, "")])
def test_edges_that_cross_are_told_where_they_are_drawn_apart(x, y, crosses):
    """A is 40 long; B, 20 long and upright, is drawn beyond its end, and placed from x, y on: across it, ended
    on it, above it, past it. C crosses it as it is drawn, and is placed apart; D crosses it in both."""
    drawing = read_drawing("segment A 0 0 40 0\nsegment B 50 -10 50 10\nsegment C 10 -10 10 10\n"
                           "segment D 30 -10 30 10\n")
    spots = {ref_of("A.start"): (0, 0), ref_of("A.end"): (40, 0), ref_of("B.start"): (x, y),
             ref_of("B.end"): (x, y + 20), ref_of("C.start"): (70, -10), ref_of("C.end"): (70, 10),
             ref_of("D.start"): (30, -10), ref_of("D.end"): (30, 10)}
    placed = Solution({ref: (1_000_000 * u, 1_000_000 * v) for ref, (u, v) in spots.items()})
    assert [each.text() for each in warnings(drawing, placed)] == [
        f"{each} cross, but are drawn apart" for each in [crosses] if each]


CAM = """arc Base 0 0 -20 0 20 0
arc Nose 0 27 4 32 -4 32
arc Right -21.538 0 Base.end Nose.start
arc Left 21.538 0 Nose.end Base.start
tangent Base Right
tangent Right Nose
tangent Nose Left
tangent Left Base
coincident Base.centre Origin
on Nose.centre YAxis
on Base.start XAxis
on Base.end XAxis
radius Base 20
radius Nose 7
y Nose.centre 27
"""


def test_a_free_radius_is_named_and_can_be_frozen(program):
    found = judge(read_drawing(CAM), program)
    assert found.verdict is Verdict.OPEN
    assert {"the ends of Right", "the ends of Left"} & set(found.left_out)
    frozen = judge(read_drawing(CAM), program, freeze=True)
    assert frozen.verdict is Verdict.WELL and frozen.frozen and frozen.solution is not None
    assert max(each.amount for each in frozen.deviations if each.unit is Unit.NM) < 500_000


@pytest.mark.parametrize("segment, end", [("segment B A.start 40.5 30.2", "B.end"),
                                          ("segment B 40.5 30.2 A.start", "B.start")])
def test_edges_between_points_that_are_one_are_equal_already(segment, end, program):
    """The ends of A and B lie on both C and D, which cross, so that they are one."""
    drawing = read_drawing(
        f"segment C 0 30 60 30\nsegment D 40 0 40 60\nsegment A Origin 40 30\n{segment}\n"
        f"on A.end C\non A.end D\non {end} C\non {end} D\nhorizontal C\nvertical D\n"
        "y C.start 30\nx D.start 40\nx C.start 0\nlength C 60\ny D.start 0\nlength D 60\n"
        "equal A B\n")
    found = judge(drawing, program)
    assert found.verdict is Verdict.WELL
    assert found.repeats == (drawing.called(len(drawing.constraints)),)


@pytest.mark.parametrize("rims", [
    "arc E 40 30 50 30 40 40\narc F 40.2 30.1 E.end 30 30\n",
    "circle E 40 30 5\ncircle F 40.2 30.1 9\npoint P 45 30\non P E\non P F\n"])
def test_rims_touch_in_a_point_of_both_where_their_centres_are_one(rims, program):
    """Both centres lie on both C and D, which cross: so both rims go through the point with one
    radius, and touch. Of the tangent the program is told no more."""
    lines = ("segment C 0 30 60 30\nsegment D 40 0 40 60\n" + rims + "on E.centre C\n"
             "on E.centre D\non F.centre C\non F.centre D\n")
    without, found = (judge(read_drawing(lines + more), program) for more in ("", "tangent E F\n"))
    assert found.verdict is Verdict.OPEN
    assert found.asked.spelled.sketch == without.asked.spelled.sketch


def test_an_angle_is_told_finely_to_an_edge_that_is_drawn_as_a_point(program):
    """B is drawn from A's end to P, which is drawn there too: it turns by 28.301 degrees from the
    way of A, to either side."""
    found = judge(read_drawing(
        "segment A 0 0 40 0\npoint P 40 0\nsegment B 45 0 60 10\ncoincident B.start A.end\n"
        "coincident B.end P\ncoincident A.start Origin\nhorizontal A\nlength A 40\nlength B 20\n"
        "angle A B 151.6990deg\n"), program)
    assert found.verdict is Verdict.WELL and max(each.amount for each in found.deviations) <= 50
    x, y = found.solution.spot(PointRef("P"))
    turn = math.radians(28.301)
    assert abs(x - (40 + 20 * math.cos(turn)) * 1e6) <= 2
    assert abs(abs(y) - 20 * math.sin(turn) * 1e6) <= 2


def test_a_radius_is_frozen_beside_an_edge_that_is_drawn_as_a_point(program):
    """A's end is told to be P, which is drawn in A's start: the circle's centre is drawn 50 from
    there, 30 and 40 aside."""
    drawing = read_drawing("point P 0 0\nsegment A 0 0 10 0\ncoincident A.end P\ncircle C 30 40 3\n"
                           "tangent A C\nangle A 30deg\n")
    axes = axes_of(drawing)
    frozen, = frozen_choices(axes, Rails(axes, Style.VALUES))
    assert frozen.axes.equations[-1].form == Form({RadiusOf("C"): 1}, -50_000)
    assert judge(drawing, program, freeze=True).verdict is Verdict.OPEN


def test_a_half_mirrored_in_an_axis_grows_from_the_other(program):
    text = ("segment A 0 30 21 0\nsegment B 0 30 -21 0\non A.start YAxis\non A.end XAxis\ncoincident B.start A.start\n"
            "length A 50\ny A.start 30\nMirror: symmetric A.end B.end about YAxis\n")
    found = judge(read_drawing(text), program)
    assert found.verdict is Verdict.WELL and found.grown == ("Mirror",)
    assert found.solution.spot(PointRef("B", Which.END)) == (-40_000_000, 0)


@pytest.mark.parametrize("text, repeats", [
    ("segment Bar 0 0 40 0\ncoincident Bar.start Origin\nA: horizontal Bar\nB: horizontal Bar\nlength Bar 40\n", "B"),
    ("circle Hole 1 1 5\ncoincident Hole Origin\nA: radius Hole 5\nB: diameter Hole 10\n", "B")])
def test_what_is_no_line_of_a_sketch_repeats_without_being_over(text, repeats, program):
    found = judge(read_drawing(text), program)
    assert found.verdict is Verdict.WELL and repeats in found.repeats


def test_radii_that_contradict_are_over(program):
    text = "circle Hole 1 1 5\ncoincident Hole Origin\nA: radius Hole 5\nB: diameter Hole 11\n"
    found = judge(read_drawing(text), program)
    assert found.verdict is Verdict.OVER
    assert {each.name for each in found.surplus} == {"A", "B"}


def test_a_circle_without_a_radius_is_told(program):
    found = judge(read_drawing(PLATE + "circle Hole 30 20 5\nx Hole 30\ny Hole 20\n"), program)
    assert found.verdict is Verdict.WELL and found.undimensioned == ("Hole",)


TURNS_ABOUT = ("segment South 0 0 61 0\nsegment East South.end 82 34\nsegment North East.end 21 35\n"
               "segment West North.end South.start\nparallel South North\nparallel East West\n"
               "length South 60\ndistance South North 24\nlength East 30\n")


def test_a_whole_that_turned_is_not_warned_of_without_a_datum(program):
    found = judge(read_drawing(TURNS_ABOUT), program)
    assert found.solution is not None and not found.asked.spelled.tied()
    assert not found.warnings


@pytest.mark.parametrize("third, warned", [(((-40, 0), (-40, 10)), []),
                                           (((-40, 10), (-40, 0)), ["C"])])
def test_one_edge_that_turned_is_warned_of_without_a_datum(third, warned):
    """A quarter turn to the left of all, and the third edge with it or against it."""
    drawing = read_drawing("segment A 0 0 40 0\nsegment B 0 20 40 20\nsegment C 0 40 10 40\n")
    spots = [(0, 0), (0, 40), (-20, 0), (-20, 40), *third]
    placed = Solution({ref: (x * 10 ** 6, y * 10 ** 6)
                       for ref, (x, y) in zip(drawing.points(), spots)})
    assert [name for each in warnings(drawing, placed, free=True) for name in each.shapes] == warned


FREE_MIDDLE = ("point A 0 0\npoint B 10 0\npoint M 5 1\npoint C 3 8\n"
               "Half: symmetric A B about M\n")


def test_the_middle_of_free_points_is_told_along_the_line_through_them(program):
    found = judge(read_drawing(FREE_MIDDLE + "distance A M 5\ndistance A C 8\ndistance B C 9\n"),
                  program)
    assert found.verdict is Verdict.WELL and not found.left_out
    (a, b), (u, v), (x, y) = (found.solution.spot(PointRef(name)) for name in "ABM")
    assert abs(a + u - 2 * x) <= 4 and abs(b + v - 2 * y) <= 4


def test_a_middle_of_points_of_no_told_distance_is_left_out_by_name(program):
    found = judge(read_drawing(FREE_MIDDLE + "distance A C 8\ndistance B C 9\ndistance M C 7\n"),
                  program)
    assert found.verdict is Verdict.OPEN and found.left_out == ("Half",)


HALVED = ("point A 0 0\npoint B 10 0\npoint M 5 0\npoint C 5 12\nHalf: symmetric A B about M\n"
          "distance A C 13\ndistance B C 13\ndistance M C 12\n")


def test_what_is_left_out_and_holds_on_the_places_of_the_rest_repeats_it(program):
    found = judge(read_drawing(HALVED + "distance A M 5\ndistance B M 5\n"), program)
    left, = found.left_out_measured
    assert found.verdict is Verdict.WELL and left.name == "Half" and left.holds()
    assert found.repeats == ("Half",) and found.left_out == ()


def test_the_ends_of_an_arc_that_are_left_out_are_measured(program):
    """B is the mirror image of A, of radius 12, so that its ends lie on its circle too."""
    found = judge(read_drawing("arc A 10 -5 20 0 0 0\narc B 10 5 A.end A.start\n"
                               "coincident A.end Origin\non A.start XAxis\nx A.start 20\n"
                               "radius A 12\nsymmetric A B about XAxis\n"), program)
    left, = found.left_out_measured
    assert found.verdict is Verdict.WELL and left.name == "the ends of B"
    assert left.off is not None and left.off.amount <= 2 and left.holds()
    assert found.held == ("the ends of B",) and found.left_out == ()


def test_what_is_left_out_and_is_off_on_the_places_of_the_rest_contradicts_it(program):
    """The middle of A and B lies 6 * (36 + 144 - 169) / (2 * 6 * 12) from M, towards C."""
    found = judge(read_drawing(HALVED + "distance A M 6\ndistance B M 6\n"), program)
    half, = [each for each in found.surplus if each.name == "Half"]
    assert found.verdict is Verdict.OVER and half.then is Then.WELL
    assert abs(half.off.amount - 458_333) <= 2


def test_what_only_says_where_the_whole_lies_is_not_too_much_where_the_rest_has_no_places(program):
    """The mirror says where the axis is; the three lengths make no triangle."""
    found = judge(read_drawing(
        "point A 10 5\npoint B -11 5\npoint C 0 20\nsymmetric A B about YAxis\ndistance A B 5\n"
        "distance A C 100\ndistance B C 20\n"), program)
    assert found.verdict is Verdict.WELL and found.failure is not None


def test_ends_that_become_one_are_named():
    text = ("segment S 0 0 40 0\nsegment T 40 0 0 5\ncoincident S.end T.start\n"
            "Shut: coincident S.start T.start\nlength T 30\n")
    with pytest.raises(DrawingRefused, match="^Shut makes both ends of S one point: remove"):
        judge(read_drawing(text), None)


@pytest.mark.parametrize("text, names", [
    ("point A 0 0\npoint B 40 0\npoint C 20 1\ndistance A B 7\ndistance A C 3\ndistance B C 4\n", 3),
    ("segment S 0 0 40 0\nsegment T 40 0 20 1\nsegment U 20 1 0 0\ncoincident S.end T.start\n"
     "coincident T.end U.start\ncoincident U.end S.start\ncoincident S.start Origin\nhorizontal S\n"
     "length S 7\nlength T 4\nlength U 3\n", 3)])
def test_a_flat_shape_is_not_told_as_one_that_is_not_there(text, names, program):
    """3 + 4 = 7: C lies on A B, 3 from A. No search ends at such a place exactly."""
    found = judge(read_drawing(text), program)
    assert found.failure is not None and found.failure.is_flat and len(found.failure.dimensions) == names
    assert found.unmet is None
    lines = drawing_lines(JudgedDrawing("flat", read_drawing(text), found))
    assert not [each for each in lines if "no shape" in each or "a shape is found" in each]


EDGE = "point A 0 0\npoint B 50 0\nsegment S A B\npoint C 50 20\ncoincident A Origin\n"


@pytest.mark.parametrize("words, called", [
    ("symmetric A B about S\n", "constraint 2 (symmetric A B about S)"),
    ("symmetric B A about S\n", "constraint 2 (symmetric B A about S)"),
    ("coincident C S.end\nM: symmetric S.start C about S\n", "M"),
    ("M: symmetric Origin C about S\ncoincident C B\n", "M")])
def test_ends_that_are_to_mirror_each_other_in_their_own_edge_are_named(words, called):
    """Both would have to lie on S, which is then without a length, whatever the points are called."""
    with pytest.raises(DrawingRefused) as refused:
        judge(read_drawing(EDGE + words), None)
    assert str(refused.value) == f"{called}: S would be without a length: write another segment"


def test_ends_may_mirror_each_other_in_another_line(program):
    """S runs from -25 to 25 along x, square to the y axis."""
    text = "segment S -25 0 25 0\nlength S 50\non S.start XAxis\nsymmetric S about YAxis\n"
    assert judge(read_drawing(text), program).verdict is Verdict.WELL


def test_a_drawing_of_too_many_points_is_refused_before_the_program_is_asked():
    text = "\n".join(f"segment S{each} {each} 0 {each} 5" for each in range(1001))
    with pytest.raises(DrawingRefused, match="^2002 points are drawn, and the program takes 2000"):
        judge(read_drawing(text), None)


def test_what_to_do_is_told_of_five_pairs_at_most(program):
    drawing = read_drawing("\n".join(f"point P{each} {each} {each * each}" for each in range(9)))
    lines = list(drawing_lines(JudgedDrawing("loose", drawing, judge(drawing, program))))
    assert sum(line.startswith("  what to do: clusters 1 and") for line in lines) == 5
    assert lines[-1] == "  and 3 more pairs of clusters"


def test_json_tells_what_is_left_out_and_what_of_it_holds(program):
    drawing = read_drawing("point A 0 0\npoint B 10 0\npoint M 5 0\npoint C 5 12\n"
                           "Half: symmetric A B about M\ndistance A C 13\ndistance B C 13\n"
                           "distance M C 12\ndistance A M 5\ndistance B M 5\n")
    found = drawing_json(JudgedDrawing("half", drawing, judge(drawing, program)))
    assert (found["left_out"], found["left_out_but_holds"]) == ([], ["Half"])
    assert found["repeats"] == [["Half"]]
    assert found["exact"] is False and found["spelled"] == "values"


@pytest.mark.parametrize("text, verdict", [
    ("segment A 2 0 9 9\nx A.start 2\n", Verdict.OPEN),
    ("point A 2 0\npoint B 5 5\ny A 2\n", Verdict.OPEN),
    ("point A 2 0\nx A 2\nx A 3\n", Verdict.OVER),
])
def test_what_is_told_from_one_axis_alone_is_judged(program, text, verdict):
    assert judge(read_drawing(text), program).verdict is verdict


@pytest.mark.parametrize("text, names", [
    # 98.19 along x, and 78.8 in all.
    ("point P 20 30\npoint Q 100 47\nAlong: x P Q +98.19\nFar: distance P Q 78.8\n", ["Along", "Far"]),
    # 22 and 5 are less than 32.17; how the points lie to the axis has no part in it.
    ("point P1 13.65 24.93\npoint P2 -12.17 24.75\nsegment S3 P2 -37.87 46.14\nsegment S4 S3.end -7.44 21.3\n"
     "symmetric P1 P2 about YAxis\nangle S3 +137deg\nOne: distance P1 S4.end 22\nOther: distance P2 S4.end 5\n"
     "length S3 33.908\nBase: distance P1 P2 32.17\n", ["One", "Other", "Base"]),
    # A chain of 40, 30 and 40 doesn't reach over 200; whatever turn one edge has to another.
    ("segment S 0 0 40 1\nsegment T S.end 40 30\nsegment U T.end 2 31\nsegment V U.end S.start\n"
     "A: length S 40\nB: length T 30\nC: length U 40\nD: length V 200\nangle S U 10deg\n", ["A", "B", "C", "D"]),
    # A rhombus with sides of 20 is at most 40 across.
    ("segment S 0 0 40 1\nsegment T S.end 40 40\nsegment U T.end 0 41\nsegment V U.end S.start\n"
     "equal S T U V\nSide: length S 20\nAcross: distance S.start T.end 50\n", ["Side", "Across"]),
])
def test_what_has_no_shape_says_without_what_there_is_one(program, text, names):
    found = judge(read_drawing(text), program)
    assert found.verdict is not Verdict.OVER and found.solution is None
    assert set(names) <= set(found.unmet)
    lines = list(drawing_lines(JudgedDrawing("it", read_drawing(text), found)))
    assert "  no shape with these values was found near the drawing (by numbers)" in lines
    assert not any("share" in line for line in lines)


def test_where_another_choice_gives_a_shape_none_is_said_to_be_missing(program):
    """P, drawn above A and B, is 26.46 above or below them: C is 106.5 from it or 53.5, and Q spans
    70."""
    drawing = read_drawing("point A 0 0\npoint B 60 0\npoint P 30 26\npoint C 30 -80\n"
                           "point Q 50 -50\ncoincident A Origin\non B XAxis\nx B 60\n"
                           "distance A P 40\ndistance B P 40\nx C 30\ny C -80\n"
                           "distance P Q 30\ndistance C Q 40\n")
    found = judge(drawing, program)
    lines = [*drawing_lines(CountedDrawing("kite", drawing, found))]
    assert "    draw P on the other side of the line through Origin and B" in lines
    assert found.unmet is None and not any("no shape" in line for line in lines)


def test_what_is_rigid_in_another_way_has_a_shape(program):
    """Two triangles and three bars between them."""
    text = ("point A 0 0\npoint B 30 0\npoint C 12 25\npoint D 5 60\npoint E 38 66\npoint F 20 95\n"
            "distance A B 30\ndistance B C 31\ndistance C A 28\ndistance D E 33\ndistance E F 34\n"
            "distance F D 38\ndistance A D 60\ndistance B E 66\ndistance C F 70\n")
    found = judge(read_drawing(text), program)
    assert found.verdict is Verdict.OPEN and found.missing.count == 0
    assert found.unmet is None and found.missing.joints == ()


@pytest.mark.parametrize("text, lacks", [
    ("segment S 0 0 40 1\nsegment T S.end 40 40\nsegment U T.end 0 41\nsegment V U.end S.start\n"
     "equal S T U V\n", 2),
    ("segment A 0 0 0 40\nsegment B A.end -70 41\npoint P 0 39\npoint Q 20 41\non P A\non P B\non Q B\n"
     "distance Q A 20\n", 3),
])
def test_no_more_pairs_of_pieces_are_named_than_dimensions_are_lacking(program, text, lacks):
    found = judge(read_drawing(text), program)
    assert found.missing.count == lacks == len(found.missing.joints)


@pytest.mark.parametrize("amount, repeats", [(1000, False), (6000, True), (4999, False)])
def test_the_limit_tells_a_repeat_from_a_contradiction(program, amount, repeats):
    text = PLATE + "Again: x PlateBottom.end 60.005\n"
    found = judge(read_drawing(text), program, limit=Limit(amount))
    again = next(each for each in found.surplus if each.name == "Again")
    assert (again.off.amount, again.repeats()) == (5000, repeats)


def test_what_is_untried_is_listed_all_the_same(program, monkeypatch):
    monkeypatch.setattr("pertxogai.judging.surplus.WORK", 20)
    text = PLATE + "Again: x PlateBottom.end 60.005\n"
    found = judge(read_drawing(text), program)
    assert {"Width", "Again"} <= {each.name for each in found.surplus}
    assert any(each.then is None and each.off is None for each in found.surplus)
    assert any(each.then is Then.WELL for each in found.surplus)
    lines = [*drawing_lines(JudgedDrawing("plate", read_drawing(text), found))]
    assert "  what to do: remove one of these, and judge again (by rank; some were tried)" in lines


def test_some_are_tried_also_where_many_have_to_go(program, monkeypatch):
    # Six edges with two lengths each: without any one of these the rest is over still. The work is
    # that of five rests.
    monkeypatch.setattr("pertxogai.judging.surplus.WORK", 250)
    text = "".join(f"segment A{n} {99 * n} 0 {99 * n + 40} 0\nlength A{n} 40\nlength A{n} 41\n"
                   for n in range(6))
    found = judge(read_drawing(text), program)
    assert any(each.then is Then.OVER for each in found.surplus)


def test_what_the_program_alone_names_is_not_called_tried_or_by_rank(program, monkeypatch):
    for module in ("judgement", "surplus"):
        monkeypatch.setattr(f"pertxogai.judging.{module}.freedoms", lambda drawing: None)
    drawing = read_drawing(PLATE + "Again: x PlateBottom.end 60.005\n")
    lines = [*drawing_lines(JudgedDrawing("plate", drawing, judge(drawing, program)))]
    assert ("  what to do: remove one of these, and judge again (named by the program; none was "
            "tried)") in lines


@pytest.mark.parametrize("text", [
    "point A -20 10\npoint B 20 10\nMirror: symmetric A B about YAxis\nLong: distance A B 40\n",
    "point A -12 10\npoint B 30 14\nMirror: symmetric A B about YAxis\nLong: distance A B 40\n",
])
def test_what_holds_since_the_whole_was_laid_so_is_no_repeat(program, text):
    """Two points have 4 unknowns, and 3 equations: without the mirror the pair may be moved and
    turned, and it is met as the whole is laid."""
    found = judge(read_drawing(text), program)
    assert found.verdict is Verdict.WELL and not any(each.amount > 1 for each in found.deviations)
    assert found.repeats == () and found.left_out == () and found.held == ("Mirror",)
    lines = list(drawing_lines(JudgedDrawing("it", read_drawing(text), found)))
    assert "  not passed to the program, but holds as measured: 'Mirror'" in lines


def test_points_that_lie_symmetric_to_the_origin_are_laid_about_it(program):
    """Nothing tells the pair's direction, so it lies as it is drawn, which is that of 42 4, each
    point 20 from the origin: 20 * 42 / hypot(42, 4) is 19.909908, 20 * 4 / hypot(42, 4) 1.896182."""
    found = judge(read_drawing("point A -12 10\npoint B 30 14\nMirror: symmetric A B about Origin\n"
                               "Long: distance A B 40\n"), program)
    assert found.verdict is Verdict.WELL and found.held == ("Mirror",)
    assert found.whole.text() == "turned" and not any(each.amount > 1 for each in found.deviations)
    spots = {str(ref): [round(float(value) / 1e6, 4) for value in spot]
             for ref, spot in found.solution.points.items()}
    assert spots == {"A": [-19.9099, -1.8962], "B": [19.9099, 1.8962]}


@pytest.mark.parametrize("text, lacks", [
    (PLATE, 0),
    (PLATE + "circle Hole 20 20 5\nx Hole 20\ny Hole 20\n", 1),  # The hole has no size.
    (PLATE + "Again: x PlateBottom.end 60\npoint P 20 20\n", 2),  # Where P is.
])
def test_what_is_lacking_by_rank_is_told_with_every_verdict(program, text, lacks):
    found = judge(read_drawing(text), program)
    said = drawing_json(JudgedDrawing("it", read_drawing(text), found))
    assert said["by_rank"]["lacks"] == lacks and said["by_numbers"] == {"unmet": None}


def test_the_page_tells_what_json_says(program):
    page = (Path(__file__).parents[1] / "README.md").read_text()
    table = page.partition("### What `judge --json` says of a drawing")[2].partition("\n####")[0]
    told = {key for line in table.splitlines()
            if line.startswith("| `") and "only of a text of the language" not in line
            for key in re.findall(r"`(\w+)`", line.split("|")[1])}
    found = judge(read_drawing(PLATE), program)
    said = set(drawing_json(JudgedDrawing("it", read_drawing(PLATE), found)))
    assert told and told <= said


BY_A_MIDDLE = """\
segment S -18 26.2 30 39
point P 6.2 33
point Q 5.8 33.3
Mine: midpoint P S
Yours: midpoint Q S
Right: x Q 6
Up: y Q 33
Long: length S 50
Far: distance S.end Origin 50
End: x S.end +30
"""
"""From -18 26 to 30 40, and its middle twice. S.end's place is told by three words that also have
its middle's, of which two would be enough; where P lies, Mine alone tells."""


def test_what_is_well_and_says_too_much_by_rank_says_among_what(program):
    found = judge(read_drawing(BY_A_MIDDLE), program)
    group = ("Yours", "Right", "Up", "Long", "Far", "End")
    assert found.verdict is Verdict.WELL and found.too_many == (group,)
    assert (found.held, found.repeats, found.left_out) == (("Mine",), (), ())
    judged = JudgedDrawing("it", read_drawing(BY_A_MIDDLE), found)
    assert drawing_json(judged)["by_rank"]["excess"] == [list(group)]
    assert ("  one of these is redundant or conflicting (by rank): 'Yours', 'Right', 'Up', 'Long', 'Far', 'End'"
            in drawing_lines(judged))
    fewer = judge(read_drawing(BY_A_MIDDLE.replace("End: x S.end +30\n", "")), program)
    assert fewer.verdict is Verdict.WELL and fewer.too_many == ()


def test_ends_of_an_arc_that_are_symmetric_about_its_centre_say_more_than_the_arc(program):
    """An edge and the centre have 6 freedoms, less 2 of the middle, 2 of the centre and a length:
    the whole turns about the origin. No word may go, though the middle says again that both ends
    are as far from the centre."""
    found = judge(read_drawing(
        "segment Flat -9 0 11 1\narc Round 0 1 Flat.end Flat.start\nlength Flat 20\n"
        "symmetric Round.start Round.end about Round.centre\ncoincident Round Origin\n"), program)
    assert found.verdict is Verdict.OPEN and found.too_many == () and found.repeats == ()
    assert (found.missing.count, found.whole.text()) == (0, "turned")


ASLANT = "segment S -1 -1 {}\npoint P {}\non P S\n{x} S.start P +1.6\n{x} P 1.6\n{x} S.end +1.6\n"


@pytest.mark.parametrize("text, along", [
    (ASLANT.format("1 10", "1 9", x="x"), "moved along y"),
    (ASLANT.format("10 1", "9 1", x="y"), "moved along x"),
])
def test_a_point_as_far_out_as_the_end_of_its_edge_is_that_end(program, text, along):
    """S begins on an axis and ends 1.6 from it, as far as P, so that P is its end: of S two
    freedoms are left, of which one moves the whole. With its length, and as far from the origin,
    it begins there, and ends root (8.723 8.723 - 1.6 1.6) = 8.575006 along the axis."""
    found = judge(read_drawing(text), program)
    assert found.verdict is Verdict.OPEN and found.missing.count == 1 and found.too_many == ()
    assert found.whole.text() == along
    whole = judge(read_drawing(text + "length S 8.723\ndistance S.end Origin 8.723\n"), program)
    assert whole.verdict is Verdict.WELL and max(each.amount for each in whole.deviations) <= 2
    end = (1_600_000, 8_575_006) if along.endswith("y") else (8_575_006, 1_600_000)
    for name, told in (("S.start", (0, 0)), ("S.end", end), ("P", end)):
        lies = whole.solution.spot(ref_of(name))
        assert max(abs(a - b) for a, b in zip(lies, told)) <= 2, name


ABOVE = "point P 6 4\non P S\nvertical P S.end\n"
HANGING = ("segment S 0 0 4.1 3\n" + ABOVE + "point Q 16 8\ncoincident S.start Origin\nlength S 5\nfixed Q\n"
           "distance S.end Q 13\n")


@pytest.mark.parametrize("lines, end", [
    pytest.param("segment S 0 0 9 5\n" + ABOVE + "coincident S.start Origin\ny S.end 5\nlength S 10\n",
                 (8_660_254, 5_000_000), id="10 long, of which it rises 5"),
    pytest.param("segment T 0 0 4 -3\nsegment S T.end 7 1\n" + ABOVE + "coincident T.start Origin\n"
                 "y T.end -3\nlength T 5\nperpendicular S T\nlength S 5\n",
                 (7_000_000, 1_000_000), id="square to what goes to 4, -3"),
    pytest.param("segment S 1 5 8 5\n" + ABOVE + "segment T 0 0 10 0\nparallel S T\n"
                 "coincident T.start Origin\ny T.end 0\nlength T 10\nx S.start 1\ny S.start 5\nlength S 7\n",
                 (8_000_000, 5_000_000), id="parallel to what is level"),
    pytest.param(HANGING, (4_000_000, 3_000_000), id="5 from 0, 0 and 13 from 16, 8"),
])
def test_a_point_above_the_end_of_an_edge_that_is_not_upright_is_that_end(program, lines, end):
    found = judge(read_drawing(lines), program)
    assert found.verdict is Verdict.WELL and max(each.amount for each in found.deviations) <= 2
    for name in ("S.end", "P"):
        lies = found.solution.spot(ref_of(name))
        assert max(abs(a - b) for a, b in zip(lies, end)) <= 2, name


def test_what_is_over_only_if_an_edge_is_upright_is_not_over(program):
    """S ends at 4, 3, and so isn't upright; nothing tells the y of R."""
    found = judge(read_drawing(HANGING + "point R 9 9\nx R 9\n"), program)
    assert found.verdict is Verdict.OPEN and found.surplus == ()
    joint, = found.missing.joints
    assert (found.missing.count, joint.along) == (1, "y")


def test_the_ends_of_an_edge_are_two_points(program):
    """So S is upright, and no point of it is 5 aside; without any one of the four words it is."""
    found = judge(read_drawing("segment S 0 0 1 10\npoint P 5 4\nLine: on P S\nFoot: x S.start 0\n"
                               "Top: x S.end 0\nAside: x P 5\n"), program)
    assert found.verdict is Verdict.OVER
    assert {each.name for each in found.surplus} == {"Line", "Foot", "Top", "Aside"}


HOLES = ("segment Bottom 0 0 40 0\nsegment Side Bottom.end 40 30\ncircle SW 8 8 3\ncircle SE 32 8 3\n"
         "circle NW 8 22 3\ncoincident Bottom.start Origin\nhorizontal Bottom\nvertical Side\n"
         "length Bottom 40\nlength Side 30\nx SW 8\ny SW 8\nx SE 32\ny SE 8\nx NW 8\ny NW 22\n")


def test_what_follows_from_the_difference_of_two_equations_of_one_constraint_is_tried(program):
    """Held fixes S, so its middle is told by Middle, by Pin, and with Near once more; Long and Level
    put T's start where Far has it: four equations are too many. Without Held, Far and Near tell how
    S lies. So each of the seven may go."""
    found = judge(read_drawing(
        "segment S 0 0 20 10\nsegment T 30 5 10 5\nsegment U T.end 10 40\n"
        "Far: distance T.start S.end 11.18\nPin: fixed T.end\nMiddle: midpoint T.end S\n"
        "Near: distance U.start S.start 11.18\nLong: distance T.start U.start 20\n"
        "Level: horizontal T\nHeld: fixed S\n"), program)
    assert found.verdict is Verdict.OVER and found.free is not None and found.free.excess == 4
    assert {each.name for each in found.surplus} == {
        "Far", "Pin", "Middle", "Near", "Long", "Level", "Held"}


ALIKE = "Pair: equal SW SE\nThird: equal SE NW\n"


@pytest.mark.parametrize("words, latest", [
    (ALIKE + "First: diameter SW 6.6\n", ()),
    (ALIKE + "First: diameter SW 6.6\nSecond: diameter SE 6.6\n", ("Second",)),
    ("First: diameter SW 6.6\nSecond: diameter SE 6.6\nThird: equal SE NW\nPair: equal SW SE\n", ("Pair",)),
    ("First: radius SW 3.3\n" + ALIKE + "Again: radius SW 3.3\nLast: radius NW 3.3\n", ("Again", "Last")),
    (ALIKE + "First: diameter SW 6.6\nLevel: horizontal Bottom\n", ("Level",)),
])
def test_all_that_is_called_redundant_may_go_at_once(words, latest, program):
    """Three radii take three words, and Bottom is level already."""
    found = judge(read_drawing(HOLES + words), program)
    assert found.verdict is Verdict.WELL and set(found.repeats) == set(latest)
    left = "".join(line + "\n" for line in words.splitlines() if line.split(":")[0] not in latest)
    rest = judge(read_drawing(HOLES + left), program)
    assert rest.verdict is Verdict.WELL and rest.repeats == () and rest.undimensioned == ()


def test_constraints_that_each_say_more_than_the_others_do_are_not_called_too_many(program):
    """M is the middle of an arc's ends, and its centre, so both ends are as far from the centre: the
    arc asks nothing more. Without either word more is free. Of 8 freedoms a length, and 2 and 2 of
    these words, leave 3, of the whole."""
    found = judge(read_drawing(
        "segment Flat -9 0 11 1\narc Round 0 1 Flat.end Flat.start\npoint M 1 1\nlength Flat 20\n"
        "midpoint M Flat\ncoincident M Round.centre\n"), program)
    assert found.verdict is Verdict.WELL and found.too_many == () and found.repeats == ()
    assert found.whole.text() == "moved and turned"


@pytest.mark.parametrize("more", ["", "point R 30 30\nx R 30\n"])
def test_nothing_is_redundant_since_it_holds_of_an_edge_without_a_length(program, more):
    """S3 runs from the origin to -12, -5, at atan 5/12 = 22.62 degrees to the x axis and 67.38 to
    S1, and 60 are told. Without Lean, or without Up, S1 is drawn to end where it begins, and a
    direction of it holds since it has none."""
    drawing = read_drawing(
        "segment S1 0 0 0 10\nsegment S2 S1.end -12 5\nsegment S3 S2.end S1.start\n"
        "coincident S1.start Origin\nUp: vertical S1\nequal S2 S3\nlength S2 13\n"
        "Slope: angle XAxis S3 +5/12\nLean: angle S1 S3 60deg\n" + more)
    found = judge(drawing, program)
    assert found.verdict is Verdict.OVER
    assert {each.name for each in found.surplus} == {"Slope", "Up", "Lean"}
    assert not any(each.repeats() for each in found.surplus)
    assert search(drawing).repeats == ()


def test_what_is_well_by_its_count_alone_is_over(program):
    """P2's x is told twice, and so L3.end's x is 50.3; nothing tells P2's height. L3 runs 27.03 to
    the left and is 27.03 * hypot(5, 2) / 5 long, so of a triangle of 29.1123, 24.5 and 37 the
    height on 24.5 is told too: by Heron's formula it is 29.0678, and 20.648 is told."""
    found = judge(read_drawing(
        "point P2 -31 36\nsegment L3 71 5 50 -3\nsegment L4 L3.end 35 16\nx P2 L3.end +81\n"
        "distance L3.start L4.end 37\nlength L4 24.5\nangle L3 2/5\nx P2 -30.7\n"
        "Height: distance L3.start L4 20.648\nx L3.start +77.33\n"), program)
    assert found.verdict is Verdict.OVER and len(found.surplus) == 7
    height = next(each for each in found.surplus if each.name == "Height")
    assert height.off.amount == pytest.approx(8_419_800, abs=300)
    assert found.loose == ("no dimension gives the y of P2",)


GOES_ON = """segment A 0 0 40 0
segment B 40 0 60 0
coincident A.start Origin
horizontal A
Length: length A 40
coincident A.end B.start
Line: collinear A B
length B 20
End: x A.end 40
"""
"""B goes on from the end of A, and is on its line, which says something of its end alone. Beside
that it is told twice where A ends."""


def test_a_line_that_goes_on_from_another_is_none_that_may_go(program) -> None:
    """Without the length or the end the rest is the same drawing, told once; without the line it
    would be told twice still where A ends, and B would turn."""
    found = {each.name: each for each in judge(read_drawing(GOES_ON), program).surplus}
    for name in ("Length", "End"):
        assert (found[name].then, found[name].off.amount) == (Then.WELL, 0)
        rest = read_drawing("".join(line for line in GOES_ON.splitlines(True)
                                    if not line.startswith(f"{name}:")))
        assert judge(rest, program).verdict is Verdict.WELL
    assert "Line" not in found


ASIDE = ("segment S 0 0 40 20\npoint P 39 19\npoint Q 40 30\ncoincident S.start Origin\nlength S 45\non P S\n"
         "horizontal P S.end\nx Q 40\ny Q 30\ndistance P Q 10\n")
"""P is the end of S, which is 45 from the origin, and 10 from Q, which is 50 from there. Where S were
level, P would be 30 from Q at least."""


def test_what_has_no_places_only_if_an_edge_is_level_is_not_told_to_have_none(program):
    found = judge(read_drawing(ASIDE), program)
    assert found.verdict is Verdict.OPEN and found.failure is None
    assert (found.missing.count, found.missing.joints, found.whole.ways) == (0, (), 0)
    twice = judge(read_drawing(
        ASIDE + "point R 60 0\nFirst: x R 60\nSecond: x R 60\ny R 0\n"), program)
    assert twice.verdict is Verdict.OVER
    assert {each.name: each.then for each in twice.surplus} == {"First": Then.OPEN, "Second": Then.OPEN}


@pytest.mark.parametrize("words, again", [
    ("First: radius SW 5\nSecond: radius SW 5\nThird: radius SW 6\n", "Second"),
    ("First: radius SW 5\nPair: equal SW SE\nAgain: radius SE 5\nOther: radius SE 6\n", "Again"),
    ("segment Wall 0 0 0 30\ncoincident Wall.start Origin\nvertical Wall\nlength Wall 30\ntangent Wall SW\n"
     "Size: diameter SW 16\nFar: distance SW.centre Origin 14\n", "Size"),
])
def test_of_sizes_that_another_contradicts_the_later_alone_is_redundant(words, again, program):
    """Without both of them the size would be the third, which is another; so would the place of SW, 8 from either axis
    and 11.31 from where they meet, by which it touches the wall."""
    found = judge(read_drawing(HOLES + words), program)
    assert found.verdict is Verdict.OVER and found.repeats == (again,)


def test_nothing_is_redundant_since_it_holds_of_an_edge_that_the_rest_leaves_no_length(program):
    """Both ends of S are told to be at 40, 0."""
    found = judge(read_drawing(
        "segment S 40 1 50 6\nx S.start 40\ny S.start 0\nx S.end 40\ny S.end 0\nLean: angle S 30deg\n"), program)
    assert found.verdict is Verdict.OVER and "Lean" in {each.name for each in found.surplus}
    assert not any(each.repeats() for each in found.surplus)


BOTH_SIDES = ("point A 0 0\npoint B 48 0\npoint C 20 -20\ncoincident A Origin\non B XAxis\nx B +50\n"
              "distance A C 30\ndistance B C 40\nx C +18\nUp: y C +24\n")
"""C is at 18, 24: so it is 30 from A, and 40 from B, which is 50 from A."""


@pytest.mark.parametrize("more", ["", "point L 70 70\nx L 70\n"], ids=["whole", "beside a loose point"])
def test_what_holds_with_all_others_somewhere_conflicts_with_none(program, more):
    """By the two distances alone C is placed on the side on which it is drawn, 48 from there."""
    found = judge(read_drawing(BOTH_SIDES + more), program)
    assert found.verdict is Verdict.OVER and found.free is not None and found.free.excess == 2
    assert {each.name: each.repeats() for each in found.surplus}["Up"] is None
    assert not any(each.repeats() is False for each in found.surplus)
    against = judge(read_drawing(BOTH_SIDES.replace("x C +18", "x C +19") + more), program)
    assert any(each.repeats() is False for each in against.surplus)


def searched(text, program) -> CountedDrawing:
    """A drawing, judged and searched."""
    drawing = read_drawing(text)
    found = judge(drawing, program)
    return CountedDrawing("it", drawing, found, finding=search_judged(drawing, found, program))


NOTHING_CONFLICTS = "  nothing conflicts: positions were found that meet every constraint (by numbers)"


def test_nothing_conflicts_where_the_search_knows_positions_that_meet_every_constraint(program):
    """L is at x 70, and C 52 left of it: at 18, 24, where all holds, whatever the y of L is."""
    text = BOTH_SIDES.replace("x C +18", "point L 70 70\nx L 70\nx C L 52")
    found = searched(text, program)
    assert found.judgement.verdict is Verdict.OVER and found.all_hold()
    assert {each.name: each.off for each in found.surplus()}["Up"] is None
    assert not any(each.repeats() is False for each in found.surplus())
    assert NOTHING_CONFLICTS in drawing_lines(found)
    assert not any(each["repeats"] is False for each in drawing_json(found)["spare"])
    against = searched(text.replace("x C L 52", "x C L 51"), program)
    assert any(each.repeats() is False for each in against.surplus())
    assert NOTHING_CONFLICTS not in drawing_lines(against)


def test_no_shape_is_told_as_not_found_where_one_is_constructed(program):
    """Of two equal circles that touch inside each other the centres are one point."""
    found = searched("circle A 0 0 10\ncircle B 1 0 10\ncoincident A Origin\nradius A 10\nequal A B\n"
                     "tangent A B\n", program)
    assert found.finding.solution is not None and found.all_hold()
    assert found.unmet() is None and drawing_json(found)["by_numbers"] == {"unmet": None}
    assert not any("no shape" in line for line in drawing_lines(found))


@pytest.mark.parametrize("edge_mm, words, off_ppb", [
    (1, ("angle A +30deg", "angle A +30.02deg"), 349_066),
    (1, ("horizontal A", "angle A +0.02deg"), 349_066),
    (10_000, ("angle A +30deg", "angle A +30.00001deg"), 175),
])
def test_an_angle_is_redundant_within_the_limit_of_angles(program, edge_mm, words, off_ppb):
    """0.02 degrees are 349,066 ppb, and 349 nm of an edge of a millimetre; 0.00001 degrees are 175
    ppb, and 1,745 nm of one of ten metres. The limit is 1,000 of each."""
    found = searched(f"segment A 0 0 {edge_mm} 0\ncoincident A.start Origin\nlength A {edge_mm}\n"
                     f"{words[0]}\n{words[1]}\n", program)
    assert found.judgement.verdict is Verdict.OVER
    repeats = off_ppb <= 1000
    assert [each.repeats() for each in found.surplus()] == [repeats, repeats]
    for each in found.surplus():
        assert each.off.unit is Unit.PPB and abs(each.off.amount - off_ppb) < 1500 / edge_mm + 2
    names = {each.name for each in found.surplus()}
    groups = found.finding.repeats if repeats else found.finding.contradictions
    assert [set(each) for each in groups] == [names]
    assert not (found.finding.contradictions if repeats else found.finding.repeats)


BARS = """point A1 0 0
point A2 40 0
point A3 40 30
point A4 0 30
distance A1 A2 40
distance A2 A3 30
distance A3 A4 40
distance A4 A1 30
distance A1 A3 50
point B1 10 60
point B2 55 62
point B3 60 95
point B4 12 90
distance B1 B2 45.0444
distance B2 B3 33.3766
distance B3 B4 48.2597
distance B4 B1 30.0666
distance B1 B3 61.0328
distance A1 B1 60.8276
distance A2 B2 63.7887
distance A3 B3 68.0074
distance A4 B4 61.1882
"""
"""Two rigid figures, and four bars between them, one too many: each length to a tenth of a
micrometre of what is drawn, so that it is met there within 50 nm."""


def test_what_is_redundant_within_the_limit_alone_is_met_but_not_exactly(program):
    lines = [*drawing_lines(searched(BARS, program))]
    assert any(line.startswith("  redundant (by numbers): constraint 14 ") for line in lines)
    assert "  no positions were found that meet all of it exactly (by numbers)" in lines
