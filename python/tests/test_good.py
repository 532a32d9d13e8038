"""What is good, and that nothing else can be made good."""
from __future__ import annotations

import json
import re
from dataclasses import FrozenInstanceError, replace
from pathlib import Path

import pytest

from conftest import TOP
from pertxogai.commands import main
from pertxogai.completing import Completion, NoProposal, WhyNot, complete
from pertxogai.drawing import Drawing, PointRef, Which, read_drawing
from pertxogai.exits import Exit
from pertxogai.files.freecad import read_freecad
from pertxogai.fitting import Fit, NoFit, fit
from pertxogai.judging import judge
from pertxogai.judging.mirrored import mirrored
from pertxogai.judging.good import (
    GoodJudgement, GoodSketch, Lack, NotGood, good_of, good_sketch_of, reasons_against)
from pertxogai.judging.judged_drawing import CountedDrawing, JudgedDrawing
from pertxogai.judging.judged_sketch import JudgedSketch, judge_sketch
from pertxogai.judging.measure import (
    Deviation, Limit, Measurement, Solution, Unit, amount_text)
from pertxogai.judging.measure.limit import is_direction
from pertxogai.output.drawing_sheet import DrawingSheet, NoPlaces
from pertxogai.output import drawing_json, drawing_lines
from pertxogai.output.release import Release
from pertxogai.program.reports import Verdict
from pertxogai.ranging import NoRange, Ranging

FILES = Path(__file__).parent / "files"
DRAWINGS = Path(__file__).parent / "drawings"
PLATE = ("rectangle Plate 0 0 61 39\ncircle Hole 30 20 5\ncoincident PlateBottom.start Origin\n"
         "length PlateBottom 60\nlength PlateRight 40\nx Hole 30\ny Hole 20\nradius Hole 5\n")
WIDE = ("segment A 0 0 40 0\nsegment B A.end 20 30\nsegment C B.end A.start\nlength B 38\n"
        "length C 36\nangle A B 120deg\nangle C 60deg\ncoincident A.start Origin\n")
"""A triangle that can't be: over against a corner of 120 degrees lies the longest side."""


def judged(text: str, program, **more) -> JudgedDrawing:
    drawing = read_drawing(text)
    return JudgedDrawing("it", drawing, judge(drawing, program), **more)


def moved(judged: JudgedDrawing, point: PointRef, x_nm: int) -> JudgedDrawing:
    """The same with a point placed further to the right."""
    solution = judged.judgement.solution
    x, y = solution.points[point]
    points = {**solution.points, point: (x + x_nm, y)}
    return elsewhere(judged, Solution(points, solution.radii))


def elsewhere(judged: JudgedDrawing, solution: Solution) -> JudgedDrawing:
    """The same on other places."""
    state = replace(judged.judgement.state, measurement=Measurement(judged.drawing, solution))
    return replace(judged, judgement=replace(judged.judgement, state=state))


def lacks(judged) -> list[Lack]:
    return [each.lack for each in reasons_against(judged)]


def test_a_plate_is_good(program):
    found = good_of(judged(PLATE, program))
    assert isinstance(found, GoodJudgement)
    assert found.solution.spot(PointRef("Hole", Which.CENTRE)) == (30_000_000, 20_000_000)
    with pytest.raises(FrozenInstanceError):
        found.judged = None


@pytest.mark.parametrize("text, lack", [
    (PLATE.replace("length PlateRight 40\n", ""), Lack.VERDICT),
    (PLATE + "x PlateBottom.end 61\n", Lack.VERDICT),
    (PLATE.replace("radius Hole 5\n", ""), Lack.NO_SIZE),
    ("segment A 0 0 40 0\nsegment B A.end 20 30\nsegment C B.end A.start\nlength A 40\n"
     "length B 10\nlength C 10\n", Lack.NO_PLACES),
    (WIDE, Lack.OFF),
])
def test_what_is_not_good_can_not_be_made_good(text, lack, program):
    found = judged(text, program)
    assert lacks(found) == [lack]
    with pytest.raises(NotGood) as why:
        GoodJudgement(found)
    assert [each.lack for each in why.value.reasons] == [lack] and str(why.value)
    good = good_of(judged(PLATE, program))
    with pytest.raises(NotGood):
        replace(good, judged=found)


def test_nothing_is_not_good(program):
    found = JudgedDrawing("it", Drawing(), judge(Drawing(), program))
    assert Lack.EMPTY in lacks(found) and isinstance(good_of(found), NotGood)


def test_what_the_file_has_beside_the_drawing_is_lacking(program):
    found = judged(PLATE, program, not_drawn=("Ellipse9: a drawing has no ellipse",))
    assert lacks(found) == [Lack.LEFT_OUT]


@pytest.mark.parametrize("name, what", [
    ("ellipse", "Ellipse5: a drawing has no ellipse"),
    ("spline", "BSplineCurve2: a drawing has no spline")])
def test_what_a_file_has_beside_its_drawing_is_never_forgotten(name, what, program):
    """In Python, with nothing passed on by hand: the file is read, judged, and drawn."""
    (sketch,) = read_freecad(FILES / f"{name}.FCStd")
    found = CountedDrawing(sketch.name, sketch.drawing, judge(sketch.drawing, program))
    assert set(lacks(found)) == {Lack.LEFT_OUT}
    assert reasons_against(found)[0].text == f"left out of the file: {what}"
    assert len(reasons_against(found)) == len(sketch.left_out)
    with pytest.raises(NotGood):
        GoodJudgement(found)  # Which each function asks for that writes a file.
    with pytest.raises(NoPlaces, match=f"left out of the file: {what}"):
        DrawingSheet(found, False).dxf(Release.R2010)
    assert f"  left out of the file: {what}" in drawing_lines(found)
    with pytest.raises(NoRange, match=what):
        Ranging.of(sketch.drawing, program)


def test_what_a_file_has_beside_is_kept_by_what_is_made_of_its_drawing(program):
    """Without its height and completed, with other numbers, and with a check."""
    (sketch,) = read_freecad(FILES / "ellipse.FCStd")
    drawing = sketch.drawing
    fewer = replace(drawing, constraints=drawing.constraints[:-1])
    completed = complete(fewer, program)
    assert isinstance(completed, Completion) and completed.drawing.not_drawn == drawing.not_drawn
    with pytest.raises(NotGood, match="Ellipse5"):
        _ = completed.good
    whole = complete(drawing, program)
    assert isinstance(whole, NoProposal) and whole.why is WhyNot.NOTHING and not whole.is_good
    assert drawing.with_numbers(drawing.constraints).not_drawn == drawing.not_drawn
    check = read_drawing("segment Line1 0 0 60 0\ncheck Wide length Line1 59 .. 61\n").tolerancing
    checked = fit(replace(drawing, tolerancing=check), program)
    assert isinstance(checked, NoFit) and "Ellipse5" in checked.why[0]
    alone = replace(drawing, tolerancing=check, not_drawn=())
    assert isinstance(fit(alone, program), Fit)  # The ellipse alone is against it.


def test_what_is_told_twice_of_a_file_is_told_once(program):
    """By the drawing, and by who judges it; and what one of them tells alone."""
    (sketch,) = read_freecad(FILES / "spline.FCStd")
    found = judge(sketch.drawing, program)
    (spline, *more) = map(str, sketch.left_out)
    told = JudgedDrawing("it", sketch.drawing, found, (spline, "Hatch: no shape"))
    assert told.not_drawn == (spline, *more, "Hatch: no shape")
    assert replace(told, name="other").not_drawn == told.not_drawn


def test_the_places_are_measured_and_not_believed(program):
    """A judgement whose places were changed behind its back: not even a nanometre is taken, and
    1,001 nm are beyond the limit too."""
    found = judged(PLATE, program)
    hole = PointRef("Hole", Which.CENTRE)
    assert lacks(moved(found, hole, 1)) == lacks(moved(found, hole, 1000)) == [Lack.NOT_PRINTED]
    _, why = reasons_against(moved(found, hole, 1001))
    assert (why.lack, why.constraint, why.off.amount) == (Lack.OFF, 8, 1001)
    assert why.text == "constraint 8 (x Hole.centre 30) is off by 0.001001 mm"
    lost = elsewhere(found, Solution({}, {}))
    assert lacks(lost) == [Lack.NOT_PRINTED, Lack.UNMEASURED]


def test_drawing_judgement_and_sizes_are_of_one(program):
    found = judged(PLATE, program)
    less = Drawing(found.drawing.geometry, found.drawing.constraints[:1])
    assert lacks(replace(found, drawing=less)) == [Lack.NOT_PRINTED]
    over = judged(PLATE + "x PlateBottom.end 61\n", program)
    claimed = replace(over.judgement, verdict=Verdict.WELL)
    assert lacks(replace(over, judgement=claimed)) == [Lack.NOT_PRINTED]
    sizeless = judged(PLATE.replace("radius Hole 5\n", ""), program)
    state = replace(sizeless.judgement.state, unsized=())
    claimed = replace(sizeless.judgement, state=state)
    assert lacks(replace(sizeless, judgement=claimed)) == [Lack.NO_SIZE]


@pytest.mark.parametrize("text", [
    "segment L 0 0 40 40\ncoincident L.start Origin\nangle L 45deg\n",
    "segment L Origin 40 40\nangle L 45deg\n",
    "segment L 0 0 40 23\ncoincident L.start Origin\nangle L 30deg\n",
])
def test_a_length_that_nothing_tells_is_not_good(text, program):
    """Of the segment one thing is told, its direction: its length is missing."""
    assert lacks(judged(text, program)) == [Lack.VERDICT]


def test_a_point_that_is_not_printed_is_not_good(program):
    """The same judgement, of a program that has told nothing of the hole's centre."""
    found = judged(PLATE, program)
    asked = found.judgement.asked
    name = asked.spelled.points[asked.axes.facts.refs[PointRef("Hole", Which.CENTRE)]]
    kept = tuple(each for each in asked.solved.places if each.name != name)
    fewer = replace(asked, solved=replace(asked.solved, places=kept))
    why, = reasons_against(replace(found, judgement=replace(found.judgement, asked=fewer)))
    assert why.text == "the program has printed no position of Hole.centre"


def test_the_limit_is_told(program):
    """What is off by 11 nm holds within 11, and not within 10."""
    off = one("distance A.end B.start 9", (11, Unit.NM))
    assert list(Limit(10).beyond(off)) == off and list(Limit(11).beyond(off)) == []
    for amount in (0, 1_000_001):
        with pytest.raises(ValueError):
            Limit(amount)


def one(words: str, *amounts: tuple[int, Unit]) -> list[Deviation]:
    """The deviations of a constraint of two segments."""
    drawing = read_drawing(f"segment A 0 0 9 0\nsegment B 0 5 9 5\n{words}\n")
    return [Deviation(1, drawing.constraints[0], amount, unit) for amount, unit in amounts]


@pytest.mark.parametrize("words, nm, ppb, holds", [
    ("parallel A B", 5, 1000, True),
    ("parallel A B", 5, 1001, False),
    ("parallel A B", 4, 100_000, True),  # A line so short that a nanometre turns it so far.
    ("parallel A B", 4, 10_000_001, False),  # None is so short.
    ("parallel A B", 0, 1_000_000_000, False),  # Both ends are one place.
    ("parallel A B", 5000, 900, True),  # A long line.
    ("perpendicular A B", 5000, 900, True),
    ("perpendicular A.end B.start", 1001, 900, False),  # The ends are apart.
    ("collinear A B", 1001, 900, False),
    ("horizontal A", 5000, 900, True),
    ("angle A B 30deg", 5, 1_999_999_999, False),
])
def test_a_direction_holds_by_its_ppb_and_all_else_by_its_length(words, nm, ppb, holds):
    off = one(words, (nm, Unit.NM), (ppb, Unit.PPB))
    assert (list(Limit().beyond(off)) == []) is holds
    assert len(list(Limit().beyond(off))) <= 1


@pytest.mark.parametrize("words, nm, ppb, told", [
    ("parallel A B", 3, 5, Unit.NM),  # Both hold.
    ("parallel A B", 9, 50_000, Unit.PPB),  # The direction alone is beyond the limit.
    ("parallel A B", 2000, 5, Unit.PPB),  # It alone counts.
    ("parallel A B", 2000, 50_000, Unit.NM),
    ("collinear A B", 9, 50_000, Unit.PPB),
    ("collinear A B", 2000, 5, Unit.NM),
])
def test_of_a_length_and_a_direction_that_is_told_which_decides(words, nm, ppb, told):
    off = one(words, (nm, Unit.NM), (ppb, Unit.PPB))
    assert Limit().told(off) is off[told is Unit.PPB]


def test_what_is_no_direction():
    drawing = read_drawing("point P 0 0\npoint Q 1 0\nsegment A 0 0 9 0\nhorizontal P Q\n"
                           "length A 9\nhorizontal A\n")
    assert [is_direction(each) for each in drawing.constraints] == [False, False, True]


@pytest.mark.parametrize("amount, unit, text", [
    (999, Unit.NM, "999 nm"), (1000, Unit.NM, "0.001 mm"), (8_810_960, Unit.NM, "8.81096 mm"),
    (123_456_789_012, Unit.NM, "123457 mm"), (999, Unit.PPB, "999 ppb"),
    (500_000_000, Unit.PPB, "30 degrees"), (1_000_000_000, Unit.PPB, "90 degrees"),
    (1_500_000_000, Unit.PPB, "150 degrees"), (2_000_000_000, Unit.PPB, "180 degrees"),
])
def test_amounts_are_told_in_millimetres_and_degrees(amount, unit, text):
    assert amount_text(Deviation(None, None, amount, unit)) == text


def test_no_dxf_is_written_and_no_picture_placed_of_what_is_not_good(program):
    sheet = DrawingSheet(judged(WIDE, program), False)
    with pytest.raises(NoPlaces, match="isn't good: constraint 3 .* is off by 180 degrees"):
        sheet.dxf(Release.R2010)
    assert "not good: constraint 3 (angle A B 120deg)" in re.sub("<[^>]*>", "", sheet.picture().svg)
    assert not sheet.is_good() and DrawingSheet(judged(WIDE, program), True).is_good()


def called(program, monkeypatch, capsys, *words: object) -> tuple[int, str, str]:
    monkeypatch.setenv("PERTXOGAI_SKETCH", program.path)
    return main(list(map(str, words))), *capsys.readouterr()


def test_the_status_and_a_line_say_what_is_off(program, monkeypatch, capsys, tmp_path):
    path = tmp_path / "wide.drawing"
    path.write_text(WIDE)
    status, out, _ = called(program, monkeypatch, capsys, "judge", path)
    assert status == Exit.NOT_GOOD == 1
    assert out.splitlines()[1] == "  not good: constraint 3 (angle A B 120deg) is off by 180 degrees"
    status, out, _ = called(program, monkeypatch, capsys, "judge", "--json", path)
    sketch, = json.loads(out)["sketches"]
    assert (status, sketch["verdict"], sketch["good"]) == (1, "well", False)
    why, = sketch["why_not"]
    assert (why["why"], why["constraint"], why["unit"]) == ("off", 3, "ppb")
    path.write_text(PLATE)
    assert called(program, monkeypatch, capsys, "judge", path)[0] == Exit.GOOD == 0
    path.write_text(PLATE.replace("radius Hole 5\n", ""))
    status, out, _ = called(program, monkeypatch, capsys, "judge", path)
    assert status == 1 and "  no size given for Hole: drawn radius kept" in out.splitlines()


def test_a_file_is_written_with_what_is_good_alone(program, monkeypatch, capsys, tmp_path):
    """The ellipse of the file is left out of the drawing, so the rest isn't moved."""
    out = tmp_path / "out.FCStd"
    status, _, err = called(program, monkeypatch, capsys, "judge", FILES / "ellipse.FCStd",
                            "--write", out)
    assert status == 2 and "no sketch of it is good" in err and not out.exists()


def test_a_sketch_of_the_language(program):
    def told(name: str, limit: Limit = Limit()):
        text = (TOP / "examples" / f"{name}.sketch").read_text()
        return judge_sketch(name, text, program, limit)

    assert isinstance(good_sketch_of(told("wedge")), GoodSketch)
    assert lacks(told("hinge")) == lacks(told("hole-row")) == [Lack.VERDICT]
    assert lacks(told("no-triangle")) == [Lack.NO_PLACES]
    wedge = told("wedge")  # Placed within 1 nm and 1 ppb.
    assert isinstance(good_sketch_of(told("wedge", Limit(1))), GoodSketch)
    worse = replace(wedge.solved, tolerances=replace(wedge.solved.tolerances, length_nm=1001))
    assert lacks(replace(wedge, solved=worse)) == [Lack.OFF]


def test_an_answer_of_another_sketch_is_not_good(program):
    """Of two triangles of the same elements and constraints one element has another name, is of
    another kind, or as a circle another radius; or there is one constraint more."""
    def of(text: str) -> JudgedSketch:
        return judge_sketch("it", "sketch 1\n" + text + "end\n", program)

    text = ("point A 0 0\ncircle B 4 0 1\npoint C 4 3\n"
            "distance A B 4\ndistance A C 5\ndistance B C 3\n")
    mine = of(text)
    assert lacks(mine) == []
    for other in (of(re.sub("C", "D", text)), of(text.replace("4 0 1", "4 0 2")),
                  of(text.replace("circle B 4 0 1", "point B 4 0"))):
        assert lacks(other) == []
        assert lacks(replace(mine, solved=other.solved)) == [Lack.NOT_PRINTED]
    # A place 0.5 mm to the side, and places of another side: what is said isn't so there.
    *most, last = mine.solved.places
    moved_aside = replace(mine.solved, places=(*most, replace(last, x_nm=last.x_nm + 500_000)))
    assert lacks(replace(mine, solved=moved_aside)) == [Lack.OFF]
    assert lacks(replace(mine, solved=of(text.replace("A B 4", "A B 3")).solved)) == [Lack.OFF]
    two = of("point A 0 0\npoint B 4 0\ndistance A B 4\n")
    assert lacks(replace(mine, check=two.check)) == [Lack.NOT_PRINTED]


TRIANGLE = ("segment A 0 0 40 2\nsegment B A.end 38 30\nsegment C B.end A.start\n"
            "length A 40\nlength B 30\nlength C 45\n")
"""It goes round to the left."""


def mirrored_in_x(found: JudgedDrawing) -> list[tuple[str, ...]]:
    """What lies mirrored once each point lies as far below the x axis as above."""
    places = found.judgement.solution
    points = {ref: (x, -y) for ref, (x, y) in places.points.items()}
    return list(mirrored(found.drawing, Solution(points, places.radii)))


def test_what_lies_mirrored_is_named(program):
    """A triangle, one of points and their distances, a plate and a slot of two sides and two arcs,
    each below the x axis; but not a plate as it is drawn, nor a straight chain."""
    triangle = judged(TRIANGLE + "coincident A.start Origin\nhorizontal A\n", program)
    assert mirrored_in_x(triangle) == [("A", "B", "C")]
    of_points = judged("point P 40 2\npoint Q 38 30\ndistance P Q 30\ndistance P Origin 40\n"
                       "distance Q Origin 45\ny P 2\n", program)
    assert mirrored_in_x(of_points) == [("P Q", "P Origin", "Q Origin")]
    plate = judged(PLATE, program)
    assert list(mirrored(plate.drawing, plate.judgement.solution)) == []
    assert mirrored_in_x(plate) == [("PlateBottom", "PlateRight", "PlateTop", "PlateLeft")]
    slot = judged((DRAWINGS / "slot.drawing").read_text(), program)
    assert len(mirrored_in_x(slot)) == 1
    assert list(mirrored(slot.drawing, slot.judgement.solution)) == []
    chain = judged("segment A 0 0 40 0\nsegment B A.end 80 1\ncoincident A.start Origin\n"
                   "horizontal A B\nlength A 40\nlength B 40\n", program)
    assert mirrored_in_x(chain) == []


def test_what_lies_mirrored_is_not_good(program):
    """The triangle's corners are 5 above and 3 below the x axis. With both on the side of the y
    axis on which they are drawn, it goes round to the right: 40 * -3 - 45 * 5 is below 0."""
    text = (TRIANGLE.replace("length B 30\n", "")
            + "coincident A.start Origin\ny A.end 5\ny B.end -3\n")
    found = judged(text, program)
    assert found.judgement.verdict is Verdict.WELL and lacks(found) == [Lack.MIRRORED]
    why, = (each.text for each in reasons_against(found))
    assert why == "A, B, C lie mirrored: each corner turns the other way than it is drawn"
    assert f"  not good: {why}" in drawing_lines(found)


BELOW = (TRIANGLE.replace("length B 30\n", "")
         + "coincident A.start Origin\ny A.end 5\ny B.end -3\n")
"""As above: it is drawn to go round to the left, and goes round to the right."""


def test_what_lies_mirrored_beside_what_does_not_is_not_good(program):
    """In the triangle's corner at the origin hangs another one, that lies as it is drawn: to the
    left from 0 0 to -30 0, and up from there to -30 20."""
    beside = ("segment D 0 0 -30 0\nsegment E D.end -30 20\nsegment F E.end D.start\n"
              "coincident D.start Origin\nhorizontal D\nvertical E\nlength D 30\nlength E 20\n")
    assert [each.text for each in reasons_against(judged(BELOW + beside, program))] == [
        "A, B, C lie mirrored: each corner turns the other way than it is drawn"]
    leg = "segment D A.start -30 1\nlength D 30\nhorizontal D\n"
    assert lacks(judged(BELOW + leg, program)) == [Lack.MIRRORED]


def test_construction_lines_that_lie_mirrored_are_not_good(program):
    """They hold a hole in the corner that is 3 below the axis, and is drawn above."""
    lines = BELOW.replace("segment", "construction segment")
    hole = "circle H 38 30 4\ncoincident H B.end\ndiameter H 8\n"
    assert lacks(judged(lines + hole, program)) == [Lack.MIRRORED]


def test_a_point_beside_an_edge_that_lies_mirrored_is_named(program):
    """P is drawn above the edge S, 20 from its one end and 25 from the other. A second edge leads
    away from S; its corner turns as it is drawn in the mirror image about the middle of S, 20 0,
    and so does no other."""
    text = ("segment S 0 0 40 0\nsegment T S.end 60 -20\npoint P 20 15\ncoincident S.start Origin\n"
            "horizontal S\nlength S 40\nx T.end +60\ny T.end -20\n"
            "distance P S.start 25\ndistance P S.end 25\n")
    found = judged(text, program)
    assert lacks(found) == [] and not list(mirrored(found.drawing, found.judgement.solution))
    points = dict(found.judgement.solution.points)
    x, y = points[PointRef("P", Which.AT)]
    points[PointRef("P", Which.AT)] = x, -y
    below = Solution(points, found.judgement.solution.radii)
    assert list(mirrored(found.drawing, below)) == [("S", "P S.start", "P S.end")]


def test_of_points_beside_one_edge_the_first_that_lies_mirrored_is_named():
    """Four points above each of six edges: the first has the edge, so of the others none is named,
    whatever the order of a set is in this run."""
    drawing = read_drawing("".join(
        f"segment S{n} 0 {60 * n} 40 {60 * n}\n" + "".join(
            f"point {each}{n} {x} {60 * n + 20}\ndistance {each}{n} S{n}.start 25\n"
            f"distance {each}{n} S{n}.end 25\n" for each, x in zip("DCBA", (8, 16, 24, 32)))
        for n in range(1, 7)))
    drawn = {ref: drawing.drawn(ref) for ref in drawing.points()}
    below = {ref: (int(1000 * at.x_um), -int(1000 * at.y_um)) for ref, at in drawn.items()}
    assert list(mirrored(drawing, Solution(below, {}))) == [
        (f"S{n}", f"D{n} S{n}.start", f"D{n} S{n}.end") for n in range(1, 7)]


def test_a_corner_that_turns_by_the_directions_of_its_edges_is_not_mirrored(program):
    """A rises by 11 degrees as it is drawn, and B by 10; told are 10 and 12, so that the corner
    turns to the left, and is drawn to turn to the right."""
    found = judged("segment A 0 0 40 8\nsegment B A.end 80 15\ncoincident A.start Origin\n"
                   "angle A 10deg\nangle B 12deg\nlength A 40\nlength B 40\n", program)
    assert lacks(found) == [] and found.judgement.warnings


@pytest.mark.parametrize("words", [
    "angle A +60deg\nangle B -30deg\nlength A 40\nlength B 30\n",
    "angle A +60deg\nangle YAxis B -120deg\nlength A 40\nlength B 30\n",
    "horizontal A\nvertical B\nlength A 40\ny A.end B.end -30\n",
    "horizontal A.start A.end\nvertical B.start B.end\nlength A 40\ny A.end B.end -30\n",
    "on A.end XAxis\nx A.end B.end 0\nlength A 40\ny A.end B.end -30\n",
    "horizontal A\nvertical B\nlength A 40\ny B.end -30\n",  # A begins in the origin.
    "horizontal A\nperpendicular A B\nlength A 40\ny A.end B.end -30\n",
    "x A.end +40\ny A.end -1\nx B.end +50\ny B.end -30\n",
])
def test_what_is_told_by_a_sign_is_not_mirrored(words, program):
    """The corner is drawn to turn to the left, and told to turn to the right."""
    found = judged("segment A 0 0 40 1\nsegment B A.end 50 31\ncoincident A.start Origin\n"
                   + words, program)
    assert lacks(found) == [] and found.judgement.warnings


@pytest.mark.parametrize("more", [
    "", "segment D B.end -20 50\nlength D 20\nangle B D +60deg\n",
    "segment D B.end -20 50\nlength D 20\nangle B D +60deg\n"
    "segment E C.end -20 -20\nlength E 20\nangle C E +60deg\n"])
def test_angles_of_other_lines_do_not_tell_how_corners_turn(more, program):
    """A is told by a sign to run to the left, and is drawn to the right. What is told of the other
    two edges leaves their corner above, where it is drawn: so the triangle goes round to the right,
    and is drawn to the left."""
    triangle = ("segment A Origin 40 0\nsegment B A.end 20 30\nsegment C B.end Origin\n"
                "angle A +170deg\nlength A 40\nlength B 36\nlength C 36\n")
    assert [each.text for each in reasons_against(judged(triangle + more, program))] == [
        "A, B, C lie mirrored: each corner turns the other way than it is drawn"]


@pytest.mark.parametrize("side", ["Right", "Top"])
def test_a_plate_that_is_told_to_lie_below_is_not_mirrored(side, program):
    """It is drawn above the x axis. Its right edge's end is the top edge's start; the top edge's
    end is as high, since that is horizontal."""
    found = judged("rectangle Plate 0 0 61 39\ncoincident PlateBottom.start Origin\n"
                   f"length PlateBottom 60\ny Plate{side}.end -40\n", program)
    assert lacks(found) == []
    assert found.judgement.solution.spot(PointRef("PlateRight", Which.END)) == (
        60_000_000, -40_000_000)


def test_a_sign_as_drawn_does_not_tell_that_a_plate_is_turned_over(program):
    """Its right edge is told by a sign to be on the right, where it is drawn, and its top edge
    without one to be 40 from the x axis: below it, the plate lies mirrored."""
    found = judged("rectangle Plate 0 0 61 39\ncoincident PlateBottom.start Origin\n"
                   "x PlateRight.end +60\ny PlateRight.end 40\n", program)
    assert lacks(found) == []
    assert mirrored_in_x(found) == [("PlateBottom", "PlateRight", "PlateTop", "PlateLeft")]


def test_what_is_good_where_the_rank_is_not_counted(program, monkeypatch):
    """No dimension is known to be missing then; that one is shows in the program's verdict."""
    monkeypatch.setattr("pertxogai.judging.judgement.freedoms", lambda drawing: None)
    found = judged(PLATE, program)
    assert found.judgement.free is None and lacks(found) == []
    assert lacks(judged(PLATE.replace("x Hole 30\n", ""), program)) == [Lack.VERDICT]


class SaysMore:
    """A program that is told more than is asked, as by a fault of the spelling: how far the last
    point is from the y axis."""

    def __init__(self, program) -> None:
        self._program = program

    def ask(self, words, text):
        *_, hole = re.findall(r"^point (\w+)", text, re.M)
        return self._program.ask(words, text.replace("end\n", f"distance {hole} Y 30\nend\n"))


def test_what_is_told_beside_the_drawing_is_not_good(program):
    """Nothing of the drawing says how far the hole is from the left: what is said holds, and by
    rank one dimension is missing."""
    found = judged(PLATE.replace("x Hole 30\n", ""), SaysMore(program))
    assert found.judgement.verdict is Verdict.WELL
    assert [each.text for each in reasons_against(found)] == [
        "at least 1 dimension is missing, by rank"]
    assert lacks(found) == [Lack.MISSING]


@pytest.mark.parametrize("text, whole", [
    (PLATE, ""),
    (TRIANGLE, "moved and turned"),
    (TRIANGLE + "coincident A.start Origin\n", "turned"),
    ("point P 10 10\ndistance P Origin 14\n", "turned"),
    ("circle C 10 10 5\ncoincident C Origin\nradius C 5\n", ""),
])
def test_what_is_good_and_not_tied_to_the_datum_says_so(text, whole, program):
    found = judged(text, program)
    assert lacks(found) == []
    assert drawing_json(found)["by_rank"]["whole"] == whole
    line = (f"  not tied to the origin and the axes: the whole can still be {whole} (by rank); it "
            "is placed as drawn")
    assert [each for each in drawing_lines(found) if "not tied" in each] == ([line] if whole else [])


WASHER = "circle Rim Origin 10\nradius Rim 10\n"


@pytest.mark.parametrize(("more", "lacks_so_many"), [
    # Of a point its distance: the whole may still be turned about the origin.
    ("point P 50 20\n", 1),
    ("circle Hole 50 20 5\nradius Hole 5\n", 1),
    # Of a plate x and y, or y alone; of a triangle the distance of one corner, and how it is turned.
    ("rectangle R 50 20 90 50\nlength RBottom 40\nlength RRight 30\n", 2),
    ("rectangle R 50 20 90 50\nlength RBottom 40\nlength RRight 30\nx RBottom.start 50\n", 1),
    (TRIANGLE.replace("0 0", "50 20").replace("40 2", "90 22").replace("38 30", "88 50"), 2)])
def test_what_is_not_tied_to_a_point_in_the_origin_is_open(more, lacks_so_many, program):
    found = judged(WASHER + more, program)
    assert found.judgement.verdict is Verdict.OPEN
    assert found.judgement.free.lacks == lacks_so_many


def test_what_lies_about_a_point_in_the_origin_is_good(program):
    """A is 40 long at 30 degrees, so its end is at 20 cos 30 and 20 sin 30."""
    found = judged(WASHER + "segment A -20 -10 20 10\nsymmetric A.start A.end about Rim\n"
                   "length A 40\nangle A 30deg\n", program)
    assert lacks(found) == []
    at = found.judgement.solution.spot(PointRef("A", Which.END))
    assert at == pytest.approx((17_320_508, 10_000_000), abs=2)
