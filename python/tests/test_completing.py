"""What completes a drawing: what is proposed, in which words, what it fixes, and why nothing is.

The expected lines are a hand's: what a designer would give of each, in the order of the kinds:
first relations that the drawing nearly has, then sizes, lengths, x and y, heights, distances,
angles."""
from __future__ import annotations

from collections.abc import Sequence
from dataclasses import dataclass, field, replace
from fractions import Fraction
from pathlib import Path
from random import Random

import pytest

from pertxogai.completing import (
    Completion, NoProposal, WhyNot, complete, lines_to_add, nearly)
from pertxogai.completing.trials import Trials
from pertxogai.completing.choosing import TASTES, choose, with_more
from pertxogai.completing.figure import Figure
from pertxogai.completing.fixes import Fixing
from pertxogai.completing.relations import relations
from pertxogai.completing.slack import Slack
from pertxogai.completing.values import round_degrees, round_um
from pertxogai.completing.written import as_drawn
from pertxogai.drawing import (
    AngleBetween, Coincident, Concentric, Diameter, Distance, Drawing, Length, PointLineDistance,
    Radius, XDistance, YDistance, line_of, read_drawing, words_of)
from pertxogai.judging import DrawingRefused, Question, first_good, judge
from pertxogai.judging.measure import Limit
from pertxogai.program import Answer, Solver
from pertxogai.program.reports import Verdict
from pertxogai.search.searched import Searched
from shared_drawings import SHRUNKEN_TRIANGLE

TESTS = Path(__file__).parent
GALLERY = sorted((TESTS / "drawings").glob("*.drawing"))
OPEN = [path for path in GALLERY if path.read_text().startswith("# expect open")]
WELL = [path for path in GALLERY if path.read_text().startswith("# expect well")]
BEYOND = sorted((TESTS / "beyond_triangles").glob("*.drawing"))
DIMENSIONS = (Length, Distance, XDistance, YDistance, PointLineDistance, Radius, Diameter,
              AngleBetween)

PLATE = "rectangle Plate 0 0 80 50\ncoincident PlateBottom.start Origin\n"
LOOSE = "segment A 0 0 40 0.3\nsegment B A.end 40.2 30\n"
WALL = "segment W 0 -20 100 -20\nfixed W\n"
CRANK = "segment A 0 0 30 40\nlength A 50\n"
SECOND = "segment B A.end 70 70\nlength B 50\n"


# -- values

@pytest.mark.parametrize("value_um, written_um", [
    (40_000.4, 40_000), (39_996.1, 40_000), (12_344.9, 12_340), (300.6, 300), (104.2, 104),
    (1.4, 1), (0.2, 1)])
def test_a_length_is_written_to_a_hundredth_of_a_millimetre_where_that_is_near(value_um,
                                                                              written_um):
    assert round_um(value_um) == written_um


@pytest.mark.parametrize("value, written", [
    (59.9999, 60), (44.994, Fraction("44.99")), (-7.1251, Fraction("-7.13"))])
def test_an_angle_is_written_to_a_hundredth_of_a_degree(value, written):
    assert round_degrees(value) == written


# -- relations

@pytest.mark.parametrize("text, lines", [
    ("segment A 0 0 40 0.6\n", ["horizontal A"]),  # 0.86 degrees.
    ("segment A 0 0 40 0.8\n", []),  # 1.15 degrees.
    ("segment A 0 0 0.5 40\n", ["vertical A"]),
    ("segment A 0 0 40 20\nsegment B A.end 20 60\n", ["perpendicular A B", "equal A B"]),
    ("segment A 0 0 40 20\nsegment B 5 30 25 40.2\n", ["parallel A B"]),
    ("circle C 0 0 5\ncircle D 30 10 5.04\n", ["equal C D"]),
    ("circle C 0 0 5\ncircle D 30 10 5.06\n", []),
    ("circle C 0 0 5\ncircle D 9 6 5.8\n", ["tangent C D"]),  # 10.817 apart, 10.8 for both radii.
    ("circle C 0 0 5\nsegment A -20 3.26 20 6.76\n", ["tangent A C"]),  # 4.991 off.
    ("circle C 0 0 5\nsegment A -20 3 20 6.5\n", []),  # 4.732 off.
    ("segment A 0 0 40 20\nsegment B 40.01 20 60 70\n", ["coincident A.end B.start"]),
    ("circle C 0 0 5\ncircle D 0.01 0 9\n", ["concentric C D"]),
    ("segment A 0 0 40 20\npoint P 20 10.01\n", ["on P A"]),
])
def test_relations_that_are_nearly_so(text, lines):
    found = relations(Figure(read_drawing(text)))
    assert [words_of(each.constraint) for each in found] == lines


# -- what is chosen, by rank alone

@pytest.mark.parametrize("text, own, datum", [
    # A plate of which nothing is told but the corner: both lengths.
    (PLATE, ["length PlateBottom 80", "length PlateRight 50"], []),
    # Two edges that are nearly square: one level, one upright, then both lengths, then the place.
    # The ends of A come together halfway in y, to 0.15, and then those of B in x, to 40.1.
    (LOOSE, ["horizontal A", "vertical B", "length A 40.1", "length B 29.85"],
     ["coincident A.start Origin"]),
    # Two holes of one size on one level, in a plate that stands.
    (PLATE + "fixed PlateTop.start\ncircle H 20 25 4\ncircle K 60.1 25.2 4.01\n",
     ["horizontal H.centre K.centre", "equal H K", "diameter H 8.01", "x H.centre 20",
      "y H.centre 25.1", "x K.centre 60.1"], []),
    # A lone circle: its size, and where it lies.
    ("circle C 12 5 3\n", ["diameter C 6"], ["x C.centre 12", "y C.centre 5"]),
    # Two circles drawn a micrometre off one centre, so that all of them may turn: one centre.
    ("circle C 12 5 3\ncircle D 12.001 5 6\n", ["concentric C D", "diameter C 6", "diameter D 12"],
     ["x C.centre 12", "y C.centre 5"]),
    # An edge of a given length that leans by 30 degrees: its direction, and the place of an end.
    ("segment A 2 1 19.32 11\nlength A 20\n", [],
     ["angle A +30deg", "x A.start 2", "y A.start 1"]),
    # A crank of 50 about the origin: 40 high over 30, so it rises by 53.13 degrees.
    (WALL + CRANK + "coincident A.start Origin\n", ["angle A +53.13deg"], []),
    # Behind it a second one: its way is 30 high over 40, 36.87 degrees, 16.26 less.
    (WALL + CRANK + SECOND + "coincident A.start Origin\n",
     ["angle A +53.13deg", "angle A B 163.74deg"], []),
    # Where nothing is tied, the corner of both, and apart the turn of the whole.
    (CRANK + SECOND, ["angle A B 163.74deg"], ["angle A +53.13deg", "coincident A.start Origin"]),
    # A door on the wall: its angle with that, and not with the x axis.
    (WALL + "segment D W.start 60 60\nlength D 100\n", ["angle W D 53.13deg"], []),
    # A bar beside the wall: the place of an end, and then its angle.
    (WALL + "segment D 10 10 40 50\nlength D 50\n",
     ["x D.start 10", "y D.start 10", "angle D +53.13deg"], []),
    # A bar 9 mm from an axis: that it is parallel to it, its length, and where along it.
    ("segment B 3 9 28 9\ndistance B XAxis 9\n", ["parallel B XAxis", "length B 25"],
     ["x B.start 3"]),
])
def test_what_a_designer_would_give(text, own, datum):
    slack = Slack.of(read_drawing(text))
    choice = choose(slack, TASTES[0])
    assert [words_of(each) for each in choice.own] == own
    assert [words_of(each) for each in choice.datum] == datum


def test_the_order_of_kinds_decides():
    slack = Slack.of(read_drawing(PLATE))
    chosen = [[words_of(each) for each in choose(slack, taste).own] for taste in TASTES[1:]]
    by_lengths = ["length PlateBottom 80", "length PlateRight 50"]
    by_runs = ["x PlateBottom.end 80", "y PlateRight.end 50"]
    assert chosen == [by_lengths, by_runs, by_runs, by_lengths, by_runs, by_lengths]


def test_what_is_refused_is_told_otherwise():
    slack = Slack.of(read_drawing(PLATE))
    taste = TASTES[0].without(read_drawing(PLATE + "length PlateBottom 80\n").constraints[-1])
    assert [words_of(each) for each in choose(slack, taste).own] == [
        "length PlateRight 50", "length PlateTop 80"]


# -- the numbers that stand in the drawing

@pytest.mark.parametrize("shapes, line, drawn", [
    ("circle C 0 0 5\n", "diameter C 10.3", "diameter C 10"),
    ("arc A 0 0 5 0 0 5\n", "radius A 5.2", "radius A 5"),
    ("segment S 0 0 3 4\n", "length S 5.1", "length S 5"),
    ("segment S 0 0 3 4\n", "distance S.start S.end 5.1", "distance S.start S.end 5"),
    ("segment S 1 1 4 5\n", "x S.end 3.83", "x S.end 4"),
    ("segment S 1 1 4 5\n", "y S.start S.end 4.17", "y S.start S.end 4"),
    ("segment S 0 0 10 0\npoint P 4 2\n", "distance P S 2.1", "distance P S 2"),
    ("segment S 0 0 10 0\nsegment T S.start 6 8\n", "angle S T 53.4deg", "angle S T 53.13deg"),
    ("segment S 0 0 10 0\nsegment T S.start 0 8\n", "angle S T 88deg", "perpendicular S T"),
    ("segment T 0 0 6 8\n", "angle T +54deg", "angle T +53.13deg"),
    ("segment T 0 0 6 0\n", "angle T +2deg", "horizontal T"),
    # What is drawn on an axis, or above another point, is told so.
    ("point P 0 10\n", "x P 0.17", "on P YAxis"),
    ("segment S 5 1 5 9\n", "x S.start S.end 0.17", "vertical S.start S.end"),
    # Placed on the other side of the origin, and on the same line: no number of the drawing.
    ("point P 5 10\n", "x P -5", None),
    ("segment S 0 0 10 0\nsegment T 2 1 5 1\n", "angle S T 3deg", None),
    ("segment S 0 0 10 0\n", "horizontal S", None)])
def test_a_dimension_has_the_value_that_is_drawn(shapes, line, drawn):
    dimension = read_drawing(f"{shapes}{line}\n").constraints[-1]
    found = as_drawn(dimension, Figure(read_drawing(shapes)))
    assert (None if found is None else words_of(found)) == drawn


SLOT = """
rectangle Plate 0 0 80 50
coincident PlateBottom.start Origin
length PlateBottom 80
length PlateRight 50
segment Lower 30 20 51 20
arc East 50 25 Lower.end 51 30
segment Upper East.end 30 30
arc West 30 25 Upper.end Lower.start
horizontal Lower
tangent Lower East
tangent East Upper
tangent Upper West
tangent West Lower
radius East 5
equal East West
x West.centre East.centre 20
y East.centre 25
"""
TRIANGLE = """
segment A 0 0 40 0
segment B A.end 64 36
segment C B.end A.start
coincident A.start Origin
horizontal A
length A 30
length B 40
"""


@pytest.mark.parametrize("text, lines", [
    # The slot's centre is drawn at x = 50, and the end of its arc a millimetre too far to the
    # right, so the search moves it.
    (SLOT, ["x East.centre 50"]),
    # A plate that is drawn 100 wide and told to be 120: its height and the hole are as drawn.
    ("rectangle P 0 0 100 60\ncircle H 25 30 6\nlength PBottom 120\ndiameter H 12\n"
     "distance H PLeft 30\n", ["length PRight 60", "y PBottom.start H.centre 30"]),
    # The hole is drawn at the origin, and the whole is as it is drawn.
    ("rectangle P -20 -20 20 20\nx PBottom.start -20\ny PBottom.start -20\nlength PBottom 40\n"
     "length PRight 40\ncircle H 0 0 5\ndiameter H 10\n", ["coincident H.centre Origin"]),
    # Drawn at a tenth of its size: no number of it is that of the part.
    ("rectangle P 0 0 12 8\ncoincident PBottom.start Origin\nlength PBottom 120\n",
     ["length PRight 80"])])
def test_values_are_the_numbers_that_are_drawn(text, lines, program):
    found = complete(read_drawing(text), program)
    assert isinstance(found, Completion)
    assert [each.line() for each in found.proposals] == lines


@pytest.mark.parametrize("name, line", [
    ("bracket", "x H1.centre 44"),  # Drawn at 44, 11.
    ("slot-without-length", "length Lower 29"),  # Drawn from 0, -8 to 29, -8.
    ("plate-without-place", "coincident PlateBottom.start Origin"),  # Drawn at 0, 0.
    ("four-bar", "angle Crank +58.3deg")])  # Drawn to 21, 34: its tangent is 1.61905.
def test_values_of_the_gallery_are_those_that_are_drawn(name, line, program):
    text = (TESTS / f"drawings/open-{name}.drawing").read_text()
    found = complete(read_drawing(text), program)
    assert isinstance(found, Completion) and line in [each.line() for each in found.proposals]


AWAY = "segment S 21 9 87 57\ncoincident S.start Origin\n"
"""The rough drawing lies away from the origin that one of its points is told to be. S runs 66 to the
right and 48 up: the root of 6660, 81.608, at 36.027 degrees."""


@pytest.mark.parametrize("text, own, datum", [
    ("rectangle P 21 9 87 57\ncoincident PBottom.start Origin\n",
     ["length PBottom 66", "length PRight 48"], []),
    (AWAY, ["length S 81.61"], ["angle S +36.03deg"]),
    # The hole is drawn 22 to the right of the corner, and 21 above it.
    ("rectangle P 21 9 87 57\ncircle H 43 30 6\ncoincident PBottom.start Origin\ndiameter H 12\n",
     ["length PBottom 66", "length PRight 48", "x H.centre 22", "y H.centre 21"], []),
    # S stays where it is fixed, and so does the hole; A alone is moved.
    ("point A 10 10\nsegment S 40 40 90 40\ncircle H 70 60 5\ncoincident A Origin\nfixed S.start\n"
     "horizontal S\ndiameter H 10\nlength S 50\n", ["x H.centre 70", "y H.centre 60"], []),
    # The mean of the two is -495: S is drawn 535 to the right of it, and above it.
    ("point Far -1000 -1000\npoint A 10 10\nsegment S 40 40 90 40\ncoincident Far Origin\n"
     "coincident A Origin\nhorizontal S\nlength S 50\n", ["x S.start 535", "y S.start 535"], []),
    # The same, though S begins in A: A lies in one place. H is drawn 555 to the right of the mean, and 525 above it.
    ("point Far -1000 -1000\npoint A 10 10\nsegment S A 50 10\ncircle H 60 30 5\ncoincident Far Origin\n"
     "coincident A Origin\nhorizontal S\nlength S 40\ndiameter H 10\n", ["x H.centre 555", "y H.centre 525"], []),
    # How S runs doesn't say where it lies: H is drawn 50 to the right of A, and 20 above it.
    *((f"point A 10 10\nsegment S A 50 10\ncircle H 60 30 5\ncoincident A Origin\n{runs}\nlength S 40\n"
       "diameter H 10\n", ["x H.centre 50", "y H.centre 20"], [])
      for runs in ("parallel S XAxis", "perpendicular S YAxis")),
])
def test_values_are_as_drawn_from_a_point_that_is_told_to_be_the_origin(
        text, own, datum, program):
    found = complete(read_drawing(text), program)
    assert isinstance(found, Completion)
    assert ([each.line() for each in found.proposals], [each.line() for each in found.datum]) == (own, datum)


def test_the_whole_is_tied_by_an_edge_that_is_drawn_level(program):
    # A is drawn along the x axis, and C is the longest; the lengths turn both a little.
    sides = TRIANGLE.replace("coincident A.start Origin\nhorizontal A\n", "")
    found = complete(read_drawing(sides), program)
    assert isinstance(found, Completion)
    assert [each.line() for each in found.datum] == ["horizontal A", "coincident A.start Origin"]


def test_a_drawn_number_that_cannot_be_had_leaves_the_others_as_they_are(program):
    # C is drawn 73.43 long, from 64, 36 to the origin; beside 30 and 40 it is less than 70. Its
    # slope changes with that, and x of the hole on it, drawn at 20, can be had all the same.
    hole = "circle H 20 11.25 3\non H.centre C\n"
    shapes, constraints = TRIANGLE.split("coincident", 1)
    found = complete(read_drawing(f"{shapes}{hole}coincident{constraints}"), program)
    assert isinstance(found, Completion)
    size, side, run = (each.constraint for each in found.proposals)
    assert (words_of(size), words_of(run)) == ("diameter H 6", "x H.centre 20")
    assert isinstance(side, Length) and side.segment.name == "C"
    assert 10_000 < side.value_um < 70_000
    drawn = [each.drawn and line_of(each.drawn) for each in found.proposals]
    assert drawn == [None, "length C 73.43", None]


# -- what the program says of it

@pytest.mark.parametrize("path", OPEN, ids=lambda path: path.stem)
def test_an_open_drawing_comes_to_well(path, program):
    drawing = read_drawing(path.read_text())
    found = complete(drawing, program)
    assert isinstance(found, Completion)
    lines = [each.line() for each in found.all()]
    # Points that are made one lose two freedoms by one line.
    takes = [2 if isinstance(each.constraint, Coincident | Concentric) else 1
             for each in found.all()]
    assert sum(takes) == Searched(drawing).freedom.count and len(lines) == len(set(lines))
    assert not set(lines) & set(drawing.wordings)
    assert found.drawing.constraints[:len(drawing.constraints)] == drawing.constraints
    assert Searched(found.drawing).freedom.count == 0
    assert all(each.fixes for each in found.all())


@pytest.mark.parametrize("path", WELL[::5], ids=lambda path: path.stem)
def test_a_third_of_the_dimensions_taken_away_comes_back_to_well(path, program):
    drawing = read_drawing(path.read_text())
    dimensions = [each for each in drawing.constraints if isinstance(each, DIMENSIONS)]
    gone = Random(path.stem).sample(dimensions, -(-len(dimensions) // 3))
    left = tuple(each for each in drawing.constraints if each not in gone)
    found = complete(replace(drawing, constraints=left), program)
    if isinstance(found, NoProposal):
        assert found.why is WhyNot.NOTHING and not Searched(drawing).freedom.count
    else:
        assert isinstance(found, Completion)  # That is made of what is good alone.


@pytest.mark.parametrize("text, why", [
    (PLATE + "length PlateBottom 80\nlength PlateRight 50\n", WhyNot.NOTHING),
    (PLATE + "length PlateBottom 80\nlength PlateTop 80\n", WhyNot.OVER),
    ("segment A 0 0 10 0\nsegment B A.end 15 8\nsegment C B.end A.start\n"
     "length A 10\nlength B 10\nlength C 30\n", WhyNot.NO_PLACES),
    (SHRUNKEN_TRIANGLE, WhyNot.VANISHED),
    # 400 loose circles have 1,200 freedoms, which are met as they are drawn.
    ("".join(f"circle C{n} {n % 20 * 9} {n // 20 * 9} 2\n" for n in range(400)),
     WhyNot.TOO_MUCH)])
def test_why_nothing_is_proposed(text, why, program):
    found = complete(read_drawing(text), program)
    assert isinstance(found, NoProposal) and found.why is why


@pytest.mark.parametrize("why", [
    WhyNot.NO_PLACES, WhyNot.VANISHED, WhyNot.TOO_MUCH, WhyNot.RIGID], ids=lambda why: why.name)
def test_a_reason_that_the_search_finds_says_so(why):
    assert "(by numbers)" in why.value


def test_of_an_empty_drawing_nothing_is_missing(program):
    found = complete(Drawing(), program)
    assert isinstance(found, NoProposal) and found.why is WhyNot.NOTHING


def test_what_is_rigid_beyond_triangles_lacks_nothing(program):
    frame = (TESTS / "beyond_triangles/frame-of-nine-bars.drawing").read_text()
    found = complete(read_drawing(frame), program)
    # It floats, so that what would tie it is free; the program finds no construction with that.
    assert isinstance(found, NoProposal) and found.why is WhyNot.STUCK


def test_what_is_no_drawing_of_a_sketch_is_refused_as_judge_refuses_it(program) -> None:
    closed = read_drawing("segment A 0 0 10 0\npoint P 3 3\ncoincident A.start P\n"
                          "coincident P A.end\n")
    with pytest.raises(DrawingRefused, match="makes both ends of A one point"):
        complete(closed, program)


def test_what_each_line_fixes(program):
    found = complete(read_drawing(PLATE), program)
    assert [(each.line(), each.fixes) for each in found.proposals] == [
        ("length PlateBottom 80", ("PlateBottom.end", "PlateRight.end along x")),
        ("length PlateRight 50", ("PlateRight.end", "PlateTop.end"))]


def test_equal_radii_fix_no_position(program):
    found = complete(read_drawing("circle A 0 0 10\ncircle B 40 0 10.05\n"), program)
    assert [(each.line(), each.fixes) for each in found.proposals][:2] == [
        ("equal A B", ("the sizes of A and B relative to each other",)),
        ("diameter A 20", ("the size of A", "the size of B"))]


@pytest.mark.parametrize("text, own, datum", [
    # Three freedoms besides those of the whole: two sizes, and how far apart. x says that only of
    # two circles that are kept level.
    ("circle A 0 0 10\ncircle B 40 0 12\n",
     ["diameter A 20", "diameter B 24", "x A.centre B.centre 40", "horizontal A.centre B.centre"],
     ["coincident A.centre Origin"]),
    # Three sizes and three sides, of which the first is given as an x.
    ("circle A 0 0 10\ncircle B 40 0 12\ncircle C 80 30 4\n",
     ["diameter A 20", "diameter B 24", "diameter C 8", "x A.centre B.centre 40",
      "distance B.centre C.centre 50", "distance A.centre C.centre 85.44",
      "y A.centre C.centre 30"], ["coincident A.centre Origin"]),
    # Its first side slants, so that three distances are the shape, and y only turns it.
    ("circle A 0 0 10\ncircle B 40 1 12\ncircle C 80 30 4\n",
     ["diameter A 20", "diameter B 24", "diameter C 8", "distance A.centre B.centre 40.01",
      "distance B.centre C.centre 49.41", "distance A.centre C.centre 85.44"],
     ["coincident A.centre Origin", "y A.centre C.centre 30"])])
def test_nothing_is_missing_without_what_ties_the_whole(text, own, datum, program):
    drawing = read_drawing(text)
    found = complete(drawing, program)
    assert [each.line() for each in found.proposals] == own
    assert [each.line() for each in found.datum] == datum
    alone = judge(with_more(drawing, [each.constraint for each in found.proposals]), program)
    assert alone.verdict is Verdict.WELL and alone.free.lacks == 0


def test_the_lines_alone_are_told_without_what_each_fixes(program, monkeypatch):
    # That is ranked once for each line, which takes seconds where hundreds are missing.
    monkeypatch.setattr(Fixing, "loose", None)
    assert lines_to_add(read_drawing(PLATE), program) == (
        "length PlateBottom 80", "length PlateRight 50")
    whole = PLATE + "length PlateBottom 80\nlength PlateRight 50\n"
    assert lines_to_add(read_drawing(whole), program) == ()


@dataclass
class Texts:
    """A program, and the sketches that it was asked about, in order."""

    program: Solver
    asked: list[str] = field(default_factory=list)

    def ask(self, words: Sequence[str], text: str) -> Answer:
        self.asked.append(text)
        return self.program.ask(words, text)


@pytest.mark.parametrize("text, lines, questions", [
    # Two lengths: the plate with both, and with each a little more and a little less.
    (PLATE, 2, 1 + 2 * 2),
    # Two lengths, and the size, x and y of a hole; no line of the sketch tells the size, so it is
    # the same with another. Then once more with the place of the corner.
    ("rectangle Plate 0 0 80 50\ncircle H 20 30 5\n", 5, 1 + 2 * 4 + 1)])
def test_how_many_questions_are_asked(text, lines, questions, program):
    texts = Texts(program)
    found = complete(read_drawing(text), texts)
    assert isinstance(found, Completion) and len(found.proposals) == lines
    assert len(texts.asked) == len(set(texts.asked)) == questions


def test_where_edges_have_come_to_nothing_no_proposal_is_tried(program):
    drawing = read_drawing(SHRUNKEN_TRIANGLE)
    texts = Texts(program)
    found = complete(drawing, texts)
    assert isinstance(found, NoProposal) and found.why is WhyNot.VANISHED
    alone = Texts(program)
    first_good(Question(drawing, alone))
    assert texts.asked == alone.asked


def test_a_drawing_in_which_something_is_told_twice_is_asked_about_first(program):
    texts = Texts(program)
    drawing = read_drawing(PLATE + "length PlateBottom 80\nlength PlateTop 80\n")
    assert isinstance(complete(drawing, texts), NoProposal)
    alone = Texts(program)
    first_good(Question(drawing, alone))
    assert texts.asked == alone.asked


def test_a_value_that_leaves_no_room_is_given_up_for_another(program):
    # A triangle that is drawn flat: its third length has no room, an angle or a height has.
    text = ("segment A 0 0 30 0\nsegment B A.end 70 0.2\nsegment C B.end A.start\n"
            "length A 30\nlength B 40\n")
    drawing = read_drawing(text)
    tight = read_drawing(text + "length C 70\n")
    trials = Trials(program, Limit())
    assert trials.without_room(tight, range(2, 3)) == tight.constraints[-1]
    found = complete(drawing, program)
    assert isinstance(found, Completion)
    assert "length C" not in " ".join(each.line() for each in found.all())


def test_a_value_that_leaves_no_room_is_told_as_it_is_drawn(program):
    # Two coins of radius 15 fill a ring of radius 30: the second has room only as drawn, 18 wide.
    ring = (TESTS / "drawings/coins-in-a-ring.drawing").read_text()
    found = complete(read_drawing(ring.replace("radius B 10\n", "")), program)
    assert isinstance(found, Completion)
    assert [each.line() for each in found.proposals] == ["diameter B 18"]


def test_an_angle_with_a_sign_is_told_where_a_corner_is_drawn_the_other_way(program):
    # Up is drawn falling and told to rise, so the corner turns over; Down is drawn 12 over 16.
    text = (TESTS / "drawings/angle-signs.drawing").read_text()
    found = complete(read_drawing(text.replace("angle Down -3/4\n", "")), program)
    assert isinstance(found, Completion)
    assert [each.line() for each in found.proposals] == ["angle Down +36.87deg"]


def test_what_is_nearly_so_and_free_or_told_otherwise():
    # A leans by 0.43 degrees, and its ends are told so: nothing of it is free.
    text = "segment A 0 0 40 0.3\nfixed A\nsegment B 0 10 40 10.2\n"
    found = [(each.line, round(each.off, 3), each.unit, each.is_free)
             for each in nearly(read_drawing(text))]
    assert found == [("horizontal A", 0.43, "degrees", False),
                     ("horizontal B", 0.286, "degrees", True),
                     ("parallel A B", 0.143, "degrees", True),
                     ("equal A B", 0.001, "mm", True)]


def test_what_follows_is_not_nearly_so():
    assert nearly(read_drawing(PLATE + "length PlateBottom 80\nlength PlateRight 50\n")) == ()


@pytest.mark.parametrize("touch", ["tangent S A", "tangent A S", "tangent S.end A.start"])
def test_a_touch_of_an_arc_that_is_told_is_not_nearly_so(touch):
    """The arc's radius is the height of its centre over S, which is no whole number of
    micrometres where the arc is placed."""
    text = "segment S 0 0 40 0\nhorizontal S\nlength S 40\n"
    assert nearly(read_drawing(f"{text}arc A 40 12.3 S.end 52.4 13\n{touch}\n")) == ()


def test_lines_are_added_behind_the_drawing_with_its_notes():
    drawing = read_drawing("# a plate\n" + PLATE + "# its end\n")
    more = read_drawing(PLATE + "length PlateBottom 80\n").constraints[-1:]
    assert with_more(drawing, more).notes == drawing.notes
    assert line_of(with_more(drawing, more).constraints[-1]) == "length PlateBottom 80"
    assert isinstance(drawing, Drawing) and BEYOND
