"""Figures of several shapes, and copies that are kept like what they are copied from: the text, an
edit, the text behind it, worked out by hand; and what the program says of them."""
from __future__ import annotations

import json

import pytest

pytest.importorskip("flask", reason="the board needs Debian's python3-flask")
pytest.importorskip("numpy", reason="copies are held by rank, by Debian's python3-numpy")

from test_board_edits import edited, lines, trouble  # noqa: E402

from pertxogai.board.calls import Desk  # noqa: E402
from pertxogai.drawing import read_drawing  # noqa: E402
from pertxogai.program import Program  # noqa: E402
from pertxogai.search import search  # noqa: E402

HOLE = "circle C1 20 5 4\n"
TOLD_HOLE = HOLE + "radius C1 4\nx C1 20\ny C1 5\n"
RECTANGLE = ("rectangle R 0 0 100 60\ncoincident RBottom.start Origin\nlength RBottom 100\n"
             "length RRight 60\n")
SIDES = ["RBottom", "RRight", "RTop", "RLeft"]
SLOT = """segment Right 0 -8 30 -8
arc End 30 0 Right.end 30 8
segment Left End.end 0 8
arc Start 0 0 Left.end Right.start
tangent Right End
tangent End Left
tangent Left Start
tangent Start Right
equal End Start
radius End 8
coincident Start.centre Origin
horizontal Start.centre End.centre
distance Start.centre End.centre 30
"""
OF_SLOT = ["Right", "End", "Left", "Start"]
SLANTED = "segment M 60 -10 70 20\nx M.start 60\ny M.start -10\nlength M 30\nangle M 60deg\n"
TRIANGLE = ("segment A 10 0 20 3\nsegment B A.end 14 9\nsegment C B.end A.start\nlength A 10\n"
            "length B 8\nlength C 9\nx A.start 10\ny A.start 1\nhorizontal A\n")


def place(x: float, y: float) -> dict[str, float]:
    return {"x": x, "y": y}


ORIGIN = {"point": "Origin"}


# Figures.

def test_a_polygon_has_equal_sides_on_a_circle() -> None:
    """A hexagon of radius 10: its corners at 60 degrees lie 5 beside and 8.66 above."""
    assert lines("", do="draw", figure="polygon", spots=[ORIGIN, place(10, 0)], sides=6) == [
        "construction circle G1 Origin 10", "segment G1Side1 10 0 5 8.66",
        "segment G1Side2 G1Side1.end -5 8.66", "segment G1Side3 G1Side2.end -10 0",
        "segment G1Side4 G1Side3.end -5 -8.66", "segment G1Side5 G1Side4.end 5 -8.66",
        "segment G1Side6 G1Side5.end G1Side1.start",
        *(f"on G1Side{number}.start G1" for number in range(1, 7)),
        *(f"equal G1Side1 G1Side{number}" for number in range(2, 7))]


@pytest.mark.parametrize("sides", [2, 41, 0])
def test_a_polygon_has_three_sides_at_least(sides: int) -> None:
    said = trouble("", do="draw", figure="polygon", spots=[ORIGIN, place(10, 0)], sides=sides)
    assert "from 3 to 40" in said


def test_a_second_polygon_has_other_names() -> None:
    text = edited("", do="draw", figure="polygon", spots=[ORIGIN, place(10, 0)], sides=3)["text"]
    found = lines(text, do="draw", figure="polygon", spots=[ORIGIN, place(5, 0)], sides=3)
    assert "construction circle G2 Origin 5" in found


def test_a_rectangle_round_its_centre() -> None:
    spots = [place(5, 5), place(15, 0)]
    assert lines("", do="draw", figure="centre-rectangle", spots=spots)[-6:] == [
        "construction point R1Centre 5 5", "horizontal R1Bottom", "vertical R1Right",
        "horizontal R1Top", "vertical R1Left",
        "symmetric R1Bottom.start R1Top.start about R1Centre"]
    assert lines("", do="draw", figure="centre-rectangle", spots=[ORIGIN, place(10, 3)])[-1] == (
        "symmetric R1Bottom.start R1Top.start about Origin")


@pytest.mark.parametrize("at, to, arc", [
    ("S1.end", (20, 10), "arc A1 10 10 S1.end 20 10"),
    ("S1.end", (20, -10), "arc A1 10 -10 20 -10 S1.end"),
    ("S1.start", (-10, 10), "arc A1 0 10 -10 10 S1.start"),
    ("S1.end", (10, 20), "arc A1 10 10 S1.end 10 20")])
def test_an_arc_goes_on_from_an_end(at: str, to: tuple[float, float], arc: str) -> None:
    """The centre lies square to the segment, as far from its end as from the other place."""
    assert lines("segment S1 0 0 10 0\n", do="draw", figure="tangent-arc",
                 spots=[{"point": at}, place(*to)]) == [
        "segment S1 0 0 10 0", arc, "tangent S1 A1"]


def test_an_arc_goes_on_from_an_arc() -> None:
    """At the end of a quarter about (0, 10) from (0, 0) to (10, 10) it runs up: the next is about
    (20, 10), clockwise."""
    found = lines("arc A1 0 10 0 0 10 10\n", do="draw", figure="tangent-arc",
                  spots=[{"point": "A1.end"}, place(20, 20)])
    assert found[1:] == ["arc A2 20 10 20 20 A1.end", "tangent A1 A2"]


def test_an_arc_that_would_run_straight_on_is_refused() -> None:
    edit = {"do": "draw", "figure": "tangent-arc"}
    said = trouble("segment S1 0 0 10 0\n", **edit, spots=[{"point": "S1.end"}, place(30, 0)])
    assert "straight on" in said
    assert "needs the end" in trouble("segment S1 0 0 10 0\n", **edit,
                                      spots=[place(30, 0), place(1, 1)])


# Mirrored.

def test_a_hole_is_mirrored() -> None:
    assert lines(HOLE, do="mirror", shapes=["C1"], about="YAxis") == [
        "circle C1 20 5 4", "circle C2 -20 5 4", "equal C1 C2",
        "symmetric C1.centre C2.centre about YAxis"]


def test_what_lies_on_the_axis_is_shared_and_told_to() -> None:
    text = "segment A 0 10 20 10\nsegment B A.end 20 0\nhorizontal A\n"
    assert lines(text, do="mirror", shapes=["A", "B"], about="YAxis") == [
        "segment A 0 10 20 10", "segment B A.end 20 0", "segment S1 A.start -20 10",
        "segment S2 S1.end -20 0", "horizontal A", "on A.start YAxis", "horizontal S1",
        "symmetric B.end S2.end about YAxis", "equal A S1"]


def test_what_is_told_to_lie_on_the_axis_isnt_told_again() -> None:
    text = "segment A 0 10 20 10\non A.start YAxis\n"
    assert lines(text, do="mirror", shapes=["A"], about="YAxis") == [
        "segment A 0 10 20 10", "segment S1 A.start -20 10", "on A.start YAxis",
        "symmetric A.end S1.end about YAxis"]


def test_an_arc_runs_the_other_way_round_in_the_mirror() -> None:
    text = "arc A 20 0 30 0 20 10\n"
    found = lines(text, do="mirror", shapes=["A"], about="YAxis")
    assert found[1] == "arc A1 -20 0 -20 10 -30 0"
    assert "symmetric A.start A1.end about YAxis" in found


@pytest.mark.parametrize("edit, said", [
    ({"shapes": ["C1"], "about": "C1"}, "is no line"),
    ({"shapes": [], "about": "YAxis"}, "nothing"), ({"shapes": ["Z"], "about": "YAxis"}, "'Z'"),
    ({"shapes": ["S"], "about": "YAxis"}, "nothing to mirror")])
def test_what_cant_be_mirrored(edit: dict[str, object], said: str) -> None:
    assert said in trouble(HOLE + "segment S 0 3 0 9\n", do="mirror", **edit)


# In a row and in a ring.

def test_a_row_of_holes_has_one_pitch() -> None:
    assert lines(HOLE, do="row", shapes=["C1"], dx=20, dy=0, count=4)[1:] == [
        "circle C2 40 5 4", "circle C3 60 5 4", "circle C4 80 5 4",
        "x C1.centre C2.centre 20", "horizontal C1.centre C2.centre", "equal C1 C2",
        "symmetric C1.centre C3.centre about C2.centre", "equal C1 C3",
        "symmetric C2.centre C4.centre about C3.centre", "equal C1 C4"]


def test_a_row_may_lean() -> None:
    assert lines(HOLE, do="row", shapes=["C1"], dx=-20, dy=2.5, count=2)[1:] == [
        "circle C2 0 7.5 4", "x C1.centre C2.centre 20", "y C1.centre C2.centre 2.5",
        "equal C1 C2"]


def test_a_row_of_two_holes_has_one_value_for_its_pitch() -> None:
    found = lines(HOLE + "circle C2 20 25 2\n", do="row", shapes=["C1", "C2"], dx=20, dy=0, count=2)
    assert found[0] == "value Pitch1 20"
    assert found[5:] == ["x C1.centre C3.centre Pitch1", "horizontal C1.centre C3.centre",
                         "equal C1 C3", "equal C2 C4", "x C2.centre C4.centre Pitch1",
                         "horizontal C2.centre C4.centre"]


def test_a_ring_has_spokes_of_one_length_and_angle() -> None:
    assert lines("circle C1 20 0 4\n", do="ring", shapes=["C1"], about=ORIGIN, count=4)[1:] == [
        "construction segment S1 Origin C1.centre", "circle C2 0 20 4",
        "construction segment S2 Origin C2.centre", "circle C3 -20 0 4",
        "construction segment S3 Origin C3.centre", "circle C4 0 -20 4",
        "construction segment S4 Origin C4.centre",
        "equal S1 S2", "angle S1 S2 90deg", "equal C1 C2",
        "equal S1 S3", "angle S2 S3 90deg", "equal C1 C3",
        "equal S1 S4", "angle S3 S4 90deg", "equal C1 C4"]


def test_a_ring_of_two_is_symmetric() -> None:
    assert lines(HOLE, do="ring", shapes=["C1"], about=ORIGIN, count=2)[1:] == [
        "circle C2 -20 -5 4", "equal C1 C2", "symmetric C1.centre C2.centre about Origin"]


@pytest.mark.parametrize("edit, said", [
    ({"do": "row", "dx": 0, "dy": 0, "count": 3}, "no pitch"),
    ({"do": "row", "dx": 9, "dy": 0, "count": 1}, "2 to 60"),
    ({"do": "ring", "about": ORIGIN, "count": 61}, "2 to 60")])
def test_rows_and_rings_that_arent_drawn(edit: dict[str, object], said: str) -> None:
    assert said in trouble(HOLE, shapes=["C1"], **edit)


# Beside an outline.

def test_a_rectangle_inside_of_another() -> None:
    found = lines(RECTANGLE, do="offset", shapes=SIDES, size="5", x=50, y=30)
    assert found[0] == "value Offset1 5"
    assert found[5:9] == ["segment S1 5 5 95 5", "segment S2 S1.end 95 55",
                          "segment S3 S2.end 5 55", "segment S4 S3.end S1.start"]
    assert set(found[16:]) == {f"{word} {side} S{number}{more}"
                               for number, side in enumerate(SIDES, 1)
                               for word, more in (("parallel", ""), ("distance", " Offset1"))}


def test_a_rectangle_outside_of_another() -> None:
    """Half an inch is 12.7 mm. The edges go on from one to the next as they were selected."""
    found = lines(RECTANGLE, do="offset", shapes=SIDES, size="0.5 in", x=50, y=-30)
    assert found[0] == "value Offset1 0.5in"
    assert found[5:9] == ["segment S1 -12.7 -12.7 112.7 -12.7", "segment S2 S1.end 112.7 72.7",
                          "segment S3 S2.end -12.7 72.7", "segment S4 S3.end S1.start"]


def test_a_slot_inside_of_another_touches_as_that_does() -> None:
    found = lines(SLOT, do="offset", shapes=OF_SLOT, size="3", x=10, y=0)
    assert found[4:8] == ["segment S1 0 -5 30 -5", "arc A1 End.centre S1.end 30 5",
                          "segment S2 A1.end 0 5", "arc A2 Start.centre S2.end S1.start"]
    assert found[17:] == ["tangent S1 A1", "tangent A1 S2", "tangent S2 A2", "tangent A2 S1",
                          "parallel Right S1", "distance Right S1 3"]


def test_a_circle_round_another() -> None:
    assert lines(HOLE, do="offset", shapes=["C1"], size="3", x=0, y=0)[1:] == [
        "circle C2 C1.centre 7", "radius C2 7"]
    assert lines(HOLE, do="offset", shapes=["C1"], size="3", x=21, y=5)[1:] == [
        "circle C2 C1.centre 1", "radius C2 1"]


@pytest.mark.parametrize("edit, said", [
    ({"shapes": ["C1"], "size": "5", "x": 20, "y": 5}, "more than the radius"),
    ({"shapes": ["C1", "S"], "size": "5", "x": 20, "y": 5}, "no outline"),
    ({"shapes": ["S", "T"], "size": "5", "x": 20, "y": 5}, "doesn't go on"),
    ({"shapes": [], "size": "5", "x": 20, "y": 5}, "select edges"),
    ({"shapes": ["S"], "size": "no", "x": 20, "y": 5}, "'no'")])
def test_what_has_no_outline_beside_it(edit: dict[str, object], said: str) -> None:
    assert said in trouble(HOLE + "segment S 0 3 0 9\nsegment T 5 0 9 0\n", do="offset", **edit)


# Pasted.

def test_what_is_said_among_what_is_pasted_is_pasted_too() -> None:
    text = RECTANGLE + "circle C 7 7 2\nx RBottom.start C 7\nx C 7\n"
    found = lines(HOLE, do="paste", source=text, shapes=[*SIDES, "C"], dx=100, dy=1)
    assert found == [
        "circle C1 20 5 4", "segment S1 100 1 200 1", "segment S2 S1.end 200 61",
        "segment S3 S2.end 100 61", "segment S4 S3.end S1.start", "circle C2 107 8 2",
        "horizontal S1", "vertical S2", "horizontal S3", "vertical S4", "length S1 100",
        "length S2 60", "x S1.start C2.centre 7"]


def test_points_that_are_one_are_one_in_what_is_pasted() -> None:
    text = "segment A 0 0 5 0\nsegment B 5 0 9 9\npoint P 5 0\ncoincident A.end B.start P\n"
    assert lines(text, do="paste", source=text, shapes=["A", "B"], dx=0, dy=10)[3:5] == [
        "segment S1 0 10 5 10", "segment S2 S1.end 9 19"]


def test_a_text_that_cant_be_read_isnt_pasted() -> None:
    found = edited(HOLE, do="paste", source="segment A 0 0\n", shapes=["A"], dx=0, dy=0)
    assert "text" not in found and found["refused"]["line"] == 1


def test_what_is_pasted_lies_where_it_is_shown() -> None:
    """It is drawn about (14, 41), and shown about (15, 40)."""
    source = "circle C 14 41 7\nx C 15\ny C 40\nradius C 7\n"
    assert lines("point Q 9 9\n", do="paste", source=source, shapes=["C"], dx=35, dy=10)[1:] == [
        "circle C1 50 50 7", "radius C1 7"]


@pytest.mark.parametrize("text", ["point Q 9 9\n", "segment A 0 0 20 3\n"])
def test_what_is_pasted_where_it_was_is_drawn(text: str) -> None:
    found = lines(text, do="paste", source="segment A 0 0 20 3\nangle A 10deg\nfixed A.start\n",
                  shapes=["A"], dx=0, dy=0)
    name = "S1"
    assert len(found) == 3 and found[1].startswith(f"segment {name} 0 0 ")
    assert found[2] == f"angle {name} 10deg"


# Only what is true of a copy is said of it, and as it is shown.

def test_a_turned_copy_isnt_level_as_what_it_is_copied_from() -> None:
    found = lines("segment S 10 0 20 0\nparallel S XAxis\n", do="ring", shapes=["S"],
                  about=ORIGIN, count=3)
    assert [each for each in found if "Axis" in each] == ["parallel S XAxis"]
    assert "angle S S3 +120deg" in found


def test_a_copy_mirrored_in_a_slanted_line_isnt_level() -> None:
    text = "segment S 10 0 20 0\nsegment M 30 0 40 20\nparallel S XAxis\nperpendicular S YAxis\n"
    found = lines(text, do="mirror", shapes=["S"], about="M")
    assert [each for each in found if "Axis" in each] == [
        "parallel S XAxis", "perpendicular S YAxis"]
    level = lines(text, do="mirror", shapes=["S"], about="YAxis")
    assert "parallel S1 XAxis" in level


def test_what_a_ring_is_about_isnt_turned() -> None:
    said = trouble(HOLE, do="ring", shapes=["C1"], about={"point": "C1.centre"}, count=4)
    assert "nothing to turn" in said


def test_a_circle_beside_one_goes_by_its_told_radius() -> None:
    text = "circle C 0 0 5\nradius C 50\ncoincident C.centre Origin\n"
    inside = lines(text, do="offset", shapes=["C"], size="2", x=30, y=0)
    assert inside[1] == "circle C1 C.centre 48" and inside[-1] == "radius C1 48"


def test_an_outline_goes_to_the_side_of_what_is_shown() -> None:
    """It is drawn 10 mm wide, and told to be 100."""
    text = ("rectangle R 0 0 10 10\ncoincident RBottom.start Origin\nlength RBottom 100\n"
            "length RRight 100\n")
    inside = lines(text, do="offset", shapes=SIDES, size="3", x=50, y=50.5)
    outside = lines(text, do="offset", shapes=SIDES, size="3", x=50, y=-1)
    assert "segment S1 3 3 7 3" in inside and "segment S1 -3 -3 13 -3" in outside


@pytest.mark.parametrize("text, shapes, size, at", [
    ("rectangle R 0 0 10 10\n", SIDES, "6", (5, 5)),
    ("segment A 0 0 8 0\nsegment B A.end 4 9\nsegment C B.end A.start\n", ["A", "B", "C"], "5",
     (4, 3)),
    (SLOT, OF_SLOT, "9", (15, 0))])
def test_an_outline_that_has_no_room_is_refused(text: str, shapes: list[str], size: str,
                                                at: tuple[float, float]) -> None:
    said = trouble(text, do="offset", shapes=shapes, size=size, x=at[0], y=at[1])
    assert "has no room" in said or "smaller" in said


@pytest.mark.parametrize("edit", [
    {"do": "row", "shapes": ["C1"], "dx": 1e308, "dy": 0, "count": 3},
    {"do": "row", "shapes": ["C1"], "dx": 10 ** 400, "dy": 0, "count": 3},
    {"do": "ring", "shapes": ["C1"], "count": 3},
    {"do": "draw", "figure": "slot", "spots": [place(0, 0), place(9, 0)]}])
def test_what_an_edit_may_not_have_is_told(edit: dict[str, object]) -> None:
    said = trouble(HOLE, **edit)
    assert "a fault of the board" not in said and said


# Held with none too many, and placed.

COPIES: list[tuple[str, dict[str, object]]] = [
    (TOLD_HOLE, {"do": "mirror", "shapes": ["C1"], "about": "YAxis"}),
    (TOLD_HOLE + SLANTED, {"do": "mirror", "shapes": ["C1"], "about": "M"}),
    (SLOT + SLANTED, {"do": "mirror", "shapes": OF_SLOT, "about": "M"}),
    (SLOT, {"do": "mirror", "shapes": OF_SLOT, "about": "YAxis"}),
    (TRIANGLE, {"do": "mirror", "shapes": ["A", "B", "C"], "about": "XAxis"}),
    (TOLD_HOLE, {"do": "row", "shapes": ["C1"], "dx": 20, "dy": 0, "count": 5}),
    (TOLD_HOLE, {"do": "row", "shapes": ["C1"], "dx": 20, "dy": -7, "count": 3}),
    (SLOT, {"do": "row", "shapes": OF_SLOT, "dx": 0, "dy": 25, "count": 3}),
    (TRIANGLE, {"do": "row", "shapes": ["A", "B", "C"], "dx": 20, "dy": 0, "count": 3}),
    (TOLD_HOLE, {"do": "ring", "shapes": ["C1"], "about": ORIGIN, "count": 6}),
    (TOLD_HOLE, {"do": "ring", "shapes": ["C1"], "about": ORIGIN, "count": 2}),
    (TRIANGLE, {"do": "ring", "shapes": ["A", "B", "C"], "about": ORIGIN, "count": 3}),
    (SLOT + "point P 60 0\nx P 60\ny P 0\n",
     {"do": "ring", "shapes": OF_SLOT, "about": {"point": "P"}, "count": 5}),
    (RECTANGLE, {"do": "offset", "shapes": SIDES, "size": "5", "x": 50, "y": 30}),
    (SLOT, {"do": "offset", "shapes": OF_SLOT, "size": "3", "x": 10, "y": 40}),
    (TOLD_HOLE, {"do": "offset", "shapes": ["C1"], "size": "3", "x": 10, "y": 40})]


@pytest.mark.parametrize("text, edit", COPIES, ids=lambda it: it["do"] if "do" in it else "")
def test_a_copy_of_what_is_well_is_well(text: str, edit: dict[str, object],
                                        program: Program) -> None:
    found = Desk(program).answer("edit", json.loads(json.dumps({"text": text, "edit": edit})))
    judgement = found["judgement"]
    assert (judgement["verdict"], judgement["good"]) == ("well", True), found["text"]


OPEN: list[tuple[str, dict[str, object], int]] = [
    (SLOT.replace("radius End 8\n", ""), {"do": "row", "shapes": OF_SLOT, "dx": 9, "dy": 9,
                                          "count": 3}, 1),
    ("segment A 0 10 20 10\narc F 20 5 25 5 A.end\nsegment B F.start 25 -10\ntangent A F\n",
     {"do": "mirror", "shapes": ["A", "F", "B"], "about": "YAxis"}, 7),
    ("arc A 20 0 25 0 20 5\nsegment B A.centre A.start\nsegment C A.end A.centre\n",
     {"do": "mirror", "shapes": ["A", "B", "C"], "about": "YAxis"}, 5),
    ("segment A 0 0 10 0\nsegment B A.end 9 9\n",
     {"do": "offset", "shapes": ["A", "B"], "size": "2", "x": 5, "y": 3}, 8)]


@pytest.mark.parametrize("text, edit, freedoms", OPEN, ids=lambda it: str(it)[:20])
def test_a_copy_has_no_freedom_of_its_own(text: str, edit: dict[str, object],
                                          freedoms: int) -> None:
    """Of the outline beside one that isn't closed the two ends may still slide."""
    found = search(read_drawing(edited(text, **edit)["text"]))
    assert (found.freedoms, found.repeats, found.contradictions) == (freedoms, (), ())
