"""The edits of the board: the text before, an edit, the text behind it, worked out by hand."""
from __future__ import annotations

import json
from dataclasses import dataclass

import pytest

from pertxogai.board.calls import Desk
from pertxogai.program import Answer, ProgramError

TRIANGLE = """drawing 1
segment S1 0 0 40 0
segment S2 S1.end 20 30
segment S3 S2.end S1.start
length S1 40
"""


@dataclass(frozen=True)
class NoProgram:
    """A program that answers nothing."""

    def ask(self, words: object, text: str) -> Answer:
        raise ProgramError("nothing is asked here")


def edited(text: str, **edit: object) -> dict:
    return Desk(NoProgram()).answer("edit", json.loads(json.dumps({"text": text, "edit": edit})))


def lines(text: str, **edit: object) -> list[str]:
    return edited(text, **edit)["text"].splitlines()[1:]


def trouble(text: str, **edit: object) -> str:
    found = edited(text, **edit)
    assert "text" not in found
    return found["trouble"]["message"]


def test_draw_on_an_empty_board() -> None:
    spots = [{"x": 0, "y": 0}, {"x": 12.5, "y": -0.1}]
    assert lines("", do="draw", figure="segment", spots=spots) == ["segment S1 0 0 12.5 -0.1"]
    assert lines("# a note\n", do="draw", figure="point", spots=spots[:1]) == [
        "# a note", "point P1 0 0"]


def test_draw_shares_a_point_and_takes_a_free_name() -> None:
    found = lines(TRIANGLE, do="draw", figure="segment",
                  spots=[{"point": "S2.end"}, {"x": 1, "y": 2}])
    assert found[3] == "segment S4 S2.end 1 2"
    assert found[4] == "length S1 40"


def test_draw_a_slot() -> None:
    """From (0, 0) to (30, 40): a fifth of (40, -30) is 10 to the right."""
    centres = [{"x": 0, "y": 0}, {"x": 30, "y": 40}]
    found = lines("", do="draw", figure="slot", spots=centres, radius=10,
                  asks=[["x", "*Start.centre", "*End.centre", "30"]])
    assert found == [
        "segment L1Right 8 -6 38 34", "arc L1End 30 40 L1Right.end 22 46",
        "segment L1Left L1End.end -8 6", "arc L1Start 0 0 L1Left.end L1Right.start",
        "tangent L1Right L1End", "tangent L1End L1Left", "tangent L1Left L1Start",
        "tangent L1Start L1Right", "equal L1End L1Start", "x L1Start.centre L1End.centre 30"]
    again = lines("\n".join(found), do="draw", figure="slot", radius=2,
                  spots=[{"point": "L1End.centre"}, {"x": 60, "y": 40}])
    assert again[4:8] == [
        "segment L2Right 30 38 60 38", "arc L2End 60 40 L2Right.end 60 42",
        "segment L2Left L2End.end 30 42", "arc L2Start L1End.centre L2Left.end L2Right.start"]
    assert "in one place" in trouble("", do="draw", figure="slot", radius=2, spots=centres[:1] * 2)


def test_draw_rectangle_circle_arc_construction() -> None:
    corners = [{"x": 0, "y": 0}, {"x": 4, "y": 3}]
    found = lines("", do="draw", figure="rectangle", spots=corners, construction=True)
    assert found[0] == "construction segment R1Bottom 0 0 4 0"
    assert found[4:] == ["horizontal R1Bottom", "vertical R1Right", "horizontal R1Top",
                         "vertical R1Left"]
    assert lines("", do="draw", figure="circle", spots=corners[:1], radius=2.5) == [
        "circle C1 0 0 2.5"]
    arc = [{"x": 0, "y": 0}, {"x": 5, "y": 0}, {"x": 0, "y": 5}]
    assert lines("", do="draw", figure="arc", spots=arc) == ["arc A1 0 0 5 0 0 5"]


def test_draw_is_refused_by_the_words_of_a_drawing() -> None:
    spots = [{"x": 1, "y": 1}, {"x": 1, "y": 1}]
    assert "draw its ends apart" in trouble("", do="draw", figure="segment", spots=spots)
    assert "isn't drawn" in trouble(TRIANGLE, do="draw", figure="segment",
                                    spots=[{"point": "S9.end"}, spots[0]])


def test_move_takes_along_all_that_share_the_point() -> None:
    found = lines(TRIANGLE, do="move", points=[{"of": "S3.start", "x": 21, "y": 31}])
    assert found[:3] == ["segment S1 0 0 40 0", "segment S2 S1.end 21 31",
                         "segment S3 S2.end S1.start"]


def test_move_a_radius_and_shift_a_shape() -> None:
    circle = "circle C1 1 1 4\n"
    assert lines(circle, do="move", radii=[{"of": "C1", "radius": 6.25}]) == ["circle C1 1 1 6.25"]
    found = lines(TRIANGLE, do="shift", shapes=["S1"], points=[], dx=1, dy=-2)
    assert found[:2] == ["segment S1 1 -2 41 -2", "segment S2 S1.end 20 30"]


def test_erase_a_shape_hands_its_points_on() -> None:
    found = lines(TRIANGLE + "length S2 50\nequal S2 S3\n", do="erase", shapes=["S1"],
                  constraints=[])
    assert found == ["segment S2 40 0 20 30", "segment S3 S2.end 0 0", "length S2 50",
                     "equal S2 S3"]


def test_erase_the_first_of_three_that_share_a_point() -> None:
    star = "segment A 0 0 1 0\nsegment B A.start 0 1\nsegment C B.start 1 1\n"
    assert lines(star, do="erase", shapes=["A"]) == ["segment B 0 0 0 1",
                                                     "segment C B.start 1 1"]
    assert lines(star, do="erase", shapes=["B"]) == ["segment A 0 0 1 0",
                                                     "segment C A.start 1 1"]
    assert lines(star, do="erase", shapes=["A", "B"]) == ["segment C 0 0 1 1"]


def test_erase_keeps_the_notes_of_what_stays() -> None:
    text = ("# of the whole\nsegment A 0 0 1 0\n# of B\nsegment B 0 5 1 5 # beside B\n"
            "length A 2 # beside\nlength B 3\n# the end\n")
    assert lines(text, do="erase", shapes=["B"]) == [
        "# of the whole", "segment A 0 0 1 0", "# of B", "length A 2 # beside", "# the end"]
    assert lines(text, do="erase", constraints=[1])[4:] == ["length B 3", "# the end"]


def test_ask_value_name() -> None:
    assert lines(TRIANGLE, do="ask", words=["horizontal", "S1", "S2"])[3:] == [
        "length S1 40", "horizontal S1", "horizontal S2"]
    assert lines(TRIANGLE, do="value", number=1, value="41.5")[3:] == ["length S1 41.5"]
    assert lines(TRIANGLE, do="value", number=1, value="1in")[3:] == ["length S1 25.4"]
    assert lines(TRIANGLE, do="call", number=1, name=" Base  width ")[3:] == [
        "Base width: length S1 40"]
    named = "segment A 0 0 1 0\nBase: length A 3\n"
    assert lines(named, do="value", number=1, value="4")[1:] == ["Base: length A 4"]
    assert lines(named, do="call", number=1, name="")[1:] == ["length A 3"]


def test_values_are_refused_with_what_to_do() -> None:
    assert "is no length" in trouble(TRIANGLE, do="value", number=1, value="-3")
    assert "write 3.5, with a point for the comma" in trouble(TRIANGLE, do="value", number=1,
                                                              value="3,5")
    assert "doesn't stand" in trouble(TRIANGLE, do="value", number=2, value="3")
    assert "isn't one value" in trouble(TRIANGLE, do="value", number=1, value="S2 3")
    level = "segment A 0 0 1 0\nhorizontal A\n"
    assert "has no value" in trouble(level, do="value", number=1, value="3")


def test_rename_a_shape_everywhere() -> None:
    text = TRIANGLE + "S1: tangent S1.end S2.start\nperpendicular S1 S3\n"
    found = lines(text.replace("tangent", "perpendicular"), do="rename", old="S1", new="Bottom")
    assert found == ["segment Bottom 0 0 40 0", "segment S2 Bottom.end 20 30",
                     "segment S3 S2.end Bottom.start", "length Bottom 40",
                     "S1: perpendicular Bottom.end S2.start", "perpendicular Bottom S3"]
    assert "is drawn already" in trouble(TRIANGLE, do="rename", old="S1", new="S2")
    assert "is no name" in trouble(TRIANGLE, do="rename", old="S1", new="two words")


CHECKED = """drawing 1
# sizes
value W 100 # wide
tolerances ISO2768-m # class
# fits
check Gap length Top 99 .. 101 # gap
check Side length Left 59 .. 61 # side
segment Bottom 0 0 100 0 # low
segment Right Bottom.end 100 60
segment Top Right.end 0 60
segment Left Top.end Bottom.start
length Bottom 100
"""


def test_rename_a_shape_that_is_checked() -> None:
    assert lines(CHECKED, do="rename", old="Top", new="Lid") == (
        CHECKED.replace("Top", "Lid").splitlines()[1:])


def test_a_name_that_a_pattern_would_read_is_refused_as_a_name() -> None:
    text = TRIANGLE + "# reference length S2\n"
    for name in ("\\1", "a\\g"):
        assert "is no name" in trouble(text, do="rename", old="S1", new=name)


def test_notes_of_values_tolerances_and_checks_stay_where_they_were() -> None:
    """Whatever comes, or goes, among the lines above the shapes."""
    assert lines(CHECKED, do="set-value", name="H", expression="60") == (
        CHECKED.replace("# wide\n", "# wide\nvalue H 60\n").splitlines()[1:])
    assert lines(CHECKED, do="drop-value", name="W") == (
        CHECKED.replace("value W 100 # wide\n", "").splitlines()[1:])
    without = lines(CHECKED, do="erase", shapes=["Top"])
    assert without[:6] == [
        "# sizes", "value W 100 # wide", "tolerances ISO2768-m # class", "# fits",
        "check Side length Left 59 .. 61 # side", "segment Bottom 0 0 100 0 # low"]
    assert lines(CHECKED, do="erase", shapes=["Top", "Left"])[3:5] == [
        "# fits", "segment Bottom 0 0 100 0 # low"]


def test_a_new_value_of_a_copy_moves_no_note() -> None:
    text = CHECKED + "circle C 20 20 4\ncircle D 50 20 4\n"
    made = lines(text, do="row", shapes=["C", "D"], dx=200, dy=0, count=2)
    assert made[:7] == [
        "# sizes", "value W 100 # wide", "value Pitch1 200", "tolerances ISO2768-m # class",
        "# fits", "check Gap length Top 99 .. 101 # gap", "check Side length Left 59 .. 61 # side"]


def test_all_shapes_go_and_the_class_of_tolerances_stays() -> None:
    """What is left can be drawn on."""
    text = "tolerances ISO2768-m # class\nsegment S 0 0 40 0\n"
    left = edited(text, do="erase", shapes=["S"])["text"]
    assert left == "drawing 1\ntolerances ISO2768-m # class\n"
    assert lines(left, do="draw", figure="point", spots=[{"x": 1, "y": 2}]) == [
        "tolerances ISO2768-m # class", "point P1 1 2"]


def test_a_dimension_with_a_tolerance_is_only_measured() -> None:
    for said in ("length S1 40 +-0.1", "length S1 40 +-1", "length S1 2 * 20 +0.2-0"):
        found = lines(TRIANGLE.replace("length S1 40", said), do="reference", words=[], number=1)
        assert found[-1] == "# reference length S1"


def test_construction_and_back() -> None:
    found = lines(TRIANGLE, do="construction", shapes=["S2"], construction=True)
    assert found[1] == "construction segment S2 S1.end 20 30"


@pytest.mark.parametrize("edit", [
    {}, {"do": "fly"}, {"do": "draw", "figure": "ellipse", "spots": []},
    {"do": "draw", "figure": "point", "spots": [{"x": "1", "y": 1}]},
    {"do": "draw", "figure": "point", "spots": 5}, {"do": "erase", "constraints": [True]},
    {"do": "shift", "dx": 1e400, "dy": 0}, {"do": "shift", "dx": float("nan"), "dy": 0},
    {"do": "value", "number": 1.5, "value": "1"}, {"do": "ask", "words": [1]},
    {"do": "ask", "words": []}, {"do": "ask", "words": ["segment", "A"]},
    {"do": "move", "points": [{"of": 3}]}, {"do": "move", "points": ["S1"]},
])
def test_what_is_no_edit_is_refused_in_one_line(edit: dict) -> None:
    message = trouble(TRIANGLE, **edit)
    assert "\n" not in message and "Traceback" not in message and len(message) < 200


def test_a_refused_text_is_told_with_its_line() -> None:
    found = Desk(NoProgram()).answer("judge", {"text": "segment A 0 0 1 0\nlenght A 3\n"})
    assert found["refused"]["line"] == 2
    assert found["refused"]["message"].startswith("line 2: 'lenght'")
    assert "do you mean length?" in found["refused"]["message"]


def offered(text: str, *names: str) -> dict[str, str | None]:
    found = Desk(NoProgram()).answer("offers", {"text": text, "names": list(names)})
    return {" ".join(each["words"]): each["value"] for each in found["offers"]}


def test_offers_of_a_segment_and_of_two() -> None:
    assert offered(TRIANGLE, "S1") == {
        "horizontal S1": None, "vertical S1": None, "angle S1": "0deg", "length S1": "40",
        "fixed S1": None}
    two = offered(TRIANGLE, "S1", "S2")
    assert two["angle S1 S2"] == "56deg" and two["equal S1 S2"] is None
    assert {"parallel S1 S2", "perpendicular S1 S2", "distance S1 S2"} <= set(two)
    assert not {"concentric S1 S2", "radius S1 S2", "coincident S1 S2"} & set(two)


def test_offers_of_points_put_points_first() -> None:
    found = offered(TRIANGLE, "S1", "S2.end")
    assert found["distance S2.end S1"] == "30"
    assert "on S2.end S1" in found and "midpoint S2.end S1" in found
    three = offered(TRIANGLE, "S1.start", "S1.end", "YAxis")
    assert "symmetric S1.start S1.end about YAxis" in three
    assert offered(TRIANGLE, "S2.end")["y S2.end"] == "30"


def test_offers_of_rims_and_nothing() -> None:
    rims = "circle C 0 0 5\ncircle D 20 0 8\n"
    assert offered(rims, "C")["diameter C"] == "10"
    assert {"tangent C D", "equal C D", "concentric C D"} <= set(offered(rims, "C", "D"))
    assert offered(TRIANGLE) == {}


# Labels, and dimensions that are only measured.

MEASURED = TRIANGLE + "# reference distance S1.start S2.end; label 2 -3\n"


def test_a_label_is_put_elsewhere() -> None:
    assert lines(TRIANGLE, do="label", number=1, x=1.5, y=-12)[-1] == "length S1 40 # label 1.5 -12"
    assert lines(MEASURED, do="label", number=-1, x=0, y=9.25)[-1] == (
        "# reference distance S1.start S2.end; label 0 9.25")
    for number in (2, 0, -2):
        assert "doesn't stand" in trouble(MEASURED, do="label", number=number, x=0, y=0)


def test_a_dimension_is_only_measured_and_asked_for_again() -> None:
    text = edited(TRIANGLE, do="label", number=1, x=1.5, y=-12)["text"]
    found = edited(text, do="reference", words=["length", "S1"], number=1)["text"]
    assert found.splitlines()[4:] == ["# reference length S1; label 1.5 -12"]
    again = lines(found, do="ask", words=["length", "S1"], value="41", reference=1)
    assert again[3:] == ["length S1 41"]
    assert "is no dimension" in trouble(TRIANGLE, do="reference", words=["length", "S1", "S2"])
    assert "measures nothing" in trouble(TRIANGLE, do="reference", words=["wide", "S1"])


def test_what_is_measured_goes_and_is_renamed() -> None:
    assert lines(MEASURED, do="erase", references=[1]) == lines(TRIANGLE, do="erase")
    assert lines(MEASURED, do="rename", old="S1", new="Base")[-1] == (
        "# reference distance Base.start S2.end; label 2 -3")


def test_an_angle_is_shown_as_it_is_written() -> None:
    text = "segment A 0 0 40 0\nsegment B 0 0 -20 34\nangle A B 120.05deg\nlength A 12345.678\n"
    found = edited(text, do="construction", shapes=["A"], construction=True)
    assert [each["text"] for each in found["drawing"]["marks"]] == ["120.05°", "12345.678"]


def test_the_marks_of_labels_and_of_what_is_measured() -> None:
    """From (0, 0) to (20, 30) it is 36.06 mm."""
    marks = edited(MEASURED, do="label", number=1, x=1.5, y=-12)["drawing"]["marks"]
    assert marks[0] == {"bar": ((0, 0), (40, 0)), "text": "40", "number": 1, "label": (1.5, -12)}
    assert marks[1] == {"bar": ((0, 0), (20, 30)), "text": "(36.06)", "number": -1,
                        "words": ["distance", "S1.start", "S2.end"], "value": "36.06",
                        "label": (2, -3)}
