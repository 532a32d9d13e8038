"""Edges that are trimmed and that go on: the text before, the edit, the text behind it, worked out
by hand."""
from __future__ import annotations

import pytest

from test_board_edits import lines, trouble

from pertxogai.board.calls import Desk
from pertxogai.program import Program

CROSS = """segment A 0 0 40 0
segment L 10 -10 10 10
segment R 30 -10 30 10
"""


def trim(text: str, shape: str, x: float, y: float) -> list[str]:
    return lines(text, do="trim", shape=shape, x=x, y=y)


def extend(text: str, shape: str, x: float, y: float) -> list[str]:
    return lines(text, do="extend", shape=shape, x=x, y=y)


def test_an_end_is_trimmed_to_what_crosses_it_next() -> None:
    assert trim(CROSS, "A", 35, 0) == [
        "segment A 0 0 30 0", "segment L 10 -10 10 10", "segment R 30 -10 30 10", "on A.end R"]
    assert trim(CROSS, "A", 2, 1)[0] == "segment A 10 0 40 0"


def test_a_piece_in_the_middle_leaves_two_on_one_line() -> None:
    assert trim(CROSS + "horizontal A\ny A.end 0\n", "A", 20, 0) == [
        "segment A 0 0 10 0", "segment S1 30 0 40 0", "segment L 10 -10 10 10",
        "segment R 30 -10 30 10", "horizontal A", "y S1.end 0", "on A.end L", "collinear A S1",
        "on S1.start R"]


def test_comments_stay_with_their_lines_where_an_edge_becomes_two() -> None:
    text = ("# of the whole\nsegment A 0 0 40 0 # of A\nsegment L 10 -10 10 10\n# of R\n"
            "segment R 30 -10 30 10 # beside R\nlength L 20 # of its length\n# the end\n")
    assert trim(text, "A", 20, 0) == [
        "# of the whole", "segment A 0 0 10 0 # of A", "segment S1 30 0 40 0",
        "segment L 10 -10 10 10", "# of R", "segment R 30 -10 30 10 # beside R",
        "length L 20 # of its length", "on A.end L", "collinear A S1", "on S1.start R", "# the end"]


def test_what_crosses_nothing_goes() -> None:
    assert trim("segment A 0 0 40 0\npoint P 0 9\nlength A 40\n", "A", 9, 0) == ["point P 0 9"]


def test_what_told_the_length_goes_and_what_else_ended_there_stays() -> None:
    text = CROSS + "segment T A.end 60 20\nsegment U A.end 60 -20\nlength A 40\nx A.end 40\nvertical L\n"
    assert trim(text, "A", 35, 0) == [
        "segment A 0 0 30 0", "segment L 10 -10 10 10", "segment R 30 -10 30 10",
        "segment T 40 0 60 20", "segment U T.start 60 -20", "x T.start 40", "vertical L", "on A.end R"]


def test_an_end_that_shares_a_point_leaves_it() -> None:
    text = "segment T 40 0 60 20\nsegment A 0 0 T.start\nsegment R 30 -10 30 10\nx A.end 40\n"
    assert trim(text, "A", 35, 0) == [
        "segment T 40 0 60 20", "segment A 0 0 30 0", "segment R 30 -10 30 10", "x T.start 40",
        "on A.end R"]


def test_a_check_goes_with_the_end_or_the_length_that_it_measures() -> None:
    """What is left of it is measured no longer under its name."""
    checks = ["check Long length A 1 .. 99", "check End distance A.end L.end 1 .. 99",
              "check Start distance A.start L.end 1 .. 99"]
    text = "\n".join(checks) + "\n" + CROSS
    assert trim(text, "A", 35, 0)[:2] == [checks[2], "segment A 0 0 30 0"]
    assert trim(text, "A", 2, 0)[:2] == [checks[1], "segment A 10 0 40 0"]
    assert trim(text, "A", 20, 0)[:3] == [
        "check End distance S1.end L.end 1 .. 99", checks[2], "segment A 0 0 10 0"]
    text = "check End distance A.end L.end 1 .. 99\n" + CROSS + "segment T A.end 60 20\n"
    assert trim(text, "A", 35, 0)[0] == "check End distance T.start L.end 1 .. 99"


ELSEWHERE = """segment A 0 0 100 0
segment B 50 -20 50 30
coincident A.start Origin
horizontal A
vertical B
length A 100
x B.start 80
y B.start 20
length B 50
"""
"""B is drawn at x = 50, and placed at 80."""


def cut(program: Program, text: str, **edit: object) -> list[str]:
    found = Desk(program).answer("edit", {"text": text, "edit": edit})
    assert "text" in found, found
    return str(found["text"]).splitlines()[1:]


def test_the_piece_goes_that_is_clicked_where_it_is_shown(program: Program) -> None:
    """At x = 70, left of the crossing. The new end is drawn as far along A as it is placed."""
    made = cut(program, ELSEWHERE, do="trim", shape="A", x=70, y=0)
    assert made[0] == "segment A 80 0 100 0" and made[-1] == "on A.start B"
    made = cut(program, ELSEWHERE, do="trim", shape="A", x=85, y=0)
    assert made[0] == "segment A 0 0 80 0" and made[-1] == "on A.end B"


def test_a_segment_goes_on_to_what_it_meets_where_it_is_shown(program: Program) -> None:
    """To C, which is drawn behind B, and placed before it, at 60 of the placed 100 from 20 on: one
    and a half times as far along A as that goes."""
    text = ELSEWHERE.replace("A 0 0 100 0", "A 0 0 30 0").replace("length A 100", "length A 40") + (
        "segment C 70 -20 70 30\nvertical C\nx C.start 60\ny C.start 20\nlength C 50\n")
    made = cut(program, text, do="extend", shape="A", x=39, y=0)
    assert made[0] == "segment A 0 0 45 0" and made[-1] == "on A.end C"


def test_the_piece_of_a_rim_goes_that_is_clicked_where_it_is_shown(program: Program) -> None:
    """Of a circle of radius 10, drawn with 20, which a line at x = 6 crosses at 8 and -8, as an
    angle of atan(8/6); drawn so far round it ends at 12 and 16."""
    text = ("circle C 0 0 20\nsegment A 12 -30 12 30\ncoincident C.centre Origin\nradius C 10\n"
            "vertical A\nx A.start 6\ny A.start 20\nlength A 40\n")
    made = cut(program, text, do="trim", shape="C", x=10, y=0)
    assert made[0] == "arc C 0 0 12 16 12 -16"


def test_of_a_circle_an_arc_is_left() -> None:
    """By Pythagoras the chord at x = 6 meets the circle of radius 10 at y = 8 and -8. The piece to
    the right goes, so the arc runs from the upper crossing round to the lower one."""
    text = "circle C 0 0 10\nsegment A 6 -20 6 20\nradius C 10\n"
    assert trim(text, "C", 10, 0) == [
        "arc C 0 0 6 8 6 -8", "segment A 6 -20 6 20", "radius C 10", "on C.start A", "on C.end A"]
    assert trim(text, "C", -10, 0)[0] == "arc C 0 0 6 -8 6 8"


def test_an_arc_is_trimmed_from_an_end() -> None:
    text = "arc B 0 0 10 0 -10 0\nsegment A 6 -20 6 20\n"
    assert trim(text, "B", 9, 4)[0] == "arc B 0 0 6 8 -10 0"
    assert trim(text, "B", -9, 4)[0] == "arc B 0 0 10 0 6 8"


def test_two_circles_cut_each_other() -> None:
    """Radii 10 about 0 and 12: they meet at x = 6, y = 8 and -8."""
    text = "circle C 0 0 10\ncircle D 12 0 10\n"
    assert trim(text, "C", 10, 0)[0] == "arc C 0 0 6 8 6 -8"


def test_a_segment_goes_on_to_what_it_meets_next() -> None:
    text = "segment A 0 0 20 0\nsegment R 30 -10 30 10\nsegment Q 50 -10 50 10\nlength A 20\n"
    assert extend(text, "A", 18, 0) == [
        "segment A 0 0 30 0", "segment R 30 -10 30 10", "segment Q 50 -10 50 10", "on A.end R"]
    assert extend("segment A 0 0 20 0\ncircle C -30 0 10\n", "A", 3, 0)[0] == "segment A -20 0 20 0"


@pytest.mark.parametrize("edit, text, shape, said", [
    ("extend", "segment A 0 0 20 0\nsegment B 0 9 20 9\n", "A", "meets nothing"),
    ("extend", "circle A 0 0 20\n", "A", "is no segment"),
    ("trim", "point A 0 0\n", "A", "is no edge"), ("trim", CROSS, "Z", "isn't drawn"),
    ("trim", "circle A 0 0 10\nsegment B 0 0 20 0\n", "A", "is crossed once"),
    ("trim", f"outer {CROSS}", "A", "'A' is given from outside: it can't be trimmed"),
    ("trim", "outer segment A 0 0 40 0\n", "A", "'A' is given from outside: it can't be trimmed"),
    ("trim", "outer circle A 0 0 10\nsegment B -20 0 20 0\n", "A", "it can't be trimmed"),
    ("extend", "outer segment A 0 0 20 0\nsegment B 30 -9 30 9\n", "A",
     "'A' is given from outside: it can't be extended"),
    ("trim", "arc A 0 0 10 0 -10 0\nsegment B 6 0 6 20\nsegment D -6 0 -6 20\n", "A", "fall apart")])
def test_what_cant_be_cut(edit: str, text: str, shape: str, said: str) -> None:
    x, y = (0, 10) if "arc" in text else (9, 0)
    assert said in trouble(text, do=edit, shape=shape, x=x, y=y)
