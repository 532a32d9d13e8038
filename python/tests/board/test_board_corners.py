"""Fillets and chamfers of the board: the text before, a corner, the text behind it, worked out by
hand; and that what was fully constrained stays so."""
from __future__ import annotations

import pytest

from test_board_edits import edited, lines, trouble

from pertxogai.board.calls import Desk
from pertxogai.program import Program

ELBOW = """segment A 0 0 40 0
segment B A.end 40 30
"""
PLATE = """rectangle R 0 0 100 60
coincident RBottom.start Origin
length RBottom 100
length RRight 60
"""


def fillet(text: str, first: str, second: str, size: str = "5") -> list[str]:
    return lines(text, do="corner", kind="fillet", first=first, second=second, size=size)


def chamfer(text: str, first: str, second: str, size: str = "5") -> list[str]:
    return lines(text, do="corner", kind="chamfer", first=first, second=second, size=size)


def test_a_fillet_of_a_corner_of_which_nothing_is_said() -> None:
    """The tangent lengths of a right corner are the radius; the arc runs counter-clockwise."""
    assert fillet(ELBOW, "A", "B") == [
        "segment A 0 0 35 0", "segment B 40 5 40 30", "arc A1 35 5 A.end B.start",
        "tangent A A1", "tangent A1 B", "radius A1 5"]
    # The other way round it is the same arc.
    assert fillet(ELBOW, "B", "A")[2] == "arc A1 35 5 A.end B.start"


def test_a_fillet_on_the_other_side_runs_from_the_second_to_the_first() -> None:
    found = fillet("segment A 0 0 40 0\nsegment B A.end 40 -30\n", "A", "B")
    assert found[:3] == ["segment A 0 0 35 0", "segment B 40 -5 40 -30",
                         "arc A1 35 -5 B.start A.end"]


def test_a_fillet_of_an_acute_corner() -> None:
    """By a corner of atan(3/4) the tangent length is r / tan of half of it, so 3 r; the centre
    lies r above the first edge."""
    found = fillet("segment A 40 0 0 0\nsegment B A.end 32 24\n", "A", "B", "2")
    assert found[:3] == ["segment A 40 0 6 0", "segment B 4.8 3.6 32 24",
                         "arc A1 6 2 B.start A.end"]


def test_what_is_said_of_the_corner_is_said_of_a_point_that_stays_there() -> None:
    text = ELBOW + "x A.end 40\ny B.start 0\nWidth: length A 40\nlength B 30\n"
    assert fillet(text, "A", "B") == [
        "construction point P1 40 0", "segment A 0 0 35 0", "segment B 40 5 40 30",
        "arc A1 35 5 A.end B.start", "x P1 40", "y P1 0", "Width: distance A.start P1 40",
        "distance P1 B.end 30", "on P1 A", "on P1 B", "tangent A A1", "tangent A1 B",
        "radius A1 5"]


def test_a_tolerance_stays_with_its_dimension() -> None:
    text = ELBOW + "length A 40 +-0.1\nlength B 30 +0.2-0\n"
    for made in (fillet(text, "A", "B"), chamfer(text, "A", "B")):
        assert "distance A.start P1 40 +-0.1" in made and "distance P1 B.end 30 +0.2-0" in made


def test_a_check_of_the_corner_measures_the_point_that_stays_there() -> None:
    """Else it would measure to the end of the arc, and the length of what remains."""
    text = ("check Over distance A.start B.start 39 .. 41\ncheck Long length A 39 .. 41\n"
            "check High length B 29 ..\n")
    for made in (fillet(text + ELBOW, "A", "B"), chamfer(text + ELBOW, "A", "B")):
        assert made[:4] == [
            "check Over distance A.start P1 39 .. 41", "check Long distance A.start P1 39 .. 41",
            "check High distance P1 B.end 29 ..", "construction point P1 40 0"]


def test_a_check_of_something_else_keeps_no_point_in_the_corner() -> None:
    text = "check Side distance A.start B.end 10 .. 60\n"
    assert fillet(text + ELBOW, "A", "B") == [text.strip(), *fillet(ELBOW, "A", "B")]


def test_what_else_ends_in_the_corner_stays_there() -> None:
    found = fillet(ELBOW + "circle C A.end 3\nsegment D B.start 60 10\n", "A", "B")
    assert found[:6] == ["construction point P1 40 0", "segment A 0 0 35 0",
                         "segment B 40 5 40 30", "circle C P1 3", "segment D P1 60 10",
                         "arc A1 35 5 A.end B.start"]


def test_a_point_of_its_own_in_the_corner_stays_there() -> None:
    """A point is drawn at a place alone, so it is joined by a constraint; also where the segments
    end in it by words."""
    shared = "point B 40 0\nsegment A 0 0 B\nsegment C B 40 30\n"
    joined = ("point B 40 0\nsegment A 0 0 40 0\nsegment C 40 0 40 30\n"
              "coincident A.end B\ncoincident C.start B\n")
    for text in (shared, joined):
        assert fillet(text, "A", "C") == [
            "construction point P1 40 0", "point B 40 0", "segment A 0 0 35 0",
            "segment C 40 5 40 30", "arc A1 35 5 A.end C.start", "on P1 A", "on P1 C",
            "coincident B P1", "tangent A A1", "tangent A1 C", "radius A1 5"]


def test_a_segment_that_is_fixed_is_so_by_its_corners() -> None:
    """Its end in the corner lies elsewhere now; B is drawn to begin a micrometre beside it, and is
    selected first."""
    text = ("segment A 0 0 40 0\nsegment B 40.001 0 40 30\ncoincident A.end B.start\n"
            "Base: fixed A\nvertical B\nlength B 30\n")
    for made in (fillet(text, "B", "A"), chamfer(text, "B", "A")):
        assert made[0] == "construction point P1 40 0"
        assert made[4:9] == ["Base: fixed A.start", "vertical B", "distance P1 B.end 30",
                             "on P1 B", "on P1 A"] and made[9] == "fixed P1"


@pytest.mark.parametrize("kind", ["fillet", "chamfer"])
@pytest.mark.parametrize("size", ["5", "8", "50"])
def test_a_corner_of_a_segment_that_is_fixed_stays_where_it_is(kind: str, size: str,
                                                               program: Program) -> None:
    """However large what is made of it is; one of 50 runs beyond the other edges, as judge says."""
    text = "segment A 0 0 40 0\nsegment B A.end 40 30\nfixed A\nvertical B\nlength B 30\n"
    cut = {"do": "corner", "kind": kind, "first": "A", "second": "B", "size": size}
    found = Desk(program).answer("edit", {"text": text, "edit": cut})["judgement"]
    assert found["verdict"] == "well"
    for name, place in (("P1", (40, 0)), ("B.end", (40, 30))):
        x, y = found["placed"]["points"][name]
        assert (round(x, 6), round(y, 6)) == place


@pytest.mark.parametrize("kind", ["fillet", "chamfer"])
def test_a_corner_with_a_point_of_its_own_stays_well(kind: str, program: Program) -> None:
    """The text is read again, as by a page that is loaded anew."""
    text = ("point B 40 0\nsegment A 0 0 B\nsegment C B 40 30\ncoincident A.start Origin\n"
            "horizontal A\nvertical C\nlength A 40\nlength C 30\n")
    desk = Desk(program)
    cut = {"do": "corner", "kind": kind, "first": "A", "second": "C", "size": "5"}
    found = desk.answer("edit", {"text": text, "edit": cut})
    anew = Desk(program).answer("judge", {"text": found["text"]})
    for answer in (found, anew):
        assert answer["judgement"]["verdict"] == "well" and answer["judgement"]["good"]
        x, y = answer["judgement"]["placed"]["points"]["B"]
        assert (round(x, 6), round(y, 6)) == (40, 0)


def test_a_corner_that_is_joined_by_words() -> None:
    text = "segment A 0 0 40 0\nsegment B 40 0 40 30\n"
    for said in ("coincident A.end B.start\n", "perpendicular A.end B.start\n"):
        found = fillet(text + said, "A", "B")
        assert found[:3] == fillet(ELBOW, "A", "B")[:3]
        assert found[3:-3] == (["perpendicular A B"] if "perp" in said else [])


def test_a_middle_of_an_edge_stays_the_middle_between_its_corners() -> None:
    text = ELBOW + "point M 20 0\nmidpoint M A\n"
    assert "symmetric A.start P1 about M" in fillet(text, "A", "B")


def test_a_chamfer() -> None:
    assert chamfer(ELBOW, "A", "B") == [
        "construction point P1 40 0", "segment A 0 0 35 0", "segment B 40 5 40 30",
        "segment S1 A.end B.start", "on P1 A", "on P1 B", "distance P1 A.end 5",
        "distance P1 B.start 5"]


def test_what_is_larger_than_the_edges_is_drawn_smaller() -> None:
    found = fillet(ELBOW, "A", "B", "50")
    assert found[:3] == ["segment A 0 0 13 0", "segment B 40 27 40 30",
                         "arc A1 13 27 A.end B.start"]
    assert found[-1] == "radius A1 50"


def test_notes_stay_where_they_were() -> None:
    text = ("# first\nsegment A 0 0 40 0 # low\n# second\nsegment B A.end 40 30\n# third\n"
            "length A 40\n# last\n")
    assert fillet(text, "A", "B") == [
        "# first", "construction point P1 40 0", "segment A 0 0 35 0 # low", "# second",
        "segment B 40 5 40 30", "arc A1 35 5 A.end B.start", "# third", "distance A.start P1 40",
        "on P1 A", "on P1 B", "tangent A A1", "tangent A1 B", "radius A1 5", "# last"]


@pytest.mark.parametrize("text, first, second, said", [
    (ELBOW + "segment C 0 50 10 50\n", "A", "C", "have no corner"),
    ("segment A 0 0 40 0\nsegment B A.end 90 0.1\n", "A", "B", "run along each other"),
    (ELBOW + "circle C 9 9 2\n", "A", "C", "is no segment"),
    ("outer " + ELBOW, "A", "B", "'A' is given from outside: it can't be rounded or cut"),
    ("outer " + ELBOW, "B", "A", "'A' is given from outside: it can't be rounded or cut"),
    (ELBOW, "A", "Z", "isn't drawn"), (ELBOW, "A", "A", "have no corner"),
    (ELBOW + "arc C 40 5 40 0 45 5\ntangent A.end C.start\n", "A", "B", "touch in this corner")])
def test_corners_that_cant_be_rounded(text: str, first: str, second: str, said: str) -> None:
    assert said in trouble(text, do="corner", kind="fillet", first=first, second=second, size="5")


@pytest.mark.parametrize("size", ["0", "-3", "60deg", "", "five"])
def test_sizes_that_arent_taken(size: str) -> None:
    assert trouble(ELBOW, do="corner", kind="fillet", first="A", second="B", size=size)
    assert "is nothing that is made of a corner" in trouble(
        ELBOW, do="corner", kind="notch", first="A", second="B", size="5")


def test_the_bar_offers_them_of_two_edges_and_of_their_point() -> None:
    def offered(names: list[str], text: str = ELBOW) -> list[tuple[list[str], str]]:
        given = {"text": text, "names": names}
        found = Desk(None).answer("offers", given)  # type: ignore[arg-type]
        return [(each["words"], each["value"]) for each in found["offers"]
                if each["do"] == "corner"]

    # A fifth of 30 is 6, which 5 is the next below.
    both = [(["fillet", "A", "B"], "5"), (["chamfer", "A", "B"], "5")]
    assert offered(["A", "B"]) == offered(["A.end"]) == both
    assert offered(["A"]) == offered(["A.start"]) == offered(["A", "A.end"]) == []
    assert offered(["A.end"], ELBOW + "segment C A.end 60 20\n") == []


@pytest.mark.parametrize("kind", ["fillet", "chamfer"])
def test_a_plate_with_four_such_corners_is_well(program: Program, kind: str) -> None:
    """Placed by hand: the first corner at the right below has its arc about (95, 5)."""
    desk, text = Desk(program), PLATE
    sides = ["RBottom", "RRight", "RTop", "RLeft"]
    for place, side in enumerate(sides):
        edit = {"do": "corner", "kind": kind, "first": side, "second": sides[(place + 1) % 4],
                "size": "5"}
        found = desk.answer("edit", {"text": text, "edit": edit})
        text = found["text"]
        assert (found["judgement"]["verdict"], found["judgement"]["good"]) == ("well", True), text
    points = found["judgement"]["placed"]["points"]
    assert points["RBottom.end"] == pytest.approx((95, 0), abs=1e-4)
    assert points["RRight.start"] == pytest.approx((100, 5), abs=1e-4)
    if kind == "fillet":
        assert points["A1.centre"] == pytest.approx((95, 5), abs=1e-4)


def test_it_is_one_answer_with_a_judgement() -> None:
    found = edited(ELBOW, do="corner", kind="fillet", first="A", second="B", size="5")
    assert {"text", "drawing"} <= found.keys()
