"""The search: places, freedoms, what is said twice and what contradicts, by numbers.

The gallery's drawings, and those of `beyond_triangles`, say in notes how many degrees of freedom a
hand counts (`freedoms 5, 3 of them of the whole`, or `freedoms 4 without Equal, the latest that
contradicts`), and where points lie (`place`, `radius`). What is found by numbers may differ from
machine to machine by a nanometre: places are within 2 nm."""

from __future__ import annotations

import re
from collections.abc import Iterator
from fractions import Fraction
from functools import cache
from math import hypot
from pathlib import Path

import numpy as np
import pytest

from pertxogai.drawing import Drawing, PointRef, Which, read_drawing, um_of_mm
from pertxogai.judging.finding import Finding, PointMove
from pertxogai.judging.measure import Unit, greatest
from pertxogai.judging.measure.limit import Limit
from pertxogai.search import search
from pertxogai.search.arrays import unit_rows
from pertxogai.search.budget import Budget
from pertxogai.search.contradictions import has_shrunk
from pertxogai.search.equations import Equations
from pertxogai.search.linearization import Linearization
from pertxogai.search.searched import Searched
from pertxogai.search.solving import can_be_met, solve
from pertxogai.search.whole import of_the_whole
from shared_drawings import SHRUNKEN_TRIANGLE
from strips import strip

TESTS = Path(__file__).parent
GALLERY = sorted((TESTS / "drawings").glob("*.drawing"))
BEYOND = sorted((TESTS / "beyond_triangles").glob("*.drawing"))
WITHIN_NM = 2


def notes(drawing: Drawing, word: str) -> list[str]:
    """The notes that begin with a word, without it."""
    texts = (note.text.split(" ", 1) for note in drawing.notes)
    return [rest[0] for first, *rest in texts if first == word and rest]


def point(word: str) -> PointRef:
    name, _, which = word.partition(".")
    return PointRef(name, Which(which or "at"))


def worst_nm(found: Finding) -> int:
    worst = greatest(found.deviations, Unit.NM)
    return worst.amount if worst else 0


@cache
def drawing_in(path: Path) -> Drawing:
    return read_drawing(path.read_text())


@cache
def found_in(path: Path) -> Finding:
    return search(drawing_in(path))


def contradicts(path: Path) -> bool:
    """Whether its note counts what is free without some constraint that contradicts."""
    return "that contradict" in notes(drawing_in(path), "freedoms")[0]


def found_of(text: str) -> Finding:
    return search(read_drawing(text))


# -- the gallery


@pytest.mark.parametrize("path", GALLERY + BEYOND, ids=lambda path: path.stem)
def test_freedoms_are_those_that_a_hand_counts(path):
    told, = notes(drawing_in(path), "freedoms")
    found = found_in(path)
    assert found.freedoms == int(re.match(r"\d+", told)[0])
    of_the_whole = re.search(r"(\d+) (of them )?of the whole", told)
    assert found.of_the_whole == (int(of_the_whole[1]) if of_the_whole else 0)
    assert found.is_doubtful == contradicts(path)


@pytest.mark.parametrize("path", GALLERY + BEYOND, ids=lambda path: path.stem)
def test_each_word_is_met_within_two_nanometres_where_there_are_places(path):
    found = found_in(path)
    assert (found.solution is None) == contradicts(path)
    assert worst_nm(found) <= WITHIN_NM


@pytest.mark.parametrize("path", BEYOND, ids=lambda path: path.stem)
def test_points_lie_where_a_hand_finds_them(path):
    drawing, found = drawing_in(path), found_in(path)
    for name, *mm in map(str.split, notes(drawing, "place")):
        lies = found.solution.spot(point(name))
        told = [um_of_mm(each) * 1000 for each in mm]
        assert max(abs(a - b) for a, b in zip(lies, told)) <= WITHIN_NM, name
    for name, mm in map(str.split, notes(drawing, "radius")):
        assert abs(found.solution.radius(name) - um_of_mm(mm) * 1000) <= WITHIN_NM, name


def test_a_shape_that_is_shaken_by_a_tenth_comes_back():
    # Of the drawings without freedom, each shaken twice; small features of some turn round.
    back = [is_back for path in GALLERY for is_back in shaken(path)]
    assert len(back) > 100 and sum(back) >= 0.98 * len(back)


def shaken(path: Path) -> Iterator[bool]:
    """Whether a drawing without freedom, begun elsewhere, ends where it ends by itself."""
    searched = Searched(drawing_in(path))
    if not searched.found.is_as_drawn() or searched.freedom.count:
        return
    points = 2 * len(searched.equations.unknowns.points)
    for seed in range(2):
        equations = Equations(drawing_in(path))
        by = np.random.default_rng(seed).uniform(-0.1, 0.1, len(equations.drawn))
        equations.drawn = equations.drawn + by * equations.size_nm
        equations.drawn[points:] = np.abs(equations.drawn[points:])
        found = solve(equations)
        yield found.is_solved() and bool(np.abs(found.x - searched.found.x).max() < 1000)


# -- what moves


def test_a_hole_without_y_moves_up_and_down():
    found = found_in(TESTS / "drawings/open-hole-without-y.drawing")
    assert found.moves == (PointMove(point("Hole.centre"), 0.0, 1.0),)
    assert found.free_radii == ()


def test_a_bracket_lacks_two_places_and_a_size():
    found = found_in(TESTS / "drawings/open-bracket.drawing")
    assert [str(each.point) for each in found.moves] == ["H1.centre", "H2.centre"]
    assert [(abs(each.dx), abs(each.dy)) for each in found.moves] == [(1.0, 0.0), (0.0, 1.0)]
    assert found.free_radii == ("H2",)


def test_ends_of_a_crank_move_square_to_their_arms():
    # By hand: the crank's end is its length 40 from the origin, the rocker's 60 from 100 0.
    found = found_in(TESTS / "drawings/open-four-bar.drawing")
    crank, coupler = found.moves
    for move, pivot in ((crank, (0, 0)), (coupler, (100_000_000, 0))):
        x, y = found.solution.spot(move.point)
        assert abs((x - pivot[0]) * move.dx + (y - pivot[1]) * move.dy) < 100
        assert hypot(move.dx, move.dy) == pytest.approx(1)


TWO_LINES = "segment A 0 0 20 0\nsegment B 3 9 28 9\ndistance A B 9\n"
PINNED = "coincident A.start Origin\non A.end XAxis\nlength A 20\nlength B 25\nx B.start 3\n"


@pytest.mark.parametrize("text, freedoms, of_the_whole", [
    # Four points have 8 coordinates, and the distance says that B.start lies 9 mm off A. That B is
    # parallel to A, another constraint has to say: it is one of the four dimensions that are missing.
    (TWO_LINES, 7, 3),
    (TWO_LINES + "parallel A B\n", 6, 3),
    (TWO_LINES + "horizontal A B\n", 5, 2),
    (TWO_LINES + PINNED, 1, 0),
    (TWO_LINES + PINNED + "parallel A B\n", 0, 0),
    # A line 9 mm off an axis is moved along it, turns about its start, and has no length.
    ("segment B 3 9 28 9\ndistance B XAxis 9\n", 3, 2),
    # Six points have 12 coordinates, less three distances. The starts of B and C are 9 and 16 mm
    # off A, and that of C is 7 mm off B: that leaves no direction to B, but one to C.
    (TWO_LINES + "segment C 8 16 40 16\ndistance A C 16\ndistance B C 7\n", 9, 3),
    # Of an open chain the last line stands beside another; the hunt found this.
    ("segment S1 0.053075891577 0.013180234198 -0.000027798573 25.193006753\n"
     "segment S2 S1.end -12.5 25.166644591602\n"
     "segment S5 58.078500737204 34.315513083855 82.678500737204 34.315513083855\n"
     "distance S2 S5 9\n", 9, 3),
])
def test_a_distance_of_lines_leaves_it_to_others_that_they_are_parallel(
        text, freedoms, of_the_whole):
    found = found_of(text)
    assert (found.freedoms, found.of_the_whole) == (freedoms, of_the_whole)
    assert not found.is_doubtful and worst_nm(found) <= WITHIN_NM


def test_a_line_turns_about_its_start_until_it_is_parallel():
    assert found_of(TWO_LINES + PINNED).moves == (PointMove(point("B.end"), 0.0, 1.0),)
    assert found_of(TWO_LINES + PINNED + "parallel A B\n").moves == ()


def test_what_floats_is_held_where_the_fewest_points_move():
    # Of a plate and a loose hole the hole moves, and not the plate about it.
    found = found_of("rectangle P 0 0 40 30\nlength PBottom 40\nlength PRight 30\n"
                     "circle H 20 14 5\nradius H 5\n")
    assert (found.freedoms, found.of_the_whole) == (4, 2)
    centre = point("H.centre")
    assert found.moves == (PointMove(centre, 1.0, 0.0), PointMove(centre, 0.0, 1.0))


def test_what_turns_about_the_origin_has_one_freedom_of_the_whole():
    # By hand: a triangle with a corner on the origin, told by its sides; and an edge from there,
    # of which the direction is told, so that its length is free and not the whole.
    sides = "segment A Origin 40 0\nsegment B A.end 0 30\nsegment C B.end A.start\n"
    found = found_of(sides + "length A 40\nlength B 50\nlength C 30\n")
    assert (found.freedoms, found.of_the_whole, found.moves) == (1, 1, ())
    found = found_of("segment L Origin 40 40\nangle L 45deg\n")
    assert (found.freedoms, found.of_the_whole, len(found.moves)) == (1, 0, 1)


@pytest.mark.parametrize("text, freedoms, of_the_whole", [
    # Two circles have 6 unknowns, less two. All may be moved along y; a turn changes x of one of
    # them, and that both are drawn at one height doesn't make it one of the whole.
    ("circle A 10 5 3\ncircle B 30 5 3\nx A.centre 10\nx B.centre 30\n", 4, 1),
    # All turns about the origin. Nothing says that both lie on the x-axis, along y of which neither
    # is moved to the first order.
    ("circle A 10 0 3\ncircle B 30 0 3\n"
     "distance A.centre Origin 10\ndistance B.centre Origin 30\n", 4, 1),
    # The points are drawn one above the other, so they are found in one place, as nothing else says.
    ("circle C 30 23 9\npoint P -15 -30\npoint Q -15 39\nhorizontal P Q\n", 6, 2),
    # Here all turns about the corner, where another constraint puts both.
    ("segment A 0 0 40 0\npoint P 1 0\npoint Q 2 0\ncoincident P A.start\ncoincident Q A.start\n"
     "x P 3\nhorizontal P Q\n", 3, 2),
])
def test_a_motion_of_the_whole_lasts_wherever_its_parts_are_moved(text, freedoms, of_the_whole):
    found = found_of(text)
    assert (found.freedoms, found.of_the_whole, found.is_doubtful) == (freedoms, of_the_whole, False)


def test_rows_are_not_looked_at_elsewhere_where_the_whole_is_tied():
    # What completes a drawing asks this once for each line, of which there may be hundreds.
    tied = Searched(read_drawing("segment A 0 0 40 0\ncoincident A.start Origin\nhorizontal A\n"
                                 "circle H 5 5 1\nx A.start H.centre 5\n"))
    unknowns, x = tied.equations.unknowns, tied.found.x
    jacobian = unit_rows(tied.equations.tangents(x).jacobian)
    elsewhere: list[object] = []
    rows = Linearization(unknowns, x, jacobian, elsewhere.append)
    assert of_the_whole(rows, tied.freedom.free).shape == (unknowns.count, 0)
    assert not elsewhere


@pytest.mark.parametrize("text, freedoms, of_the_whole", [
    # What is given from outside lies where it is drawn, so nothing moves or turns it with the rest.
    ("outer segment O 36 27 4 28\nsegment S 1 2 14 32\nlength S 30\n", 3, 0),
    ("outer segment O 36 27 4 28\nsegment S 1 2 14 32\nx O.end S.start 13\n", 3, 0),
    # A circle that is given stays as it is where all turns about its centre.
    ("outer circle O 0 0 3\ncircle A 7 5 3\ndistance A.centre O.centre 8\n", 2, 1),
    ("outer circle O 2 1 3\npoint P 0 0\ncoincident O.centre P\nsegment S 7 5 20 5\n", 4, 1),
])
def test_what_is_given_from_outside_holds_the_whole(text, freedoms, of_the_whole):
    found = found_of(text)
    assert (found.freedoms, found.of_the_whole) == (freedoms, of_the_whole)


def test_a_rigid_drawing_that_floats_has_no_moves():
    found = found_in(TESTS / "beyond_triangles/frame-of-nine-bars.drawing")
    assert (found.freedoms, found.of_the_whole, found.moves) == (3, 3, ())


@pytest.mark.parametrize("x, y", [(0, 0), (100_000, 3), (-762_290, -273_760), (315_000, 500_000)])
def test_what_is_drawn_far_from_the_origin_moves_and_turns_as_a_whole(x, y):
    """10 unknowns less 6 that are told, and nothing is told of the origin: all moves, and turns."""
    found = found_of(f"construction segment S {x - 9.49} {y - .41} {x + 9.37} {y - .56}\n"
                     f"circle C {x + 8.28} {y - 7.39} 3.67\ncircle D {x + 7.3} {y + 2.59} 4.35\n"
                     "symmetric C D about S\nequal C D\ndistance S.start D 17.611\n"
                     "diameter D 6.5\nlength S 19.535\n")
    assert (found.freedoms, found.of_the_whole, found.is_doubtful) == (4, 3, False)


# -- what is said twice, and what contradicts


@pytest.mark.parametrize("name, group", [
    ("over-braced-square", {"AB", "BC", "CD", "DA", "AC", "BD"}),
    ("over-equal-lengths", {"Same", "Long", "Short"}),
    ("over-hole-row", {"First", "Second", "Total"}),
    ("over-triangle", {"A", "B", "C", "Angle"}),
    ("repeat-radius-and-diameter", {"R", "D"}),
    ("repeat-level", {"Level", "Again"}),
])
def test_what_is_said_twice_is_named_with_the_latest_first(name, group):
    drawing, found = (each(TESTS / f"drawings/{name}.drawing") for each in (drawing_in, found_in))
    (repeat,) = found.repeats
    names = [constraint.name for constraint in drawing.constraints]
    assert set(repeat) == group
    assert repeat[0] == max(group, key=names.index)
    assert found.contradictions == ()


EDGE = "segment S -20 5 21 6\n"
HALF = "segment S -9 0 11 1\narc A 0 1 S.end S.start\n"


@pytest.mark.parametrize("text, groups", [
    # The middle of an edge lies on it: that it does says nothing more, and the middle does.
    (EDGE + "point M 0 5\nOn: on M S\nHalf: midpoint M S\n", (("On", "Half"),)),
    (EDGE + "point M 0 5\nHalf: midpoint M S\nOn: on M S\n", (("On", "Half"),)),
    # What is mirrored in the y axis is level.
    (EDGE + "Level: horizontal S\nMirror: symmetric S.start S.end about YAxis\n",
     (("Level", "Mirror"),)),
    # A fixed edge has a fixed end, as its x and as its y says.
    (EDGE + "End: fixed S.end\nAll: fixed S\n", (("End", "All"),)),
    # The ends are as far from their middle without that they are ends of one arc.
    (HALF + "symmetric A.start A.end about A.centre\n", ()),
])
def test_what_the_others_say_wholly_is_named_before_what_says_more(text, groups):
    assert found_of(text).repeats == groups


@pytest.mark.parametrize("words, groups", [
    # The middle follows from M's x and M's y, and from neither alone.
    (("All", "X", "Y", "Half"), (("Half", "Y", "X", "All"),)),
    # M's y follows from the middle. Without it that is needed, and M's x follows from it.
    (("All", "X", "Half", "Y"), (("Y", "Half", "All"), ("X", "Half", "All"))),
    (("Half", "X", "Y", "All"), (("Y", "All", "Half"), ("X", "All", "Half"))),
])
def test_all_that_follows_may_go_at_once(words, groups):
    """Of an edge that stays where it is drawn, with a point in its middle at 0 5: without all that is
    named first all is told, and just once."""
    told = {"All": "fixed S", "X": "x M 0", "Y": "y M 5", "Half": "midpoint M S"}
    edge = "segment S -20 4 20 6\npoint M 1 5\n"
    found = found_of(edge + "".join(f"{name}: {told[name]}\n" for name in words))
    assert (set(found.repeats), found.freedoms) == ({*groups}, 0)
    gone = {group[0] for group in groups}
    rest = found_of(edge + "".join(f"{name}: {told[name]}\n" for name in words
                                   if name not in gone))
    assert (rest.repeats, rest.freedoms) == ((), 0)


STRAIGHT = [
    # A chain of three links of 10 mm that is pulled straight between two points 30 mm apart: to the
    # first order both joints move aside, and either coordinate of its end follows. Neither is so.
    "segment A Origin 10 0\nsegment B A.end 20 0\nsegment C B.end 30 0\n"
    "length A 10\nlength B 10\nlength C 10\nx C.end 30\ny C.end 0\n",
    # A triangle whose longest side is as long as the two others together.
    "segment A 0 0 40 0\nsegment B A.end 70 0\nsegment C B.end A.start\n"
    "length A 40\nlength B 30\nlength C 70\n",
    # The line x = 10 touches the circle about the origin: without either, P moves along the other.
    "point P 10 0\nx P 10\ndistance P Origin 10\n",
    # All of a drawing is small beside the way to the origin from which it is told.
    "circle C 10000 0 3\npoint Q 10000 1\ndistance C.centre Q 1\nx C.centre 10000\n"
    "distance C.centre Origin 10000\n",
]


@pytest.mark.parametrize("text", STRAIGHT)
def test_what_only_seems_to_follow_where_all_is_straight_is_no_repeat(text):
    found = found_of(text)
    assert found.is_doubtful and found.repeats == () and found.solution is not None


@pytest.mark.parametrize("text", STRAIGHT)
def test_what_only_seems_to_follow_is_no_repeat_beside_a_contradiction(text):
    found = found_of(text + "point Z 5 5\nOne: x Z 10\nOther: x Z 12\n")
    assert (found.repeats, found.contradictions) == ((), (("Other", "One"),))


def test_what_is_told_twice_repeats_though_the_rest_moves():
    # By hand: a four-bar has one freedom; that its crank is 10 mm long is told twice.
    text = ("segment A Origin 0 10\nsegment B A.end 25 12\nsegment C B.end 30 0\nlength A 10\n"
            "length B 25\nlength C 13\nx C.end 30\ny C.end 0\ndistance A.end Origin 10\n")
    found = found_of(text)
    assert (found.freedoms, found.is_doubtful, len(found.repeats)) == (1, False, 1)


@pytest.mark.parametrize("told, is_met", [("40", True), ("40.000001", True), ("41", False)])
def test_whether_all_can_be_met_is_seen_without_what_lies_the_other_way_round(
        told: str, is_met: bool, monkeypatch: pytest.MonkeyPatch) -> None:
    # Two lengths that differ by nothing, by 1 nm and by 1 mm, within 2 nm.
    monkeypatch.setattr("pertxogai.search.solving.Departures", None)
    drawing = read_drawing(f"segment A 0 0 30 5\nlength A 40\nlength A {told}\n")
    assert can_be_met(Equations(drawing), 2.0, Budget()) is is_met


def test_all_are_named_that_contradict_in_a_long_chain():
    # By hand: sixteen steps of 10 mm reach 160 and not 175, and do with any one of them longer.
    points = "".join(f"point P{each} {10 * each} {each % 3}\n" for each in range(1, 17))
    steps = "".join(f"x P{each} P{each + 1} 10\n" for each in range(1, 16))
    found = found_of(f"{points}x P1 10\n{steps}x P16 175\n")
    (group,) = found.contradictions
    assert len(group) == 17 and group[0] == "constraint 17 (x P16 175)"


def test_points_that_are_told_twice_to_be_one_repeat():
    found = found_of("point A 0 0\npoint B 1 0\nOnce: coincident A B\nTwice: coincident B A\n")
    assert found.repeats == (("Twice",),)


@pytest.mark.parametrize("told, within, is_repeat, is_placed", [
    ("40", 1000, True, True), ("40.0000008", 1000, True, True), ("40.0000014", 1000, True, False),
    ("40.000999", 1000, True, False), ("40.001001", 1000, False, False),
    ("40.000101", 100, False, False), ("40.000099", 100, True, False)])
def test_what_is_off_within_the_limit_repeats_and_does_not_contradict(
        told: str, within: int, is_repeat: bool, is_placed: bool) -> None:
    drawing = read_drawing("segment A Origin 40 0\non A.end XAxis\nOnce: length A 40\n"
                           f"Twice: length A {told}\n")
    found = Searched(drawing).finding(Limit(within))
    group = (("Twice", "Once"),)
    assert found.repeats == (group if is_repeat else ())
    assert found.contradictions == (() if is_repeat else group)
    assert (found.solution is not None) is is_placed


def test_a_fixed_arc_repeats_nothing():
    # Centre, start and end have 6 coordinates, and the radius is the 7th unknown: the arc asks that
    # both ends lie on it, and that it is fixed leaves it nothing. The edge beside it has 4.
    text = "arc A 0 0 10 0 0 10\nsegment S 20 0 30 5\nfixed A\n"
    found = found_of(text)
    assert (found.freedoms, found.of_the_whole, found.repeats) == (4, 0, ())
    assert {str(each.point) for each in found.moves} == {"S.start", "S.end"}
    again = found_of(text + "fixed A.end\n")
    # The end's x follows from the direction alone, and its y from the radius too.
    assert again.repeats == (("constraint 2 (fixed A.end)", "constraint 1 (fixed A)", "the ends of A"),)


def test_a_fixed_arc_of_which_the_end_is_drawn_off_its_circle_has_no_places():
    # The end is drawn 11 from the centre, and the start 10.
    found = found_of("arc A 0 0 10 0 0 11\nfixed A\n")
    assert found.solution is None and found.contradictions == (("constraint 1 (fixed A)",),)


def test_a_line_that_goes_on_another_from_their_corner_is_no_repeat():
    # A is 40 long from the origin, level; B goes on from its end, 20 long. Nothing is free.
    text = ("segment A 0 0 40 0\nsegment B A.end 60 1\ncoincident A.start Origin\n"
            "horizontal A\nlength A 40\ncollinear A B\nlength B 20\n")
    found = found_of(text)
    assert (found.freedoms, found.repeats) == (0, ())


@pytest.mark.parametrize("other, lies", [
    ("circle D 33 0 13\nradius D 13\non D XAxis\n", "20 0"),
    ("segment S 20 -9 20 9\nlength S 18\ny S.start -9\n", "20 0")])
def test_a_point_that_lies_on_two_shapes_that_touch_is_where_they_do(other, lies):
    # The circle C of 20 stands about the origin; what touches it does so in P, which moves nowhere.
    shape = other.split()[1]
    text = (f"circle C 0 0 20\n{other.splitlines()[0]}\npoint P 20 0.4\nradius C 20\n"
            "coincident C.centre Origin\n" + "\n".join(other.splitlines()[1:])
            + f"\non P C\non P {shape}\ntangent C {shape}\n"
            + ("" if shape == "D" else "vertical S\n"))
    found = found_of(text)
    assert (found.freedoms, found.repeats, found.is_doubtful) == (0, (), False)
    told = [um_of_mm(each) * 1000 for each in lies.split()]
    assert all(abs(a - b) <= WITHIN_NM for a, b in zip(found.solution.spot(point("P")), told))


DOOR = ("rectangle Door 0 0 880 2150\ncoincident DoorBottom.start Origin\nlength DoorBottom 900\n"
        "length DoorRight 2100\ncircle Handle 70 1000 12\n")


@pytest.mark.parametrize("text, name, lies", [
    (DOOR + "distance Handle XAxis 1050\nx Handle 70\n", "Handle.centre", "70 1050"),
    (DOOR + "tangent YAxis Handle\ny Handle 1050\nradius Handle 12\n", "Handle.centre", "12 1050"),
    ("segment S 300000 600000 500000 700000\ndistance S.end YAxis 500001\n", "S.end", "500001 700000")])
def test_what_an_axis_is_far_from_in_a_large_drawing(text, name, lies):
    found = found_of(text)
    assert not found.contradictions and worst_nm(found) <= WITHIN_NM
    told = [um_of_mm(each) * 1000 for each in lies.split()]
    assert all(abs(a - b) <= WITHIN_NM for a, b in zip(found.solution.spot(point(name)), told))


def test_what_repeats_a_distance_from_an_axis_does_not_contradict_it_in_a_large_drawing():
    found = found_of(DOOR + "distance Handle XAxis 1050\ny Handle 1050\n")
    assert found.contradictions == ()
    assert found.repeats == (("constraint 9 (y Handle.centre 1050)",
                              "constraint 8 (distance Handle.centre XAxis 1050)"),)


@pytest.mark.parametrize("name, group", [
    ("over-isosceles-by-its-angles", {"Width", "Angle", "Height"}),
    ("over-lengths-that-turn", {"First", "Second", "Equal"}),
    ("over-middle-of-a-side", {"Equal", "Middle", "S"}),
    ("over-middle-that-contradicts", {"Middle", "Square", "Height", "Angle", "Half"}),
])
def test_what_contradicts_is_named(name, group):
    # What the notes of these drawings call spare, but for what leaves no places when it goes (of
    # the isosceles one: without the equality the height is too great for the rest).
    found = found_in(TESTS / f"drawings/{name}.drawing")
    (contradiction,) = found.contradictions
    assert group <= set(contradiction)
    assert found.solution is None and found.is_doubtful


def test_words_with_signs_may_turn_a_drawing_upside_down():
    # By hand: A runs along x from the origin, B up from its end, C back to the left; what is free
    # is how long A, B and C are. It is drawn downwards.
    found = found_of("segment A 0 0 40 0\nsegment B A.end 45 -30\nsegment C B.end 5 -28\n"
                     "segment D C.end A.start\ncoincident A.start Origin\nhorizontal A\n"
                     "angle A B +90deg\nangle B C +90deg\n")
    assert (found.freedoms, found.contradictions) == (3, ())
    assert found.solution is not None
    assert found.solution.spot(point("B.end"))[1] > 0


def test_where_an_edge_has_shrunk_to_nothing_nothing_is_known_to_contradict():
    drawing = read_drawing("segment A 0 0 40 0\ncoincident A.start Origin\n")
    equations = Equations(drawing)
    assert not has_shrunk(equations, equations.drawn)
    assert has_shrunk(equations, equations.drawn * 0.01)


def test_what_shrinks_to_nothing_without_a_constraint_puts_that_into_no_contradiction():
    """The hole is 30 from the left and 85 from the right, of 120. A bottom that slopes, or a side that leans, makes room.
    Without the height, or with a top that slopes, there is none, but that a side without a length runs anywhere."""
    found = found_of("rectangle P 0 0 100 60\ncircle H 25 30 6\nWidth: length PBottom 120\nlength PRight 80\n"
                     "diameter H 12\nLeft: distance H PLeft 30\nRight: distance H PRight 85\n")
    sides = "constraint 4 (vertical PLeft)", "constraint 2 (vertical PRight)"
    assert found.contradictions == (("Right", "Left", "Width", *sides, "constraint 1 (horizontal PBottom)"),)
    assert found.in_doubt == ()


def test_a_triangle_that_cannot_be_is_contradicted_by_its_three_lengths():
    found = found_of("point A 0 0\npoint B 10 0\npoint C 5 1\n"
                     "AB: distance A B 30\nBC: distance B C 10\nCA: distance C A 10\n")
    assert found.contradictions == (("CA", "BC", "AB"),)
    assert found.solution is None and found.is_doubtful


BRACKET = """segment Bottom 0 0 100 0
segment End Bottom.end 100 21
segment Shelf End.end 25 21
arc Fillet 25 26 20 26 Shelf.end
segment Wall Fillet.start 20 58
segment Top Wall.end 0 58
segment Back Top.end Bottom.start
circle Hole 80 10 4
horizontal Bottom Shelf Top
vertical End Wall Back
coincident Bottom.start Origin
tangent Shelf Fillet
tangent Fillet Wall
Round: radius Fillet 5
Width: length Bottom 100
length End 20
Leg: length Top 20
length Back 60
diameter Hole 8
y Hole 10
Left: x Hole 80
Shelf span: length Shelf 75
Right: distance Hole End 25
"""
"""The shelf is as long as the bottom less the leg and the fillet, 75, as it says; the hole is 80 from
the left, so 20 from the end, 5 less than `Right` says. No end that leans, of 20 from 100, 0, has 25
from the hole, since it lies only 22.4 from there."""


def test_what_only_repeats_is_told_so_beside_a_contradiction():
    found = found_of(BRACKET)
    (repeat,) = found.repeats
    assert repeat[0] == "Shelf span" and {"Width", "Leg", "Round"} <= set(repeat)
    assert {"Left", "Right"}.isdisjoint(repeat)
    assert found.contradictions == (("Right", "Left", "Width"),) and found.in_doubt == ()
    assert (found.freedoms, found.is_doubtful) == (0, True)


def test_two_contradictions_have_groups_of_their_own():
    # The shelf is 75; from the left the hole is 20 from the end.
    found = found_of(BRACKET.replace("Shelf 75", "Shelf 70"))
    one, other = found.contradictions
    assert one == ("Right", "Left", "Width")
    assert other[0] == "Shelf span" and {"Width", "Leg", "Round"} <= set(other)
    assert {"Left", "Right"}.isdisjoint(other)
    assert found.repeats == found.in_doubt == ()


def test_two_triangles_that_cannot_be_are_two_contradictions():
    # 30 is more than 10 and 10; and the length that is told twice repeats itself alone.
    text = "".join(f"point A{n} {n}0 0\npoint B{n} {n}9 0\npoint C{n} {n}5 1\n" for n in (1, 3))
    lines = "".join(f"AB{n}: distance A{n} B{n} 30\nBC{n}: distance B{n} C{n} 10\n"
                    f"CA{n}: distance C{n} A{n} 10\n" for n in (1, 3))
    found = found_of(text + lines + "Again: distance A1 B1 30\n")
    assert set(found.contradictions) == {("CA1", "BC1", "AB1"), ("CA3", "BC3", "AB3")}
    assert found.repeats == (("Again", "AB1"),) and found.in_doubt == ()


def test_without_time_for_it_nothing_is_known_to_contradict(monkeypatch):
    monkeypatch.setattr("pertxogai.search.contradictions.STEPS", 0)
    monkeypatch.setattr("pertxogai.search.contradictions.SECONDS", 0.0)
    monkeypatch.setattr("pertxogai.search.contradictions.REST_SECONDS", 0.0)
    found = found_of(BRACKET)
    assert found.contradictions == () and found.in_doubt


def test_a_large_drawing_without_places_names_what_contradicts():
    # The ends of 400 triangles are 3,990 apart, and are told to be 5: so that word is the one.
    found = found_of(strip(400) + "\nNear: distance P0 P399 5\n")
    assert found.contradictions == (("Near",),)
    assert (found.freedoms, found.solution, found.is_doubtful) == (0, None, True)


# -- the ends of the range


def test_nothing_drawn_has_no_freedom():
    found = search(Drawing())
    assert (found.freedoms, found.of_the_whole, found.moves, found.repeats) == (0, 0, (), ())


def test_one_point_is_moved_and_never_turned():
    found = found_of("point A 3 4\n")
    assert (found.freedoms, found.of_the_whole, found.moves) == (2, 2, ())


def test_one_point_told_by_both_axes_has_no_freedom():
    found = found_of("point A 3 4\nx A 3\ny A 4\n")
    assert (found.freedoms, found.moves) == (0, ())
    assert found.solution.spot(point("A")) == (3_000_000, 4_000_000)


@pytest.mark.parametrize("word, is_met", [
    ("length Edge 40", True), ("distance Edge.start Edge.end 30", False),
    ("angle Edge 10deg", False)])
def test_what_speaks_only_of_outer_shapes_moves_nothing(word, is_met):
    # The edge is 40 long and level; the point beside it has x and y, of which nothing is told.
    found = search(read_drawing(f"outer segment Edge 0 0 40 0\npoint P 3 4\n{word}\n"))
    assert found.freedoms == 2
    groups = (f"constraint 1 ({word})",),
    assert (found.repeats, found.contradictions) == ((groups, ()) if is_met else ((), groups))


def test_nothing_free_stays_where_it_is_told():
    found = found_of("point A 0 0\nfixed A\nouter segment E 0 0 10 0\n")
    assert (found.freedoms, found.moves, found.contradictions) == (0, (), ())


def test_what_nothing_asks_for_stays_as_it_is_drawn():
    drawing = read_drawing("point A 1.5 2\nsegment S 0 0 10.25 -3\ncircle C 4 4 2.125\n")
    found = search(drawing)
    assert found.freedoms == 2 + 4 + 3
    for ref in drawing.points():
        drawn = drawing.drawn(ref)
        assert found.solution.spot(ref) == (drawn.x_um * 1000, drawn.y_um * 1000)
    assert found.solution.radius("C") == Fraction(2_125_000)


def test_flat_triangles_make_the_count_doubtful():
    # 30 and 40 make 70: two solutions meet, and the middle point moves along neither.
    found = found_of("point A 0 0\npoint B 70 0\npoint C 30 2\ncoincident A Origin\non B XAxis\n"
                     "distance A B 70\ndistance A C 30\ndistance C B 40\n")
    assert found.is_doubtful


def test_edges_that_come_to_nothing_make_the_count_doubtful():
    # Where equal lengths are 0, to the first order nothing keeps them equal.
    found = found_of(SHRUNKEN_TRIANGLE)
    assert found.solution is not None and found.is_doubtful


def test_two_thousand_points_are_free_or_found():
    found = found_of("\n".join(f"point P{n} {n} {n % 7}" for n in range(2000)))
    assert (found.freedoms, found.of_the_whole, len(found.moves)) == (4000, 3, 4000)


def test_a_strip_with_one_bar_less_has_one_freedom():
    # By hand: 200 points have 400, less 2 of the first, an axis and 397 bars; one bar less is one
    # more.
    whole, opened = found_of(strip(200)), found_of(strip(200, without=100))
    assert (whole.freedoms, opened.freedoms) == (0, 1)
    assert {str(each.point) for each in opened.moves} == {f"P{n}" for n in range(102, 200)}


@pytest.mark.parametrize("text", [
    "point A 0 0\npoint B 0 0\ndistance A B 10\n",
    "segment S 0 0 0.001 0\nlength S 100\n",
    "point A 0 0\nsegment S 5 5 5.001 5\non A S\nlength S 0.001\n",
    "circle C 0 0 0.001\ncircle D 0 0 0.001\ntangent C D\nradius C 5\nradius D 5\n",
    "point A 0 0\npoint B 1 0\nx A B 100000\ny A B -100000\n",
    "segment S 0 0 1 0\nsegment T 0 0 0 1\nequal S T\nparallel S T\nlength S 1\nlength T 3\n",
])
def test_nan_never_leaves_the_search(text):
    searched = Searched(read_drawing(text))
    assert np.isfinite(searched.found.x).all()
    assert np.isfinite(searched.found.end.worst_nm)
    found = searched.finding()
    assert all(np.isfinite([each.dx, each.dy]).all() for each in found.moves)
