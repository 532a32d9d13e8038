"""What a hand drags follows it while all that the drawing asks for holds: without a browser.

Where things have to lie is worked out by hand, by the lengths that are told."""
from __future__ import annotations

from collections.abc import Iterator
from math import acos, atan2, cos, degrees, hypot, radians, sin

import numpy as np
import pytest

from pertxogai.drawing import PointRef, Which, read_drawing
from pertxogai.search import pulling
from pertxogai.search.dragging import Drag, Frame, Grip, NothingFree
from pertxogai.search.pulling import Reach
from pertxogai.search.searched import Searched
from shared_drawings import ROUNDED_BRACKET

MM = 1e6
"""Nanometres of a millimetre."""
Place = tuple[float, float]


@pytest.fixture(autouse=True)
def _time(monkeypatch: pytest.MonkeyPatch) -> None:
    """A frame ends by its steps alone, however busy the machine is."""
    monkeypatch.setattr(pulling, "FRAME_SECONDS", 10.0)


def four_bar(base: float, crank: float, coupler: float, rocker: float, joints: list[Place]) -> str:
    """A four-bar linkage on two bearings, at the origin and beside it, whose joints are drawn at
    two places."""
    (x, y), (u, v) = joints
    return f"""segment Base 0 0 {base} 0
segment Crank Base.start {x:.6f} {y:.6f}
segment Coupler Crank.end {u:.6f} {v:.6f}
segment Rocker Coupler.end Base.end
coincident Base.start Origin
horizontal Base
length Base {base}
length Crank {crank}
length Coupler {coupler}
length Rocker {rocker}
"""


def parallelogram(turn: float) -> str:
    """One of cranks of 15 and a base of 40, with the cranks at an angle in degrees."""
    x, y = 15 * cos(radians(turn)), 15 * sin(radians(turn))
    return four_bar(40, 15, 40, 15, [(x, y), (x + 40, y)])


def point(word: str) -> PointRef:
    name, _, which = word.partition(".")
    return PointRef(name, Which(which or "at"))


class Dragged:
    """A drawing that is dragged, with all lengths in millimetres."""

    def __init__(self, text: str, *points: str, rim: str = "", at: Place | None = None) -> None:
        self.drawing = read_drawing(text)
        searched = Searched(self.drawing)
        assert searched.found.is_solved()
        self.equations = searched.equations
        here = at or self._place(searched.found.x, points[0])
        grip = Grip((here[0] * MM, here[1] * MM), tuple(map(point, points)), rim)
        self.drag = Drag(searched.equations, searched.found.x, grip)
        self.begin = self.drag.x.copy()

    def _place(self, x: np.ndarray, name: str) -> Place:
        unknowns = self.equations.unknowns
        number = unknowns.number_of.get(unknowns.leader(point(name)))
        return (0.0, 0.0) if number is None else (x[2 * number] / MM, x[2 * number + 1] / MM)

    def to(self, x: float, y: float) -> Frame:
        """The hand goes to a place; all that is asked for has to hold there."""
        frame = self.drag.to((x * MM, y * MM))
        assert np.abs(self.equations.off(self.drag.x)).max(initial=0) <= 0.01, "nanometres"
        assert frame.off_nm <= 2, "on whole nanometres"
        return frame

    def at(self, name: str) -> Place:
        """Where a point lies."""
        return self._place(self.drag.x, name)

    def length(self, first: str, second: str) -> float:
        """How far two points are apart."""
        (x, y), (u, v) = self.at(first), self.at(second)
        return hypot(u - x, v - y)


def round_about(radius: float, begin: float, step: float, count: int) -> Iterator[Place]:
    """Places on a circle about the origin, by steps in degrees."""
    for turn in range(1, count + 1):
        angle = radians(begin + step * turn)
        yield radius * cos(angle), radius * sin(angle)


# -- the four-bar linkage


FOUR_BAR = four_bar(40, 15, 34, 26, [(8, 12.689), (38, 27)])


@pytest.mark.parametrize("radius", [15, 9, 40], ids=["on it", "within", "beyond"])
@pytest.mark.parametrize("step", [5, -5])
def test_a_crank_goes_all_round_in_steps_of_five_degrees(step: int, radius: float) -> None:
    held = Dragged(FOUR_BAR, "Crank.end")
    begin = degrees(atan2(12.689, 8))
    far = radius / 15
    held.to(held.at("Crank.end")[0] * far, held.at("Crank.end")[1] * far)
    for x, y in round_about(15, begin, step, 72):
        frame = held.to(x * far, y * far)
        assert hypot(held.at("Crank.end")[0] - x, held.at("Crank.end")[1] - y) < 0.1
        assert frame.reach is (Reach.THERE if radius == 15 else Reach.BESIDE)
        for ends, wanted in ((("Base.start", "Base.end"), 40), (("Base.start", "Crank.end"), 15),
                             (("Crank.end", "Coupler.end"), 34),
                             (("Coupler.end", "Base.end"), 26)):
            assert abs(held.length(*ends) - wanted) <= 1e-6, "a nanometre"
    # 15 + 40 < 34 + 26: the crank turns all round, and the rocker comes back to its side.
    assert held.at("Coupler.end")[1] > 0
    assert hypot(*np.subtract(held.at("Coupler.end"), (38, 27))) < 5


@pytest.mark.parametrize("begin, step", [(60, 5), (60.5, 1), (60, -7), (61.7, 20)])
def test_a_parallelogram_goes_through_its_change_points_without_a_flip(
        begin: float, step: float) -> None:
    held = Dragged(parallelogram(begin), "Crank.end")
    for x, y in round_about(15, begin, step, round(360 / abs(step))):
        held.to(x, y)
        # The coupler stays parallel to the base: its ends are 40 apart, and level.
        (a, b), (c, d) = held.at("Crank.end"), held.at("Coupler.end")
        assert abs(c - a - 40) < 1e-4 and abs(d - b) < 1e-4
        assert hypot(a - x, b - y) < 1e-3


STOPPED = four_bar(50, 30, 20, 25, [(15, 25.98), (33, 20)])
"""30 + 50 > 20 + 25 + ..: the crank has two dead points, where coupler and rocker are in line."""
LIMIT = degrees(acos((30 ** 2 + 50 ** 2 - 45 ** 2) / (2 * 30 * 50)))
"""The angle of the crank there, by the law of cosines."""


def test_at_a_dead_point_it_stays_and_says_so_and_comes_back_as_it_went() -> None:
    held = Dragged(STOPPED, "Crank.end")
    begin = degrees(atan2(*reversed(held.at("Crank.end"))))
    before = held.at("Coupler.end")
    for angle in np.arange(begin, LIMIT + 60, 1.0):
        frame = held.to(30 * cos(radians(angle)), 30 * sin(radians(angle)))
        assert hypot(*np.subtract(held.at("Coupler.end"), before)) < 4, "nothing jumps"
        before = held.at("Coupler.end")
        assert held.length("Base.start", "Crank.end") == pytest.approx(30, abs=1e-6)
    assert frame.reach is Reach.STAYS
    x, y = held.at("Crank.end")
    assert LIMIT - 0.05 < degrees(atan2(y, x)) <= LIMIT
    assert held.length("Crank.end", "Base.end") == pytest.approx(45, abs=1e-2), "all but in line"
    frame = held.to(30 * cos(radians(begin)), 30 * sin(radians(begin)))
    for angle in (begin + 3, begin + 1, begin):
        frame = held.to(30 * cos(radians(angle)), 30 * sin(radians(angle)))
    assert frame.reach is Reach.THERE
    assert np.abs(held.drag.x - held.begin).max() < 1e4, "the same shape as before"


def test_a_dead_point_leads_to_the_other_shape() -> None:
    held = Dragged(STOPPED, "Crank.end")
    before = side_of_the_elbow(held)
    for angle in np.arange(LIMIT - 3, LIMIT + 5, 0.5):
        frame = held.to(30 * cos(radians(angle)), 30 * sin(radians(angle)))
    assert frame.reach is Reach.STAYS
    assert held.drag.turn() is not None
    for angle in np.arange(LIMIT, LIMIT - 3, -0.25):
        held.to(30 * cos(radians(angle)), 30 * sin(radians(angle)))
    assert side_of_the_elbow(held) * before < 0
    assert held.length("Crank.end", "Coupler.end") == pytest.approx(20, abs=1e-6)
    assert held.length("Coupler.end", "Base.end") == pytest.approx(25, abs=1e-6)


def side_of_the_elbow(held: Dragged) -> float:
    """Above 0 where the rocker's joint lies left of the way from the crank's end to the bearing."""
    (a, b), (c, d) = held.at("Crank.end"), held.at("Coupler.end")
    return (50 - a) * (d - b) - (0 - b) * (c - a)


def test_away_from_a_dead_point_there_is_no_other_shape() -> None:
    assert Dragged(parallelogram(60), "Crank.end").drag.turn() is None


# -- other drawings


RAILS = """segment Rail 0 0 80 30
segment Rod 20 40 40 15
fixed Rail
on Rod.end Rail
length Rod 35
y Rod.start 40
"""


def test_a_slider_stays_on_its_line() -> None:
    held = Dragged(RAILS, "Rod.end")
    for x in (45, 47, 43, 35, 50):
        # The rail runs on 3 x = 8 y; the hand is off it by 1 mm.
        held.to(x - 3 / 73 ** 0.5, 3 * x / 8 + 8 / 73 ** 0.5)
        assert held.at("Rod.end") == pytest.approx((x, 3 * x / 8), abs=1e-2)
        assert abs(3 * held.at("Rod.end")[0] - 8 * held.at("Rod.end")[1]) < 1e-6
        assert held.length("Rod.start", "Rod.end") == pytest.approx(35, abs=1e-6)
        assert held.at("Rod.start")[1] == pytest.approx(40, abs=1e-7)


BRACKET = """polyline P 0 0 60 0 60 15 15 15 15 50 0 50
segment P6 P5.end P1.start
coincident P1.start Origin
horizontal P1
vertical P2
horizontal P3
vertical P4
horizontal P5
vertical P6
length P1 60
length P2 15
length P5 15
length P6 50
"""


def test_the_missing_radius_of_a_bracket_follows_the_rim() -> None:
    held = Dragged(ROUNDED_BRACKET, rim="Round", at=(25 - 10 / 2 ** 0.5, 25 - 10 / 2 ** 0.5))
    for wanted in (12.0, 15.0, 8.0, 3.0):
        away = 15 + wanted - wanted / 2 ** 0.5
        held.to(away, away)
        radius = held.drag.solution().radius("Round") / MM
        assert radius == pytest.approx(wanted, abs=1e-2), "the rim runs through the hand"
        assert held.at("Round.centre") == pytest.approx((15 + radius, 15 + radius), abs=1e-5)
        assert held.at("In.end") == pytest.approx((15 + radius, 15), abs=1e-5)
        assert held.at("Up.start") == pytest.approx((15, 15 + radius), abs=1e-5)
        assert held.at("Top.end") == pytest.approx((0, 50), abs=1e-5)
    before = held.drag.solution().radius("Round")
    held.to(200, 200)
    assert 0 < held.drag.solution().radius("Round") / MM <= 35 + 1e-5, "the edge is 35 long"
    assert held.drag.solution().radius("Round") != before


def test_a_rectangle_of_no_size_keeps_its_angles() -> None:
    text = "rectangle R 0 0 40 30\n"
    held = Dragged(text, "RRight.end")
    for x, y in ((60, 50), (10, 12), (90, 5), (40, 30)):
        frame = held.to(x, y)
        assert frame.reach is Reach.THERE
        (a, b), (c, d) = held.at("RBottom.start"), held.at("RRight.end")
        assert (c, d) == pytest.approx((x, y), abs=1e-4)
        assert held.at("RBottom.end") == pytest.approx((c, b), abs=1e-5)
        assert held.at("RTop.end") == pytest.approx((a, d), abs=1e-5)
    assert held.at("RBottom.start") == pytest.approx((0, 0), abs=1), "the other corner stays"


def test_a_rectangle_that_is_drawn_as_a_point_opens() -> None:
    held = Dragged("rectangle R 5 5 5.001 5.001\n", "RRight.end")
    held.to(40, 30)
    for _ in range(20):
        held.to(40, 30)
    assert held.at("RRight.end")[0] > held.at("RBottom.start")[0]
    assert held.at("RBottom.end")[1] == pytest.approx(held.at("RBottom.start")[1], abs=1e-6)


def test_a_piece_at_the_origin_turns_about_it() -> None:
    text = """segment A 0 0 30 0
segment B A.end 30 20
segment C B.end A.start
coincident A.start Origin
length A 30
length B 20
length C 36
"""
    held = Dragged(text, "A.end")
    begin = degrees(atan2(*reversed(held.at("A.end"))))
    for x, y in round_about(30, begin, 10, 36):
        held.to(x, y)
        assert held.at("A.end") == pytest.approx((x, y), abs=1e-4)
        (a, b), (c, d) = held.at("A.end"), held.at("B.end")
        assert a * d - b * c > 0, "it stays the way round that it is drawn"
    assert held.at("A.start") == (0, 0)
    with pytest.raises(NothingFree, match="nothing is free here"):
        Dragged(text, "A.start")


BOW = """arc Bow 0 0 20 0 0 20
coincident Bow.centre Origin
on Bow.start XAxis
radius Bow 20
"""
"""It begins at 0 degrees, and runs to its end at 90, to the left."""


@pytest.mark.parametrize("turns, passed", [
    ([45, 10, -10, -60, -10], [0, 0, -1, -1, -1]), ([10, -10, 10, 60], [0, -1, 0, 0]),
    ([150, 230, 300, 350, 370, 400], [0, 0, 0, 0, 1, 1])], ids=["past", "and back", "all round"])
def test_an_arc_that_goes_past_its_own_end_is_told(turns: list[int], passed: list[int]) -> None:
    held = Dragged(BOW, "Bow.end")
    for turn, wanted in zip(turns, passed):
        frame = held.to(20 * cos(radians(turn)), 20 * sin(radians(turn)))
        assert held.at("Bow.end") == pytest.approx(
            (20 * cos(radians(turn)), 20 * sin(radians(turn))), abs=1e-3)
        assert frame.passed == ({"Bow": wanted} if wanted else {})


def test_a_chain_of_forty_links_follows_by_either_end() -> None:
    lines = ["segment S0 0 0 10 0"]
    lines += [f"segment S{n} S{n - 1}.end {10 * n + 10} {3 * (n % 2)}" for n in range(1, 40)]
    lines += ["coincident S0.start Origin", *(f"length S{n} 10" for n in range(40))]
    held = Dragged("\n".join(lines) + "\n", "S39.end")
    for x, y in ((380, 50), (300, 120), (150, 150), (40, 90), (60, -80), (300, -100)):
        start = held.at("S39.end")
        for part in np.linspace(0.1, 1, 10):
            held.to(start[0] + part * (x - start[0]), start[1] + part * (y - start[1]))
        assert held.at("S39.end") == pytest.approx((x, y), abs=1e-2)
        for n in range(40):
            assert held.length(f"S{n}.start", f"S{n}.end") == pytest.approx(10, abs=2e-6)
    for _ in range(30):
        frame = held.to(900, -300)
    assert frame.reach is not Reach.THERE
    assert hypot(*held.at("S39.end")) <= 400 + 1e-5, "no longer than its links"
    assert hypot(*held.at("S39.end")) > 390


# -- what is held


PLATE = """rectangle R 0 0 80 50
circle H 20 20 5
circle K 60 20 5
coincident RBottom.start Origin
length RBottom 80
length RRight 50
diameter H 10
x H.centre 20
diameter K 10
"""


def test_only_what_is_loose_moves_and_is_told() -> None:
    held = Dragged(PLATE, "H.centre")
    frame = held.to(33, 31)
    assert set(map(str, frame.points)) == {"H.centre"} and not frame.radii
    assert held.at("H.centre") == pytest.approx((20, 31), abs=1e-5), "its x is told"
    assert frame.reach is Reach.BESIDE
    with pytest.raises(NothingFree):
        Dragged(PLATE, "RRight.end")


def test_a_rim_whose_radius_is_told_is_held_by_its_centre() -> None:
    held = Dragged(PLATE, rim="K", at=(65, 20))
    held.to(55, 35)
    assert held.at("K.centre") == pytest.approx((50, 35), abs=1e-5)
    assert held.drag.solution().radius("K") == 5 * MM
    free = Dragged(PLATE.replace("diameter K 10\n", ""), rim="K", at=(65, 20))
    free.to(68, 20)
    assert free.drag.solution().radius("K") == pytest.approx(8 * MM, abs=500)
    assert free.at("K.centre") == pytest.approx((60, 20), abs=5e-4), "the centre stays"
    free.to(60, 20)
    assert free.drag.solution().radius("K") > 0


def test_an_edge_goes_as_a_whole_and_so_do_several() -> None:
    held = Dragged(BRACKET.replace("length P5 15\n", ""), "P4.start", "P4.end", at=(15, 30))
    held.to(22, 44)
    # Nothing but the width of the upper leg is free: the edge moves along x.
    assert held.at("P4.start") == pytest.approx((22, 15), abs=1e-4)
    assert held.at("P4.end") == pytest.approx((22, 50), abs=1e-4)
    text = "point A 0 0\npoint B 10 0\npoint C 5 30\ndistance A B 10\n"
    both = Dragged(text, "A", "B", at=(3, 0))
    both.to(13, 20)
    assert both.at("A") == pytest.approx((10, 20), abs=1e-4)
    assert both.at("B") == pytest.approx((20, 20), abs=1e-4)
    assert both.at("C") == (5, 30)


def test_points_in_one_place_by_coincident_go_together() -> None:
    text = "segment A 0 0 30 0\nsegment B 30 0 40 20\ncoincident A.end B.start\nlength A 30\n"
    held = Dragged(text, "B.start")
    held.to(0, 30)
    assert held.at("A.end") == held.at("B.start")
    assert held.length("A.start", "A.end") == pytest.approx(30, abs=2e-6)


def test_a_hand_that_jumps_far_is_followed_step_by_step() -> None:
    held = Dragged(FOUR_BAR, "Crank.end")
    begin = degrees(atan2(12.689, 8))
    for turn in (90, 180, 270, 360):
        angle = radians(begin + turn)
        for _ in range(3):
            held.to(15 * cos(angle), 15 * sin(angle))
        assert held.at("Crank.end") == pytest.approx((15 * cos(angle), 15 * sin(angle)), abs=1e-2)
    assert hypot(*np.subtract(held.at("Coupler.end"), (38, 27))) < 5


@pytest.mark.parametrize("steps", [1, 2, 5, 9])
def test_what_is_only_late_comes_and_isnt_told_to_stay(
        monkeypatch: pytest.MonkeyPatch, steps: int) -> None:
    monkeypatch.setattr(pulling, "FRAME_STEPS", steps)
    monkeypatch.setattr(pulling, "FRAME_SECONDS", 0.0)
    dragged = Dragged(four_bar(40, 15, 34, 26, [(8, 12), (38, 27)]), "Crank.end")
    goal = 15 * cos(radians(235)), 15 * sin(radians(235))
    frame = dragged.to(*goal)
    for _ in range(200):
        if frame.reach is not Reach.COMES:
            break
        frame = dragged.to(*goal)
    assert frame.reach in (Reach.THERE, Reach.BESIDE)
    assert dragged.at("Crank.end") == pytest.approx(goal, abs=0.01)


def test_an_angle_between_bars_is_kept() -> None:
    text = """segment A 0 0 30 0
segment B 0 0 0 30
coincident A.start Origin
coincident B.start Origin
perpendicular A B
length A 30
"""
    held = Dragged(text, "A.end")
    for x, y in round_about(30, 0, 15, 24):
        held.to(x, y)
        (a, b), (c, d) = held.at("A.end"), held.at("B.end")
        assert abs(a * c + b * d) < 1e-4 and a * d - b * c > 0
