"""Whether something crosses on the way from one placement to another, by placements of hand."""
from __future__ import annotations

from fractions import Fraction
from math import cos, radians, sin

import pytest

from pertxogai.drawing import PointRef, Which, read_drawing
from pertxogai.judging.edges import Edges
from pertxogai.judging.measure import Solution
from pertxogai.ranging.passage import Passage
from pertxogai.ranging.things import Things

MM = 10 ** 6
CIRCLES = "circle A 0 0 1\ncircle B 50 0 1\n"
BIG = "circle A 0 0 1\ncircle B 0 0 90\n"
EDGE = "circle A 0 9 1\nsegment E 0 0 40 0\n"
ARC = "circle A 0 0 1\narc R 0 0 10 0 0 10\n"
SHARES = (0, 25, 50, 100)


def solution(points, radii):
    places = {PointRef(*name): (round(x * MM), round(y * MM)) for name, (x, y) in points.items()}
    return Solution(places, {name: round(size * MM) for name, size in radii.items()})


def is_clear(text, places, numbers=SHARES, is_free=False):
    """places: of a number from 0 to 1 the points and the radii. is_free: whether all may turn."""
    drawing = read_drawing(text)
    edges = [Edges(drawing, solution(*places(each / 100))) for each in numbers]
    things = Things.of(edges[0], frozenset(), is_free)
    return Passage.of(things, numbers, [things.placed(each) for each in edges]).is_clear()


def circles(a, b, one=1, other=1):
    return {("A", Which.CENTRE): a, ("B", Which.CENTRE): b}, {"A": one, "B": other}


@pytest.mark.parametrize(("aside", "is_far"), [(0, False), (1.9, False), (2.1, True), (5, True)])
def test_a_circle_that_passes_another(aside, is_far):
    assert is_clear(CIRCLES, lambda it: circles((100 * it, 0), (60, aside))) is is_far


@pytest.mark.parametrize(("size", "is_far"), [(1, True), (8.9, True), (9.1, False)])
def test_a_circle_that_grows_beside_another(size, is_far):
    # They are 10 apart, and the other one's radius is 1.
    assert is_clear(CIRCLES, lambda it: circles((0, 0), (10, 0), 1 + (size - 1) * it)) is is_far


def test_a_circle_that_moves_within_another():
    assert is_clear(BIG, lambda it: circles((88 - 176 * it, 0), (0, 0), 1, 90))
    assert not is_clear(BIG, lambda it: circles((88 - 178 * it, 0), (0, 0), 1, 90))


def edge(centre, start, end, size=1):
    return {("A", Which.CENTRE): centre, ("E", Which.START): start, ("E", Which.END): end}, {
        "A": size}


def test_an_edge_that_grows_along_a_circle():
    assert is_clear(EDGE, lambda it: edge((20, 9), (0, 0), (10 ** 6 * it + 1, 0)))
    assert not is_clear(EDGE, lambda it: edge((20, 0.5), (0, 0), (10 ** 6 * it + 1, 0)))


@pytest.mark.parametrize(("turn", "is_far"), [(50, True), (70, False)])
def test_an_edge_that_turns_to_a_circle(turn, is_far):
    # The circle lies at 60 degrees, 30 away, and is seen under 1.9 degrees to each side.
    centre = 30 * cos(radians(60)), 30 * sin(radians(60))

    def places(it):
        way = radians(turn * it)
        return edge(centre, (0, 0), (40 * cos(way), 40 * sin(way)))
    numbers = range(0, 101, 10)
    assert is_clear(EDGE.replace("0 9", "15 26"), places, numbers) is is_far


def test_two_placements_tell_nothing():
    assert not is_clear(CIRCLES, lambda it: circles((0, 0), (50, 0)), (0, 100))
    assert is_clear(CIRCLES, lambda it: circles((0, 0), (50, 0)))


def arc(centre, size=1):
    return {("A", Which.CENTRE): centre, ("R", Which.CENTRE): (0, 0), ("R", Which.START): (10, 0),
            ("R", Which.END): (0, 10)}, {"A": size, "R": 10}


@pytest.mark.parametrize(("to", "is_far"), [
    ((6, 6), True),      # 8.49 + 1 away from the centre: within the arc.
    ((6.5, 6.5), False),   # 9.19 + 1.
    ((-12, 0), True),    # There is no arc on this side.
    ((0, -12), True),
])
def test_a_circle_that_moves_to_an_arc(to, is_far):
    assert is_clear(ARC, lambda it: arc((to[0] * it, to[1] * it))) is is_far


def test_an_edge_that_turns_about_on_the_way():
    def places(it):
        return edge((20, 9), (0, 0), (10 - 60 * it + 60 * it * it, 0))
    assert not is_clear(EDGE, places)
    assert is_clear(EDGE, lambda it: edge((20, 9), (0, 0), (10 - 9 * it, 0)))


@pytest.mark.parametrize(("most", "is_far"), [(70, True), (95, False)])
def test_an_arm_that_turns_about_in_a_frame_that_turns_too(most, is_far):
    """All is turned by 100 to 140 degrees. The arm lies 60 degrees off its drawn way in the frame
    at both ends, and further between them: where it is 90 off, it runs the other way."""
    def at(centre, size, way):
        return centre[0] + size * cos(radians(way)), centre[1] + size * sin(radians(way))

    def places(it):
        turn = 100 + 40 * it
        far, arm = at((0, 0), 100, turn), at((0, 0), 50, turn + 45)
        way = turn + 60 + 4 * (most - 60) * it * (1 - it)
        return {("A", Which.START): (0, 0), ("A", Which.END): far, ("B", Which.START): far,
                ("B", Which.END): at(far, 100, turn + 90), ("Arm", Which.START): arm,
                ("Arm", Which.END): at(arm, 5, way)}, {}

    text = "segment A 0 0 100 0\nsegment B 100 0 100 100\nsegment Arm 35 35 40 35\n"
    assert is_clear(text, places, (0, 20, 80, 100), is_free=True) is is_far


def test_what_touches_all_the_way_is_clear():
    assert is_clear(EDGE, lambda it: edge((20 * it, 1), (0, 0), (40, 0)))


def test_fractions_of_a_nanometre_are_placed():
    drawing = read_drawing(CIRCLES)
    things = Things.of(Edges(drawing, solution(*circles((0, 0), (50, 0)))), (), False)
    odd = Solution({PointRef("A", Which.CENTRE): (Fraction(1, 3), 0),
                    PointRef("B", Which.CENTRE): (50 * MM, 0)}, {"A": MM, "B": MM})
    assert things.placed(Edges(drawing, odd)).ends.shape == (2, 2, 2)
