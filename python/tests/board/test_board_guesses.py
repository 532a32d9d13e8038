"""The board in a real browser: constraints by drawing. What is nearly so is shown as a sign before
the click, and asked for by it; Ctrl leaves it out. Texts are worked out by hand."""
from __future__ import annotations

import re

import pytest

from boards import wait_for
from browsing import Page
from selenium.webdriver.common.keys import Keys

from pertxogai.board.marks import _SIGNS
from pertxogai.board.protocol import Point
from conftest import TOP

EDGE = "segment E 0 0 80 0\n"
LEANING = "segment E 0 0 80 30\n"


@pytest.fixture
def board_of(page: Page):
    """Begins a drawing; gives where a place in millimetres lies on the board, in pixels."""
    return page.begin_to_scale


def guesses(page: Page) -> set[str]:
    """What is guessed, as it is shown: the words, and the sign."""
    return set(page.driver.execute_script(
        "return [...document.querySelectorAll('#board .guess')].map("
        "(each) => `${each.dataset.guess} ${each.textContent}`)"))


def shows(page: Page, at: Point, *guessed: str, held: str = "") -> None:
    """Moves the mouse to a place once what was drawn before stands, and waits until this is
    guessed there."""
    page.settled()
    page.hover(*at, held=held)
    wait_for(f"{guessed} is guessed", lambda: guesses(page) == set(guessed), 10)


def lines(page: Page, count: int) -> list[str]:
    """The last lines of the text, once they are shown."""
    page.settled()
    return page.text().splitlines()[-count:]


# What is guessed of a segment.

def test_a_level_and_an_upright_segment(page: Page, board_of) -> None:
    at = board_of("")
    page.keys("s")
    page.press(*at((10, 10)))
    shows(page, at((60, 10.3)), "horizontal * ―")
    page.press(*at((60, 10.3)))
    wait_for("a segment", lambda: "S1" in page.text())
    shows(page, at((60.2, 50)), "vertical * |")
    page.press(*at((60.2, 50)))
    text = wait_for("both", lambda: "S2" in page.text() and page.text())
    assert "segment S1 10 10 60 10\nsegment S2 S1.end 60 50\n" in text
    assert lines(page, 2) == ["horizontal S1", "vertical S2"]
    page.click("#undo")
    assert "S2" not in "".join(lines(page, 9))


def test_ctrl_leaves_out_what_is_guessed(page: Page, board_of) -> None:
    at = board_of(EDGE)
    page.keys("s")
    page.press(*at((0, 0)), held=Keys.CONTROL)
    page.press(*at((40, 0)), held=Keys.CONTROL)
    wait_for("a segment", lambda: "S1" in page.text())
    assert "segment S1 0 0 40 0\n" in page.text() and len(page.text().splitlines()) == 5


def test_ends_on_an_edge_in_its_middle_and_on_an_axis(page: Page, board_of) -> None:
    at = board_of("segment E 10 20 80 20\n")
    page.keys("s")
    shows(page, at((45.4, 20.4)), "midpoint @ E △")
    page.press(*at((45.4, 20.4)))
    shows(page, at((25, 0.3)), "on @ XAxis ×")
    page.press(*at((25, 0.3)))
    wait_for("a segment", lambda: "S1" in page.text())
    assert "segment S1 45 20 25 0\n" in page.text()
    assert lines(page, 2) == ["midpoint S1.start E", "on S1.end XAxis"]


def test_a_point_on_a_circle(page: Page, board_of) -> None:
    at = board_of("circle C 40 30 20\n")
    page.keys("p")
    shows(page, at((56.2, 42.2)), "on @ C ×")
    page.press(*at((56.2, 42.2)))
    wait_for("a point", lambda: "P1" in page.text())
    assert lines(page, 1) == ["on P1 C"]


def test_a_click_at_an_end_shares_the_point(page: Page, board_of) -> None:
    at = board_of(EDGE)
    page.keys("s")
    page.press(*at((80, 0)))
    page.press(*at((60, 40)))
    wait_for("a segment", lambda: "S1" in page.text())
    assert "segment S1 E.end 60 40\n" in page.text()


def test_a_segment_square_to_the_edge_that_it_begins_on(page: Page, board_of) -> None:
    at = board_of(LEANING)
    page.keys("s")
    page.press(*at((0, 0)))
    shows(page, at((-15, 40.2)), "perpendicular * E ⊥")
    page.press(*at((-15, 40.2)))
    wait_for("a segment", lambda: "S1" in page.text())
    assert lines(page, 1) == ["perpendicular S1 E"]


def test_a_segment_parallel_to_another(page: Page, board_of) -> None:
    at = board_of(LEANING)
    page.keys("s")
    page.press(*at((10, 30)))
    shows(page, at((58, 48.2)), "parallel * E ∥")
    page.press(*at((58, 48.2)))
    wait_for("a segment", lambda: "S1" in page.text())
    assert lines(page, 1) == ["parallel S1 E"]
    x, y, u, v = map(float, re.findall(r"S1 (\S+) (\S+) (\S+) (\S+)", page.text())[0])
    assert abs((u - x) * 30 - (v - y) * 80) < 1  # It is drawn as it is guessed.


def test_a_segment_as_long_as_the_edge_that_it_begins_at(page: Page, board_of) -> None:
    at = board_of("segment E 0 10 50 10\n")
    page.keys("s")
    page.press(*at((50, 10)))
    shows(page, at((50.2, 59.7)), "vertical * |", "equal E * =")
    page.press(*at((50.2, 59.7)))
    wait_for("a segment", lambda: "S1" in page.text())
    assert "segment S1 E.end 50 60\n" in page.text()
    assert lines(page, 2) == ["vertical S1", "equal E S1"]


def test_a_segment_that_touches_a_circle(page: Page, board_of) -> None:
    """It is asked to touch, and not to end on the circle besides, which would say it twice."""
    at = board_of("circle C 40 30 20\n")
    page.keys("s")
    page.press(*at((10, 58)))
    # From (10, 58) the tangent's foot: by Pythagoras the tangent is sqrt(30^2 + 28^2 - 20^2) =
    # 35.83 long; turned from the way to the centre by asin(20 / 41.04) = 29.17 degrees.
    shows(page, at((44.79, 49.42)), "tangent * C ◠")
    page.press(*at((44.79, 49.42)))
    wait_for("a segment", lambda: "S1" in page.text())
    assert lines(page, 1) == ["tangent S1 C"]


# Circles, arcs and rectangles.

def test_a_circle_through_a_point_and_one_that_touches(page: Page, board_of) -> None:
    at = board_of("segment E 0 10 80 10\npoint P 30 50\n")
    page.keys("c")
    page.press(*at((50, 40)))
    shows(page, at((50.2, 10.2)), "tangent E * ◠")
    page.press(*at((50.2, 10.2)))
    wait_for("a circle", lambda: "C1" in page.text())
    page.press(*at((20, 30)))
    shows(page, at((30.2, 50.2)), "on P * ×")
    page.press(*at((30.2, 50.2)))
    wait_for("another", lambda: "C2" in page.text())
    assert lines(page, 2) == ["tangent E C1", "on P C2"] and "circle C1 50 40 30\n" in page.text()


def test_a_circle_as_large_as_another(page: Page, board_of) -> None:
    at = board_of("circle C 20 30 10\n")
    page.keys("c")
    page.press(*at((70, 30)))
    shows(page, at((80.3, 30)), "equal C * =")
    page.press(*at((80.3, 30)))
    wait_for("a circle", lambda: "C1" in page.text())
    assert "circle C1 70 30 10\n" in page.text() and lines(page, 1) == ["equal C C1"]


def test_an_arc_that_touches_the_segment_that_it_begins_at(page: Page, board_of) -> None:
    at = board_of("segment E 0 10 50 10\n")
    page.keys("a")
    page.press(*at((50, 10)))
    page.press(*at((50, 50)))
    # The half circle about (50, 30).
    shows(page, at((70.2, 30)), "tangent E * ◠")
    page.press(*at((70.2, 30)))
    wait_for("an arc", lambda: "A1" in page.text())
    assert "arc A1 50 30 E.end 50 50\n" in page.text() and lines(page, 1) == ["tangent E A1"]


@pytest.mark.parametrize("start, end, name", [
    ((20, 10), (60, 40), "R1Bottom.start"), ((60, 10), (20, 40), "R1Bottom.end"),
    ((20, 10), (60, -15), "R1Top.end"), ((60, 10), (20, -15), "R1Right.end")])
def test_a_corner_of_a_rectangle_on_an_edge(page: Page, board_of, start: Point, end: Point,
                                            name: str) -> None:
    at = board_of("segment E 0 10 100 10\n")
    page.keys("r")
    page.press(*at(start))
    page.press(*at(end))
    wait_for("a rectangle", lambda: "R1" in page.text())
    assert lines(page, 1) == [f"on {name} E"]
    places = [(x, y) for side, x, y in re.findall(r"segment (R1\w+) (\S+) (\S+) ", page.text())]
    assert places, page.text()


# What is dropped.

def test_a_point_that_is_dropped_on_a_point_joins(page: Page, board_of) -> None:
    at = board_of(EDGE + "segment F 20 40 70 50\n")
    page.keys("v")
    page.press(*at((70, 50)), to=at((80, 0.5)), lets_go=False)
    wait_for("a sign", lambda: guesses(page) == {"coincident @ E.end ●"})
    page.let_go()
    wait_for("they are one", lambda: "coincident" in page.text())
    assert "segment F 20 40 80 0\n" in page.text() and lines(page, 1) == ["coincident F.end E.end"]
    assert guesses(page) == set()
    page.click("#undo")
    wait_for("as before", lambda: "coincident" not in page.text())
    assert "segment F 20 40 70 50\n" in page.text()


@pytest.mark.parametrize("to, guess", [((40, 0.4), "midpoint F.end E"), ((25, 0.4), "on F.end E")])
def test_a_point_that_is_dropped_on_an_edge(page: Page, board_of, to: Point, guess: str) -> None:
    at = board_of(EDGE + "segment F 20 40 70 50\n")
    page.keys("v")
    page.press(*at((70, 50)), to=at(to))
    wait_for("it is asked for", lambda: guess in page.text())
    assert lines(page, 1) == [guess]


def test_a_point_that_is_dropped_with_ctrl_goes_there_alone(page: Page, board_of) -> None:
    at = board_of(EDGE + "segment F 20 40 70 50\n")
    page.keys("v")
    page.press(*at((70, 50)), to=at((80, 0)), held=Keys.CONTROL)
    wait_for("it is drawn there", lambda: "segment F 20 40 80 0\n" in page.text())
    assert len(page.text().splitlines()) == 5


def test_a_corner_isnt_joined_with_itself_nor_with_its_edges(page: Page, board_of) -> None:
    at = board_of("segment E 0 10 80 10\nsegment F E.end 70 50\n")
    page.keys("v")
    page.press(*at((80, 10)), to=at((60, 10)))
    wait_for("it is drawn there", lambda: "segment E 0 10 60 10\n" in page.text())
    assert len(page.text().splitlines()) == 5


# What the program says.

def test_what_would_be_one_too_many_is_left_out(page: Page, board_of) -> None:
    """A segment between the ends of a level one is level already."""
    at = board_of("segment E 10 10 80 10\nhorizontal E\n")
    page.keys("s")
    page.press(*at((10, 10)))
    shows(page, at((80, 10)), "horizontal * ―", "equal E * =")
    page.press(*at((80, 10)))
    wait_for("a segment", lambda: "S1" in page.text())
    page.settled()
    assert "segment S1 E.start E.end\n" in page.text()
    assert lines(page, 1) == ["horizontal E"]


def test_the_signs_are_those_of_the_marks() -> None:
    text = (TOP / "python/pertxogai/board/static/guesses.js").read_text()
    signs = dict(re.findall(r"(\w+): '(.)',?", text[text.index("SIGNS"):text.index("};")]))
    known = {kind.__name__.lower().replace("pointon", "on"): sign for kind, sign in _SIGNS.items()}
    assert len(signs) == 9 and {word: known[word] for word in signs} == signs
