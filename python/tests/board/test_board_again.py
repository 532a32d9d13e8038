"""The board in a real browser: figures of several shapes, and copies of what is selected: mirrored,
in a row, in a ring, beside it, pasted. Texts are worked out by hand."""
from __future__ import annotations

import pytest

from boards import wait_for
from browsing import Page
from selenium.webdriver.common.by import By
from selenium.webdriver.common.keys import Keys

from pertxogai.board.protocol import Point

pytest.importorskip("numpy", reason="copies are held by rank, by Debian's python3-numpy")

HOLE = "circle C 20 10 4\nradius C 4\nx C 20\ny C 10\n"


@pytest.fixture
def board_of(page: Page):
    """Begins a drawing; gives where a place in millimetres lies on the board, in pixels."""
    return page.begin_to_scale


def option(page: Page, name: str, value: str) -> None:
    """Writes a number of the tool that is held, and goes back to the board by Enter."""
    field = page.driver.find_element(By.ID, name)
    field.send_keys(Keys.CONTROL, "a")
    field.send_keys(value, Keys.ENTER)


def asks(page: Page, *lines: str) -> None:
    """Waits until the text ends with some lines."""
    count = len(lines)
    wait_for(f"{lines}", lambda: tuple(page.text().splitlines()[-count:]) == lines, 30)


def clicks(page: Page, *places: Point) -> None:
    for each in places:
        page.press(*each)


def one_step_back(page: Page, before: str) -> None:
    """One undo takes back all that a tool has drawn and asked for."""
    page.click("#undo")
    wait_for("one step", lambda: page.text() == before)


# Figures.

def test_a_polygon_is_drawn(page: Page, board_of) -> None:
    at = board_of("")
    page.keys("n")
    option(page, "sides", "5")
    page.press(*at((40, 20)))
    page.hover(*at((60, 20)))
    page.wait("a preview", "return document.querySelector('.preview[d*=\"Z\"]')")
    page.press(*at((60, 20)))
    asks(page, *(f"equal G1Side1 G1Side{number}" for number in (2, 3, 4, 5)))
    assert "construction circle G1 40 20 20\n" in page.text()
    page.click("#undo")
    wait_for("one step", lambda: "G1" not in page.text())


def test_a_number_of_sides_that_cant_be_gives_way_to_the_one_that_counts(page: Page,
                                                                         board_of) -> None:
    board_of("")
    page.keys("n")
    for typed, counts in (("5", "5"), ("2", "5"), ("41", "4"), ("7", "7")):
        option(page, "sides", typed)
        assert page.driver.find_element(By.ID, "sides").get_attribute("value") == counts


def test_a_rectangle_round_the_origin(page: Page, board_of) -> None:
    at = board_of("")
    before = page.text()
    page.keys("k")
    clicks(page, at((0, 0)), at((30, 15)))
    asks(page, "vertical R1Left", "symmetric R1Bottom.start R1Top.start about Origin")
    assert "segment R1Bottom -30 -15 30 -15\n" in page.text()
    one_step_back(page, before)


def test_an_arc_goes_on_from_an_end_to_an_edge(page: Page, board_of) -> None:
    at = board_of("segment S 0 0 20 0\nsegment E 0 40 80 40\n")
    before = page.text()
    page.keys("b")
    page.press(*at((20, 0)))
    page.hover(*at((20.2, 39.8)))
    page.wait("it lies on it", "return document.querySelector('[data-guess=\"on *.end E\"]')")
    page.press(*at((20.2, 39.8)))
    asks(page, "tangent S A1", "on A1.end E")
    page.press(*at((60, 20)))
    page.press(*at((70, 20)))
    wait_for("it is told", lambda: "needs the end" in page.told("hint"))
    one_step_back(page, before)


# Copies.

def test_nothing_selected_is_told(page: Page, board_of) -> None:
    board_of(HOLE)
    for tool in ("mirror", "row", "ring", "offset"):
        page.click(f"[data-tool={tool}]")
        assert "Select the shapes first" in page.told("hint")
        assert page.count("[data-tool=select][aria-pressed=true]") == 1
    page.click("[data-tool=paste]")
    assert "Nothing was copied yet" in page.told("hint")


def test_a_hole_is_mirrored_about_an_axis_and_an_edge(page: Page, board_of) -> None:
    at = board_of(HOLE + "segment E 50 0 50 40\n")
    page.select("C")
    page.keys("m")
    page.hover(*at((0, 30)))
    page.wait("the axis stands out", "return document.querySelector('[data-touched=YAxis]')")
    page.press(*at((0, 30)))
    asks(page, "equal C C1", "symmetric C.centre C1.centre about YAxis")
    page.wait("the copy is selected", "return document.querySelector('[data-name=C1] .selected')")
    assert page.count("[data-tool=select][aria-pressed=true]") == 1
    page.select("C")
    page.keys("m")
    page.hover(*at((50, 30)))
    page.wait("the edge stands out", "return document.querySelector('[data-touched=E]')")
    page.press(*at((50, 30)))
    asks(page, "equal C C2", "symmetric C.centre C2.centre about E")
    page.click("#undo")
    wait_for("one step", lambda: "C2" not in page.text() and "C1" in page.text())


def test_a_row_of_holes(page: Page, board_of) -> None:
    at = board_of(HOLE)
    before = page.text()
    page.select("C")
    page.keys("w")
    option(page, "count", "3")
    page.hover(*at((50, 10.6)))
    wait_for("two copies", lambda: page.count("path.preview") == 2)
    page.press(*at((50, 10.6)))
    asks(page, "x C.centre C1.centre 30", "horizontal C.centre C1.centre", "equal C C1",
         "symmetric C.centre C2.centre about C1.centre", "equal C C2")
    one_step_back(page, before)


def test_a_row_that_leans_a_little(page: Page, board_of) -> None:
    at = board_of(HOLE)
    page.select("C")
    page.keys("w")
    option(page, "count", "2")
    page.press(*at((22, 40)), held=Keys.CONTROL)
    asks(page, "x C.centre C1.centre 2", "y C.centre C1.centre 30", "equal C C1")


def test_a_ring_of_holes(page: Page, board_of) -> None:
    at = board_of(HOLE)
    before = page.text()
    page.select("C")
    page.keys("u")
    option(page, "count", "3")
    page.press(*at((0, 0)))
    asks(page, "equal S1 S2", "angle S1 S2 120deg", "equal C C1", "equal S1 S3",
         "angle S2 S3 120deg", "equal C C2")
    assert "construction segment S1 Origin C.centre\n" in page.text()
    one_step_back(page, before)


def test_an_outline_beside_another(page: Page, board_of) -> None:
    at = board_of("rectangle R 0 0 60 40\ncoincident RBottom.start Origin\nlength RBottom 60\n"
                  "length RRight 40\n")
    before = page.text()
    page.select("RBottom", "RRight", "RTop", "RLeft")
    page.keys("o")
    page.hover(*at((30, 8)))
    wait_for("four edges", lambda: page.count("path.preview") == 4)
    page.press(*at((30, 8)))
    field = page.wait("a size", "return document.querySelector('#value[open] input')")
    field.send_keys(Keys.CONTROL, "a")
    field.send_keys("5", Keys.ENTER)
    wait_for("an outline", lambda: "segment S1 5 5 55 5\n" in page.text())
    assert page.text().count(" Offset1\n") == 4 and "value Offset1 5\n" in page.text()
    one_step_back(page, before)


def test_beside_a_point_there_is_nothing(page: Page, board_of) -> None:
    """Beside the circle that is selected with it there is one."""
    at = board_of(HOLE + "point P 60 30\n")
    before = page.text()
    page.select("C", "P")
    page.keys("o")
    page.hover(*at((20, 22)))
    wait_for("one circle", lambda: page.count("path.preview") == 1)
    page.press(*at((20, 22)))
    field = page.wait("a size", "return document.querySelector('#value[open] input')")
    field.send_keys(Keys.ENTER)
    wait_for("why not", lambda: page.told("hint").startswith("'P' is no edge"))
    assert page.text() == before


def test_what_is_copied_beside_a_line_that_cant_be_read_is_pasted(page: Page, board_of) -> None:
    """It is copied of the drawing that is shown, not of the text that stands."""
    at = board_of(HOLE)
    before = page.text()
    page.type(before + "lenght C\n")
    page.verdict("refused")
    page.select("C")
    page.keys(Keys.CONTROL + "c")
    page.click("#undo")
    page.wait("read again", "return document.getElementById('refused').hidden")
    page.keys(Keys.CONTROL + "v")
    page.press(*at((60, 30)))
    wait_for("pasted", lambda: "circle C1 60 30 4\n" in page.text())


def test_what_is_copied_is_pasted_also_in_another_drawing(page: Page, board_of) -> None:
    at = board_of(HOLE + "segment E 50 0 50 40\nlength E 40\n")
    before = page.text()
    page.select("C", "E")
    page.keys(Keys.CONTROL + "c")
    wait_for("it is told", lambda: "Copied: C, E" in page.told("hint"))
    page.keys(Keys.CONTROL + "v")
    page.hover(*at((30, 10)))
    wait_for("both", lambda: page.count("path.preview") == 2)
    page.press(*at((30, 10)))
    asks(page, "radius C1 4", "length S1 40")
    assert "circle C1 30 10 4\n" in page.text() and "segment S1 60 0 60 40\n" in page.text()
    one_step_back(page, before)
    page.click("#new")
    page.verdict("empty")
    page.keys(Keys.CONTROL + "v")
    page.press(300, 300)
    asks(page, "radius C1 4", "length S1 40")
    assert page.faults() == []
