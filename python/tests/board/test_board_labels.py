"""The board in a real browser: dimensions are placed and moved by dragging, stand beside each other
at first, and may be only measured."""
from __future__ import annotations

import re
from itertools import combinations

import pytest

from boards import drawing, wait_for
from browsing import Page
from selenium.webdriver.common.by import By
from selenium.webdriver.common.keys import Keys

PLATE = """segment A 0 0 80 0
segment B A.end 80 50
segment D A.start 50 40
circle C 30 30 8
coincident A.start Origin
horizontal A
length A 80
length B 50
angle A B 100deg
angle A D 40deg
radius C 8
"""


LEGIBLE = 10, 30
"""Between these a text's height in pixels is legible."""


def boxes(page: Page) -> list[list[float]]:
    """The boxes of all texts of dimensions."""
    found = page.driver.execute_script(
        "return [...document.querySelectorAll('.marks .value')].map((each) => {"
        "  const r = each.getBoundingClientRect(); return [r.left, r.top, r.right, r.bottom]; });")
    assert isinstance(found, list)
    return found


def overlap(one: list[float], other: list[float]) -> bool:
    """Whether two boxes lie over each other, by more than two pixels."""
    return (min(one[2], other[2]) - max(one[0], other[0]) > 2
            and min(one[3], other[3]) - max(one[1], other[1]) > 2)


def test_a_label_goes_where_it_is_dragged_and_is_kept_in_the_text(page: Page) -> None:
    page.begin(PLATE, "open")
    x, y = page.mark(3)
    page.press(x, y, to=(x + 30, y + 24))
    wait_for("a note", lambda: re.search(r"length A 80 # label -?[\d.]+ -[\d.]+\n", page.text()))
    page.settled()
    u, v = page.mark(3)
    assert abs(u - x - 30) < 2 and abs(v - y - 24) < 2
    page.click("#undo")
    wait_for("one step", lambda: "label" not in page.text())
    wait_for("there again", lambda: page.mark(3) == pytest.approx((x, y), abs=1))


def test_leaders_and_arcs_go_with_their_labels(page: Page) -> None:
    """Constraint 5 is an angle, and 7 the radius of a circle."""
    page.begin(PLATE, "open")
    for count, number in enumerate((5, 7), 1):
        path = f".marks [data-constraint='{number}'] path"
        assert "A" in page.driver.find_element(By.CSS_SELECTOR, path).get_attribute("d") or (
            number == 7)
        x, y = page.mark(number)
        page.press(x, y, to=(x + 20, y - 18))
        wait_for("a note", lambda: page.text().count(" # label") == count)
        page.settled()
        assert page.mark(number) == pytest.approx((x + 20, y - 18), abs=2)
    assert page.text().count("# label") == 2 and page.faults() == []


@pytest.mark.parametrize("name, verdict", [
    ("flange", "well"), ("bracket", "well"), ("plate-with-four-holes", "well"),
    ("slotted-plate", "well"), ("door-with-grille", "well"), ("open-bracket", "open")])
def test_no_dimension_stands_over_another_at_first(page: Page, name: str, verdict: str) -> None:
    """And each is as high as text is read at every zoom."""
    page.begin(drawing(name), verdict)
    for zoom in ("", "-", "-", "--", "++++++"):
        page.keys(*zoom)
        page.settled()
        found = boxes(page)
        over = [pair for pair in combinations(found, 2) if overlap(*pair)]
        assert over == [], f"{name} {zoom}"
        assert all(LEGIBLE[0] < low - high < LEGIBLE[1] for _, high, _, low in found), zoom


def test_numbers_keep_their_size_at_every_zoom(page: Page) -> None:
    """Shown as a whole, at a sixth of that and at ten times that a number is as high as 12 pixels of
    a letter make it, and as wide as before."""
    page.begin(PLATE, "open")
    found = []
    for zoom in ("", "-" * 8, "+" * 18):
        page.keys(*zoom)
        page.settled()
        found.append(page.driver.execute_script(
            "const text = document.querySelector(`.marks [data-constraint='3'] text`);"
            "const { width, height } = text.getBoundingClientRect();"
            "return { width, height, letter: getComputedStyle(text).fontSize,"
            "  segment: document.querySelector(`[data-name='A'] .hit`).getTotalLength() };"))
    whole, far, near = found
    assert far["segment"] < whole["segment"] / 5 and near["segment"] > whole["segment"] * 8
    assert {each["letter"] for each in found} == {"12px"}
    for each in found:
        assert 12 <= each["height"] < 20
        assert (each["width"], each["height"]) == pytest.approx(
            (whole["width"], whole["height"]), abs=0.5)


def test_a_dimension_is_an_expression_of_a_value(page: Page) -> None:
    page.begin("value Width 80\nsegment A 0 0 30 0\n", "open")
    page.select("A")
    page.ask("length", "Width/2")
    page.verdict("well")
    assert page.text().endswith("length A Width/2\n")


def test_a_dimension_is_only_measured(page: Page) -> None:
    page.begin("segment A 0 0 30 0\nsegment B A.end 30 40\n", "open")
    page.select("A.start", "B.end")
    page.wait("an offer", "return document.querySelector('#offers [data-word=distance]')")
    page.click("#offers [data-word=distance]")
    page.wait("the button", "return document.querySelector('#value[open] #measure:not([hidden])')")
    page.click("#measure")
    wait_for("a note", lambda: "# reference distance A.start B.end\n" in page.text())
    page.wait("in brackets", "return document.querySelector('.marks .reference text')"
                             ".textContent === '(50)'")
    page.keys(Keys.ESCAPE)
    page.press(*page.at("B.end"), to=page.at("B"))
    wait_for("the end where it is let go", lambda: "30 40\n" not in page.text())
    page.settled()
    assert page.driver.execute_script(
        "return document.querySelector('.marks .reference text').textContent") != "(50)"
    page.press(*page.mark(-1))
    page.keys(Keys.DELETE)
    wait_for("it is gone", lambda: "reference" not in page.text())


def test_a_dimension_that_is_asked_for_may_be_measured_instead_and_back(page: Page) -> None:
    page.begin("segment A 0 0 30 0\nlength A 30\n", "well")
    page.press(*page.mark(1))
    page.keys(Keys.ENTER)
    page.wait("the button", "return document.querySelector('#value[open] #measure:not([hidden])')")
    page.click("#measure")
    wait_for("a note", lambda: page.text().endswith("segment A 0 0 30 0\n# reference length A\n"))
    page.press(*page.mark(-1))
    page.keys(Keys.ENTER)
    field = page.wait("a value", "return document.querySelector('#value[open] input')")
    field.send_keys(Keys.CONTROL, "a")
    field.send_keys("32", Keys.ENTER)
    wait_for("a line", lambda: page.text().endswith("length A 32\n"))
    assert page.faults() == []
