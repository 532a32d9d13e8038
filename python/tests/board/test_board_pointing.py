"""The board in a real browser: what lies under the hand stays there, and is what a click hits."""
from __future__ import annotations

from collections.abc import Iterator
from contextlib import contextmanager

import pytest

from boards import wait_for
from browsing import Page
from selenium.webdriver.common.keys import Keys

CIRCLES = "circle K 0 0 8\ncircle L 30 0 8\ncircle M 60 0 8\n"
SIGNS = """segment A 0 0 40 0
segment B 50 0 90 30
segment C 100 30 140 30
circle D 20 40 9
arc E 60 50 70 50 60 60
horizontal A
equal A B
parallel A C
equal D E
"""


@contextmanager
def of_size(page: Page, width: int, height: int) -> Iterator[None]:
    """The page in a window of that size."""
    size = {"width": width, "height": height, "deviceScaleFactor": 1, "mobile": False}
    page.driver.execute_cdp_cmd("Emulation.setDeviceMetricsOverride", size)
    page.settled()
    try:
        yield
    finally:
        page.driver.execute_cdp_cmd("Emulation.clearDeviceMetricsOverride", {})


def box(page: Page) -> list[float]:
    """Where the board lies on the page."""
    return list(page.driver.execute_script(
        "const b = document.getElementById('board').getBoundingClientRect();"
        "return [b.x, b.y, b.width, b.height];"))


def selected(page: Page) -> list[str]:
    """The shapes and points that are selected, and the constraints by their numbers."""
    page.settled()
    return list(page.driver.execute_script(
        "return [...document.querySelectorAll('#board .selected, #board .selectedmark')]"
        ".map((each) => each.closest('[data-name]')?.dataset.name"
        " ?? each.dataset.constraint)"))


# The bar and the board.

@pytest.mark.parametrize("width", [1000, 1280, 1340, 1400, 1680, 1920])
def test_the_third_click_hits_what_lies_there(page: Page, width: int) -> None:
    with of_size(page, width, 800):
        page.begin(CIRCLES, "open")
        before = box(page)
        places = [page.at(name) for name in "KLM"]
        for place, at in enumerate(places):
            page.press(*at, shift=place > 0)
            page.wait("what fits", "return document.querySelector('#fitting [data-word=diameter]')")
            page.settled()
            assert box(page) == before
        assert selected(page) == ["K", "L", "M"]
        assert page.driver.execute_script(
            "const o = document.getElementById('offers'); return o.scrollHeight <= o.clientHeight")


def test_a_line_over_the_page_leaves_the_drawing_under_the_hand(page: Page) -> None:
    page.begin(CIRCLES, "open")
    (x, y), (_, top, _, _) = page.at("K"), box(page)
    page.driver.execute_script(
        "document.getElementById('told-keeping').textContent = 'This browser keeps nothing.'")
    wait_for("the board lies lower", lambda: box(page)[1] > top + 10)
    page.settled()
    assert page.at("K") == pytest.approx((x, y + top - box(page)[1]), abs=0.6)


# Signs.

def signs(page: Page) -> list[tuple[float, float, int]]:
    """The middle of each sign in pixels of the board, and its constraint."""
    return [tuple(each) for each in page.driver.execute_script(
        "const b = document.getElementById('board').getBoundingClientRect();"
        "return [...document.querySelectorAll('#board .marks text.sign')].map((each) => {"
        "  const r = each.getBoundingClientRect();"
        "  return [r.x + r.width / 2 - b.x, r.y + r.height / 2 - b.y,"
        "    Number(each.parentNode.dataset.constraint)]; });")]


def test_no_sign_takes_the_clicks_of_its_edge(page: Page) -> None:
    page.begin(SIGNS, "open")
    for name in "ABCDE":
        for share in (0.1, 0.12, 0.46, 0.5, 0.54):
            for aside in (-4, 0, 4):
                page.press(*_beside(page, name, share, aside))
                assert selected(page) == [name], (share, aside)


def _beside(page: Page, name: str, share: float, aside: float) -> tuple[float, float]:
    """A place at a share of an edge, so far beside it, in pixels of the board."""
    x, y = page.driver.execute_script(
        "const p = document.querySelector(`[data-name='${arguments[0]}'] .hit`);"
        "const l = p.getTotalLength(), s = arguments[1];"
        "const [a, b] = [s * l - 1, s * l + 1].map((at) => p.getPointAtLength(at));"
        "return [(a.x + b.x) / 2 - (b.y - a.y) / 2 * arguments[2],"
        "  (a.y + b.y) / 2 + (b.x - a.x) / 2 * arguments[2]];", name, share, aside)
    return x, y


def test_each_sign_is_selected_by_a_click(page: Page) -> None:
    page.begin(SIGNS, "open")
    assert sorted(number for _, _, number in signs(page)) == [1, 2, 2, 3, 3, 4, 4]
    for x, y, number in signs(page):
        page.press(x, y)
        assert str(number) in selected(page)


def test_a_sign_that_lies_on_another_edge_leaves_it_its_clicks(page: Page) -> None:
    page.begin("segment A 0 0 40 0\nhorizontal A\n", "open")
    ((x, y, _),) = signs(page)
    page.keys("s")
    page.press(x - 80, y, held=Keys.CONTROL)
    page.press(x + 80, y, held=Keys.CONTROL)
    page.keys("v")
    wait_for("an edge", lambda: page.text().count("segment") == 2)
    page.settled()
    _, level = page.at("S1")
    assert abs(level - y) < 8, "it lies over the sign"
    page.press(x, level)
    assert selected(page) == ["S1"]
    page.press(x, y + (6 if level <= y else -6))
    assert selected(page) == ["1"]


# The other shape.

TALL = """segment A 0 0 40 0
segment B A.end 25 300
segment C B.end A.start
length A 40
length B 300
length C 301
"""
HELD = TALL + "coincident A.start Origin\nhorizontal A\n"


def other_in_view(page: Page) -> None:
    """Asks for the other shape of the one step, and waits until all of it is on the board."""
    page.click("#tab-steps")
    page.wait("a step", "return document.getElementById('flip')?.hidden === false")
    page.click("#flip")
    page.wait("the other shape, on the board",
              "const n = document.querySelector('.other'), b = document.getElementById('board');"
              "if (!n.childElementCount) return false;"
              "const { x, y, width, height } = n.getBBox();"
              "return x >= 0 && x + width <= b.clientWidth"
              "  && y >= 0 && y + height <= b.clientHeight")
    page.settled()


def test_the_other_shape_is_shown_though_it_lies_beside_the_board(page: Page) -> None:
    """A tall triangle above the axis, whose other shape lies below it."""
    page.begin(HELD, "well")
    before = page.at("A.start")[1] - page.at("B.end")[1]
    other_in_view(page)
    assert page.at("A.start")[1] - page.at("B.end")[1] < 0.6 * before
    page.click("#redraw")
    wait_for("drawn below", lambda: "segment B A.end 25 300" not in page.text())
    page.verdict("well")
    page.click("#tab-text")
    box_of = page.driver.execute_script(
        "const { y, height } = document.querySelector('.edges').getBBox(); return [y, y + height];")
    assert box_of[0] >= 0 and box_of[1] <= box(page)[3]


def test_the_other_shape_of_what_is_free_lies_over_the_one_that_is_shown(page: Page) -> None:
    """Nothing holds the triangle, so its other shape is turned to it, and the view stays."""
    page.begin(TALL, "well")
    before = page.at("A.start")
    other_in_view(page)
    assert page.at("A.start") == pytest.approx(before, abs=1)
    page.click("#tab-text")
