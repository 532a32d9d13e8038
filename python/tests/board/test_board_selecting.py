"""The board in a real browser: selecting by a box, all of a kind, what lies under the hand, groups
that are dragged, and what goes with what is taken away."""
from __future__ import annotations

import pytest

from boards import wait_for
from browsing import Page
from selenium.webdriver.common.keys import Keys

SHAPES = """segment A 0 0 40 0
segment B 0 20 90 20
circle C 20 10 5
circle D 80 40 5
arc E 60 0 70 0 60 10
point P 30 40
length A 40
radius C 5
radius D 5
"""


@pytest.fixture
def at(page: Page):
    """Begins the drawing; gives where a place in millimetres lies on the board, in pixels."""
    page.begin(SHAPES, "open")
    (x, y), (u, _) = page.at("Origin"), page.at("B.end")
    v = page.at("B.end")[1]
    scale = (u - x) / 90
    assert abs(y - 20 * scale - v) < 1
    return lambda a, b: (x + a * scale, y - b * scale)


def selected(page: Page) -> set[str]:
    """The names of the shapes that are selected, as they are shown."""
    return set(page.driver.execute_script(
        "return [...document.querySelectorAll('.edges [data-name], .dots [data-name]')].filter("
        "(each) => each.querySelector('.selected')).map((each) => each.dataset.name)"))


def shows(page: Page, *names: str) -> None:
    """Waits until these alone are selected."""
    wait_for(f"{names}", lambda: selected(page) == set(names), 15)


def test_a_box_to_the_right_takes_what_lies_whole_in_it(page: Page, at) -> None:
    page.press(*at(-4, -4), to=at(50, 16))
    shows(page, "A", "C")
    page.press(*at(72, 30), to=at(88, 48), shift=True)
    shows(page, "A", "C", "D")
    page.press(*at(-4, -4), to=at(50, 16), held=Keys.CONTROL)
    shows(page, "D")
    page.press(*at(-8, 30))
    shows(page)


def test_a_box_to_the_left_takes_what_it_touches_too(page: Page, at) -> None:
    """It ends in the middle of B, and crosses the rim of C and the arc; no end lies in it."""
    page.press(*at(75, 24), to=at(50, 6), lets_go=False)
    page.wait("a box", "return document.querySelector('.box.touches')")
    page.let_go()
    shows(page, "B", "E")
    page.press(*at(21, 12), to=at(19, 9))
    page.settled()
    shows(page)
    page.press(*at(27, 12), to=at(22, 6))
    shows(page, "C")


def test_escape_gives_a_box_up(page: Page, at) -> None:
    """It would take C; what was selected before stays so."""
    page.select("P")
    page.press(*at(10, 4), to=at(60, 30), lets_go=False)
    page.wait("a box", "return document.querySelector('.box')")
    page.keys(Keys.ESCAPE)
    page.wait("no box", "return !document.querySelector('.box')")
    page.let_go()
    page.settled()
    assert selected(page) == {"P"}


def test_the_right_button_pans(page: Page, at) -> None:
    from selenium.webdriver.common.actions.mouse_button import MouseButton
    from selenium.webdriver.common.action_chains import ActionChains
    from selenium.webdriver.common.by import By
    before = page.at("A.start")
    board = page.driver.find_element(By.ID, "board")
    chain = ActionChains(page.driver, duration=30)
    chain.move_to_element_with_offset(board, -200, 100)
    chain.w3c_actions.pointer_action.pointer_down(button=MouseButton.RIGHT)
    chain.move_by_offset(40, 30)
    chain.w3c_actions.pointer_action.pointer_up(MouseButton.RIGHT)
    chain.perform()
    page.settled()
    after = page.at("A.start")
    assert (round(after[0] - before[0]), round(after[1] - before[1])) == (40, 30)


def test_the_space_bar_pans(page: Page, at) -> None:
    """And nothing is boxed or selected by it."""
    before = page.at("A.start")
    page.keys(Keys.ESCAPE)
    page.press(200, 300, to=(240, 330), held=Keys.SPACE)
    page.settled()
    after = page.at("A.start")
    assert (round(after[0] - before[0]), round(after[1] - before[1])) == (40, 30)
    shows(page)


def test_a_space_bar_that_goes_up_in_another_window_pans_no_more(page: Page, at) -> None:
    from selenium.webdriver.common.action_chains import ActionChains
    page.keys(Keys.ESCAPE)
    ActionChains(page.driver).key_down(Keys.SPACE).perform()
    page.driver.execute_script("window.dispatchEvent(new Event('blur'));")
    page.press(*at(10, 4), to=at(60, 30))
    shows(page, "C")


def test_the_wheel_zooms_about_the_hand(page: Page, at) -> None:
    """What lies under it stays there, and all else goes away from it by one factor."""
    (x, y), (u, v) = page.at("A.start"), page.at("A.end")
    left, top = page.driver.execute_script(
        "const { x, y } = document.getElementById('board').getBoundingClientRect();"
        "return [x, y];")
    page.driver.execute_cdp_cmd("Input.dispatchMouseEvent", {
        "type": "mouseWheel", "x": left + x, "y": top + y, "deltaX": 0, "deltaY": -240})
    wait_for("it zooms", lambda: page.at("A.end")[0] > u + 20)
    page.settled()
    (a, b), (c, d) = page.at("A.start"), page.at("A.end")
    assert (a, b) == pytest.approx((x, y), abs=1)
    factor = (c - a) / (u - x)
    assert factor > 1.2 and d - b == pytest.approx(factor * (v - y), abs=1)


def test_all_of_a_kind_and_all(page: Page, at) -> None:
    page.select("C")
    page.keys("y")
    shows(page, "C", "D")
    page.press(*at(-8, 30))
    page.keys(Keys.CONTROL + "a")
    shows(page, "A", "B", "C", "D", "E", "P")


def test_what_lies_under_the_hand_stands_out_with_its_name(page: Page, at) -> None:
    page.hover(*at(60, 20))
    page.wait("an edge", "return document.querySelector('[data-hovered=B]')")
    assert page.driver.execute_script(
        "return document.querySelector('.pointed').textContent") == "B"
    page.hover(*at(40, 0))
    page.wait("a point", "return document.querySelector('[data-hovered=\"A.end\"]')")
    page.hover(*at(-8, 44))
    page.wait("nothing", "return !document.querySelector('.hovered')")


def test_a_group_is_dragged(page: Page, at) -> None:
    page.press(*at(-4, -4), to=at(50, 16))
    shows(page, "A", "C")
    page.press(*at(20, 0), to=at(30, 10))
    wait_for("both", lambda: "segment A 10 10 50 10\n" in page.text()
             and "circle C 30 20 5\n" in page.text())
    page.click("#undo")
    wait_for("one step", lambda: "segment A 0 0 40 0\n" in page.text())


def test_delete_tells_what_goes_with_it(page: Page, at) -> None:
    page.select("A")
    page.wait("what goes", "return document.getElementById('erase').title"
                           " === 'Deletes A; with it: length A 40 (Delete)'")
    page.keys(Keys.DELETE)
    wait_for("it is told", lambda: "Deletes A; with it: length A 40. Ctrl+Z" in (
        page.told("hint")))
    assert "segment A" not in page.text() and "length" not in page.text()
    page.click("#undo")
    wait_for("both are back", lambda: "length A 40" in page.text())


def test_a_repeat_shows_from_what_it_follows(page: Page) -> None:
    """A rectangle whose height is told twice: the right side follows from the left one."""
    page.begin("rectangle R 0 0 40 30\ncoincident RBottom.start Origin\nlength RBottom 40\n"
               "length RRight 30\nlength RLeft 30\n", "over")
    page.wait("it is weighed", "return document.querySelector('.markgroup.excess')")
    place = page.driver.execute_script(
        "const b = document.getElementById('board').getBoundingClientRect();"
        "const r = document.querySelector('.markgroup.excess text').getBoundingClientRect();"
        "return [r.x + r.width / 2 - b.x, r.y + r.height / 2 - b.y];")
    page.hover(*place)
    page.wait("its group", "return document.querySelectorAll('.marks .grouped').length > 0")
    told = page.driver.execute_script("return document.querySelector('.pointed').textContent")
    assert "follows from" in told and page.faults() == []
