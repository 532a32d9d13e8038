"""The board in a real browser: a hand that is quicker than the answers, keys and fingers, the
focus, and two tabs."""
from __future__ import annotations

import json
from pathlib import Path

from all_shown import COUNTS, settle
from boards import Served, wait_for
from browsing import Page
from selenium.webdriver.common.by import By
from selenium.webdriver.common.keys import Keys

TRIANGLE = """segment A 0 0 40 0
segment B A.end 20 30
segment C B.end A.start
length A 40
length B 36
length C 35
"""
OVER = TRIANGLE + "length A 41\n"
FOCUSED = "return document.activeElement"


def focus(page: Page, selector: str) -> None:
    """Puts the focus on a button."""
    page.driver.execute_script("document.querySelector(arguments[0]).focus()", selector)


# Between two answers.

def test_a_click_counts_where_it_was_clicked(page: Page) -> None:
    page.keys("s")
    with page.held("edit"):
        page.press(300, 400)
        page.press(400, 400)
        page.press(400, 300)
        page.keys("+", "+")
    page.wait("two", "return document.querySelectorAll('.edges [data-name]').length === 2")
    (x, y), (u, v) = page.at("S1.end"), page.at("S2.end")
    assert abs(u - x) < 20 and abs(y - v - 100 * 1.25 ** 2) < 20


def test_a_click_before_a_tools_key_counts_though_the_answer_comes_later(page: Page) -> None:
    page.keys("s")
    with page.held("edit"):
        page.press(300, 400)
        page.press(400, 400)
        page.press(500, 300)
        page.keys("p")
        page.press(600, 200)
    wait_for("a point", lambda: "point" in page.text())
    assert [line.split()[0] for line in page.text().splitlines()[1:]] == [
        "segment", "segment", "point", "horizontal"]
    assert page.count("[data-tool=point][aria-pressed=true]") == 1


def test_a_click_before_escape_counts_though_the_answer_comes_later(page: Page) -> None:
    page.keys("s")
    with page.held("edit"):
        page.press(300, 400)
        page.press(400, 400)
        page.press(500, 300)
        page.keys(Keys.ESCAPE)
        page.press(300, 200)
        page.press(400, 200)
    wait_for("the third", lambda: page.text().count("segment") == 3)
    assert "segment S2 S1.end" in page.text() and "segment S3 S2.end" not in page.text()
    page.keys(Keys.ESCAPE, Keys.ESCAPE)
    page.wait("no tool", "return document.querySelector('[data-tool=select][aria-pressed=true]')")


def test_what_is_clicked_behind_escape_is_selected_and_what_is_dragged_moves(page: Page) -> None:
    page.begin("point P 0 0\npoint Q 60 0\n", "open")
    page.keys("s")
    (x, y), (u, v) = page.at("P"), page.at("Q")
    with page.held("edit"):
        page.press(x, y - 150)
        page.press(u, v - 150)
        page.keys(Keys.ESCAPE, Keys.ESCAPE)
        page.press(x, y)
        page.press(u, v, to=(u, v + 60))
    wait_for("Q is drawn lower", lambda: "point Q 60 -" in page.text())
    assert page.count("[data-name=P] .selected") == 1 and page.text().count("segment") == 1


def test_undo_waits_for_the_clicks_before_it(page: Page) -> None:
    page.keys("s")
    with page.held("edit"):
        for place in ((300, 400), (400, 400), (500, 300)):
            page.press(*place)
        page.keys(Keys.CONTROL + "z")
    page.wait("redo", "return document.getElementById('redo').ariaDisabled === 'false'")
    assert page.text().count("segment") == 1
    page.keys(Keys.CONTROL + "y")
    wait_for("both again", lambda: page.text().count("segment") == 2)


def test_clicks_that_wait_draw_nothing_in_another_drawing(page: Page) -> None:
    page.keys("s")
    with page.held("edit"):
        for place in ((300, 400), (400, 400), (500, 300)):
            page.press(*place)
        page.click("#new")
    page.verdict("empty")
    page.keys("p")
    page.press(600, 200)
    wait_for("a point", lambda: "point" in page.text())
    assert "segment" not in page.text()


def test_what_is_verified_is_told_of_its_own_drawing(page: Page) -> None:
    page.begin(TRIANGLE, "well")
    page.click("#tab-steps")
    page.wait("a button", "return document.getElementById('verify')")
    with page.held("verify"):
        page.click("#verify")
        page.click("#tab-text")
    page.settled()
    page.click("#tab-steps")
    page.wait("a button", "return document.getElementById('verify')")
    with page.held("verify"):
        page.click("#verify")
        page.driver.execute_script(
            "const t = document.getElementById('text'); t.value = t.value.replace('35', '34');"
            "t.dispatchEvent(new Event('input'));")
    page.wait("the other", "return document.getElementById('verify') && "
                           "document.getElementById('language').textContent.includes(' 34\\n')")
    assert page.told("verified") == ""
    page.click("#tab-text")


def test_the_steps_are_shown_anew_while_the_claim_is_verified(page: Page) -> None:
    page.begin(TRIANGLE, "well")
    page.click("#tab-steps")
    page.wait("a button", "return document.getElementById('verify')")
    with page.held("verify"):
        page.click("#verify")
        page.click("#tab-text")
        page.click("#tab-steps")
    page.wait("a button", "return document.getElementById('verify')")
    assert page.told("verified") == "" and page.faults() == []
    page.click("#tab-text")


def test_the_other_shape_is_drawn_of_its_own_text_alone(page: Page) -> None:
    page.begin(TRIANGLE, "well")
    page.click("#tab-steps")
    page.wait("a step", "return document.getElementById('flip')?.hidden === false")
    page.click("#flip")
    page.wait("the other shape", "return document.getElementById('redraw').hidden === false")
    page.select("B")
    with page.held("edit"):
        page.keys(Keys.ALT + Keys.ARROW_UP)
        page.click("#redraw")
    page.wait("told", "return document.getElementById('hint').textContent"
                      " === 'the drawing has changed: choose again'")
    page.click("#tab-text")


def test_what_is_over_is_weighed_one_after_the_other(page: Page) -> None:
    asked = ("return performance.getEntriesByType('resource')"
             ".filter((each) => each.name.endsWith('call/weigh')).length")
    page.begin(OVER, "over")
    page.tells("conflicting")
    before = page.driver.execute_script(asked)
    page.select("A")
    with page.held("weigh"):
        for _ in range(3):
            text = page.text()
            page.keys(Keys.ALT + Keys.ARROW_RIGHT)
            wait_for("an edit", lambda: page.text() != text)  # noqa: B023
        assert page.driver.execute_script(asked) <= before + 1
    page.tells("conflicting")


def test_places_that_make_no_figure_are_told(page: Page) -> None:
    page.keys("a")
    for x in (300, 500, 400):
        page.press(x, 400)
    page.wait("told", "return document.getElementById('hint').textContent"
                      ".startsWith('Nothing is drawn')")
    page.keys("s")
    assert page.told("hint").startswith("Segment: click its start")


# By keys and fingers.

def test_enter_draws_also_where_a_dimension_is_selected(page: Page) -> None:
    page.begin(TRIANGLE, "well")
    page.click("#tab-asked")
    page.click("[data-selects='1']")
    page.keys("p", Keys.ARROW_UP, Keys.ENTER)
    wait_for("a point", lambda: "point P1" in page.text())
    page.click("#tab-text")


def test_the_menu_goes_by_a_click_elsewhere_and_by_escape(page: Page) -> None:
    is_open = "return document.getElementById('export').open"
    page.click("#export summary")
    assert page.driver.execute_script(is_open)
    page.press(500, 400)
    page.wait("closed", "return !document.getElementById('export').open")
    page.click("#export summary")
    page.driver.switch_to.active_element.send_keys(Keys.ESCAPE)
    assert not page.driver.execute_script(is_open)
    assert page.driver.execute_script(FOCUSED).tag_name == "summary"


def test_escape_gives_up_what_goes_with_the_hand(page: Page) -> None:
    """A corner of which only the drawn position moves, and the label of a dimension."""
    page.begin(TRIANGLE, "well")
    page.driver.execute_script(COUNTS)
    before = settle(page)
    for (x, y), held in ((page.at("B.end"), Keys.ALT), (page.mark(1), "")):
        page.press(x, y, to=(x + 60, y - 40), held=held, lets_go=False)
        page.keys(Keys.ESCAPE)
        page.let_go()
        assert settle(page) == before


def test_what_is_dragged_stays_under_the_hand_in_another_view(page: Page) -> None:
    """The board is zoomed while it is dragged; the hand goes 30 mm to the right."""
    at = page.begin_to_scale("segment B 40 0 40 40\n")
    page.press(*at((40, 20)), to=at((50, 20)), held=Keys.ALT, lets_go=False)
    page.keys("-")
    page.settled()
    (x, y), (u, _) = page.at("Origin"), page.at("Far")
    page.hover(x + 0.7 * (u - x), y - 0.2 * (u - x))
    page.let_go()
    wait_for("30 mm", lambda: "segment B 70 0 70 40\n" in page.text())


def test_what_is_copied_on_the_board_are_shapes_also_where_a_text_is_selected(page: Page) -> None:
    page.begin(TRIANGLE, "well")
    page.driver.execute_script(
        "getSelection().selectAllChildren(document.querySelector('#verdict p'))")
    page.select("A")
    page.keys(Keys.CONTROL + "c")
    wait_for("A is copied", lambda: page.told("hint").startswith("Copied: A."))


def test_a_second_finger_leaves_the_drag(page: Page) -> None:
    page.begin("point Q 0 0\npoint P 30 20\n", "open")
    x, y = page.driver.execute_script(
        "const b = document.querySelector('[data-name=P] .dothit').getBoundingClientRect();"
        "return [b.x + b.width / 2, b.y + b.height / 2];")
    page.driver.execute_cdp_cmd("Emulation.setTouchEmulationEnabled",
                                {"enabled": True, "maxTouchPoints": 2})

    def touch(kind: str, *places: tuple[float, float]) -> None:
        points = [{"x": u, "y": v, "id": number} for number, (u, v) in enumerate(places)]
        page.driver.execute_cdp_cmd("Input.dispatchTouchEvent",
                                    {"type": kind, "touchPoints": points})

    try:
        touch("touchStart", (x, y))
        touch("touchMove", (x - 40, y))
        touch("touchMove", (x - 80, y))
        touch("touchStart", (x - 80, y), (x - 200, y - 100))
        touch("touchEnd", (x - 80, y))
        touch("touchEnd")
    finally:
        page.driver.execute_cdp_cmd("Emulation.setTouchEmulationEnabled", {"enabled": False})
    wait_for("another place", lambda: "point P 30 20" not in page.text())


# The focus.

def test_the_focus_stays_in_the_verdict(page: Page) -> None:
    page.driver.execute_script(
        "const { fetch } = window; window.fetch = (path, options) => path === 'call/weigh' ?"
        " new Promise((done) => { window.weighs = () => { window.fetch = fetch;"
        " done(fetch(path, options)); }; }) : fetch(path, options);")
    page.begin(OVER, "over")
    page.wait("a call", "return Boolean(window.weighs)")
    focus(page, "#verdict [data-spare] button")
    label = page.driver.execute_script(FOCUSED).get_attribute("aria-label")
    page.driver.execute_script("window.weighs()")
    page.tells("conflicting")
    assert page.driver.execute_script(FOCUSED).get_attribute("aria-label") == label
    page.driver.execute_script(FOCUSED).send_keys(Keys.ENTER)
    page.verdict("well")
    assert page.driver.execute_script(FOCUSED).get_attribute("id") == "verdict"


def test_the_focus_stays_in_the_list_of_constraints(page: Page) -> None:
    page.begin(TRIANGLE, "well")
    page.click("#tab-asked")
    for number, selects in ((3, "2"), (1, "1")):
        focus(page, f"[data-takes='{number}']")
        page.driver.execute_script(FOCUSED).send_keys(Keys.ENTER)
        page.wait("the next", f"return document.activeElement.dataset.selects === '{selects}'")
    page.click("#tab-text")


# Files and tabs.

def test_a_name_that_is_being_typed_is_the_files(page: Page) -> None:
    page.begin(TRIANGLE, "well")
    name = page.driver.find_element(By.ID, "name")
    name.send_keys(Keys.CONTROL, "a")
    name.send_keys("bracket")
    name.send_keys(Keys.CONTROL, "s")
    assert page.downloaded("bracket.drawing").decode() == TRIANGLE


def test_a_file_that_is_too_large_is_told_by_its_name(page: Page, tmp_path: Path) -> None:
    large = tmp_path / "large.dxf"
    large.write_bytes(bytes(900_000))
    page.driver.find_element(By.ID, "file").send_keys(str(large))
    page.wait("told", "return document.getElementById('hint').textContent"
                      ".startsWith('large.dxf has over 750 KB')")


def test_of_several_files_that_are_dropped_none_is_opened(page: Page, tmp_path: Path) -> None:
    paths = [tmp_path / name for name in ("one.drawing", "two.drawing")]
    for path in paths:
        path.write_text("segment A 0 0 10 0\n")
    for kind in ("dragEnter", "dragOver", "drop"):
        page.driver.execute_cdp_cmd("Input.dispatchDragEvent", {
            "type": kind, "x": 400, "y": 300,
            "data": {"items": [], "files": list(map(str, paths)), "dragOperationsMask": 1}})
    wait_for("told", lambda: page.told("hint") == "Drop one file at a time: none is opened")
    assert page.text() == ""


def test_of_two_tabs_the_one_that_was_changed_last_is_shown_anew(
        page: Page, board: Served) -> None:
    mine, theirs = "segment A 0 0 50 0\nlength A 50\n", "segment B 0 0 30 0\nlength B 30\n"
    page.begin(mine, "well")
    first = page.driver.current_window_handle
    page.driver.switch_to.new_window("tab")
    page.driver.get(board.guard.address)
    page.verdict("well")
    page.begin(theirs, "well")
    page.driver.get("about:blank")
    page.driver.close()
    page.driver.switch_to.window(first)
    page.driver.get("about:blank")
    page.driver.get(board.guard.address)
    page.verdict("well")
    assert page.text() == theirs
    aside = json.loads(page.driver.execute_script(
        "return localStorage.getItem('pertxogai.aside')"))
    assert [each["text"] for each in aside] == [mine]


def test_the_oldest_of_many_that_were_left_unsaved_is_told(page: Page) -> None:
    page.driver.execute_script(
        "localStorage.setItem('pertxogai.aside', JSON.stringify(Array.from({ length: 11 },"
        " (_, place) => ({ name: `part ${place}, unsaved`, text: `point A ${place} 0` }))));")
    for number, told in enumerate(("", "the oldest is no longer kept (part 10, unsaved)")):
        page.begin(f"segment A 0 0 5{number} 0\nlength A 5{number}\n", "well")
        page.click("#new")
        page.verdict("empty")
        assert told in page.told("banner") and bool(told) == bool(page.told("banner"))
