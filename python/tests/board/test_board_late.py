"""The board in a real browser, where an answer comes late: to a drawing that has changed, to a hand
that has given up, or not at all."""
from __future__ import annotations

import time
from pathlib import Path

import pytest

pytest.importorskip("scipy", reason="what is dragged is reckoned by Debian's python3-scipy")

from all_shown import COUNTS, settle
from boards import Served, drawing, wait_for
from browsing import Page
from selenium.webdriver.common.by import By
from selenium.webdriver.common.keys import Keys

CHANGED = "the drawing has changed: choose again"
MOMENT_SECONDS = 0.3
"""Once nothing has changed for so long, it is asked what completes a drawing."""
MEASURED = """drawing 1
segment A 0 0 40 0
segment B 0 20 40 20
segment C 0 40 40 40
# reference length A
# reference length B
# reference length C
"""
HEIGHTLESS = drawing("open-plate-without-height")
CRANK = """segment Ground 0 0 40 0
segment Crank Ground.start 18 24
coincident Ground.start Origin
horizontal Ground
length Ground 40
length Crank 30
"""


def hold(page: Page, kind: str, at: tuple[float, float], buttons: int) -> None:
    """One event of the mouse on the board, with a button that is down or not."""
    x, y = page.driver.execute_script(
        "const { x, y } = document.getElementById('board').getBoundingClientRect();"
        "return [x, y];")
    page.driver.execute_cdp_cmd("Input.dispatchMouseEvent", {
        "type": kind, "x": x + at[0], "y": y + at[1], "buttons": buttons, "clickCount": 1,
        "button": "left" if buttons or kind != "mouseMoved" else "none"})


# The number of something in a drawing that has changed.

def test_a_measured_dimension_isnt_deleted_by_the_number_that_it_had(page: Page) -> None:
    """Once the first is gone the second is the first, and the third the second."""
    page.begin(MEASURED, "open")
    first, second = page.mark(-1), page.mark(-2)
    with page.held("edit"):
        for place in (first, second):
            page.press(*place)
            page.wait("it is selected", "return document.querySelector('.marks .selectedmark')")
            page.keys(Keys.DELETE)
    wait_for("told", lambda: page.told("hint") == CHANGED)
    assert page.text() == MEASURED.replace("# reference length A\n", "")


def test_a_measured_dimension_isnt_asked_for_by_the_number_that_it_had(page: Page) -> None:
    page.begin(MEASURED, "open")
    first, second = page.mark(-1), page.mark(-2)
    with page.held("edit"):
        page.press(*first)
        page.wait("it is selected", "return document.querySelector('.marks .selectedmark')")
        page.keys(Keys.DELETE)
        page.press(*second)
        page.press_twice(".marks [data-constraint='-2'] text")
        page.wait("a field", "return document.querySelector('#value[open] input')")
        page.driver.find_element(By.CSS_SELECTOR, "#value input").send_keys("30", Keys.ENTER)
    wait_for("told", lambda: page.told("hint") == CHANGED)
    assert page.text() == MEASURED.replace("# reference length A\n", "")


def test_a_label_that_is_held_isnt_put_by_the_number_that_it_had(page: Page) -> None:
    """Once the first dimension is gone the third has the number of the second."""
    page.begin("segment A 0 0 40 0\nsegment B 0 20 40 20\nsegment C 0 40 40 40\n"
               "length A 40\nlength B 40\nlength C 40\n", "open")
    first, (x, y) = page.mark(1), page.mark(2)
    page.press(*first)
    page.wait("it is selected", "return document.querySelector('.marks .selectedmark')")
    with page.held("edit"):
        page.keys(Keys.DELETE)
        page.press(x, y, to=(x + 40, y - 30), lets_go=False)
        assert page.mark(2) == pytest.approx((x + 40, y - 30), abs=2)
    wait_for("it is gone", lambda: "length A" not in page.text())
    page.let_go()
    wait_for("told", lambda: page.told("hint") == CHANGED)
    page.settled()
    assert page.text().endswith("length B 40\nlength C 40\n")
    assert page.mark(1) == pytest.approx((x, y), abs=2)


def test_a_label_goes_with_the_hand_while_another_is_being_put(page: Page) -> None:
    """Where a dimension has its number in the new text too."""
    page.begin(MEASURED + "length A 40\nlength C 40\n", "open")
    places = {number: page.mark(number) for number in (1, -2)}
    with page.held("edit"):
        for number, (x, y) in places.items():
            page.press(x, y, to=(x + 40, y - 30), lets_go=number > 0)
            assert page.mark(number) == pytest.approx((x + 40, y - 30), abs=2)
    wait_for("the first", lambda: page.text().count("label") == 1)
    page.hover(places[-2][0] + 60, places[-2][1] - 30)
    page.let_go()
    wait_for("both", lambda: page.text().count("label") == 2)
    page.settled()
    x, y = places[-2]
    assert page.mark(-2) == pytest.approx((x + 60, y - 30), abs=2)


def test_a_label_stands_where_it_stood_once_the_button_is_up_unheard(page: Page) -> None:
    """As where another window takes the pointer."""
    page.begin("segment A 0 0 40 0\nlength A 40\n", "well")
    before, (x, y) = page.text(), page.mark(1)
    page.press(x, y, to=(x + 60, y - 90), lets_go=False)
    assert page.mark(1) == pytest.approx((x + 60, y - 90), abs=2)
    hold(page, "mouseMoved", (x + 62, y - 90), 0)
    page.settled()
    assert page.mark(1) == pytest.approx((x, y), abs=1) and page.text() == before


EDITS = """
window.edits_ = [];
const { fetch: before } = window;
window.fetch = (path, options) => {
  if (path === 'call/edit') window.edits_.push(JSON.parse(options.body).edit);
  return before(path, options);
};
"""


def test_nothing_is_previewed_by_the_number_that_a_dimension_had(page: Page) -> None:
    """Another dimension, which has the number then, would be shown changed."""
    page.begin("segment A 0 0 40 0\nsegment B A.end 40 30\ncoincident A.start Origin\n"
               "horizontal A\nvertical B\nvalue Long 40\nlength A Long\nlength B 30\n", "well")
    page.driver.execute_script(EDITS)
    page.press(*page.mark(5))
    page.wait("its slider", "return document.querySelector('#range-slider:not([hidden])')")
    page.click("#tab-asked")
    with page.held("edit"):
        page.click("[data-takes='2']")
        x, y, width = page.driver.execute_script(
            "const r = document.getElementById('slider').getBoundingClientRect();"
            "const b = document.getElementById('board').getBoundingClientRect();"
            "return [r.x - b.x, r.y + r.height / 2 - b.y, r.width];")
        hold(page, "mousePressed", (x + width / 2, y), 1)
        hold(page, "mouseMoved", (x + width * 0.6, y), 1)
    wait_for("it is gone", lambda: "horizontal" not in page.text())
    page.settled()
    assert [each["do"] for each in page.driver.execute_script("return window.edits_")] == ["erase"]
    hold(page, "mouseReleased", (x + width * 0.6, y), 0)
    page.settled()
    assert "length A Long\nlength B 30\n" in page.text()
    page.wait("nothing is held: what completes it",
              "return document.querySelector('#proposals button')")


# What is asked for twice.

def lines_of(page: Page, line: str) -> int:
    """How often a line stands in the text, once the page is at rest."""
    page.driver.execute_script(COUNTS)
    return settle(page).splitlines().count(line)


def test_what_is_proposed_is_added_once_by_two_keys(page: Page) -> None:
    """A second time it would be redundant."""
    page.begin(HEIGHTLESS, "open")
    page.wait("a proposal", "return document.querySelector('#proposals button')")
    with page.held("edit"):
        page.keys("d", "d")
    page.verdict("well")
    assert lines_of(page, "length PlateRight 79") == 1


def test_what_is_proposed_is_added_once_by_a_double_click(page: Page) -> None:
    page.begin(HEIGHTLESS, "open")
    page.wait("a proposal", "return document.querySelector('#proposals [data-proposed]')")
    with page.held("edit"):
        page.press_twice("#proposals [data-proposed]")
    page.verdict("well")
    assert lines_of(page, "length PlateRight 79") == 1


def test_what_is_proposed_of_a_drawing_isnt_added_to_another(page: Page) -> None:
    """The height that is asked for meanwhile would be asked for twice."""
    page.begin(HEIGHTLESS, "open")
    page.wait("a proposal", "return document.querySelector('#proposals button')")
    page.select("PlateRight")
    page.wait("length", "return document.querySelector('#offers [data-word=length]')")
    with page.held("edit"):
        page.click("#offers [data-word=length]")
        page.driver.find_element(By.CSS_SELECTOR, "#value input").send_keys(Keys.ENTER)
        page.wait("it is asked for", "return window.isHeld")
        page.keys("d")
    wait_for("told", lambda: page.told("hint") == CHANGED)
    page.verdict("well")
    assert lines_of(page, "length PlateRight 79") == 1


WEIGHED_LATE = """
window.asked_ = [];
const { fetch: before } = window;
const moment = () => new Promise((done) => { setTimeout(done, 20); });
window.fetch = async (path, options) => {
  window.asked_.push(path);
  const response = await before(path, options);
  while (path === 'call/weigh' && !window.isHeld) await moment();
  return response;
};
"""
"""Keeps the names of all calls; what else is told of an answer comes once another call is held."""


def test_what_completes_a_drawing_is_looked_for_once(page: Page) -> None:
    """Though it is told meanwhile by which values the drawing is constructed."""
    page.driver.execute_script(COUNTS + WEIGHED_LATE)
    with page.held("complete"):
        page.begin(CRANK, "open")
        page.wait("it is looked for", "return window.isHeld")
        page.wait("more is told", "return document.querySelector('#verdict .certified')")
        time.sleep(2 * MOMENT_SECONDS)
    page.wait("what completes it", "return document.querySelector('#proposals button')")
    settle(page)
    assert page.driver.execute_script("return window.asked_").count("call/complete") == 1


def test_a_constraint_is_asked_for_once_by_a_double_click(page: Page) -> None:
    page.begin("segment A 0 0 40 3\n", "open")
    page.select("A")
    page.wait("horizontal", "return document.querySelector('#offers [data-word=horizontal]')")
    with page.held("edit"):
        page.press_twice("#offers [data-word=horizontal]")
    wait_for("it is asked for", lambda: "horizontal A" in page.text())
    assert lines_of(page, "horizontal A") == 1


# Files, and the other shape.

def test_a_file_has_the_edit_that_was_made_before_it(page: Page) -> None:
    """The server answers that one later."""
    page.begin("segment A 0 0 40 0\nlength A 40\n", "well")
    page.settled()
    with page.held("edit"):
        page.press_twice(".marks [data-constraint='1'] text")
        page.wait("a field", "return document.querySelector('#value[open] input')")
        field = page.driver.find_element(By.CSS_SELECTOR, "#value input")
        field.send_keys(Keys.CONTROL, "a")
        field.send_keys("30", Keys.ENTER)
        page.wait("it is asked", "return window.isHeld")
        page.click("#save")
        for kind in ("sketch", "dxf"):
            page.click("#export summary")
            page.click(f"[data-export='{kind}']")
    assert page.downloaded("drawing.drawing").decode().endswith("length A 30\n")
    assert b"distance P1 P2 30\n" in page.downloaded("drawing.sketch")
    lines = page.downloaded("drawing.dxf").decode().split("\n")
    assert "30.0" in lines and "40.0" not in lines
    assert page.text().endswith("length A 30\n")


def test_a_drawing_that_is_begun_meanwhile_isnt_saved_in_its_place(page: Page) -> None:
    page.begin("segment A 0 0 40 0\n", "open")
    page.select("A")
    with page.held("edit"):
        page.keys("x")
        page.wait("it is asked", "return window.isHeld")
        page.click("#save")
        page.click("#new")
    assert b"segment A 0 0 40 0\n" in page.downloaded("drawing.drawing")
    page.verdict("empty")


def test_a_choice_that_is_turned_back_at_once_shows_no_other_shape(page: Page) -> None:
    page.begin(drawing("arm"), "well")
    page.click("#tab-steps")
    page.wait("a choice", "return document.querySelector('#flip:not([hidden])')")
    with page.held("flips"):
        page.click("#flip")
        page.wait("it is asked", "return window.isHeld")
        page.click("#flip")
        page.settled()
    page.settled()
    page.settled()
    assert page.count("#board .other > *") == 0 and page.count("#flip[aria-pressed=false]") == 1


def test_what_is_verified_is_the_part_as_placed(page: Page) -> None:
    """Also while the other shape is shown; what was verified before isn't said of that."""
    page.begin(drawing("arm"), "well")
    page.click("#tab-steps")
    page.wait("a choice", "return document.querySelector('#flip:not([hidden])')")
    page.click("#verify")
    wait_for("verified", lambda: page.told("verified").startswith("verified steps "))
    page.click("#flip")
    page.wait("the other shape", "return document.querySelector('.other .shape')")
    assert page.told("verified") == ""
    page.click("#verify")
    wait_for("verified", lambda: page.told("verified").startswith(
        "The part as placed, not the other shape: verified steps "))


# Another tab, and an answer that can't be read.

def test_the_other_shape_comes_to_a_tab_that_was_opened_again(page: Page) -> None:
    page.begin(drawing("arm"), "well")
    page.click("#tab-steps")
    page.wait("a choice", "return document.querySelector('#flip:not([hidden])')")
    with page.held("flips"):
        page.click("#flip")
        page.click("#tab-text")
        page.click("#tab-steps")
    page.wait("the plan again", "return document.querySelector('#flip:not([hidden])')")
    assert page.count("#flip[aria-pressed=false]") == 1 and page.faults() == []


def test_an_answer_that_is_none_shows_in_the_console(page: Page) -> None:
    """And the next edit is made all the same."""
    page.begin("point P 0 0\npoint Q 60 0\n", "open")
    page.driver.execute_script(
        "const { fetch } = window; window.fetch = async (path, options) => {"
        "  if (path !== 'call/edit') return fetch(path, options);"
        "  Object.assign(window, { fetch }); return new Response('null'); };")
    page.select("P")
    page.keys("x")
    wait_for("an error", page.faults)
    page.keys("x")
    wait_for("the next", lambda: "construction point P" in page.text())


# What is selected once the clicks before are through.

def test_behind_a_call_that_was_stopped_the_last_drawing_is_said_to_stand(page: Page) -> None:
    """With its constraints; the next call judges the text."""
    page.begin("segment A 0 0 40 0\nlength A 40\n", "well")
    page.driver.execute_script(
        "const { fetch } = window; window.fetch = async (path, options) => {"
        "  if (path !== 'call/judge') return fetch(path, options);"
        "  window.fetch = fetch;"
        "  return new Response(JSON.stringify({ trouble: { kind: 'stopped', message: 'Late.' } }));"
        "};")
    page.type("segment A 0 0 40 0\nlength A 50\n")
    page.verdict("trouble")
    assert "Late.\nThe board shows the last drawing that was judged." in page.told()
    page.click("#tab-asked")
    assert "length A 40" in page.told("asked") and page.count(".edges [data-name]") == 1
    page.click("#tab-text")
    page.type("segment A 0 0 40 0\nlength A 60\n")
    page.verdict("well")


def test_delete_waits_for_the_click_before_it(page: Page) -> None:
    page.begin("point P 0 0\npoint Q 60 0\n", "open")
    (x, y), (u, v) = page.at("P"), page.at("Q")
    page.select("P")
    page.keys("s")
    with page.held("edit"):
        page.press(x, y - 150)
        page.press(u, v - 150)
        page.keys(Keys.ESCAPE, Keys.ESCAPE)
        page.press(u, v)
        page.keys(Keys.DELETE)
    wait_for("Q is gone", lambda: "point Q" not in page.text())
    assert "point P" in page.text() and page.text().count("segment") == 1


def test_enter_counts_where_the_cross_was(page: Page) -> None:
    page.keys("p", Keys.ARROW_RIGHT)
    first = page.told("hint").removeprefix("cross at ").removesuffix(" mm")
    with page.held("edit"):
        page.keys(Keys.ENTER, *[Keys.ARROW_UP] * 5)
        second = page.told("hint").removeprefix("cross at ").removesuffix(" mm")
        page.keys(Keys.ENTER, *[Keys.ARROW_LEFT] * 5)
    wait_for("both", lambda: page.text().count("point") == 2)
    assert page.text() == f"drawing 1\npoint P1 {first}\npoint P2 {second}\n" and first != second


def test_undo_says_at_once_whether_there_is_more(page: Page) -> None:
    """Before the text that stands then is judged."""
    page.keys("p")
    page.press(300, 300)
    wait_for("a point", lambda: "point" in page.text())
    page.wait("undo", "return document.getElementById('undo').ariaDisabled === 'false'")
    with page.held("judge"):
        page.keys(Keys.CONTROL + "z")
        page.wait("redo", "return document.getElementById('redo').ariaDisabled === 'false'")
        assert page.count("#undo[aria-disabled=true]") == 1
    page.verdict("empty")


# A drag.

def test_what_a_hand_has_given_up_isnt_told(page: Page) -> None:
    page.begin(CRANK, "open")
    page.wait("what is free", "return document.querySelector('#pieces')")
    x, y = page.at("Ground.end")
    with page.held("drag"):
        page.press(x, y, to=(x, y + 40), lets_go=False)
        page.wait("a frame is asked for", "return window.isHeld")
        page.keys(Keys.ESCAPE)
    page.settled()
    page.settled()
    assert "nothing is free" not in page.told("hint")
    page.let_go()
    page.press(x, y, to=(x, y + 40), lets_go=False)
    wait_for("told", lambda: "nothing is free" in page.told("hint"))
    page.let_go()


def test_a_server_that_stops_in_a_drag_leaves_nothing_held(page: Page, board: Served) -> None:
    """What completes the drawing is looked for while nothing is held."""
    page.begin(CRANK, "open")
    page.wait("what completes it", "return document.querySelector('#proposals button')")
    x, y = page.at("Crank.end")
    page.press(x, y, to=(x - 40, y), lets_go=False)
    page.wait("a frame", "return document.getElementById('board').dataset.frames > 0")
    before = page.text()
    board.stop()
    page.hover(x - 60, y)
    page.wait("told", "return document.body.dataset.server === 'stopped'")
    page.let_go()
    page.settled()
    board.start_again()
    page.wait("there again", "return document.body.dataset.server === 'there'")
    page.wait("what completes it", "return document.querySelector('#proposals button')")
    wait_for("it lies as it is drawn",
             lambda: page.at("Crank.end") == pytest.approx((x, y), abs=1))
    assert page.text() == before


# Another drawing.

def test_of_a_file_and_a_drawing_that_was_begun_later_the_later_stands(
        page: Page, tmp_path: Path) -> None:
    file = tmp_path / "plate.drawing"
    file.write_text(drawing("plate-with-hole"), encoding="utf-8")
    with page.held("open"):
        page.driver.find_element(By.ID, "file").send_keys(str(file))
        page.wait("it is read", "return window.isHeld")
        page.click("#new")
        page.keys("p")
        page.press(600, 200)
    wait_for("a point", lambda: "point" in page.text())
    page.settled()
    assert page.text().count("\n") == 2 and page.count(".edges [data-name]") == 1


def test_no_step_of_the_drawing_before_lies_over_another(page: Page) -> None:
    """Also before that one is judged."""
    page.begin(drawing("arm"), "well")
    page.click("#tab-steps")
    page.wait("its steps", "return document.querySelector('#back')")
    page.click("#back")
    page.wait("a step", "return document.querySelector('#board .overlay > *')")
    with page.held("judge"):
        page.click("#new")
        page.settled()
        assert page.count("#board .overlay > *") == 0


def test_a_label_that_is_held_stands_elsewhere_in_another_drawing(
        page: Page, tmp_path: Path) -> None:
    """Not where the hand held that of the same number in the drawing before."""
    text = "drawing 1\nsegment A 0 0 40 0\nlength A 40\n"
    page.begin(text, "well")
    page.settled()
    place = page.mark(1)
    file = tmp_path / "other.drawing"
    file.write_text(text, encoding="utf-8")
    with page.held("open"):
        page.driver.find_element(By.ID, "file").send_keys(str(file))
        page.wait("it is read", "return window.isHeld")
        page.press(*place, to=(place[0] + 60, place[1] - 90), lets_go=False)
    wait_for("it is opened", lambda: page.driver.execute_script(
        "return document.getElementById('name').value") == "other")
    page.settled()
    assert page.mark(1) == pytest.approx(place, abs=1)
    page.let_go()
    page.settled()
    assert page.text() == text
