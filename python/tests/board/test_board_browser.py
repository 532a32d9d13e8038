"""The board in a real browser: what a designer's hand does, and what is shown."""
from __future__ import annotations

import pytest

from boards import DRAWINGS, FILES, Served, drawing, wait_for
from browsing import Page
from pertxogai.board.serve import leading_to
from selenium.webdriver.common.by import By
from selenium.webdriver.common.keys import Keys

TRIANGLE = """segment A 0 0 40 0
segment B A.end 20 30
segment C B.end A.start
length A 40
length B 36
length C 35
"""

TYPED = """const area = document.getElementById('text'); area.focus(); area.value = arguments[0];
area.dispatchEvent(new Event('input'));
"""


def test_the_trial_of_a_new_user(page: Page) -> None:
    """The trial of docs/BOARD.md: a plate with a hole, from nothing to the DXF."""
    _a_plate_with_a_hole_is_drawn(page)
    page.verdict("open")
    _the_plate_has_its_size(page)
    page.keep_picture("open")
    _the_hole_has_its_place(page)
    page.keep_picture("well")
    _one_is_too_many(page)
    page.keep_picture("over")
    _taken_away(page, "R1Right 55")
    page.verdict("well")
    page.click("#export summary")
    page.click("[data-export='dxf']")
    assert page.downloaded("drawing.dxf").count(b"\nLINE\n") == 4


def _a_plate_with_a_hole_is_drawn(page: Page) -> None:
    page.keys("r")
    page.press(250, 420)
    page.press(650, 180)
    page.wait("a plate", "return document.querySelectorAll('.edges [data-name]').length === 4")
    page.keys("c")
    page.press(370, 320)
    page.press(405, 320)
    page.wait("a hole", "return document.querySelectorAll('.edges [data-name]').length === 5")


SIDES = "R1Bottom", "R1Right", "R1Top", "R1Left"


def _asked(page: Page, word: str, value: str | None = None) -> None:
    """Asks for a constraint of the bar; the plate is whole behind it."""
    page.ask(word, value)
    wait_for(f"whole, and {word}", lambda: page.is_whole(*SIDES))


def _the_plate_has_its_size(page: Page) -> None:
    assert page.is_whole(*SIDES)
    page.select("R1Bottom.start", "Origin")
    _asked(page, "coincident")
    page.select("R1Bottom")
    _asked(page, "length", "100")
    page.select("R1Right")
    _asked(page, "length", "60")
    page.wait("its pieces", "return document.querySelectorAll('#verdict .chip').length === 2")


def _the_hole_has_its_place(page: Page) -> None:
    page.select("C1")
    _asked(page, "diameter", "20")
    page.select("C1.centre")
    _asked(page, "x", "40")
    _asked(page, "y", "30")
    page.verdict("well")
    page.click("#fit")


def _one_is_too_many(page: Page) -> None:
    page.select("C1.centre", "R1Right")
    page.ask("distance", "55")
    page.verdict("over")
    page.tells("conflicting by 5")


def _taken_away(page: Page, name: str) -> None:
    """Takes away, by its button, the dimension that is named so."""
    spare = page.driver.find_elements(By.CSS_SELECTOR, "#verdict [data-spare]")
    found = next(each for each in spare if name in each.text)
    found.find_element(By.TAG_NAME, "button").click()


def test_a_triangle_is_drawn_and_dimensioned_until_it_is_well(page: Page) -> None:
    page.keys("s")
    page.press(260, 420)
    page.press(620, 420, held=Keys.CONTROL)
    page.wait("a segment", "return document.querySelectorAll('.edges [data-name]').length === 1")
    page.press(500, 180)
    page.wait("two", "return document.querySelectorAll('.edges [data-name]').length === 2")
    page.press(260, 420)
    page.wait("three", "return document.querySelectorAll('.edges [data-name]').length === 3")
    page.verdict("open")
    assert "At least 3 dimensions" in page.told()
    page.keys("v")
    for name, value in (("S1", "50"), ("S2", "40"), ("S3", "45")):
        page.select(name)
        page.ask("length", value)
    page.verdict("well")
    assert page.text().splitlines()[-3:] == ["length S1 50", "length S2 40", "length S3 45"]
    assert page.count(".marks [data-constraint]") == 3


def test_a_chain_that_is_kept_level_is_closed_level(page: Page) -> None:
    page.keys("s")
    corners = (260, 420), (560, 424), (556, 240), (262, 244), (260, 420)
    for place, corner in enumerate(corners):
        page.press(*corner, shift=place > 0)
        page.wait(f"side {place}", "return document.querySelectorAll('.marks [data-constraint]')"
                                   f".length === {place}")
    assert page.text().splitlines()[-4:] == [
        "horizontal S1", "vertical S2", "horizontal S3", "vertical S4"]


def test_one_too_many_is_taken_away_again(page: Page) -> None:
    page.begin(drawing("over-plate-contradiction"), "over")
    page.tells("conflicting by 1 mm")
    assert page.count(".marks .spare") >= 2
    _taken_away(page, "Top width")
    page.verdict("well")
    assert "Top width:" not in page.text()


def test_of_two_taken_away_before_the_answer_one_goes(page: Page) -> None:
    page.begin(TRIANGLE + "length A 41\n", "over")
    page.tells("conflicting by 1 mm")
    with page.held("edit"):
        page.click("#verdict [data-spare] button")
        page.click("#verdict [data-spare]:last-child button")
    _told_to_choose_again(page)
    assert page.text().count("length") == 3


def test_a_constraint_that_is_typed_above_leaves_those_below_it(page: Page) -> None:
    over = TRIANGLE + "length A 41\n"
    page.begin(over, "over")
    typed = over.replace("length A 40", "horizontal A\nlength A 40")
    with page.held("judge"):
        page.type(typed)
        page.click("#verdict [data-spare] button")
    _told_to_choose_again(page)
    assert page.text() == typed


def _told_to_choose_again(page: Page) -> None:
    page.wait("told", "return document.getElementById('hint').textContent"
                      " === 'the drawing has changed: choose again'")


def test_an_edit_stays_with_its_drawing(page: Page) -> None:
    page.begin(TRIANGLE, "well")
    page.select("A")
    with page.held("edit"):
        page.keys(Keys.ALT + Keys.ARROW_RIGHT)
        page.wait("an answer", "return window.isHeld")
        page.click("#new")
        page.wait("an empty board", "return !document.querySelector('.edges [data-name]')")
    page.verdict("empty")
    assert page.text() == "" and page.driver.find_element(By.ID, "erase").is_displayed() is False


def test_a_fault_is_shown_at_its_place(page: Page) -> None:
    page.begin(TRIANGLE.replace("length C 35", "length C 3"), "fault")
    assert "1 mm too short to meet" in page.told() and "fault" not in page.told()
    assert page.count(".faults path") == 3 and page.count(".marks .blamed") == 3
    page.click("#tab-asked")
    page.keep_picture("fault")


def test_open_parts_have_their_colours_and_joints(page: Page) -> None:
    page.begin(drawing("open-hinge"), "open")
    assert page.count(".joints circle") == 0
    page.click("#pieces")
    page.settled()
    assert page.count(".joints circle") == 1
    edges, dots = ({each.value_of_css_property("stroke")
                    for each in page.driver.find_elements(By.CSS_SELECTOR, selector)}
                   for selector in (".edges .shape", ".dots .dot"))
    assert len(edges) == 2
    assert edges < dots and len(dots) == 3


def test_the_construction_is_watched_and_verified(page: Page) -> None:
    page.begin(drawing("roof-truss"), "well")
    page.click("#tab-steps")
    page.wait("the slider", "return document.querySelector('#steps input')")
    most = page.driver.execute_script("return Number(document.querySelector('#steps input').max)")
    assert page.count("#steps .tree button") == most
    page.driver.execute_script(
        "const r = document.querySelector('#steps input'); r.value = r.max - 0.3;"
        "r.dispatchEvent(new Event('input'));")
    page.settled()
    assert page.count(".construction-layer .cluster") >= 3
    assert page.count(".construction-layer .locus") == 2
    page.driver.find_element(By.CSS_SELECTOR, "#steps input").send_keys(Keys.ARROW_LEFT)
    page.settled()
    assert f"Step {most - 1} of {most}" in page.told("steps")
    page.click("#verify")
    page.wait("verified", "return document.getElementById('verified').textContent")
    assert page.told("verified").startswith("verified steps ")


def test_the_other_shape_of_a_step(page: Page) -> None:
    page.begin(drawing("arm"), "well")
    page.click("#tab-steps")
    page.wait("the switch", "return document.querySelector('#flip')")
    page.driver.execute_script(
        "const r = document.querySelector('#steps input'); r.value = r.max - 0.36;"
        "r.dispatchEvent(new Event('input'));")
    page.keep_picture("construction")
    page.click("#flip")
    page.wait("the other shape", "return document.querySelector('.other .shape')")
    before = page.text()
    page.click("#redraw")
    page.wait("drawn so", "return !document.querySelector('.other .shape')")
    page.verdict("well")
    assert page.text() != before


def test_a_file_is_opened_and_its_dxf_is_the_commands(page: Page, program) -> None:
    page.driver.find_element(By.ID, "file").send_keys(str(DRAWINGS / "bracket.drawing"))
    page.wait("the text", "return document.getElementById('text').value.includes('circle H1')")
    page.verdict("well")
    page.click("#export summary")
    page.click("[data-export='program-dxf']")
    language = page.driver.execute_script("return document.getElementById('language').textContent")
    own = program.ask(["dxf"], language).text
    assert page.downloaded("bracket-program.dxf") == own.encode()
    page.click("#export summary")
    page.click("[data-export='dxf']")
    assert page.downloaded("bracket.dxf").count(b"\nCIRCLE\n") == 2


def test_undo_to_the_start_and_redo(page: Page) -> None:
    page.keys("r")
    page.press(200, 400)
    page.press(500, 200)
    page.wait("a rectangle", "return document.querySelectorAll('.edges [data-name]').length === 4")
    page.keys("v")
    page.select("R1Bottom")
    page.ask("length", "60")
    whole = page.text()
    page.keys(Keys.CONTROL + "z")
    page.wait("undone", "return !document.getElementById('text').value.includes('length')")
    page.keys(Keys.CONTROL + "z")
    page.verdict("empty")
    assert page.text() == "" and page.count(".edges [data-name]") == 0
    assert page.driver.find_element(By.ID, "undo").get_attribute("aria-disabled") == "true"
    page.keys(Keys.CONTROL + "y", Keys.CONTROL + "y")
    page.verdict("open")
    assert page.text() == whole


def test_undo_waits_for_the_edit_before_it(page: Page) -> None:
    page.begin(TRIANGLE, "well")
    page.select("A")
    with page.held("edit"):
        page.keys(Keys.DELETE, Keys.CONTROL + "z")
    page.wait("redo", "return document.getElementById('redo').ariaDisabled === 'false'")
    page.verdict("well")
    assert "segment A 0 0 40 0" in page.text()


def test_undo_waits_for_the_very_first_edit(page: Page) -> None:
    page.keys("p")
    with page.held("edit"):
        page.press(300, 300)
        page.keys(Keys.CONTROL + "z")
    page.wait("redo", "return document.getElementById('redo').ariaDisabled === 'false'")
    page.verdict("empty")
    assert page.text() == ""


def test_clicks_before_the_answer_go_on_with_the_chain(page: Page) -> None:
    page.keys("s")
    with page.held("edit"):
        for corner in ((260, 420), (620, 420), (500, 180)):
            page.press(*corner)
    page.wait("two", "return document.getElementById('text').value.includes('segment S2 S1.end')")
    assert page.text().count("segment") == 2


def test_a_level_segment_is_undone_at_once(page: Page) -> None:
    page.keys("s")
    page.press(260, 420)
    page.press(620, 424, shift=True)
    page.wait("level", "return document.getElementById('text').value.includes('horizontal S1')")
    page.keys(Keys.CONTROL + "z")
    page.verdict("empty")
    assert page.text() == ""


def test_what_is_typed_beside_an_edit_stays(page: Page) -> None:
    page.begin(TRIANGLE, "well")
    page.select("A")
    with page.held("edit"):
        page.keys(Keys.ALT + Keys.ARROW_RIGHT)
        page.type(TRIANGLE + "horizontal A\n")
    _a_has_moved_and_is_level(page)


def test_what_was_typed_just_before_the_answer_to_an_edit_stays(page: Page) -> None:
    page.begin(TRIANGLE, "well")
    page.select("A")
    with page.held("edit"):
        page.keys(Keys.ALT + Keys.ARROW_RIGHT)
        page.wait("an answer", "return window.isHeld")
        page.driver.execute_script(TYPED + "window.release();", TRIANGLE + "horizontal A\n")
    _a_has_moved_and_is_level(page)


def _a_has_moved_and_is_level(page: Page) -> None:
    page.wait("judged", "return document.querySelectorAll('.marks [data-constraint]').length > 3")
    assert page.text().endswith("length C 35\nhorizontal A\n")
    assert "segment A " in page.text() and "segment A 0 0 40 0" not in page.text()


def test_what_was_typed_just_before_is_saved_and_kept(page: Page) -> None:
    page.driver.execute_script(TYPED + "document.getElementById('save').click();", TRIANGLE)
    assert page.downloaded("drawing.drawing").decode() == TRIANGLE
    kept = page.driver.execute_script(
        TYPED + "window.dispatchEvent(new Event('pagehide'));"
        "return localStorage['pertxogai.drawing'];", TRIANGLE + "horizontal A\n")
    assert "horizontal A" in str(kept)


def test_a_refused_line_is_marked_with_what_to_do(page: Page) -> None:
    page.begin(TRIANGLE, "well")
    page.type(TRIANGLE.replace("length B", "lenght B"))
    page.verdict("refused")
    assert page.told("refused").startswith("line 5: 'lenght'")
    assert "do you mean length?" in page.told("refused")
    marked = page.driver.find_elements(By.CSS_SELECTOR, "#lines b")
    assert [each.text.strip() for each in marked] == ["5"]
    assert page.count(".edges [data-name]") == 3
    page.select("A")
    page.keys(Keys.DELETE)
    page.wait("told", "return document.getElementById('hint').textContent.startsWith('line 5')")
    page.verdict("refused")
    assert page.count(".edges [data-name]") == 3
    page.type(TRIANGLE)
    page.verdict("well")


def test_a_point_is_dragged_and_a_dimension_changed(page: Page) -> None:
    page.begin("segment A 0 0 40 0\ncircle C 20 20 5\n", "open")
    x, y = page.at("C.centre")
    page.press(x, y, to=(x + 60, y - 40))
    page.wait("moved", "return !document.getElementById('text').value.includes('circle C 20 20')")
    page.select("C")
    page.ask("diameter", "12")
    page.wait("shown", "return document.querySelector(\".marks [data-constraint='1'] text\")")
    page.keys("0")
    page.settled()
    page.press_twice(".marks [data-constraint='1'] text")
    page.wait("asked", "return document.querySelector('#value[open] input')")
    field = page.driver.find_element(By.CSS_SELECTOR, "#value[open] input")
    field.send_keys(Keys.CONTROL, "a")
    field.send_keys("0.5in", Keys.ENTER)
    page.wait("changed",
              "return document.getElementById('text').value.includes('diameter C 12.7')")


def test_a_value_is_typed_with_its_unit_and_one_that_isnt_taken_is_told(page: Page) -> None:
    page.begin("drawing 1\nsegment A 0 0 40 0\n", "open")
    page.select("A")
    page.ask("length", "41 mm")
    assert page.text().splitlines()[-1] == "length A 41"
    page.press_twice(".marks [data-constraint='1'] text")
    page.wait("asked", "return document.querySelector('#value[open] input')")
    page.driver.switch_to.active_element.send_keys("10000000", Keys.ENTER)
    page.wait("told", "return document.querySelector('#hint.trouble')")
    assert page.told("hint") == ("constraint 1 (length A 41): '10000000' is beyond 1000000 mm: "
                                 "give lengths in millimetres, or in inches, such as 1.5in")
    assert page.text().splitlines()[-1] == "length A 41"
    page.keys(Keys.ESCAPE)
    assert page.count("#hint.trouble") == 0


def test_of_two_drags_before_the_answer_both_count(page: Page) -> None:
    page.begin("drawing 1\nsegment A 0 0 40 0\nsegment B 0 20 40 20\n", "open")
    with page.held("edit"):
        for name in ("A.end", "B.end"):
            x, y = page.at(name)
            page.press(x, y, to=(x + 60, y - 40))
    page.wait("both", "return !/ 40 (0|20)$/m.test(document.getElementById('text').value)")


def test_a_drag_that_the_browser_ends_leaves_the_drawing(page: Page) -> None:
    page.begin("drawing 1\nsegment A 0 0 40 0\n", "open")
    x, y = _dragged(page, "A.end")
    page.driver.execute_script(
        "document.getElementById('board').dispatchEvent("
        "new PointerEvent('pointercancel', { isPrimary: true }))")
    wait_for("as it was", lambda: page.at("A.end") == pytest.approx((x, y), abs=1))
    page.let_go()
    page.settled()
    assert page.text() == "drawing 1\nsegment A 0 0 40 0\n"


def test_what_is_left_out_is_told_behind_a_drag(page: Page) -> None:
    with page.held("weigh"):
        page.begin(TRIANGLE + "length A 41\n", "over")
        place = _dragged(page, "B.end")
    page.settled()
    assert page.at("B.end") != pytest.approx(place, abs=1)
    page.let_go()
    page.tells("conflicting by 1 mm")


def _dragged(page: Page, name: str) -> tuple[float, float]:
    """Drags a point, and holds it; gives where it was."""
    x, y = page.at(name)
    page.press(x, y, to=(x + 60, y - 40), lets_go=False)
    wait_for("dragged", lambda: page.at(name) != pytest.approx((x, y), abs=1))
    return x, y


def test_everything_by_the_keyboard(page: Page) -> None:
    page.keys("s", *[Keys.ARROW_LEFT] * 6, Keys.ENTER, *[Keys.ARROW_RIGHT] * 12, Keys.ENTER)
    page.wait("a segment", "return document.querySelectorAll('.edges [data-name]').length === 1")
    page.keys(Keys.ESCAPE, Keys.ESCAPE, Keys.ESCAPE, "]")
    page.wait("length", "return document.querySelector('#offers [data-word=length]')")
    letter = page.driver.find_element(
        By.CSS_SELECTOR, "#offers [data-word=length]").get_attribute("data-letter")
    page.keys(Keys.ALT + letter)
    page.driver.switch_to.active_element.send_keys("30", Keys.ENTER)
    page.verdict("well")
    assert page.text().splitlines()[-1] == "length S1 30"
    page.keys(Keys.F2)
    page.driver.switch_to.active_element.send_keys("Base", Keys.ENTER)
    page.wait("named", "return document.getElementById('text').value.includes('length Base 30')")
    page.keys(Keys.DELETE)
    page.verdict("empty")
    page.keys("g")
    page.wait("a drawing has the focus", "return document.activeElement.matches('#dialog .gallery button')")
    page.driver.switch_to.active_element.send_keys(Keys.ENTER)
    page.wait("a drawing is taken", "return document.getElementById('text').value !== ''")


def test_behind_a_dialog_nothing_is_drawn_or_opened(page: Page) -> None:
    page.driver.execute_script(
        "window.opened = 0; document.getElementById('file').addEventListener('click', (event) => {"
        "  event.preventDefault(); window.opened += 1; });")
    drops = ("const dataTransfer = new DataTransfer();"
             "dataTransfer.items.add(new File(['point P 0 0\\n'], 'P.drawing'));"
             "document.body.dispatchEvent(new DragEvent('drop',"
             " { dataTransfer, bubbles: true, cancelable: true }));")
    page.keys("?")
    page.driver.switch_to.active_element.send_keys("r" + Keys.CONTROL + "o" + Keys.NULL)
    page.driver.execute_script(drops)
    page.driver.switch_to.active_element.send_keys(Keys.ESCAPE)
    page.keys(Keys.CONTROL + "o")
    assert page.driver.execute_script("return window.opened") == 1
    assert page.count("[data-tool=select][aria-pressed=true]") == 1
    page.verdict("empty")
    page.driver.execute_script(drops)
    page.wait("the file", "return document.getElementById('text').value.includes('point P')")


def test_a_dialog_waits_until_the_one_before_it_is_closed(page: Page) -> None:
    title = "return document.getElementById('dialog-title').textContent"
    with page.held("open"):
        page.driver.find_element(By.ID, "file").send_keys(str(FILES / "body.FCStd"))
        page.keys("g")
    page.wait("the file's sketches", f"{title} === 'body.FCStd'")
    page.driver.execute_async_script("setTimeout(arguments[0], 1000)")
    assert page.driver.execute_script(title) == "body.FCStd"
    page.driver.switch_to.active_element.send_keys(Keys.ENTER)
    page.wait("the gallery", f"{title} === 'Begin from'")
    page.driver.switch_to.active_element.send_keys(Keys.ESCAPE)
    page.wait("a sketch is taken", "return document.getElementById('text').value !== ''")
    assert page.driver.execute_script("return document.getElementById('name').value") == "body Sketch"


def test_panning_by_the_keyboard(page: Page) -> None:
    page.begin(TRIANGLE, "well")
    width = page.driver.execute_script(
        "return document.getElementById('board').getBoundingClientRect().width")
    x, y = page.at("A.start")
    page.keys(Keys.CONTROL + Keys.ARROW_RIGHT)
    page.settled()
    assert page.at("A.start") == pytest.approx((x - width / 8, y), abs=1)
    page.keys(Keys.CONTROL + Keys.ARROW_LEFT)
    page.settled()
    assert page.at("A.start") == pytest.approx((x, y), abs=1)
    page.keys(*[Keys.SHIFT + Keys.ARROW_UP] * 40)
    page.settled()
    cross = page.driver.find_element(By.CSS_SELECTOR, ".cross").rect
    board = page.driver.find_element(By.ID, "board").rect
    assert cross["y"] >= board["y"] and page.at("A.start")[1] > y + 100


def test_brackets_of_keyboards_that_have_them_by_another_key(page: Page) -> None:
    page.begin("drawing 1\nsegment A 0 0 40 0\n", "open")
    for held in ({"altKey": True}, {"altKey": True, "ctrlKey": True}):
        page.keys(Keys.ESCAPE)
        page.driver.execute_script(
            "document.activeElement.dispatchEvent(new KeyboardEvent('keydown',"
            "{key: ']', bubbles: true, cancelable: true, ...arguments[0]}))", held)
        page.wait("selected", "return document.querySelector('#hint').textContent === 'A selected'")


def test_a_stopped_server_is_told_and_nothing_is_lost(page: Page, board: Served) -> None:
    page.begin(TRIANGLE, "well")
    board.stop()
    try:
        page.type(TRIANGLE + "horizontal A\n")
        page.wait("told", "return document.body.dataset.server === 'stopped'")
        assert "is kept in this browser" in page.told("banner")
        page.verdict("trouble")
        page.tells("The text is judged once the board’s server is there again.")
        page.tells("The board shows the last drawing that was judged.")
    finally:
        board.start_again()
    page.wait("there again", "return document.body.dataset.server === 'there'")
    page.wait("judged", "return document.querySelectorAll('.marks [data-constraint]').length > 3")
    page.driver.refresh()
    page.verdict("well")
    assert page.text() == TRIANGLE + "horizontal A\n"


def test_a_second_tab_is_told_while_it_is_there(page: Page, board: Served) -> None:
    first = page.driver.current_window_handle
    page.driver.switch_to.new_window("tab")
    page.driver.get(board.guard.address)
    page.wait("told", "return document.getElementById('told-tabs').textContent")
    assert "another tab" in page.told("banner")
    second = page.driver.current_window_handle
    page.driver.switch_to.window(first)
    assert "another tab" in page.told("banner")
    page.driver.switch_to.window(second)
    page.driver.close()
    page.driver.switch_to.window(first)
    page.wait("no longer told", "return !document.getElementById('banner').innerText")


def test_a_stopped_server_and_a_second_tab_are_both_told(page: Page, board: Served) -> None:
    page.begin(TRIANGLE, "well")
    first = page.driver.current_window_handle
    page.driver.switch_to.new_window("tab")
    page.driver.get(board.guard.address)
    page.verdict("well")
    board.stop()
    try:
        page.type(TRIANGLE + "horizontal A\n")
        page.wait("told", "return document.body.dataset.server === 'stopped'")
        assert "is stopped" in page.told("banner") and "another tab" in page.told("banner")
    finally:
        board.start_again()
    page.wait("there again", "return document.body.dataset.server === 'there'")
    assert "is stopped" not in page.told("banner") and "another tab" in page.told("banner")
    page.driver.close()
    page.driver.switch_to.window(first)


def test_the_file_that_leads_to_the_board(page: Page, board: Served) -> None:
    with leading_to(board.guard.address) as file:
        page.driver.get(file)
        page.wait("the board", "return document.getElementById('verdict')?.dataset.verdict")
    assert page.driver.current_url == board.guard.address


def test_of_two_tabs_neither_loses_its_drawing(page: Page, board: Served) -> None:
    first = page.driver.current_window_handle
    page.begin("drawing 1\nsegment A 0 0 40 0\n", "open")
    page.driver.switch_to.new_window("tab")
    page.driver.get(board.guard.address)
    page.verdict("open")
    page.type("drawing 1\ncircle B 0 0 40\n")
    kept = "return (localStorage['pertxogai.drawing'] + localStorage['pertxogai.aside'])"
    page.wait("the second's is kept", f"{kept}.includes('circle B')")
    page.driver.close()
    page.driver.switch_to.window(first)
    page.driver.execute_script("window.dispatchEvent(new Event('beforeunload'))")
    found = str(page.driver.execute_script(kept))
    assert "segment A" in found and "circle B" in found
