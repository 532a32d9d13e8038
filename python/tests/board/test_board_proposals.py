"""What the board proposes where dimensions are missing, and how one is taken, or all."""
from __future__ import annotations

import pytest

pytest.importorskip("flask", reason="the board needs Debian's python3-flask")
pytest.importorskip("scipy", reason="what is missing needs Debian's python3-scipy")

from boards import CHROMIUM, DRIVER, drawing, wait_for  # noqa: E402

from pertxogai.board.calls import Desk  # noqa: E402

PLATE = drawing("open-plate-without-height")
TRIANGLES = drawing("open-two-triangles")


def proposed(text: str, program) -> dict[str, object]:
    return Desk(program).answer("complete", {"text": text})


def test_a_line_with_its_value_what_it_fixes_and_its_mark(program) -> None:
    found = proposed(PLATE, program)
    (only,) = found["proposals"]
    assert found["why"] == "" and only["ties"] is False
    assert (only["line"], only["words"], only["value"]) == (
        "length PlateRight 79", ["length", "PlateRight"], "79")
    assert only["fixes"][0].startswith("PlateRight.end")
    (mark,) = only["marks"]
    # The right side as it is drawn: at 121 from 0 to 79, in millimetres.
    assert mark["text"] == "79" and mark["number"] == 1
    assert {abs(y) for _, y in mark["bar"]} == {0.0, 79.0}


def test_what_ties_the_whole_is_said_to(program) -> None:
    found = proposed(TRIANGLES, program)["proposals"]
    assert [each["ties"] for each in found] == [False] * (len(found) - 1) + [True]
    assert found[-1]["value"] is None


def test_why_nothing_is_proposed(program) -> None:
    assert proposed(drawing("plate"), program) == {"proposals": [], "why": "nothing is missing"}


def test_lines_are_added_by_one_edit(program) -> None:
    lines = ["length PlateRight 79", "horizontal PlateTop.start PlateTop.end"]
    found = Desk(program).answer("edit", {"text": PLATE, "edit": {"do": "lines", "lines": lines}})
    assert found["text"].splitlines()[-2:] == lines
    refused = Desk(program).answer(
        "edit", {"text": PLATE, "edit": {"do": "lines", "lines": ["length Nothing 79"]}})
    assert "Nothing" in refused["trouble"]["message"]


# In a browser.

needs_browser = pytest.mark.skipif(not (CHROMIUM and DRIVER), reason="no chromium")


def count(page) -> int:
    return page.count("#proposals [data-proposed]")


@needs_browser
def test_a_click_in_the_list_takes_one_and_one_undo_takes_it_back(page) -> None:
    page.begin(PLATE, "open")
    page.wait("a proposal", "return document.querySelector('#proposals [data-proposed]')")
    assert page.count("#board .proposedmark") == 1
    page.click("#proposals [data-proposed]")
    page.verdict("well")
    assert "length PlateRight 79" in page.text().splitlines()
    wait_for("no proposal", lambda: count(page) == 0 and not page.count("#board .proposedmark"))
    page.click("#undo")
    page.verdict("open")
    wait_for("the proposal again", lambda: count(page) == 1)


@needs_browser
def test_a_click_on_the_board_takes_one(page) -> None:
    page.begin(PLATE, "open")
    page.wait("a mark", "return document.querySelector('#board .proposedmark text')")
    page.settled()
    x, y = page.driver.execute_script(
        "const b = document.getElementById('board').getBoundingClientRect();"
        "const r = document.querySelector('#board .proposedmark text').getBoundingClientRect();"
        "return [r.x + r.width / 2 - b.x, r.y + r.height / 2 - b.y];")
    page.press(x, y)
    page.verdict("well")
    assert "length PlateRight 79" in page.text().splitlines()


@needs_browser
def test_all_are_taken_by_one_key_and_undone_by_one(page) -> None:
    page.begin(TRIANGLES, "open")
    page.wait("proposals", "return document.querySelectorAll('#proposals button').length > 3")
    before, many = page.text(), count(page)
    page.keys("d")
    page.verdict("well")
    # An edit writes the line of the version too.
    assert len(page.text().splitlines()) == 1 + len(before.splitlines()) + many
    page.click("#undo")
    page.verdict("open")
    assert page.text() == before


@needs_browser
def test_enter_asks_for_another_value_first(page) -> None:
    from selenium.webdriver.common.by import By
    from selenium.webdriver.common.keys import Keys

    page.begin(PLATE, "open")
    page.wait("a proposal", "return document.querySelector('#proposals [data-proposed]')")
    for where in ("#proposals [data-proposed]", "#board .proposedmark"):
        page.driver.execute_script("document.querySelector(arguments[0]).focus()", where)
        page.driver.switch_to.active_element.send_keys(Keys.ENTER)
        field = page.driver.find_element(By.CSS_SELECTOR, "#value input")
        wait_for("the value", lambda: field.is_displayed())
        assert field.get_attribute("value") == "79"
        field.send_keys(Keys.CONTROL, "a")
        field.send_keys("81.5", Keys.ENTER)
        page.verdict("well")
        assert "length PlateRight 81.5" in page.text().splitlines()
        page.click("#undo")
        page.verdict("open")
        wait_for("the proposal again", lambda: count(page) == 1)


@needs_browser
@pytest.mark.parametrize("button, then", [
    ("#proposals [data-proposed]", "#verdict"), ("#board .proposedmark", "#board")])
def test_the_focus_isnt_lost_with_what_is_taken(page, button, then) -> None:
    from selenium.webdriver.common.keys import Keys

    page.begin(PLATE, "open")
    page.wait("a mark", "return document.querySelector('#board .proposedmark text')")
    page.driver.execute_script("document.querySelector(arguments[0]).focus()", button)
    page.driver.switch_to.active_element.send_keys("+")
    page.settled()
    assert page.count(f"{button}:focus") == 1
    page.driver.switch_to.active_element.send_keys(Keys.SPACE)
    page.verdict("well")
    wait_for("no proposal", lambda: count(page) == 0 and not page.count("#board .proposedmark"))
    assert page.count(f"{then}:focus") == 1
    page.driver.switch_to.active_element.send_keys(Keys.CONTROL, "z")
    page.verdict("open")
