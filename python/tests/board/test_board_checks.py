"""What must fit on the board: whether it does, also told apart without colours, and at a click by
which dimensions."""
from __future__ import annotations

import json
from pathlib import Path

import pytest

pytest.importorskip("flask", reason="the board needs Debian's python3-flask")

from boards import CHROMIUM, DRIVER, drawing, wait_for  # noqa: E402
from conforming import unlike  # noqa: E402

from pertxogai.board import protocol  # noqa: E402
from pertxogai.board.calls import Desk  # noqa: E402

FITS = Path(__file__).resolve().parents[1] / "fits"
ROW = (FITS / "row-of-blocks.drawing").read_text()
PAST = ("check Apart distance P Q 0.005 ..\npoint P 20 0\npoint Q 20.09 0\non P XAxis\n"
        "on Q XAxis\nx P 20 +-0.1\nx Q 20.09\n")


def fitted(text: str, program) -> dict[str, object]:
    return json.loads(Desk(program).text("fit", {"text": text}))


def test_a_check_its_worst_case_and_who_gives_how_much(program) -> None:
    # The gap is 0.5 and may be 0.25 to 0.95; of 0.35 three dimensions give 0.1 each, one 0.05.
    found = fitted(ROW, program)
    assert list(unlike(found, protocol.Fitted)) == []
    (gap,) = found["checks"]
    assert (gap["name"], gap["answer"], gap["sign"], gap["worst"]) == (
        "Gap", "beyond", "✗", "0.25 .. 0.95")
    assert [(each["gives"], each["percent"]) for each in gap["gives"]] == [
        ("±0.1 mm", 28.6)] * 3 + [("±0.05 mm", 14.3)]
    (mark,) = gap["marks"]
    assert mark["text"] == "✗ Gap 0.25 .. 0.95" and mark["number"] == 1


def test_how_the_numbers_of_a_check_were_found_is_told(program) -> None:
    (gap,) = fitted(ROW, program)["checks"]
    assert "sampled, not proved" in gap["lines"][-1]
    assert "root sum square: calculated" in gap["lines"][-1]


@pytest.mark.parametrize("text, answer, sign", [
    (ROW.replace("0.1 .. 0.9", "0.1 .. 1"), "fits", "✓"), (PAST, "unsure", "?"),
    (ROW.replace("0.1 .. 0.9", ".."), "unlimited", "↔")])
def test_each_answer_has_a_sign(text, answer, sign, program) -> None:
    (only,) = fitted(text, program)["checks"]
    assert (only["answer"], only["sign"]) == (answer, sign)


def test_a_drawing_without_checks_has_none(program) -> None:
    found = fitted(drawing("plate"), program)
    assert found["checks"] == [] and "there is no check" in found["why"][0]


# In a browser.

needs_browser = pytest.mark.skipif(not (CHROMIUM and DRIVER), reason="no chromium")

MARK = "#board .checkmark"
MIDDLE = ("const b = document.getElementById('board').getBoundingClientRect();"
          "const r = document.querySelector('#board .checkmark text').getBoundingClientRect();"
          "return [r.x + r.width / 2 - b.x, r.y + r.height / 2 - b.y];")


def told(page, selector: str) -> str:
    return page.driver.execute_script(
        "return document.querySelector(arguments[0])?.textContent ?? ''", selector)


def style(page, selector: str, name: str) -> str:
    return page.driver.execute_script(
        "return getComputedStyle(document.querySelector(arguments[0]))[arguments[1]]", selector,
        name)


@needs_browser
def test_a_check_is_green_or_red_and_told_apart_without_colours(page) -> None:
    page.begin(ROW, "well")
    wait_for("the check", lambda: page.count(f"{MARK}.beyond") == 1)
    assert told(page, "#checked button") == "✗ Gap doesn’t fit: 0.25 .. 0.95"
    assert told(page, f"{MARK} text") == "✗ Gap 0.25 .. 0.95"
    red, dashes = style(page, f"{MARK} text", "fill"), style(page, f"{MARK} .mark",
                                                            "strokeDasharray")
    page.type(ROW.replace("length C 19.5 +-0.05", "length C 19.5 +-0"))
    wait_for("the check fits", lambda: page.count(f"{MARK}.fits") == 1)
    assert told(page, "#checked button") == "✓ Gap fits: 0.3 .. 0.9"
    assert style(page, f"{MARK} text", "fill") != red
    assert style(page, f"{MARK} .mark", "strokeDasharray") == "none" != dashes


@needs_browser
def test_a_click_on_its_mark_or_its_line_shows_who_gives_how_much(page) -> None:
    page.begin(ROW, "well")
    wait_for("the check", lambda: page.count(MARK) == 1)
    page.settled()
    before = page.text()
    page.press(*page.driver.execute_script(MIDDLE))
    wait_for("the dimensions", lambda: page.count("#checked .made li") == 4)
    assert "length A 20 +-0.1: ±0.1 mm, 28.6 %" in told(page, "#checked .made")
    assert "worst case" in told(page, "#checked .made")
    page.click("#checked button")
    wait_for("none", lambda: page.count("#checked .made") == 0)
    page.click("#checked button")
    wait_for("the dimensions again", lambda: page.count("#checked .made li") == 4)
    assert page.text() == before


@needs_browser
def test_a_key_at_its_mark_opens_it_too(page) -> None:
    from selenium.webdriver.common.keys import Keys

    page.begin(ROW, "well")
    wait_for("the check", lambda: page.count(MARK) == 1)
    page.settled()
    page.driver.execute_script("document.querySelector(arguments[0]).focus()", MARK)
    page.driver.switch_to.active_element.send_keys(Keys.ENTER)
    wait_for("the dimensions", lambda: page.count("#checked .made li") == 4)
    assert page.driver.execute_script(
        "return document.querySelector('#checked button').getAttribute('aria-expanded')") == "true"


@needs_browser
@pytest.mark.parametrize("button", [MARK, "#checked button"])
def test_a_check_keeps_the_focus_while_keys_open_and_close_it(page, button) -> None:
    """Also with another zoom; and Enter at it doesn't ask for the value of what is selected."""
    from selenium.webdriver.common.keys import Keys

    page.begin(ROW, "well")
    wait_for("the check", lambda: page.count(MARK) == 1)
    page.press(*page.mark(10))
    page.wait("it is selected", "return document.querySelector('.marks .selectedmark')")
    page.driver.execute_script("document.querySelector(arguments[0]).focus()", button)
    for key, count in ((Keys.ENTER, 4), ("+", 4), (Keys.ENTER, 0), ("-", 0), (Keys.ENTER, 4)):
        page.driver.switch_to.active_element.send_keys(key)
        wait_for("the dimensions", lambda: page.count("#checked .made li") == count)
        page.settled()
        assert page.count(f"{button}:focus") == 1 and page.count("dialog[open]") == 0


@needs_browser
def test_delete_tells_the_check_that_goes_with_it(page) -> None:
    """The check is of the point End, and of the segment Wall."""
    from selenium.webdriver.common.keys import Keys

    page.begin(ROW, "well")
    wait_for("the check", lambda: page.count(MARK) == 1)
    page.select("Slot")
    assert "check" not in page.driver.execute_script(
        "return document.getElementById('erase').title")
    page.select("Wall")
    page.keys(Keys.DELETE)
    wait_for("it is told", lambda: page.told("hint").startswith("Deletes Wall; with it: "))
    assert "check Gap" in page.told("hint") and "check Gap" not in page.text()


@needs_browser
def test_without_checks_nothing_is_shown(page) -> None:
    page.begin(ROW, "well")
    wait_for("the check", lambda: page.count(MARK) == 1)
    page.type(drawing("plate"))
    wait_for("none", lambda: page.count(MARK) == 0 and page.count("#checks[hidden]") == 1)
