"""The board in a real browser: the table of named values, and the slider of what is selected, from
one end of its range to the other."""
from __future__ import annotations

import pytest

pytest.importorskip("scipy", reason="ranges need Debian's python3-scipy")

from boards import drawing, wait_for
from browsing import Page
from selenium.webdriver.common.by import By
from selenium.webdriver.common.keys import Keys
from selenium.webdriver.remote.webelement import WebElement

PLATE = drawing("plate-by-values")
HOLE = drawing("plate-with-hole")


def type_in(page: Page, selector: str, *keys: str) -> None:
    """Types into a field in place of what stands there; into the new one where it is drawn anew."""
    page.click(selector)
    page.driver.switch_to.active_element.send_keys(Keys.CONTROL, "a")
    page.driver.switch_to.active_element.send_keys(*keys)


def test_values_are_named_and_changed_in_their_table(page: Page) -> None:
    page.begin("segment Bottom 0 0 40 0\nlength Bottom 40\n", "well")
    page.click("#tab-values")
    type_in(page, "#value-name", "Width")
    type_in(page, "#value-expression", "120", Keys.ENTER)
    wait_for("the value", lambda: "value Width 120" in page.text().splitlines())
    wait_for("its row", lambda: page.count("#values tr") == 1)
    type_in(page, "#values input", "3*50mm", Keys.ENTER)
    wait_for("another expression", lambda: "value Width 3*50mm" in page.text().splitlines())
    wait_for("what it comes to", lambda: "= 150 mm" in page.told("values"))
    type_in(page, "#values input", "3*", Keys.ENTER)
    wait_for("why not", lambda: "ends where a number or a value is missing" in page.told("hint"))
    page.click("#value-name")
    page.wait("the old one", "return document.querySelector('#values input').value === '3*50mm'")
    page.click("[data-drops='Width']")
    wait_for("no value", lambda: page.count("#values tr") == 0)


def seen_of(page: Page) -> float:
    """Where the hole's centre is shown, in millimetres: the plate is 120 mm wide."""
    left, right = page.at("Origin")[0], page.at("PlateBottom.end")[0]
    return (page.at("Hole.centre")[0] - left) / (right - left) * 120


def number_of(page: Page) -> float:
    """The hole's x in the text."""
    (line,) = [it for it in page.text().splitlines() if it.startswith("x Hole")]
    return float(line.split()[-1])


@pytest.fixture
def slider(page: Page) -> WebElement:
    """The slider of the hole's x."""
    page.begin(HOLE, "well")
    page.click("#tab-asked")
    page.click("[data-selects='8']")
    wait_for("the lower end", lambda: page.told("range-low").startswith("5.999 mm: "))
    assert page.told("range-high").startswith("114.001 mm: ")
    assert "PlateLeft" in page.told("range-low") and "PlateRight" in page.told("range-high")
    return page.driver.find_element(By.ID, "slider")


def mouse(page: Page, kind: str, share: float, buttons: int) -> None:
    """An event of the mouse at a share of the slider's length."""
    x, y, width, height = page.driver.execute_script(
        "const { x, y, width, height } = document.getElementById('slider').getBoundingClientRect();"
        "return [x, y, width, height];")
    page.driver.execute_cdp_cmd("Input.dispatchMouseEvent", {
        "type": kind, "x": x + share * width, "y": y + height / 2, "button": "left",
        "buttons": buttons, "clickCount": 1})


def test_the_part_follows_the_slider_under_the_mouse(page: Page, slider: WebElement) -> None:
    """Its middle is 60, half of 5.999 + 114.001; what is shown there isn't in the text yet."""
    before = page.text()
    mouse(page, "mousePressed", 0.5, 1)
    wait_for("it follows", lambda: seen_of(page) == pytest.approx(60, abs=0.6))
    mouse(page, "mouseMoved", 0.75, 1)
    wait_for("it follows on", lambda: seen_of(page) > 80)
    assert page.text() == before
    mouse(page, "mouseReleased", 0.75, 0)
    wait_for("the number counts", lambda: page.text() != before)
    page.verdict("well")
    assert 80 < number_of(page) < 100
    wait_for("shown so", lambda: seen_of(page) == pytest.approx(number_of(page), abs=0.3))
    assert page.told("range-of").startswith("x Hole.centre: ")
    page.keep_picture("range")
    page.keys(Keys.CONTROL + "z")
    wait_for("one undo", lambda: page.text() == before)
    wait_for("its number again", lambda: "45 mm" in page.told("range-of"))


def test_escape_gives_the_slider_up(page: Page, slider: WebElement) -> None:
    """The mouse is still down then, and moves before it lets go."""
    before = page.text()
    mouse(page, "mousePressed", 0.5, 1)
    wait_for("it follows", lambda: seen_of(page) == pytest.approx(60, abs=0.6))
    page.driver.switch_to.active_element.send_keys(Keys.ESCAPE)
    wait_for("as it was", lambda: seen_of(page) == pytest.approx(45, abs=0.3))
    mouse(page, "mouseMoved", 0.75, 1)
    mouse(page, "mouseReleased", 0.75, 0)
    page.settled()
    assert seen_of(page) == pytest.approx(45, abs=0.3)
    assert page.text() == before and "45 mm" in page.told("range-of")
    mouse(page, "mousePressed", 0.5, 1)
    mouse(page, "mouseReleased", 0.5, 0)
    wait_for("it goes again", lambda: number_of(page) == pytest.approx(60, abs=0.6))


def test_the_slider_goes_to_its_ends_by_keys(page: Page, slider: WebElement) -> None:
    """At an end nothing crosses yet, and the part is well."""
    for key, end in ((Keys.END, 114.001), (Keys.HOME, 5.999)):
        page.driver.execute_script("arguments[0].focus()", slider)
        slider.send_keys(key)
        wait_for("the end", lambda: number_of(page) == end)
        page.verdict("well")
        assert "cross" not in page.told("verdict")


def select(page: Page, number: int) -> None:
    """Selects a constraint in the list of them. The tab is clicked again where it has moved from
    under the first click, as when proposals come in above it."""
    def is_listed() -> bool:
        page.click("#tab-asked")
        return page.count("#tab-asked[aria-selected='true']") == 1

    wait_for("the list", is_listed)
    page.click(f"[data-selects='{number}']")


def test_a_slider_ends_before_a_far_end_and_goes_on_from_there(page: Page) -> None:
    """Four times 80 beyond 80, and then four times 400 beyond 400."""
    page.begin(HOLE, "well")
    select(page, 7)
    wait_for("its end", lambda: "1000000 mm: " in page.told("range-high"))
    assert "(the slider ends at 400 mm)" in page.told("range-high")
    page.driver.find_element(By.ID, "slider").send_keys(Keys.END)
    wait_for("the end in the text", lambda: "length PlateRight 400" in page.text())
    wait_for("further", lambda: "(the slider ends at 2000 mm)" in page.told("range-high"))


def test_a_dimension_that_follows_leads_to_the_slider_of_its_value(page: Page) -> None:
    page.begin(PLATE, "well")
    select(page, 7)
    page.wait("its value", "return document.querySelector('#range-line [data-range=Width]')")
    page.click("#range-line [data-range=Width]")
    wait_for("its slider", lambda: "Width: 120" in page.told("range-of"))
    page.driver.find_element(By.ID, "slider").send_keys(Keys.HOME)
    wait_for("its end in the text", lambda: "value Width 35.999" in page.text())
    page.verdict("well")


def test_what_is_open_has_no_slider(page: Page) -> None:
    """Nothing is asked, and nothing shown, while a drawing isn't good."""
    page.begin(HOLE.replace("y Hole 30\n", ""), "open")
    page.driver.execute_script(
        "const { fetch } = window; window.asked = [];"
        "window.fetch = (...given) => { window.asked.push(given[0]); return fetch(...given); };")
    select(page, 8)
    page.wait("more than its pause", "window.began ??= Date.now(); return Date.now() > began + 600")
    assert "call/range" not in page.driver.execute_script("return window.asked")
    assert page.told("range") == ""


def test_all_ranges_are_listed_on_wish(page: Page) -> None:
    """Pressed twice, they are listed once."""
    page.begin(PLATE, "well")
    page.click("#tab-values")
    page.click("#all-ranges")
    page.click("#all-ranges")
    wait_for("the range of Width", lambda: "Width: 35.999 to 1000000" in page.told("ranges"))
    wait_for("the end", lambda: "Finding" not in page.told("ranges"))
    assert page.count("#ranges li") == 1
    assert "West" in page.told("ranges").partition("below:")[2].partition(";")[0]
    page.click("#ranges [data-range=Width]")
    wait_for("its slider", lambda: "Width: 120" in page.told("range-of"))
    page.click("#tab-text")
    page.type(PLATE.replace("Width 120", "Width 90"))
    wait_for("of what is typed", lambda: "Width: 90" in page.told("range-of"))
    page.click("#tab-values")
    assert page.count("#ranges li") == 0


BOTH = """value Width 30
segment S 0 0 40 0
coincident S.start Origin
horizontal S
length S 40
"""


def test_a_range_that_takes_too_long_is_told_by_its_name(page: Page) -> None:
    """And the one behind it is listed."""
    page.begin(BOTH, "well")
    page.driver.execute_script(
        "const { fetch } = window;"
        "window.fetch = async (path, options) => {"
        "  const isIt = path === 'call/range' && JSON.parse(options.body).name === 'Width';"
        "  return isIt ? new Response(JSON.stringify({ why: 'it took too long' }))"
        "    : fetch(path, options); };")
    page.click("#tab-values")
    page.click("#all-ranges")
    wait_for("the other", lambda: page.count("#ranges li [data-selects='3']") == 1)
    assert page.told("ranges").splitlines()[0] == "Width: it took too long"


def test_a_dimension_is_listed_beside_a_value_of_its_name(page: Page) -> None:
    page.begin(BOTH.replace("length", "Width: length"), "well")
    page.click("#tab-values")
    page.click("#all-ranges")
    wait_for("both", lambda: page.count("#ranges li [data-selects='3']") == 1)
    assert page.count("#ranges li [data-range=Width]") == 1


def test_a_value_that_is_removed_has_no_slider(page: Page) -> None:
    page.begin(BOTH, "well")
    page.click("#tab-values")
    page.click("#values [data-range=Width]")
    wait_for("its slider", lambda: "Width: 30" in page.told("range-of"))
    page.click("[data-drops='Width']")
    wait_for("no slider", lambda: page.told("range") == "")
