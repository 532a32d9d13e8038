"""The board in a real browser: what is well and not good is shown so, whatever the reason."""
from __future__ import annotations

from boards import FILES, wait_for
from browsing import Page
from selenium.webdriver.common.by import By
from selenium.webdriver.common.keys import Keys
from test_board_good import PLATE, TURNED, WIDE


def test_a_constraint_that_isnt_met_is_named_and_marked(page: Page) -> None:
    page.begin(WIDE, "unmet")
    assert "well, but not good" in page.told()
    assert "constraint 3 (angle A B 120deg) is off by 180 degrees" in page.told()
    assert page.count(".marks .blamed") == page.count(".marks [data-constraint='3']") == 1
    page.click("#export summary")
    page.click("[data-export='dxf']")
    page.wait("told", "return document.querySelector('#hint.trouble')")
    assert "no DXF is written of what isn't good" in page.told("hint")
    page.begin(PLATE, "well")
    assert page.count(".marks .blamed") == 0


def test_what_is_left_out_of_a_file_is_told_until_it_is_done(page: Page) -> None:
    page.driver.find_element(By.ID, "file").send_keys(str(FILES / "ellipse.FCStd"))
    page.wait("the file's news", "return document.querySelector('#dialog[open]')")
    page.driver.switch_to.active_element.send_keys(Keys.ESCAPE)
    left = "return document.querySelectorAll('#verdict [aria-label^=\"done: \"]').length"
    page.wait("what is left out", left)
    count = page.driver.execute_script(left)
    page.driver.refresh()
    wait_for("the same", lambda: page.driver.execute_script(left) == count)
    page.keys("p")
    page.press(200, 200)
    wait_for("a point", lambda: "point" in page.text())
    assert page.driver.execute_script(left) == count
    for number in reversed(range(count)):
        page.click("#verdict [aria-label^='done: ']")
        wait_for("one less", lambda: page.driver.execute_script(left) == number)  # noqa: B023
    page.driver.refresh()
    page.wait("judged", "return document.getElementById('verdict').dataset.verdict !== 'empty'")
    assert page.driver.execute_script(left) == 0


def test_that_an_open_drawing_has_no_shape_is_told_a_moment_later(page: Page) -> None:
    """A chain of 40, 30 and 40 doesn't reach over 200."""
    page.begin("segment S 0 0 40 1\nsegment T S.end 40 30\nsegment U T.end 2 31\n"
               "segment V U.end S.start\nA: length S 40\nB: length T 30\nC: length U 40\n"
               "D: length V 200\nangle S U 10deg\n", "open")
    wait_for("that it has none", lambda: "No shape with these values was found" in page.told())


def test_which_choice_has_places_is_told_a_moment_later(page: Page) -> None:
    page.begin(TURNED, "fault")
    page.wait("what to draw",
              "return document.querySelector('[aria-label=\"what to draw otherwise\"]')")
    assert "on the other side of" in page.told()
