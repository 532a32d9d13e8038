"""The board in a real browser: what the bar makes of a corner; trim, extend and the slot."""
from __future__ import annotations

from boards import wait_for
from browsing import Page
from selenium.webdriver.common.by import By
from selenium.webdriver.common.keys import Keys

PLATE = """rectangle R 0 0 100 60
coincident RBottom.start Origin
length RBottom 100
length RRight 60
"""


def make(page: Page, word: str, size: str) -> None:
    """Presses a button of the bar, and types a size."""
    page.wait(word, f"return document.querySelector('#offers [data-word={word}]')")
    page.click(f"#offers [data-word={word}]")
    field = page.driver.find_element(By.CSS_SELECTOR, "#value input")
    field.send_keys(Keys.CONTROL, "a")
    field.send_keys(size, Keys.ENTER)


def test_a_plate_with_a_fillet_and_a_chamfer_stays_well(page: Page) -> None:
    page.begin(PLATE, "well")
    page.select("RBottom.end")
    make(page, "fillet", "12")
    wait_for("an arc", lambda: "arc A1" in page.text())
    page.verdict("well")
    assert "radius A1 12\n" in page.text() and page.count("[data-name=A1]") == 1
    page.select("RTop", "RRight")
    make(page, "chamfer", "8 mm")
    wait_for("an edge", lambda: "segment S1" in page.text())
    page.verdict("well")
    assert page.text().splitlines()[-2:] == [
        "distance P2 RTop.start 8", "distance P2 RRight.end 8"]
    page.keep_picture("fillet")
    page.click("#undo")
    wait_for("one step", lambda: "segment S1" not in page.text())
    assert "arc A1" in page.text()
    page.click("#undo")
    wait_for("the plate", lambda: "arc" not in page.text())
    assert page.text().splitlines()[-3:] == PLATE.splitlines()[-3:]


def test_a_size_that_isnt_taken_is_told(page: Page) -> None:
    page.begin(PLATE, "well")
    page.select("RBottom.end")
    before = page.text()
    make(page, "fillet", "round")
    wait_for("why not", lambda: "'round'" in page.told("hint"))
    assert page.text() == before


def test_a_fillet_that_is_larger_than_its_edges_is_told(page: Page) -> None:
    """A fillet of 70 mm begins 70 mm back on an edge of 60: it is drawn there as far as it goes,
    and where the program places it the edge runs the other way."""
    page.begin(PLATE, "well")
    page.select("RBottom.end")
    make(page, "fillet", "70")
    wait_for("an arc", lambda: "arc A1" in page.text())
    page.tells("RRight runs the other way than it is drawn")


CROSS = """segment A 0 0 80 0
segment L 20 -10 20 30
segment R 60 -10 60 30
segment N 30 20 40 20
"""


def between(one: tuple[float, float], other: tuple[float, float],
            share: float) -> tuple[float, float]:
    """The place at a share of the way between two."""
    return tuple(a + (b - a) * share for a, b in zip(one, other))  # type: ignore[return-value]


def test_an_edge_is_trimmed_and_another_goes_on(page: Page) -> None:
    page.begin(CROSS, "open")
    page.keys("t")
    start, end = page.at("A.start"), page.at("A.end")
    page.hover(*between(start, end, 0.5))
    page.wait("it stands out", "return document.querySelector('[data-touched=A]')")
    page.press(*between(start, end, 0.5))
    wait_for("two pieces", lambda: "collinear A S1" in page.text())
    assert "segment A 0 0 20 0\nsegment S1 60 0 80 0\n" in page.text()
    page.press(*between(start, end, 0.9))
    wait_for("one is gone", lambda: "S1" not in page.text())
    page.keys("e")
    page.press(*between(page.at("N.start"), page.at("N.end"), 0.8))
    wait_for("it goes on", lambda: "on N.end R" in page.text())
    assert "segment N 30 20 60 20\n" in page.text()
    page.press(*between(page.at("A.start"), page.at("A.end"), 0.1))
    wait_for("it meets nothing there", lambda: "meets nothing" in page.told("hint"))
    page.press(*between(start, end, 0.6))
    page.settled()
    assert page.count("[data-touched]") == 0
    page.keys(Keys.ESCAPE)
    page.click("#undo")
    wait_for("one step", lambda: "on N.end R" not in page.text())


def test_a_slot_is_drawn_and_dimensioned_until_it_is_well(page: Page) -> None:
    """Its five freedoms: two of its place, its turn, its length, its width."""
    page.keys("l")
    page.press(300, 300)
    page.hover(500, 302)
    page.wait("level", "return document.querySelector("
                       "'[data-guess=\"horizontal *Start.centre *End.centre\"]')")
    page.press(500, 302)
    page.press(400, 340)
    wait_for("a slot", lambda: "arc L1Start" in page.text())
    page.keys(Keys.ESCAPE, Keys.ESCAPE)
    drawn = page.text()
    page.click("#undo")
    wait_for("one step", lambda: "L1" not in page.text())
    page.click("#redo")
    wait_for("drawn again", lambda: page.text() == drawn)
    page.select("L1Start.centre", "L1End.centre")
    page.ask("distance", "30")
    page.select("L1End")
    page.ask("radius", "8")
    page.select("L1Start.centre", "Origin")
    page.ask("coincident")
    page.verdict("well")
    assert page.text().splitlines()[5:] == [
        "tangent L1Right L1End", "tangent L1End L1Left", "tangent L1Left L1Start",
        "tangent L1Start L1Right", "equal L1End L1Start",
        "horizontal L1Start.centre L1End.centre", "distance L1Start.centre L1End.centre 30",
        "radius L1End 8", "coincident L1Start.centre Origin"]
