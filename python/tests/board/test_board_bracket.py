"""The board in a real browser: a bracket with two fillets and four holes, as a new user draws it who
hasn't read a page. It keeps the pictures of docs/BOARD.md."""
from __future__ import annotations

import pytest

from boards import wait_for
from browsing import Page
from keystrokes import count_keystrokes, seconds_of
from selenium.webdriver.common.by import By
from selenium.webdriver.common.keys import Keys

from pertxogai.board.calls import Desk
from pertxogai.program import Program

pytest.importorskip("numpy", reason="copies are held by rank, by Debian's python3-numpy")

SECONDS = 120
"""A bracket is to be drawn within two minutes."""


def typed(page: Page, word: str, size: str) -> None:
    """Presses a button of the bar, and types a size."""
    page.wait(word, f"return document.querySelector('#offers [data-word={word}]')")
    page.click(f"#offers [data-word={word}]")
    field = page.driver.find_element(By.CSS_SELECTOR, "#value input")
    field.send_keys(Keys.CONTROL, "a")
    field.send_keys(size, Keys.ENTER)


def row(page: Page, count: str, x: float, y: float) -> None:
    """Draws what is selected in a row, so many in all, the next at a place in millimetres."""
    page.keys("w")
    field = page.driver.find_element(By.ID, "count")
    field.send_keys(Keys.CONTROL, "a")
    field.send_keys(count, Keys.ENTER)
    place = on_board(page, x, y)
    page.hover(*place)
    page.wait("a preview", "return document.querySelector('path.preview')")
    page.press(*place)


def on_board(page: Page, x: float, y: float) -> tuple[float, float]:
    """Where a place in millimetres lies on the board: the lower edge is 100 mm long."""
    (a, b), (c, _) = page.at("Origin"), page.at("R1Bottom.end")
    scale = (c - a) / 100
    return a + x * scale, b - y * scale


def test_a_bracket_with_two_fillets_and_four_holes(page: Page, program: Program) -> None:
    """Its holes are told by the first one's place and by two pitches: 15, 15, 70 and 25."""
    count_keystrokes(page)
    x, y = page.at("Origin")
    page.keys("r")
    page.press(x, y)
    page.press(x + 420, y - 260)
    page.wait("a plate", "return document.querySelector('[data-name=R1Bottom] .hit')")
    page.keys("v")
    page.select("R1Bottom")
    page.ask("length", "100")
    page.select("R1Right")
    page.ask("length", "60")
    page.verdict("well")
    page.keys("0")
    for corner, arc in (("R1Right.end", "A1"), ("R1Top.end", "A2")):
        page.settled()
        page.select(corner)
        typed(page, "fillet", "10")
        wait_for(arc, lambda: f"radius {arc} 10\n" in page.text())
        page.verdict("well")
    page.keys(Keys.ESCAPE, "0")
    page.settled()
    page.keys("c")
    page.press(*on_board(page, 15, 15), held=Keys.CONTROL)
    page.press(*on_board(page, 20, 15), held=Keys.CONTROL)
    wait_for("a hole", lambda: "circle C1" in page.text())
    page.select("C1")
    page.ask("diameter", "8")
    page.select("C1.centre")
    page.ask("x", "15")
    page.ask("y", "15")
    page.verdict("well")
    page.select("C1")
    row(page, "2", 85, 15)
    wait_for("two holes", lambda: "equal C1 C2" in page.text())
    page.verdict("well")
    page.select("C1", "C2")
    row(page, "2", 15, 40)
    wait_for("four holes", lambda: "circle C4" in page.text())
    page.verdict("well")
    assert seconds_of(page) < SECONDS
    page.keys(Keys.ESCAPE, "0")
    page.settled()
    page.keep_picture("bracket")
    found = Desk(program).answer("judge", {"text": page.text()})["judgement"]
    centres = {tuple(round(each, 3) for each in at) for name, at in found["placed"]["points"].items()
               if name.startswith("C")}
    assert found["good"] and (15, 15) in centres and len(centres) == 4
    assert page.faults() == []


def test_the_bracket_has_room_for_its_dimensions(page: Page) -> None:
    """Its reference dimension and an angle, for a picture."""
    page.begin("""segment Base 0 0 80 0
segment Rib Base.start 50 45
segment Top Rib.end 80 45
segment Side Top.end Base.end
circle Hole 55 22 8
coincident Base.start Origin
horizontal Base Top
vertical Side
length Base 80 # label 0 -14
angle Base Rib 42deg
distance Base Top 45
diameter Hole 16
x Hole 56
y Hole 22
# reference length Rib; label -8 9
""", "well")
    beside = page.driver.execute_script(
        "const b = document.getElementById('board').getBoundingClientRect();"
        "return [...document.querySelectorAll('.marks .markgroup')].filter((each) => {"
        "  const r = each.getBoundingClientRect(); return r.left < b.left || r.right > b.right"
        "    || r.top < b.top || r.bottom > b.bottom; }).map((each) => each.textContent)")
    assert beside == []
    page.keep_picture("dimensions")
    shown = page.driver.execute_script(
        "return [...document.querySelectorAll('.marks text')].map((each) => each.textContent)")
    assert "(67.25)" in shown and "42°" in shown and "Ø16" in shown
