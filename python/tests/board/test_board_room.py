"""The board in a real browser: how much room it has, how it is reached by fingers and keys, what is
said of it, its contrasts, and the sheet that is printed."""
from __future__ import annotations

import base64
import re
import shutil
import subprocess
from itertools import groupby
from pathlib import Path

import pytest

from boards import wait_for
from browsing import Page
from conftest import TOP
from selenium.webdriver.common.by import By
from selenium.webdriver.common.keys import Keys

PLATE = """rectangle R 0 0 100 60
coincident RBottom.start Origin
length RBottom 100
length RRight 60
"""
STYLE = TOP / "python/pertxogai/board/static/style.css"


@pytest.fixture
def resized(page: Page):
    """Gives the window another size; it is as it was behind the test."""
    def size(width: int, height: int) -> None:
        page.driver.execute_cdp_cmd("Emulation.setDeviceMetricsOverride", {
            "width": width, "height": height, "deviceScaleFactor": 1, "mobile": False})
        page.settled()
    yield size
    page.driver.execute_cdp_cmd("Emulation.clearDeviceMetricsOverride", {})
    page.settled()


def board_box(page: Page) -> list[float]:
    found = page.driver.execute_script(
        "const r = document.getElementById('board').getBoundingClientRect();"
        "return [r.x, r.y, r.width, r.height, innerWidth, innerHeight];")
    assert isinstance(found, list)
    return found


@pytest.mark.parametrize("width, height, share", [
    (1280, 720, 2 / 3), (640, 360, 2 / 3), (390, 844, 1 / 2), (1920, 1080, 2 / 3)])
def test_the_board_has_its_share_of_the_window(page: Page, resized, width: int, height: int,
                                               share: float) -> None:
    """640 by 360 is what 1280 by 720 has at 200 %."""
    page.begin(PLATE, "well")
    resized(width, height)
    *_, wide, high, inner_width, inner_height = board_box(page)
    assert (inner_width, inner_height) == (width, height)
    assert wide * high >= share * width * height
    folded = page.driver.execute_script("return document.body.classList.contains('folded')")
    assert folded is (width < 900 or height < 480)
    assert page.driver.find_element(By.CSS_SELECTOR, "#verdict h2").is_displayed()


def test_bars_dont_move_the_board(page: Page) -> None:
    page.begin(PLATE, "well")
    before = board_box(page)
    page.select("RBottom", "RRight")
    page.wait("offers", "return document.querySelectorAll('#fitting button').length > 2")
    assert board_box(page) == before
    page.keys("n")
    page.settled()
    assert board_box(page) == before


def test_the_panel_folds(page: Page) -> None:
    page.begin(PLATE, "well")
    before = board_box(page)[2]
    page.click("#fold")
    page.settled()
    assert board_box(page)[2] > before + 200
    assert page.count("#fold[aria-expanded=false]") == 1
    page.click("#fold")
    page.settled()
    assert board_box(page)[2] == before


def test_two_fingers_pan_and_zoom(page: Page) -> None:
    page.begin(PLATE, "well")
    x, u = page.at("RBottom.start")[0], page.at("RRight.end")[0]
    left, top = board_box(page)[:2]

    def touch(kind: str, *places: tuple[float, float]) -> None:
        page.driver.execute_cdp_cmd("Input.dispatchTouchEvent", {"type": kind, "touchPoints": [
            {"x": left + a, "y": top + b, "id": number}
            for number, (a, b) in enumerate(places)]})
    touch("touchStart", (300, 300))
    touch("touchStart", (300, 300), (400, 300))
    touch("touchMove", (300, 300), (450, 300))
    touch("touchMove", (300, 300), (500, 300))
    touch("touchEnd")
    page.settled()
    a, c = page.at("RBottom.start")[0], page.at("RRight.end")[0]
    assert (c - a) / (u - x) == pytest.approx(2, rel=0.02)
    assert a == pytest.approx(300 + (x - 300) * 2, abs=3) and page.faults() == []
    assert page.text().splitlines()[-2:] == PLATE.splitlines()[-2:]


def test_zoom_buttons(page: Page) -> None:
    page.begin(PLATE, "well")
    before = page.at("RRight.end")[0] - page.at("RBottom.start")[0]
    page.click("#zoom-in")
    page.settled()
    assert page.at("RRight.end")[0] - page.at("RBottom.start")[0] == pytest.approx(
        before * 1.25, rel=0.01)
    page.click("#zoom-out")
    page.settled()
    assert page.at("RRight.end")[0] - page.at("RBottom.start")[0] == pytest.approx(
        before, rel=0.01)


HALVES = """arc A 62 40 52.096 36.699 71.904 43.301
arc B 61 43 70.904 46.301 51.096 39.699
arc C 0 46 -4.868 63.038 4.868 28.962
arc D 84 70 88.868 52.962 79.132 87.038
"""
"""Arcs of just half a circle, whose ends lie opposite each other."""


def test_half_a_circle_is_no_more_than_half_at_every_zoom(page: Page) -> None:
    """SVG calls an arc large that is more than half a circle."""
    page.begin(HALVES, "open")
    large = []
    for key in "+++++-------":
        page.keys(key)
        page.settled()
        paths = page.driver.execute_script(
            "return [...document.querySelectorAll('#board .edges .shape')].map("
            "  (each) => each.getAttribute('d'));")
        large += [re.findall(r"A\S+ \S+ 0 ([01]) 0 ", path) for path in paths]
    assert large == [["0"]] * 48


def test_fit_shows_a_drawing_of_a_kilometre(page: Page) -> None:
    page.begin("segment A 0 0 1000000 0\n", "open")
    page.keys("0")
    page.settled()
    (x, _), (u, _) = page.at("A.start"), page.at("A.end")
    width = board_box(page)[2]
    assert 0 < x < u < width and u - x > width / 2


POINTS = "point P 10 10\npoint Q 50 40\n"


def test_fit_shows_points_alone_wherever_the_board_was(page: Page) -> None:
    """The box of the origin and both points goes from 0 0 to 50 40."""
    page.begin(POINTS, "open")
    width, height = board_box(page)[2:4]
    for key in "+-":
        page.keys(key, key, key, "0")
        page.settled()
        (x, y), (u, v) = page.at("Origin"), page.at("Q")
        assert ((x + u) / 2, (y + v) / 2) == pytest.approx((width / 2, height / 2), abs=1)
        assert u - x > width / 2 or y - v > height / 2


def test_the_hint_is_read_whole_in_a_narrow_window(page: Page, resized) -> None:
    """The longest takes three lines; the zoom buttons lie above it."""
    resized(390, 844)
    page.keys("v")
    page.settled()
    told, cut, below = page.driver.execute_script(
        "const hint = document.getElementById('hint'), zoom = document.getElementById('zoom');"
        "return [hint.textContent, hint.scrollHeight - hint.clientHeight,"
        "  zoom.getBoundingClientRect().bottom - hint.getBoundingClientRect().top];")
    assert told.startswith("Click selects") and told.endswith("the wheel zooms.")
    assert cut <= 1 and below <= 0


def lies_within(page: Page, *selectors: str) -> bool:
    """Whether nodes lie in the window as a whole."""
    return bool(page.driver.execute_script(
        "return arguments[0].every((each) => {"
        "  const r = document.querySelector(each).getBoundingClientRect();"
        "  return r.width && r.left >= 0 && r.top >= 0 && r.right <= innerWidth"
        "    && r.bottom <= innerHeight; });", selectors))


@pytest.mark.parametrize("width, height", [(320, 640), (400, 700), (700, 600), (640, 300)])
def test_the_menu_and_the_field_of_a_value_lie_in_a_small_window(
        page: Page, resized, width: int, height: int) -> None:
    page.begin(PLATE, "well")
    resized(width, height)
    page.click("#export summary")
    assert lies_within(page, "[data-export=dxf]", "#print")
    page.keys("0", Keys.ESCAPE)
    page.select("RBottom.start", "RRight.end")
    page.wait("distance", "return document.querySelector('#offers [data-word=distance]')")
    page.click("#offers [data-word=distance]")
    page.wait("a field", "return document.querySelector('#value[open]')")
    assert lies_within(page, "#value", "#value-field", "#value [value=taken]", "#measure")
    page.driver.switch_to.active_element.send_keys(Keys.ESCAPE)


def test_all_of_the_panel_can_be_scrolled_to_in_a_low_window(page: Page, resized) -> None:
    """640 by 300 is what 1280 by 600 has at 200 %."""
    page.begin(PLATE, "well")
    resized(640, 300)
    page.click("#fold")
    page.settled()
    page.driver.execute_script("document.getElementById('text').scrollIntoView()")
    assert lies_within(page, "#text")


def test_arrows_go_through_a_toolbar(page: Page) -> None:
    def focused() -> str:
        return str(page.driver.execute_script("return document.activeElement.dataset.tool"))
    page.driver.execute_script("document.querySelector('[data-tool=point]').focus()")
    for key, tool in ((Keys.ARROW_RIGHT, "segment"), (Keys.ARROW_LEFT, "point"),
                      (Keys.HOME, "select"), (Keys.ARROW_RIGHT, "point")):
        page.driver.switch_to.active_element.send_keys(key)
        assert focused() == tool


def test_tab_leaves_a_toolbar(page: Page) -> None:
    """Behind the tools comes the board; before them the toolbar above, at its last button."""
    focused = "return document.activeElement.id"
    page.driver.execute_script("document.querySelector('[data-tool=segment]').focus()")
    page.driver.switch_to.active_element.send_keys(Keys.TAB)
    assert page.driver.execute_script(focused) == "board"
    page.driver.switch_to.active_element.send_keys(Keys.SHIFT, Keys.TAB)
    page.driver.switch_to.active_element.send_keys(Keys.SHIFT, Keys.TAB)
    assert page.driver.execute_script(focused) == "help"


LISTENS = """
const node = document.getElementById('said');
window.said_ = [];
new MutationObserver(() => window.said_.push(node.textContent)).observe(node, { childList: true });
"""
"""Keeps all that is said: what is too many is weighed a moment after the verdict, and said too."""


def test_what_has_changed_is_said_and_no_time(page: Page) -> None:
    def said() -> list[str]:
        return list(page.driver.execute_script("return window.said_"))

    page.driver.execute_script(LISTENS)
    page.begin(PLATE, "well")
    wait_for("it is said", lambda: said() and said()[-1].startswith("well"))
    page.type(PLATE + "length RTop 100\n")
    wait_for("the next is said", lambda: any(each.startswith("over") for each in said()))
    assert not any(" ms" in each or ".." in each for each in said())
    assert page.count("#verdict[aria-live]") == 0


def test_a_point_that_is_selected_is_read_out_with_its_place(page: Page) -> None:
    """And again once it lies elsewhere, until something else is selected with it."""
    page.begin(PLATE, "well")
    page.select("RRight.end")
    wait_for("its place", lambda: page.told("hint") == "RRight.end at 100 60 mm selected")
    page.type(PLATE.replace("length RRight 60", "length RRight 50"))
    wait_for("its new place", lambda: page.told("hint") == "RRight.end at 100 50 mm selected")
    page.press(*page.at("RBottom"), shift=True)
    wait_for("no place", lambda: page.told("hint").startswith("Click selects, Shift adds"))


def luminance(colour: str) -> float:
    """The relative luminance of a colour, as WCAG 2.2 reckons it."""
    parts = [int(colour[place:place + 2], 16) / 255 for place in (1, 3, 5)]
    red, green, blue = (each / 12.92 if each <= 0.04045 else ((each + 0.055) / 1.055) ** 2.4
                        for each in parts)
    return 0.2126 * red + 0.7152 * green + 0.0722 * blue


@pytest.mark.parametrize("scheme", [0, 1], ids=["light", "dark"])
def test_borders_of_controls_have_a_contrast_of_three_to_one(scheme: int) -> None:
    style = STYLE.read_text()
    colours = {name: re.findall(rf"--{name}: (#[0-9a-f]{{6}})", style)[scheme]
               for name in ("border", "paper", "panel")}
    for ground in ("paper", "panel"):
        lights = sorted((luminance(colours["border"]), luminance(colours[ground])), reverse=True)
        assert (lights[0] + 0.05) / (lights[1] + 0.05) >= 3, ground


def test_the_pressed_tool_shows_in_forced_colours(page: Page) -> None:
    page.driver.execute_cdp_cmd("Emulation.setEmulatedMedia", {
        "features": [{"name": "forced-colors", "value": "active"}]})
    pressed, other = (page.driver.execute_script(
        "return getComputedStyle(document.querySelector(arguments[0])).backgroundColor",
        f"[data-tool={tool}]") for tool in ("select", "point"))
    page.driver.execute_cdp_cmd("Emulation.setEmulatedMedia", {"features": []})
    assert pressed != other


def test_the_grid_is_no_edge_in_forced_colours(page: Page) -> None:
    """It keeps colours of its own, beside the one that is forced on the edges."""
    page.begin(PLATE, "well")
    page.driver.execute_cdp_cmd("Emulation.setEmulatedMedia", {
        "features": [{"name": "forced-colors", "value": "active"}]})
    edge, axis, grid = (page.driver.execute_script(
        "const { forcedColorAdjust, stroke } = getComputedStyle("
        "  document.querySelector(arguments[0])); return [forcedColorAdjust, stroke];",
        f"#board {each}") for each in (".shape", ".axis", ".gridlines"))
    page.driver.execute_cdp_cmd("Emulation.setEmulatedMedia", {"features": []})
    assert (edge[0], axis[0], grid[0]) == ("auto", "none", "none") and axis[1] != grid[1]


# The sheet.

def printed(page: Page, folder: Path, scale: str | None) -> Path:
    """The PDF of a drawing at a scale, as the browser prints it."""
    page.driver.execute_script("window.print = () => { window.isPrinted = true; };")
    page.click("#export summary")
    page.click("#print")
    field = page.wait("a scale", "return document.querySelector('#value[open] input')")
    if scale is not None:
        field.send_keys(Keys.CONTROL, "a")
        field.send_keys(scale)
    field.send_keys(Keys.ENTER)
    page.wait("it is printed", "return window.isPrinted")
    told = page.driver.execute_cdp_cmd("Page.printToPDF", {"preferCSSPageSize": True})
    path = folder / "sheet.pdf"
    path.write_bytes(base64.b64decode(told["data"]))
    return path


def dark_runs(path: Path, dots: int) -> set[int]:
    """How long the dark ways across the only page of a PDF are, in dots of so many to an inch."""
    stem = path.with_suffix("")
    subprocess.run(["pdftoppm", "-gray", "-r", str(dots), path, stem], check=True)
    (image,) = path.parent.glob("sheet-*.pgm")
    _, size, _, pixels = image.read_bytes().split(b"\n", 3)
    width, height = map(int, size.split())
    return {len(list(run)) for row in range(height) for dark, run in groupby(
        pixels[row * width:(row + 1) * width], lambda each: each < 128) if dark}


@pytest.mark.skipif(not shutil.which("pdftoppm"), reason="without Debian's poppler-utils")
@pytest.mark.parametrize("scale, millimetres", [("1:1", 100), ("1:2", 50), ("2:1", 200)])
def test_the_sheet_is_printed_at_its_scale(page: Page, tmp_path: Path, scale: str,
                                           millimetres: int) -> None:
    """At 254 dots an inch a millimetre is ten dots; an edge is 0.5 mm wide and has round ends."""
    page.begin(PLATE, "well")
    path = printed(page, tmp_path, scale)
    runs = dark_runs(path, 254)
    assert any(abs(each - 10 * millimetres) <= 8 for each in runs), sorted(runs)[-12:]
    told = subprocess.run(["pdftotext", path, "-"], capture_output=True, text=True, check=True)
    words = told.stdout.split()
    assert scale in words and "100" in words and "60" in words


@pytest.mark.skipif(not shutil.which("pdftoppm"), reason="without Debian's poppler-utils")
def test_the_scale_that_is_offered_fits(page: Page, tmp_path: Path) -> None:
    """Of 225 mm by 116 for the drawing 100 by 60 takes 1:1, and not 2:1."""
    page.begin(PLATE, "well")
    told = subprocess.run(["pdftotext", printed(page, tmp_path, None), "-"],
                          capture_output=True, text=True, check=True)
    assert "1:1" in told.stdout.split()


@pytest.mark.skipif(not shutil.which("pdftoppm"), reason="without Debian's poppler-utils")
def test_the_scale_that_is_offered_fits_a_kilometre(page: Page, tmp_path: Path) -> None:
    """On 225 mm by 116 for the drawing: 1:5000 makes 200 mm of it, and 1:2000 500 mm."""
    page.begin("segment A 0 0 1000000 0\nlength A 1000000\n", "well")
    told = subprocess.run(["pdftotext", printed(page, tmp_path, None), "-"],
                          capture_output=True, text=True, check=True)
    assert "1:5000" in told.stdout.split()


@pytest.mark.skipif(not shutil.which("pdftoppm"), reason="without Debian's poppler-utils")
def test_the_scale_that_is_offered_fits_what_is_dragged_away_too(page: Page,
                                                                 tmp_path: Path) -> None:
    """With a dimension 90 mm below it takes 150 mm of height, of which half has room in 116."""
    page.begin(PLATE.replace("RBottom 100", "RBottom 100  # label 0 -90"), "well")
    told = subprocess.run(["pdftotext", printed(page, tmp_path, None), "-"],
                          capture_output=True, text=True, check=True)
    assert {"1:2", "100"} <= set(told.stdout.split())


@pytest.mark.skipif(not shutil.which("pdftoppm"), reason="without Debian's poppler-utils")
def test_the_sheet_is_of_the_drawing_that_stands(page: Page, tmp_path: Path) -> None:
    """Also where the browser's own menu prints it, and while a step of the construction is shown;
    an open drawing's says who has placed it, and one that isn't placed is as drawn."""
    page.begin(PLATE, "well")
    printed(page, tmp_path, "1:2")
    page.begin(PLATE.replace("100", "80"), "well")
    page.click("#tab-steps")
    page.wait("its steps", "return document.querySelector('#back')")
    page.click("#back")
    page.wait("a step", "return document.querySelector('#board .overlay > *')")
    assert {"80", "1:2", "well;"} <= words_printed(page, tmp_path)
    page.begin(PLATE.replace("length RBottom 100\n", ""), "open")
    page.wait("a shape", "return document.getElementById('pieces')")
    found = words_printed(page, tmp_path)
    assert {"60", "open,", "numbers;"} <= found and "80" not in found
    page.begin(PLATE + "length RTop 100\n", "over")
    assert {"over,", "as", "drawn;"} <= words_printed(page, tmp_path)
    page.click("#new")
    page.verdict("empty")
    assert words_printed(page, tmp_path) == set()


def words_printed(page: Page, folder: Path) -> set[str]:
    """The words of the PDF that the browser's own menu makes."""
    told = page.driver.execute_cdp_cmd("Page.printToPDF", {"preferCSSPageSize": True})
    path = folder / "menu.pdf"
    path.write_bytes(base64.b64decode(told["data"]))
    text = subprocess.run(["pdftotext", path, "-"], capture_output=True, text=True, check=True)
    return set(text.stdout.split())


def test_of_points_alone_there_is_no_sheet(page: Page) -> None:
    page.begin(POINTS, "open")
    page.driver.execute_script("window.print = () => { window.isPrinted = true; };")
    page.click("#export summary")
    page.click("#print")
    field = page.wait("a scale", "return document.querySelector('#value[open] input')")
    field.send_keys(Keys.ENTER)
    wait_for("told", lambda: page.told("hint") == "Nothing is drawn that could be printed.")
    assert not page.driver.execute_script("return window.isPrinted")
