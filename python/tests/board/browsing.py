"""The board in a real browser: Debian's Chromium, without a window. A module that imports this is
passed over where the browser isn't there, or Flask, or what drives it."""
from __future__ import annotations

import json
import os
from collections.abc import Callable, Iterator
from contextlib import contextmanager, suppress
from dataclasses import dataclass
from pathlib import Path

import pytest

pytest.importorskip("selenium", reason="the browser is driven by Debian's python3-selenium")

from boards import CHROMIUM, DRIVER, PATIENCE, Served, wait_for  # noqa: E402
from selenium import webdriver  # noqa: E402
from selenium.common.exceptions import (  # noqa: E402
    StaleElementReferenceException,
    WebDriverException,
)
from selenium.webdriver.chrome.options import Options  # noqa: E402
from selenium.webdriver.chrome.service import Service  # noqa: E402
from selenium.webdriver.common.action_chains import ActionChains  # noqa: E402
from selenium.webdriver.common.by import By  # noqa: E402
from selenium.webdriver.common.keys import Keys  # noqa: E402

if not (CHROMIUM and DRIVER):
    pytest.skip("Debian's chromium and chromium-driver aren't there", allow_module_level=True)

PICTURES = os.environ.get("PERTXOGAI_PICTURES")
"""Where the pictures of docs/BOARD.md are kept anew, where that is asked for."""
SIZE = "1360,900"
WORDS = ("--headless=new", "--no-sandbox", "--disable-dev-shm-usage", "--disable-gpu",
         f"--window-size={SIZE}", "--force-device-scale-factor=1", "--disable-extensions",
         "--no-first-run", "--hide-scrollbars")


@dataclass
class Page:
    """A tab with the board in it, and where its downloads go."""

    driver: webdriver.Chrome
    downloads: Path

    # What is shown.

    def clear(self) -> None:
        """Takes away what another test has left: tabs, buttons, keys and fingers that are down,
        a size, colours, downloads."""
        first, *others = self.driver.window_handles
        for other in others:
            self.driver.switch_to.window(other)
            self.driver.close()
        self.driver.switch_to.window(first)
        self._let_all_go()
        self.driver.execute_cdp_cmd("Emulation.clearDeviceMetricsOverride", {})
        self.driver.execute_cdp_cmd("Emulation.setEmulatedMedia", {"features": []})
        for path in self.downloads.iterdir():
            path.unlink()

    def _let_all_go(self) -> None:
        """Releases the buttons, keys and fingers that are down."""
        ActionChains(self.driver).reset_actions()
        self.driver.execute_cdp_cmd("Input.dispatchMouseEvent", {
            "type": "mouseReleased", "x": 0, "y": 0, "button": "left", "clickCount": 1})
        with suppress(WebDriverException):  # which says so where no finger is down
            self.driver.execute_cdp_cmd("Input.dispatchTouchEvent", {
                "type": "touchCancel", "touchPoints": []})
        self.driver.execute_cdp_cmd("Emulation.setTouchEmulationEnabled", {"enabled": False})

    def open(self, board: Served) -> None:
        """Opens the board anew, with nothing kept."""
        self.driver.get(f"{board.guard.address}gallery")
        self.driver.execute_script("localStorage.clear()")
        self.driver.get(board.guard.address)
        self.verdict("empty")

    def verdict(self, kind: str) -> None:
        """Waits until the verdict is of that kind."""
        self.wait(f"verdict {kind}", "return document.getElementById('verdict').dataset.verdict"
                                     f" === {json.dumps(kind)}")

    def begin_to_scale(self, text: str) -> Callable[[tuple[float, float]], tuple[float, float]]:
        """Begins a drawing, with a point at its right and one below it; gives where a place in
        millimetres lies on the board, in pixels."""
        self.type(text + "point Far 100 60\npoint Low 0 -20\n")
        self.wait("a drawing", "return document.querySelector('[data-name=Low] .dothit')")
        self.settled()
        self.keys("0")
        self.settled()
        (x, y), (u, _) = self.at("Origin"), self.at("Far")
        scale = (u - x) / 100
        return lambda at: (x + at[0] * scale, y - at[1] * scale)

    def wait(self, what: str, script: str) -> object:
        """Waits until a script gives something true."""
        return wait_for(what, lambda: self.driver.execute_script(script))

    def tells(self, what: str) -> None:
        """Waits until the verdict tells something."""
        wait_for(f"the verdict tells {what}", lambda: what in self.told())

    def told(self, name: str = "verdict") -> str:
        """What stands in a part of the page."""
        return self.driver.find_element(By.ID, name).text

    def text(self) -> str:
        """The drawing's text, once it is shown."""
        self.wait("the text", "return document.getElementById('text').ariaBusy !== 'true'")
        return str(self.driver.execute_script("return document.getElementById('text').value"))

    def is_whole(self, *edges: str) -> bool:
        """Whether edges are shown joined, each one's end to the next one's start, and the last
        one's to the first one's, within a pixel."""
        return bool(self.driver.execute_script(
            "const ends = arguments[0].map((name) => {"
            "  const path = document.querySelector(`[data-name='${name}'] .shape`);"
            "  return [0, path.getTotalLength()].map((at) => path.getPointAtLength(at)); });"
            "return ends.every(([, end], place) => {"
            "  const [start] = ends[(place + 1) % ends.length];"
            "  return Math.hypot(end.x - start.x, end.y - start.y) < 1; });", edges))

    def count(self, selector: str) -> int:
        """How many nodes there are."""
        return len(self.driver.find_elements(By.CSS_SELECTOR, selector))

    def faults(self) -> list[str]:
        """What the browser complained of, but for a server that is stopped, or tells it to wait."""
        mine = "ERR_CONNECTION", "status of 503"
        return [each["message"] for each in self.driver.get_log("browser")
                if each["level"] == "SEVERE" and not any(it in each["message"] for it in mine)]

    @contextmanager
    def held(self, call: str) -> Iterator[None]:
        """Holds back all that the server answers to a call, until it is left."""
        self.driver.execute_script(
            "const { fetch } = window, held = `call/${arguments[0]}`; let release;"
            "const released = new Promise((done) => { release = done; });"
            "window.fetch = async (path, options) => { const response = await fetch(path, options);"
            "  if (path === held) { window.isHeld = true; await released; }"
            "  return response; };"
            "window.release = () => {"
            "  Object.assign(window, { fetch, isHeld: false }); release(); };", call)
        yield
        self.wait("an answer that is held", "return window.isHeld !== undefined")
        self.driver.execute_script("window.release()")

    # What a hand does.

    def keys(self, *keys: str) -> None:
        """Presses keys on the board."""
        self.driver.execute_script("document.getElementById('board').focus()")
        for key in keys:
            self.driver.switch_to.active_element.send_keys(key)

    def click(self, selector: str) -> None:
        """Clicks a button; the new one where it is drawn anew between the look and the click."""
        for _ in range(4):
            with suppress(StaleElementReferenceException):
                self.driver.find_element(By.CSS_SELECTOR, selector).click()
                return
        raise AssertionError(f"{selector} is drawn anew again and again")

    def hover(self, x: float, y: float, held: str = "") -> None:
        """Moves the mouse to a place on the board in pixels; keys that are held stay held."""
        board = self.driver.find_element(By.ID, "board")
        half = board.size["width"] / 2, board.size["height"] / 2
        chain = ActionChains(self.driver, duration=30)
        for key in held:
            chain.key_down(key)
        chain.move_to_element_with_offset(board, round(x - half[0]), round(y - half[1])).perform()

    def press(self, x: float, y: float, shift: bool = False, to: tuple[float, float] | None = None,
              lets_go: bool = True, held: str = "") -> None:
        """Presses the mouse on the board at a place in pixels, or drags it to another, and lets
        go there or doesn't; with Shift, or with the keys that are held."""
        board = self.driver.find_element(By.ID, "board")
        half = board.size["width"] / 2, board.size["height"] / 2
        chain = ActionChains(self.driver, duration=30)
        keys = held + Keys.SHIFT * shift
        for key in keys:
            chain.key_down(key)
        chain.move_to_element_with_offset(board, round(x - half[0]), round(y - half[1]))
        if to is None:
            chain.click()
        else:
            chain.click_and_hold()
            for share in (0.3, 0.6, 1):
                chain.move_to_element_with_offset(
                    board, round(x + (to[0] - x) * share - half[0]),
                    round(y + (to[1] - y) * share - half[1]))
            if lets_go:
                chain.release()
        for key in keys:
            chain.key_up(key)
        chain.perform()

    def let_go(self) -> None:
        """Lets go of the mouse where it is."""
        ActionChains(self.driver, duration=30).release().perform()

    def press_twice(self, selector: str) -> None:
        """Presses the mouse twice on a node, as fast as counts for a double click."""
        x, y = self.driver.execute_script(
            "const r = document.querySelector(arguments[0]).getBoundingClientRect();"
            "return [r.x + r.width / 2, r.y + r.height / 2];", selector)
        for count in (1, 2):
            for what in ("mousePressed", "mouseReleased"):
                self.driver.execute_cdp_cmd("Input.dispatchMouseEvent", {
                    "type": what, "x": x, "y": y, "button": "left", "clickCount": count})

    def at(self, name: str) -> tuple[float, float]:
        """Where a point is, or the middle of what a shape is hit by, in pixels of the board, once
        it is shown."""
        self.wait(name, f"return document.querySelector(`[data-name='{name}']`)")
        found = self.driver.execute_script(
            "const b = document.getElementById('board').getBoundingClientRect();"
            "const n = document.querySelector(`[data-name='${arguments[0]}'] .dothit`);"
            "if (n) { const r = n.getBoundingClientRect();"
            "  return [r.x + r.width / 2 - b.x, r.y + r.height / 2 - b.y]; }"
            "const p = document.querySelector(`[data-name='${arguments[0]}'] .hit`);"
            "const m = p.getPointAtLength(p.getTotalLength() * 0.43); return [m.x, m.y];", name)
        return found[0], found[1]

    def mark(self, number: int) -> tuple[float, float]:
        """Where the middle of the text of a dimension is, in pixels of the board, once it is
        shown."""
        self.wait(f"mark {number}",
                  f"return document.querySelector(`.marks [data-constraint='{number}'] text`)")
        x, y = self.driver.execute_script(
            "const b = document.getElementById('board').getBoundingClientRect();"
            "const r = document.querySelector(`.marks [data-constraint='${arguments[0]}'] text`)"
            "  .getBoundingClientRect();"
            "return [r.x + r.width / 2 - b.x, r.y + r.height / 2 - b.y];", number)
        return x, y

    def select(self, *names: str) -> None:
        """Selects points and shapes by the mouse."""
        self.keys("v")
        for place, name in enumerate(names):
            self.press(*self.at(name), shift=place > 0)

    def ask(self, word: str, value: str | None = None) -> None:
        """Asks for a constraint of the bar, and types its value."""
        before = self.text()
        self.wait(word, f"return document.querySelector('#offers [data-word={word}]')")
        self.click(f"#offers [data-word={word}]")
        if value is not None:
            field = self.driver.find_element(By.CSS_SELECTOR, "#value input")
            field.send_keys(Keys.CONTROL, "a")
            field.send_keys(value, Keys.ENTER)
        wait_for(f"{word} in the text", lambda: self.text() != before)

    def type(self, text: str) -> None:
        """Writes the drawing's text."""
        self.click("#tab-text")
        area = self.driver.find_element(By.ID, "text")
        area.click()
        self.driver.execute_script(
            "const t = document.getElementById('text'); t.value = arguments[0];"
            "t.dispatchEvent(new Event('input'));", text)

    def begin(self, text: str, verdict: str) -> None:
        """Writes a text, waits for its verdict, and shows all of it."""
        self.type(text)
        self.verdict(verdict)
        self.click("#fit")
        self.settled()

    def settled(self) -> None:
        """Waits until the board is drawn."""
        self.driver.execute_async_script(
            "const done = arguments[0]; requestAnimationFrame(() => requestAnimationFrame("
            "() => setTimeout(done, 30)));")

    def keep_picture(self, name: str) -> None:
        """Keeps a picture of the board, where that is asked for; without the time that a call
        took."""
        self.settled()
        if PICTURES:
            self.driver.execute_script("document.querySelector('#verdict .time')?.remove()")
            self.driver.save_screenshot(str(Path(PICTURES) / f"board-{name}.png"))

    def downloaded(self, name: str) -> bytes:
        """The bytes of a file that was downloaded."""
        path = self.downloads / name
        wait_for(name, lambda: path.exists() and path.stat().st_size)
        return path.read_bytes()


@contextmanager
def browser(downloads: Path, dark: bool = False) -> Iterator[Page]:
    """A browser, while it is used."""
    options = Options()
    for word in WORDS:
        options.add_argument(word)
    options.binary_location = CHROMIUM or ""
    options.set_capability("goog:loggingPrefs", {"browser": "ALL"})
    options.add_experimental_option("prefs", {"download.default_directory": str(downloads)})
    driver = webdriver.Chrome(service=Service(DRIVER or ""), options=options)
    driver.set_script_timeout(30 * PATIENCE)
    if dark:
        driver.execute_cdp_cmd("Emulation.setEmulatedMedia", {
            "features": [{"name": "prefers-color-scheme", "value": "dark"}]})
    driver.execute_cdp_cmd("Page.setDownloadBehavior", {
        "behavior": "allow", "downloadPath": str(downloads)})
    try:
        yield Page(driver, downloads)
    finally:
        driver.quit()
