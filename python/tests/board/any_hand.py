"""A hand that does anything on a page, by chance: mouse, keys, fingers, each tool, each list."""
from __future__ import annotations

import json
import random
from collections.abc import Callable
from contextlib import suppress
from dataclasses import dataclass, field

from all_shown import settle
from boards import DRAWINGS, FILES
from browsing import Page
from selenium.common.exceptions import (
    ElementClickInterceptedException,
    ElementNotInteractableException,
    StaleElementReferenceException,
)
from selenium.webdriver.common.action_chains import ActionChains
from selenium.webdriver.common.by import By
from selenium.webdriver.common.keys import Keys

TOOLS = "psrkncablte"
COPIES = "mwuo"
PLAIN = ("v", "x", "y", "d", "0", "+", "-", "[", "]", "{", "?", Keys.ESCAPE, Keys.ENTER,
         Keys.DELETE, Keys.F2, Keys.ARROW_LEFT, Keys.ARROW_UP, Keys.SHIFT + Keys.ARROW_DOWN,
         Keys.CONTROL + Keys.ARROW_RIGHT, Keys.ALT + Keys.ARROW_RIGHT, Keys.ALT + "q",
         Keys.CONTROL + "z", Keys.CONTROL + "z", Keys.CONTROL + "z", Keys.CONTROL + "y",
         Keys.CONTROL + "c", Keys.CONTROL + "v", Keys.CONTROL + "a", Keys.CONTROL + "s",
         Keys.CONTROL + "p")
AMID = (Keys.ESCAPE, Keys.CONTROL + "z", Keys.CONTROL + "y", Keys.DELETE, Keys.ENTER, "f", "s", "0",
        "d")
"""Keys that come while a button is down."""
VALUES = ("10", "25", "60deg", "1/2", "0.5 in", "-3", "", "forty", "7.25", "W1/2", "1:2", "Named")
LINES = ("point Q 33 44", "circle Q 20 20 5", "value W1 40", "# a note", "length", "point Q",
         "check Gap distance Origin Q 1 .. 90", "x Q 30", "nonsense here")
"""Lines that a hand writes; some can't be read, some only where another stands."""
FEW, MANY = 10, 18
"""Of fewer shapes than these a hand draws all again, of more it deletes some ever more often."""
DRAWN = (DRAWINGS / "plate-by-values.drawing", DRAWINGS / "open-four-bar.drawing",
         FILES / "plate-with-loose-hole.FCStd", FILES / "slot.slvs", FILES / "bracket.FCStd")
"""Files that a hand opens."""
GONE = (ElementNotInteractableException, ElementClickInterceptedException,
        StaleElementReferenceException)
"""What is told of a button that has gone, or lies under another, between the look and the click."""
TURNED = "#pieces[aria-pressed=true]", "#checked [aria-expanded=true]"
"""What shows a drawing otherwise by a click, and as at first by another."""
PLACES = """
const board = document.getElementById('board').getBoundingClientRect();
return [...document.querySelectorAll(`#board ${arguments[0]}`)].map((each) => {
  const { x, y, width, height } = each.getBoundingClientRect();
  let [u, v] = [x + width / 2, y + height / 2];
  if (each.matches('path')) {
    const at = each.getPointAtLength(each.getTotalLength() * 0.43);
    [u, v] = [at.x + board.x, at.y + board.y];
  }
  return [Math.round(u - board.x), Math.round(v - board.y)]; });
"""
"""The middles of nodes of the board, in its pixels; of a path a place on it."""


def pressed(page: Page, key: str) -> None:
    """Presses a key, or several at once, on the board."""
    page.driver.execute_script("document.getElementById('board').focus()")
    chain = ActionChains(page.driver, duration=10)
    *held, last = key
    for each in held:
        chain.key_down(each)
    chain.send_keys(last)
    for each in held:
        chain.key_up(each)
    chain.perform()


@dataclass
class Hand:
    """A hand that does anything on a page, by chance. first: the text with which its drawing was
    begun; done: all that it did, the last last."""

    page: Page
    chance: random.Random
    first: str = ""
    done: list[str] = field(default_factory=list)

    def act(self) -> None:
        """Does one thing."""
        if self.page.count("dialog[open]"):
            self._answer()
            return
        if self.is_refused() and self.chance.random() < 0.3:
            self._undo()
            return
        acts = self._acts()
        self.chance.choices(list(acts), list(acts.values()))[0]()

    def _acts(self) -> dict[Callable[[], None], float]:
        """All that it does, each as often."""
        return {
            self._click: 5, self._take: 8, self._drag: 3, self._grab: 6, self._interrupt: 3,
            self._hover: 2, self._wheel: 1, self._pan: 1, self._fingers: 1, self._key: 7,
            self._tool: 5, self._copies: 3, self._count: 1, self._offer: 6, self._dimension: 2,
            self._label: 2, self._twice: 1, self._slide: 2, self._slide_by_hand: 2, self._tab: 2,
            self._panel: 3, self._value: 2, self._write: 2, self._head: 2, self._begin: 0.4,
            self._less: 0.5 + max(0, self._drawn() - MANY)}

    def _drawn(self) -> int:
        """How many shapes there are."""
        return self.page.count("#board .edges [data-name]")

    def is_refused(self) -> bool:
        """Whether the text can't be read: then no tool draws."""
        return self.page.count("#verdict[data-verdict=refused]") > 0

    def _undo(self) -> None:
        self.done.append("undo what can't be read")
        pressed(self.page, Keys.CONTROL + "z")

    def give_up(self) -> None:
        """Lets go of all, and selects nothing; the pointer and the focus lie where nothing is, the
        panel is open at its text, and that can be read. What the hand has had shown otherwise is
        shown as at first."""
        self._escape()
        while self.page.count("dialog[open]"):  # It was asked for before, and opened late.
            self._escape()
        self.page.hover(3, 3)
        if self.page.count("body.folded"):
            self.page.click("#fold")
        self.page.click("#tab-text")
        while self.is_refused() and not self.page.count("#undo[aria-disabled=true]"):
            self._undo()
            settle(self.page)
        for turned in TURNED:
            if self.page.count(turned):
                self.page.click(turned)
        self.page.driver.execute_script("document.activeElement.blur()")

    def _escape(self) -> None:
        """Lets go of one thing after the other, and waits for what was asked for before."""
        for _ in range(6):
            pressed(self.page, Keys.ESCAPE)
        settle(self.page)

    # Where it goes.

    def _place(self) -> tuple[int, int]:
        return self.chance.randrange(70, 880), self.chance.randrange(90, 520)

    def _held(self) -> str:
        return self.chance.choice(("", "", "", Keys.SHIFT, Keys.CONTROL))

    def _thing(self, selector: str) -> tuple[int, int] | None:
        """The place of a node of the board, where one of that kind is in sight."""
        seen = [(x, y) for x, y in self.page.driver.execute_script(PLACES, selector)
                if 70 < x < 880 and 90 < y < 520]
        return self.chance.choice(seen) if seen else None

    def _edge_or_point(self) -> tuple[int, int] | None:
        return self._thing(self.chance.choice((".edges .hit", ".dots .dothit")))

    # The mouse.

    def _click(self) -> None:
        self._press("click", self._place(), held=self._held())

    def _take(self) -> None:
        """Clicks an edge or a point."""
        at = self._edge_or_point()
        if at:
            self._press("take", at, held=self._held())

    def _drag(self) -> None:
        self._press("drag", self._place(), to=self._place(), held=self._held())

    def _grab(self) -> None:
        """Drags an edge or a point."""
        at = self._edge_or_point()
        if at:
            held = self.chance.choice(("", "", "", Keys.ALT, Keys.CONTROL, Keys.SHIFT))
            self._press("grab", at, to=self._place(), held=held)

    def _interrupt(self) -> None:
        """Presses a key while it drags, and goes on."""
        at, key = self._edge_or_point() or self._place(), self.chance.choice(AMID)
        self._press(f"with {key!r} amid it: drag", at, to=self._place(), lets_go=False)
        pressed(self.page, key)
        with suppress(*GONE):
            self.page.hover(*self._place())
        self.page.let_go()

    def _press(self, what: str, at: tuple[int, int], held: str = "", lets_go: bool = True,
               to: tuple[int, int] | None = None) -> None:
        self.done.append(f"{what} {at} {to or ''} {held!r}")
        self.page.press(*at, to=to, held=held, lets_go=lets_go)

    def _hover(self) -> None:
        at = self._edge_or_point() or self._place()
        self.done.append(f"hover {at}")
        self.page.hover(*at)

    def _mouse(self, kind: str, at: tuple[float, float], **more: object) -> None:
        """One event of the mouse at a place of the board."""
        x, y = self._corner()
        self.page.driver.execute_cdp_cmd("Input.dispatchMouseEvent", {
            "type": kind, "x": x + at[0], "y": y + at[1], **more})

    def _corner(self) -> tuple[float, float]:
        x, y = self.page.driver.execute_script(
            "const { x, y } = document.getElementById('board').getBoundingClientRect();"
            "return [x, y];")
        return x, y

    def _wheel(self) -> None:
        at, turn = self._place(), self.chance.choice((-300, -120, 120, 300))
        self.done.append(f"wheel {at} {turn}")
        self._mouse("mouseWheel", at, deltaX=0, deltaY=turn)

    def _pan(self) -> None:
        """Pans by the right or the middle button, or by the space bar."""
        at, to = self._place(), self._place()
        button, number = self.chance.choice((("right", 2), ("middle", 4), (" ", 0)))
        if not number:
            pressed(self.page, Keys.ESCAPE)
            self._press("pan", at, to=to, held=Keys.SPACE)
            return
        self.done.append(f"pan {at} {to} {button}")
        for kind, place in (("mousePressed", at), ("mouseMoved", to), ("mouseReleased", to)):
            self._mouse(kind, place, button=button, clickCount=1,
                        buttons=0 if kind == "mouseReleased" else number)

    def _fingers(self) -> None:
        """One finger or two on the board."""
        places = [self._edge_or_point() or self._place(), self._place()]
        places = places[:self.chance.choice((1, 2))]
        self.done.append(f"fingers {places}")
        x, y = self._corner()

        def touch(kind: str, by: int) -> None:
            self.page.driver.execute_cdp_cmd("Input.dispatchTouchEvent", {
                "type": kind, "touchPoints": [] if kind == "touchEnd" else [
                    {"x": x + u + by * number, "y": y + v + by, "id": number}
                    for number, (u, v) in enumerate(places, 1)]})
        for kind, by in (("touchStart", 0), ("touchMove", 12), ("touchMove", 30), ("touchEnd", 0)):
            touch(kind, by)

    # Keys and tools.

    def _key(self) -> None:
        key = self.chance.choice(PLAIN)
        self.done.append(f"key {key!r}")
        pressed(self.page, key)

    def _tool(self) -> None:
        key = self.chance.choice(TOOLS)
        self.done.append(f"tool {key}")
        pressed(self.page, key)

    def _copies(self) -> None:
        """Draws again what it selects."""
        which = self.chance.choice((Keys.CONTROL + "a" if self._drawn() < FEW else "[", "]", "["))
        keys = "v", which, self.chance.choice(COPIES)
        at = self._edge_or_point() if self.chance.random() < 0.3 else None
        self.done.append(f"copies {keys}")
        for key in keys:
            pressed(self.page, key)
        if self.page.count("[data-tool=select][aria-pressed=false]"):
            self._press("which go", at or self._place(), held=self._held())

    def _count(self) -> None:
        """Writes how many sides or copies there are, where a tool asks for that."""
        for name in ("sides", "count"):
            node = self.page.driver.find_element(By.ID, name)
            if node.is_displayed():
                number = self.chance.choice(("2", "3", "5", "", "0"))
                self.done.append(f"{name} {number}")
                with suppress(*GONE):
                    node.send_keys(Keys.CONTROL, "a")
                    node.send_keys(number or Keys.DELETE, Keys.ENTER)

    def _less(self) -> None:
        """Deletes what lies in a box, or all; the more often the more there is, so that what is
        asked about the drawing stays quick."""
        pressed(self.page, "v")
        if self.chance.random() < 0.2:
            pressed(self.page, Keys.CONTROL + "a")
        else:
            self._press("box", self._place(), to=self._place())
        self.done.append("delete")
        pressed(self.page, Keys.DELETE)

    # What is offered, and dimensions.

    def _push(self, selector: str) -> None:
        """Clicks a button of some, where one is in sight."""
        found = [each for each in self.page.driver.find_elements(By.CSS_SELECTOR, selector)]
        with suppress(*GONE):
            seen = [each for each in found if each.is_displayed()]
            if seen:
                number = self.chance.randrange(len(seen))
                self.done.append(f"{selector} {number} {seen[number].text!r}")
                seen[number].click()

    def _offer(self) -> None:
        self._push(self.chance.choice(("#fitting button", "#fitting button", "#offers button")))

    def _dimension(self) -> None:
        """Clicks the number of a dimension, or a sign."""
        at = self._thing(".marks text")
        if at:
            self._press("dimension", at, held=self._held())

    def _label(self) -> None:
        """Drags the number of a dimension."""
        at = self._thing(".marks .value")
        if at:
            self._press("label", at, to=self._place())

    def _twice(self) -> None:
        """Clicks the number of a dimension twice."""
        at = self._thing(".marks .value")
        if at:
            self.done.append(f"twice {at}")
            for count in (1, 2):
                for kind in ("mousePressed", "mouseReleased"):
                    self._mouse(kind, at, button="left", clickCount=count)

    def _slide(self) -> None:
        """Sets the slider of what is selected, where there is one, by a key."""
        slider = self.page.driver.find_element(By.ID, "slider")
        key = self.chance.choice((Keys.HOME, Keys.END, Keys.ARROW_LEFT, Keys.ARROW_RIGHT))
        if slider.is_displayed() and slider.is_enabled():
            self.done.append(f"slide {key!r}")
            with suppress(*GONE):  # It goes with what was selected.
                slider.send_keys(key)

    def _slide_by_hand(self) -> None:
        """Drags the slider, or the one of the construction, and may give up."""
        found = self.page.driver.execute_script(
            "const all = [...document.querySelectorAll('#slider, .controls input')];"
            "const node = all.find((each) => each.offsetParent); if (!node) return null;"
            "const b = document.getElementById('board').getBoundingClientRect();"
            "const { x, y, width, height } = node.getBoundingClientRect();"
            "return [x - b.x, y - b.y + height / 2, width];")
        if not found:
            return
        x, y, width = found
        shares = [self.chance.random() for _ in range(3)]
        self.done.append(f"slider {shares}")
        for kind, share in zip(("mousePressed", "mouseMoved", "mouseMoved"), shares):
            self._mouse(kind, (x + share * width, y), button="left", buttons=1, clickCount=1)
        if self.chance.random() < 0.3:
            ActionChains(self.page.driver, duration=10).send_keys(Keys.ESCAPE).perform()
        self._mouse("mouseReleased", (x + shares[-1] * width, y), button="left", clickCount=1)

    # The panel.

    def _tab(self) -> None:
        self._push("[role=tab]")

    def _panel(self) -> None:
        """Clicks a button of the panel: of what is proposed, checked, removed, constructed."""
        self._push("#aside button:not([role=tab])")

    def _value(self) -> None:
        """Names a value, or changes one."""
        name, value = self.chance.choice(("W1", "W2")), self.chance.choice(VALUES)
        self.done.append(f"value {name} {value!r}")
        with suppress(*GONE):
            self.page.click("#tab-values")
            rows = self.page.driver.find_elements(By.CSS_SELECTOR, "#values input")
            if rows and self.chance.random() < 0.5:
                node = self.chance.choice(rows)
                node.send_keys(Keys.CONTROL, "a")
                node.send_keys(value, Keys.ENTER)
                return
            for number, words in (("name", name), ("expression", value)):
                self.page.driver.find_element(By.ID, f"value-{number}").send_keys(
                    Keys.CONTROL, "a", Keys.NULL, words)
            self.page.driver.find_element(By.ID, "value-expression").send_keys(Keys.ENTER)

    def _write(self) -> None:
        """Writes a line behind the text, or takes the last away."""
        line = self.chance.choice((*LINES, None, None))
        self.done.append(f"write {line!r}")
        with suppress(*GONE):
            self.page.click("#tab-text")
            area = self.page.driver.find_element(By.ID, "text")
            area.send_keys(Keys.CONTROL, Keys.END, Keys.NULL)
            if line is None:
                area.send_keys(Keys.SHIFT, Keys.ARROW_UP, Keys.NULL, Keys.BACKSPACE)
            else:
                area.send_keys(f"\n{line}")

    # The head of the page, and other drawings.

    def _head(self) -> None:
        """Undoes and redoes by the buttons, saves, exports."""
        if self.chance.random() < 0.6:
            self._push("#undo, #redo")
            return
        self._push("#save, #construction, #redraw-all, #all, #fit, #zoom button, summary")
        if self.page.count("#export[open]"):
            self._push("#export .menu button")

    def _begin(self) -> None:
        """Begins another drawing. The one that is left must be kept, unless it is empty or stands
        as it was saved."""
        left, how = settle(self.page), self.chance.choice(("new", "gallery", "file"))
        if self.page.count("dialog[open]"):  # It was asked for before, and answered late.
            return
        self.done.append(f"begin by {how}")
        saved = self._kept("drawing").get("saved")
        if how == "file":
            self.page.driver.find_element(By.ID, "file").send_keys(
                str(self.chance.choice(DRAWN)))
        else:
            self.page.click(f"#{how}")
        if how == "gallery":
            self.page.wait("drawings", "return document.querySelector('#dialog[open] .gallery')")
            self._push("#dialog .gallery button")
        text = settle(self.page)
        if not self.page.count("#undo[aria-disabled=true]"):  # None was chosen.
            return
        self.first = text
        aside = [each["text"] for each in self._kept("aside")]
        assert not left.strip() or left in (saved, self.first) or left in aside, self.done

    def _kept(self, what: str):
        """What the browser keeps."""
        return json.loads(self.page.driver.execute_script(
            "return localStorage.getItem(`pertxogai.${arguments[0]}`)", what) or "[]")

    def _answer(self) -> None:
        """Types a value where one is asked for, or gives up."""
        value = self.chance.choice(VALUES)
        self.done.append(f"value {value!r}")
        fields = self.page.driver.find_elements(By.CSS_SELECTOR, "#value[open] input")
        chance = self.chance.random()
        with suppress(*GONE):
            if fields and chance < 0.7:
                fields[0].send_keys(Keys.CONTROL, "a")
                fields[0].send_keys(value, Keys.ENTER)
            elif chance < 0.8:
                self._push("dialog[open] form > button")
            else:
                ActionChains(self.page.driver, duration=10).send_keys(Keys.ESCAPE).perform()
