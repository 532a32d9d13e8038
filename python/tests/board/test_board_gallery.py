"""The board in a real browser: drawings of the gallery are drawn by the mouse alone, shape by shape
and constraint by constraint, with nothing guessed; only values are typed. They are judged as those of
the gallery are, and all of their points are as far from each other. PERTXOGAI_GALLERY=10 has all ten drawn."""
from __future__ import annotations

import math
import os
import re
from dataclasses import dataclass, field
from itertools import combinations

import pytest

from boards import drawing, wait_for
from browsing import Page
from selenium.webdriver.common.by import By
from selenium.webdriver.common.keys import Keys

from pertxogai.board.calls import Desk
from pertxogai.drawing import (
    VALUED, AngleBetween, Arc, Circle, Constraint, Drawing, PointRef, Segment, Shape, ShapeRef,
    Which, XDistance, YDistance, points_of, read_drawing, spot_of, value_text, words_of,
    write_drawing)
from pertxogai.drawing.mentions import refs_of
from pertxogai.program import Program

NAMES = ("plate-with-hole", "bracket", "chamfered-and-filleted", "slotted-plate", "cam", "keyhole",
         "dovetail", "belt-drive", "t-slot", "mirrored-holes")
DRAWN = NAMES[:int(os.environ.get("PERTXOGAI_GALLERY", "1"))]
BESIDE = 27
"""So many pixels all is drawn to the right and above where it is drawn in the gallery."""
APART = 22
"""So many pixels before a point that is to be shared an end is drawn, and joined then."""


@dataclass
class Draughtsman:
    """A hand that draws a drawing of the gallery on a page. names: what the page calls each
    shape."""

    page: Page
    drawing: Drawing
    names: dict[str, str] = field(default_factory=dict)
    origin: tuple[float, float] = (0.0, 0.0)
    scale: float = 1.0

    def draw(self) -> None:
        """Draws all shapes, joins what is shared, and asks for all constraints."""
        self._make_room()
        for shape in self.drawing.geometry:
            if shape.name not in self.names:
                self._shape(shape)
        self.page.keys("v", "0")
        for pair in self.drawing.shared():
            if not self._is_one(pair.first, pair.second):
                self._offer("coincident", self._named(pair.first), self._named(pair.second))
        for constraint in self.drawing.constraints:
            self._ask(constraint)

    # Where things lie.

    def _make_room(self) -> None:
        """Pans and zooms until all of the drawing is in sight, as large as that goes."""
        places = [self._place(ref) for ref in self.drawing.points()]
        for _ in range(20):
            self._look()
            key = self._way(places)
            if key is None:
                return
            self.page.keys(key)
        raise AssertionError("there is no room for the drawing")

    def _way(self, places: list[tuple[float, float]]) -> str | None:
        """The key that brings places nearer to the middle of the board, or lets them fill it; None
        where they do."""
        xs, ys = zip(*map(self._pixels, places))
        x, y = (min(xs) + max(xs)) / 2 - 480, (min(ys) + max(ys)) / 2 - 315
        if abs(x) > 65:
            return Keys.CONTROL + (Keys.ARROW_RIGHT if x > 0 else Keys.ARROW_LEFT)
        if abs(y) > 45:
            return Keys.CONTROL + (Keys.ARROW_DOWN if y > 0 else Keys.ARROW_UP)
        share = max((max(xs) - min(xs)) / 860, (max(ys) - min(ys)) / 450)
        return "-" if share > 1 else "+" if share < 0.75 else None

    def _look(self) -> None:
        """Finds where the origin lies and how large a millimetre is, by the cross."""
        self.page.keys(Keys.ARROW_RIGHT)
        self.page.settled()
        found = re.search(r"cross at (-?[\d.]+) (-?[\d.]+) mm", self.page.told("hint"))
        path = self.page.driver.find_element(By.CSS_SELECTOR, ".cross").get_attribute("d")
        x, y = map(float, re.match(r"M(-?[\d.]+) (-?[\d.]+)h", path or "").groups())
        self.origin = self.page.at("Origin")
        self.scale = (x + 14 - self.origin[0]) / float(found[1])
        self.page.keys(Keys.ESCAPE)
        assert abs(self.origin[1] - y - float(found[2]) * self.scale) < 2

    def _place(self, ref: PointRef) -> tuple[float, float]:
        place = self.drawing.drawn(ref)
        return float(place.x_um) / 1e3, float(place.y_um) / 1e3

    def _pixels(self, place: tuple[float, float]) -> tuple[float, float]:
        """Where a place in millimetres is drawn, a little beside the axes, so that what lies on
        them is hit by itself."""
        return (self.origin[0] + place[0] * self.scale + BESIDE,
                self.origin[1] - place[1] * self.scale - BESIDE)

    # Shapes.

    def _shape(self, shape: Shape) -> None:
        """Draws a shape, with Ctrl held so that nothing is guessed."""
        tool, places = self._clicks(shape)
        before = len(self._drawn())
        self.page.keys(tool)
        for place in places:
            self.page.press(*self._pixels(place), held=Keys.CONTROL)
        wait_for(shape.name, lambda: len(self._drawn()) > before)
        self.page.keys(Keys.ESCAPE, Keys.ESCAPE)
        self.names[shape.name] = self._drawn()[before]

    def _drawn(self) -> list[str]:
        """The names of the shapes of the text."""
        return [line.split()[1 + line.startswith("construction")]
                for line in self.page.text().splitlines()
                if re.match(r"(construction )?(point|segment|circle|arc) ", line)]

    def _clicks(self, shape: Shape) -> tuple[str, list[tuple[float, float]]]:
        """The key of the tool of a shape, and where it is clicked."""
        spots = {ref.which: self._place(ref) for ref in points_of(shape)}
        shared = [ref.which for ref in points_of(shape)
                  if isinstance(spot_of(shape, ref.which), PointRef)]
        apart = APART / self.scale
        match shape:
            case Segment():
                start, end = spots[Which.START], spots[Which.END]
                share = apart / math.dist(start, end)
                first = along(start, end, share) if Which.START in shared else start
                last = along(end, start, share) if Which.END in shared else end
                return "s", [first, last]
            case Arc():
                return "a", arc_clicks(spots, shared, apart)
            case Circle():
                x, y = spots[Which.CENTRE]
                x += apart if shared else 0
                return "c", [(x, y), (x + float(shape.radius_um) / 1e3, y)]
            case _:
                return "p", [spots[Which.AT]]

    # Constraints.

    def _is_one(self, one: PointRef, other: PointRef) -> bool:
        """Whether two points are drawn as one already."""
        drawn = read_drawing(self.page.text())
        first, second = (PointRef(self.names[each.shape], each.which) for each in (one, other))
        return drawn.meetings.same(first, second)

    def _named(self, ref: PointRef | ShapeRef) -> str:
        """What the page calls a point or a shape."""
        if isinstance(ref, ShapeRef):
            return self.names.get(ref.name, ref.name)
        return str(PointRef(self.names.get(ref.shape, ref.shape), ref.which))

    def _ask(self, constraint: Constraint) -> None:
        """Asks for a constraint by the bar."""
        word = words_of(constraint).split()[0]
        things = [self._named(ref) for ref in refs_of(constraint)]
        if isinstance(constraint, (XDistance, YDistance)):
            things = [each for each in things if each != "Origin"]
        if isinstance(constraint, AngleBetween):
            things = [each for each in things if each != "XAxis"]
        value = value_text(constraint) if isinstance(constraint, VALUED) else None
        self._offer(word, *things, value=value)

    def _offer(self, word: str, *things: str, value: str | None = None) -> None:
        """Selects things, presses a button of the bar, and types a value where it takes one."""
        self.page.keys(Keys.ESCAPE, "0")
        self.page.settled()
        before = self.page.text()
        for number, name in enumerate(things):
            self.page.press(*self._touched(name), shift=number > 0)
        button = f"#offers [data-word={word}]"
        self.page.wait(f"{word} {things}", f"return document.querySelector('{button}')")
        self.page.click(button)
        if value is not None:
            field = self.page.driver.find_element(By.CSS_SELECTOR, "#value input")
            field.send_keys(Keys.CONTROL, "a")
            field.send_keys(value, Keys.ENTER)
        wait_for(f"{word} {things}", lambda: self.page.text() != before)

    def _touched(self, name: str) -> tuple[float, float]:
        """A place in pixels at which a click takes a point or a shape: where nothing lies over
        it."""
        found = self.page.driver.execute_script(FREE, name)
        assert found, f"{name} lies beneath others everywhere"
        return found[0], found[1]


FREE = """
const name = arguments[0];
const board = document.getElementById('board').getBoundingClientRect();
const takes = (x, y) => document.elementFromPoint(x, y)?.closest('[data-name], [data-constraint]')
  ?.dataset.name === name;
const all = [...document.querySelectorAll(`[data-name="${name}"]`)];
for (const dot of all.flatMap((each) => [...each.querySelectorAll('.dothit')])) {
  const r = dot.getBoundingClientRect();
  return [r.x + r.width / 2 - board.x, r.y + r.height / 2 - board.y];
}
for (const path of all.flatMap((each) => [...each.querySelectorAll('.hit')])) {
  const long = path.getTotalLength();
  for (const share of [0.43, 0.3, 0.6, 0.2, 0.75, 0.12, 0.88, 0.5, 0.36, 0.68, 0.06, 0.94]) {
    const at = path.getPointAtLength(long * share);
    if (takes(at.x + board.x, at.y + board.y)) return [at.x, at.y];
  }
}
return null;
"""


def along(start: tuple[float, float], end: tuple[float, float],
          share: float) -> tuple[float, float]:
    """The place at a share of the way between two."""
    return start[0] + (end[0] - start[0]) * share, start[1] + (end[1] - start[1]) * share


def arc_clicks(spots: dict[Which, tuple[float, float]], shared: list[Which],
               apart: float) -> list[tuple[float, float]]:
    """The clicks on an arc: its start, its end, and between; an end that is to be shared is drawn
    so much before it."""
    (x, y), start = spots[Which.CENTRE], spots[Which.START]
    radius = math.dist((x, y), start)
    turns = [math.atan2(v - y, u - x) for u, v in (start, spots[Which.END])]
    sweep = (turns[1] - turns[0]) % (2 * math.pi)
    back = min(apart / radius, sweep / 5)
    first = turns[0] + back * (Which.START in shared)
    last = turns[0] + sweep - back * (Which.END in shared)
    return [(x + radius * math.cos(turn), y + radius * math.sin(turn))
            for turn in (first, last, (first + last) / 2)]


def without_rectangles(text: str) -> str:
    """A drawing's text with its rectangles as single segments, so that each is drawn by itself."""
    return write_drawing(read_drawing(text))


@pytest.mark.parametrize("name", DRAWN)
def test_a_drawing_of_the_gallery_is_drawn_by_the_mouse(page: Page, program: Program,
                                                        name: str) -> None:
    wanted = read_drawing(without_rectangles(drawing(name)))
    hand = Draughtsman(page, wanted)
    hand.draw()
    page.verdict("well")
    desk = Desk(program)
    found = desk.answer("judge", {"text": page.text()})["judgement"]["placed"]["points"]
    placed = desk.answer("judge", {"text": drawing(name)})["judgement"]["placed"]["points"]
    refs = list(wanted.points())
    for one, other in combinations(refs, 2):
        away = math.dist(placed[str(one)], placed[str(other)])
        assert math.dist(found[hand._named(one)], found[hand._named(other)]) == pytest.approx(
            away, abs=2e-3), (one, other)
    assert page.faults() == []
