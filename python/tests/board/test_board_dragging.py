"""What is open is whole on the board, and follows the hand: in a real browser, by real events of
the mouse. What each frame shows is what the server told; lengths are worked out by hand."""
from __future__ import annotations

from math import atan2, cos, hypot, radians, sin

import pytest

pytest.importorskip("scipy", reason="what is dragged is reckoned by Debian's python3-scipy")

from boards import Served, wait_for
from browsing import Page
from keystrokes import count_keystrokes, seconds_of
from selenium.webdriver.common.keys import Keys
from shared_drawings import ROUNDED_BRACKET

Place = tuple[float, float]
FOUR_BAR = """drawing 1
segment Base 0 0 40 0
segment Crank Base.start 8 12
segment Coupler Crank.end 38 27
segment Rocker Coupler.end Base.end
coincident Base.start Origin
horizontal Base
length Base 40
length Crank 15
length Coupler 34
length Rocker 26
"""
LENGTHS = {("Base.start", "Crank.end"): 15, ("Crank.end", "Coupler.end"): 34,
           ("Coupler.end", "Base.end"): 26}
WATCH = """
window.frames_ = [];
const { fetch } = window;
window.fetch = async (path, options) => {
  const response = await fetch(path, options);
  if (path === 'call/drag') {
    const { x, y } = JSON.parse(options.body), told = await response.clone().json();
    if (!told.lost) window.frames_.push({ asked: [x, y], ...told });
  }
  return response;
};
"""


SECONDS = 180
"""A linkage is to be drawn, dimensioned and turned within three minutes."""
GRID_PIXELS = 14
"""A hand is rounded to half a step of the grid at most, which is less."""


class Hand:
    """A hand that drags, and the frames that the page was told."""

    def __init__(self, page: Page, text: str) -> None:
        self.page = page
        page.begin(text, "open")
        page.wait("what is free", "return document.querySelector('#pieces')")
        page.driver.execute_script(WATCH)
        self.scale, self.x, self.y = self._view()
        self.points: dict[str, Place] = {}

    def _view(self) -> tuple[float, float, float]:
        """Pixels of a millimetre, and where the origin lies."""
        x, y = self.page.at("Origin")
        name, (u, v) = self.page.driver.execute_script(
            "const line = document.getElementById('text').value.match(/^segment (\\S+) 0 0 (\\S+)"
            " (\\S+)/m); return line ? [line[1], [line[2], line[3]]] : ['', [0, 0]];")
        assert name, "the first segment begins at the origin"
        return hypot(self.page.at(f"{name}.end")[0] - x, self.page.at(f"{name}.end")[1] - y) / (
            hypot(float(u), float(v))), x, y

    def pixels(self, place: Place) -> Place:
        return self.x + place[0] * self.scale, self.y - place[1] * self.scale

    def take(self, name: str) -> None:
        """Presses the mouse on a thing."""
        self._mouse("mousePressed", self.page.at(name), buttons=1)

    def to(self, place: Place, waits: bool = True) -> dict[str, object]:
        """Goes to a place in millimetres, and waits for the last frame of it."""
        before = self.count()
        self._mouse("mouseMoved", self.pixels(place), buttons=1)
        if waits:
            wait_for("a frame", lambda: self.count() > before and self._rests(place))
        return self.frames()[-1] if waits else {}

    def _rests(self, place: Place) -> bool:
        """Whether the last frame is of this place, within what the grid rounds, and all has come
        there."""
        last = self.frames()[-1]
        (x, y), near = last["asked"], GRID_PIXELS / self.scale
        return hypot(x - place[0], y - place[1]) < near and last.get("reach") != "comes"

    def let_go(self, place: Place) -> None:
        """Lets go at a place."""
        before = self.page.text()
        self._mouse("mouseReleased", self.pixels(place), buttons=0)
        wait_for("drawn so", lambda: self.page.text() != before)

    def count(self) -> int:
        return int(self.page.driver.execute_script("return window.frames_.length"))

    def frames(self) -> list[dict[str, object]]:
        """All frames so far; what isn't told in one is as it was."""
        found = self.page.driver.execute_script("return window.frames_")
        for each in found:
            self.points |= {name: tuple(spot) for name, spot in each.get("points", {}).items()}
        return list(found)

    def length(self, first: str, second: str) -> float:
        """How far two points are apart, as they were told last."""
        (x, y), (u, v) = (self.points.get(name, (0.0, 0.0)) for name in (first, second))
        return hypot(u - x, v - y)

    def _mouse(self, kind: str, at: Place, buttons: int) -> None:
        box = self.page.driver.execute_script(
            "const { x, y } = document.getElementById('board').getBoundingClientRect();"
            "return [x, y];")
        self.page.driver.execute_cdp_cmd("Input.dispatchMouseEvent", {
            "type": kind, "x": box[0] + at[0], "y": box[1] + at[1], "buttons": buttons,
            "button": "left" if kind != "mouseMoved" or buttons else "none", "clickCount": 1})


# What is shown while it is open.

def test_a_linkage_is_whole_and_what_is_free_stands_out(page: Page) -> None:
    page.begin(FOUR_BAR, "open")
    page.wait("what is free", "return document.querySelector('#pieces')")
    told = page.told()
    assert "1 degree of freedom (by numbers)." in told
    assert "Certified by the program: 4 rigid clusters." in told
    assert page.count(".edges .free") == 3 and page.count(".edges .shape") == 4
    assert page.count(".moves path") == 2, "the ends of the crank and of the rocker"
    (x, y), (u, v) = page.at("Crank.end"), page.at("Base.start")
    (_, _), (r, s) = page.at("Base.end"), page.at("Base.end")
    assert hypot(x - u, y - v) / hypot(r - u, s - v) == pytest.approx(15 / 40, abs=1e-3)
    free, fixed = (page.driver.execute_script(
        "const s = getComputedStyle(document.querySelector(arguments[0]));"
        "return [s.stroke, s.strokeDasharray];", selector) for selector in (
            ".edges .free", "[data-name=Base] .shape"))
    assert free[0] != fixed[0] and free[1] != fixed[1], "by colour and by line"
    page.tells("The program constructs this shape")
    assert page.count(".joints circle") == 0
    page.click("#pieces")
    page.settled()
    assert page.count(".joints circle") == 1, "about the origin, as the list says"
    colours = page.driver.execute_script(
        "return [...document.querySelectorAll('.edges .shape')].map("
        "(edge) => getComputedStyle(edge).stroke);")
    assert len(set(colours)) == 4, "four bars are four pieces"


def test_the_trial_of_a_linkage(page: Page) -> None:
    """The second trial of docs/BOARD.md: a linkage drawn, dimensioned and turned; it is whole at
    each step."""
    count_keystrokes(page)
    page.keys("s")
    for place, corner in enumerate(((300, 440), (700, 440), (640, 180), (360, 300), (300, 440))):
        page.press(*corner)
        page.wait(f"side {place}",
                  f"return document.querySelectorAll('.edges [data-name]').length === {place}")
    page.keys("v")
    page.select("S1.start", "Origin")
    page.ask("coincident")
    for name, value in (("S1", "40"), ("S2", "26"), ("S3", "34"), ("S4", "15")):
        page.select(name)
        page.ask("length", value)
        wait_for(f"whole, with {name}", lambda: page.is_whole("S1", "S2", "S3", "S4"))
    page.tells("1 degree of freedom (by numbers).")
    page.keys("0")
    page.settled()
    shares = page.driver.execute_script(
        "const [edges, board] = ['.edges', '#board'].map("
        "(each) => document.querySelector(each).getBoundingClientRect());"
        "return [edges.width / board.width, edges.height / board.height];")
    assert max(shares) > 0.6, "it fills the board, wherever it is drawn"
    x, y = page.at("S3.end")
    before = page.text()
    page.press(x, y, to=(x - 60, y + 30))
    wait_for("turned", lambda: page.text() != before)
    assert seconds_of(page) < SECONDS
    page.tells("The program constructs this shape")
    page.keep_picture("linkage")


# The four-bar linkage.

def test_a_crank_goes_all_round_in_steps_of_five_degrees(page: Page) -> None:
    hand = Hand(page, FOUR_BAR)
    before = page.text()
    x, y = page.at("Crank.end")
    begin = atan2(hand.y - y, x - hand.x)
    hand.take("Crank.end")
    hand.points["Base.end"] = (40.0, 0.0)
    for step in range(1, 73):
        angle = begin + radians(5 * step)
        frame = hand.to((15 * cos(angle), 15 * sin(angle)))
        assert frame["off"] <= 2 and frame["reach"] in ("there", "beside")
        for (first, second), wanted in LENGTHS.items():
            assert abs(hand.length(first, second) - wanted) <= 1e-6, "a nanometre"
        away = hypot(hand.points["Crank.end"][0] - 15 * cos(angle),
                     hand.points["Crank.end"][1] - 15 * sin(angle))
        assert away < 1, "within what the grid and a pixel round"
    assert "measured: at most" in page.told("hint")
    hand.let_go((15 * cos(begin), 15 * sin(begin)))
    assert hand.points["Coupler.end"][1] > 0, "back on its side"
    drawn = page.text()
    page.keys(Keys.CONTROL + "z")
    wait_for("one undo", lambda: page.text() == before)
    page.keys(Keys.CONTROL + "y")
    wait_for("and redo", lambda: page.text() == drawn)


def test_what_is_let_go_is_drawn_as_it_was_shown(page: Page) -> None:
    hand = Hand(page, FOUR_BAR)
    hand.take("Crank.end")
    hand.to((2, 14.8))
    hand.to((-5, 14))
    hand.let_go((-5, 14))
    page.settled()
    wait_for("the tool's hint again", lambda: page.told("hint").startswith("Click selects"))
    line = next(each for each in page.text().splitlines() if "segment Crank" in each)
    drawn = tuple(map(float, line.split()[-2:]))
    assert drawn == pytest.approx(hand.points["Crank.end"], abs=5.1e-4), "to the micrometre"
    x, y = page.at("Crank.end")
    assert (x, y) == pytest.approx(hand.pixels(drawn), abs=1)
    page.tells("The program constructs this shape")


STOPPED = FOUR_BAR.replace("40", "50").replace("8 12", "15 25").replace(
    "38 27", "33 20").replace("Crank 15", "Crank 30").replace("34", "20").replace("26", "25")


def test_at_a_dead_point_it_stays_and_says_so_and_leads_to_the_other_shape(page: Page) -> None:
    hand = Hand(page, STOPPED)
    hand.take("Crank.end")
    for angle in (61, 62, 63, 64, 66, 70):
        frame = hand.to((30 * cos(radians(angle)), 30 * sin(radians(angle))))
    wait_for("told", lambda: "a dead point" in page.told("hint"))
    assert frame["reach"] == "stays"
    hand.frames()
    assert hand.length("Base.start", "Crank.end") == pytest.approx(30, abs=1e-6)
    x, y = hand.points["Crank.end"]
    # By the law of cosines the crank's end is 45 from the bearing there.
    assert hypot(x - 50, y) == pytest.approx(45, abs=0.05)
    angle = radians(70)
    hand.let_go((30 * cos(angle), 30 * sin(angle)))
    before = page.text()
    page.wait("the other shape", "return document.getElementById('other-shape')")
    page.click("#other-shape")
    wait_for("drawn so", lambda: page.text() != before)


# Other drawings.

def dragged(page: Page, text: str, name: str, places: list[Place]) -> Hand:
    """Drags a thing through places, and lets go at the last."""
    hand = Hand(page, text)
    hand.take(name)
    for place in places:
        hand.to(place)
    hand.let_go(places[-1])
    hand.frames()
    return hand


def test_a_slider_stays_on_its_line(page: Page) -> None:
    text = ("drawing 1\nsegment Rail 0 0 80 30\nsegment Rod 20 40 40 15\nfixed Rail\n"
            "on Rod.end Rail\nlength Rod 35\ny Rod.start 40\n")
    hand = dragged(page, text, "Rod.end", [(45, 17), (50, 19)])
    x, y = hand.points["Rod.end"]
    assert abs(3 * x - 8 * y) < 1e-5 and x == pytest.approx(50, abs=1)
    assert hand.length("Rod.start", "Rod.end") == pytest.approx(35, abs=1e-6)


def test_a_bracket_that_lacks_a_radius_is_whole_and_its_rim_is_dragged(page: Page) -> None:
    hand = Hand(page, "drawing 1\n" + ROUNDED_BRACKET)
    assert "1 degree of freedom" in page.told()
    assert page.count("[data-name=Round] .free") == 1 and page.count("[data-name=Low] .free") == 0
    hand.take("Round")
    away = 15 + 20 - 20 / 2 ** 0.5
    hand.to((away, away))
    hand.let_go((away, away))
    hand.frames()
    x, y = hand.points["Round.centre"]
    assert x == pytest.approx(y, abs=1e-6) and x == pytest.approx(35, abs=3)
    assert hand.points["In.end"] == pytest.approx((x, 15), abs=1e-6)
    assert hand.points["Up.start"] == pytest.approx((15, y), abs=1e-6)


def test_a_rectangle_of_no_size_keeps_its_angles(page: Page) -> None:
    text = ("drawing 1\nsegment A 0 0 50 0\nsegment B A.end 50 30\nsegment C B.end 0 30\n"
            "segment D C.end A.start\nhorizontal A\nhorizontal C\nvertical B\nvertical D\n")
    hand = dragged(page, text, "B.end", [(55, 40), (30, 20)])
    x, y = hand.points["B.end"]
    assert (x, y) == pytest.approx((30, 20), abs=1)
    assert hand.points["A.end"][0] == pytest.approx(x, abs=1e-6)
    assert hand.points["C.end"][1] == pytest.approx(y, abs=1e-6)


HOLES = """segment Base 0 0 60 0
circle A 20 20 5
circle B 45 30 5
coincident Base.start Origin
horizontal Base
length Base 60
x A 20
y A 20
diameter A 10
y B 30
diameter B 10
"""


def labels(page: Page) -> dict[str, list[float]]:
    """Where the dimensions stand, by the numbers of their constraints."""
    found = page.driver.execute_script(
        "const all = [...document.querySelectorAll('.marks .value')];"
        "return all.map((each) => { const r = each.getBoundingClientRect();"
        "  return [each.parentNode.dataset.constraint, r.x + r.width / 2, r.y + r.height / 2]; });")
    return {number: [x, y] for number, x, y in found}


def test_dimensions_of_what_stays_stand_still_in_a_drag(page: Page) -> None:
    """The hole B goes over those of A, and its own diameter, the eighth constraint, goes along."""
    hand = Hand(page, HOLES)
    before = labels(page)
    hand.take("B.centre")
    for x in (38, 30, 22, 14):
        hand.to((x, 30))
        page.settled()
        now = labels(page)
        assert {each: now[each] for each in "3456"} == {each: before[each] for each in "3456"}
        assert now["8"] != before["8"]
    hand.let_go((14, 30))


def test_what_moves_in_a_drag_keeps_its_nodes_and_its_dimension_its_side(page: Page) -> None:
    """So a frame costs what changes of it, and no label jumps. The hole B goes off to the right,
    where more room is free."""
    hand = Hand(page, HOLES)
    page.driver.execute_script(
        "window.kept_ = ['.edges [data-name=B] .shape', '.dots [data-name=\"B.centre\"] .dot',"
        "  '.marks [data-constraint=\"8\"] text'].map((each) => document.querySelector(each));")
    hand.take("B.centre")
    (x, y), (u, v) = page.at("B.centre"), labels(page)["8"]
    for at in (50, 54, 58):
        hand.to((at, 30))
        page.settled()
        assert page.driver.execute_script("return window.kept_.every((each) => each.isConnected)")
        (p, q), (r, s) = page.at("B.centre"), labels(page)["8"]
        assert p > x + 10 and (r - p, s - q) == pytest.approx((u - x, v - y), abs=0.1)
    hand.let_go((58, 30))


def test_an_edge_goes_the_way_of_the_hand(page: Page) -> None:
    """Its ends keep their places to each other, and what is level with them goes along."""
    text = ("drawing 1\nsegment A 0 0 50 0\nsegment B A.end 50 30\nsegment C B.end 0 30\n"
            "segment D C.end A.start\nhorizontal A\nhorizontal C\nvertical B\nvertical D\n")
    hand = Hand(page, text)
    hand.take("B")
    hand.to((65, 22))
    hand.let_go((65, 22))
    hand.frames()
    (x, y), (u, v) = hand.points["A.end"], hand.points["B.end"]
    assert u == pytest.approx(x, abs=1e-6) and v - y == pytest.approx(30, abs=1e-3)
    assert x == pytest.approx(65, abs=2), "as far to the right as the hand"
    assert hand.points["A.start"][1] == pytest.approx(y, abs=1e-6), "level with its corner"


def test_a_piece_at_the_origin_turns_about_it(page: Page) -> None:
    text = ("drawing 1\nsegment A 0 0 30 0\nsegment B A.end 30 20\nsegment C B.end A.start\n"
            "point P 50 0\ncoincident A.start Origin\nlength A 30\nlength B 20\nlength C 36\n"
            "on P XAxis\nx P 50\n")
    hand = dragged(page, text, "A.end", [(30 * cos(t), 30 * sin(t)) for t in (0.1, 0.2, 0.4)])
    assert hand.points["A.end"] == pytest.approx((30 * cos(0.4), 30 * sin(0.4)), abs=1)
    assert hand.length("A.end", "B.end") == pytest.approx(20, abs=1e-6)
    assert hypot(*hand.points["B.end"]) == pytest.approx(36, abs=1e-6)


def test_a_chain_of_forty_links_follows(page: Page) -> None:
    lines = ["drawing 1", "segment S0 0 0 10 0"]
    lines += [f"segment S{n} S{n - 1}.end {10 * n + 10} {3 * (n % 2)}" for n in range(1, 40)]
    lines += ["coincident S0.start Origin", *(f"length S{n} 10" for n in range(40))]
    hand = dragged(page, "\n".join(lines) + "\n", "S39.end", [(370, 40), (340, 60), (300, 80)])
    assert hand.points["S39.end"] == pytest.approx((300, 80), abs=4)
    ends = [(0.0, 0.0), *(hand.points[f"S{n}.end"] for n in range(40))]
    for (x, y), (u, v) in zip(ends, ends[1:]):
        assert hypot(u - x, v - y) == pytest.approx(10, abs=2e-6)


# The hand, and the server.

@pytest.mark.parametrize("tie, told", [
    ("", "Its dimensions fix its shape, so nothing follows the hand: only the whole may still be "
         "moved and turned"),
    ("coincident A.start Origin\nhorizontal A\n", "Nothing is free here: its constraints fix it")],
    ids=["its shape", "all"])
def test_in_what_is_fixed_nothing_follows_but_with_alt_its_drawing(
        page: Page, tie: str, told: str) -> None:
    text = ("drawing 1\nsegment A 0 0 40 0\nsegment B A.end 20 30\nsegment C B.end A.start\n"
            f"length A 40\nlength B 36\nlength C 35\n{tie}")
    page.begin(text, "well")
    x, y = page.at("B.end")
    page.press(x, y, to=(x + 60, y + 20))
    wait_for("told", lambda: told in page.told("hint"))
    assert page.told("hint").endswith("Hold Alt to move only where it is drawn.")
    assert page.text() == text
    page.press(x, y, to=(x + 60, y + 20), held=Keys.ALT)
    wait_for("drawn elsewhere", lambda: page.text() != text)
    page.verdict("well")


ROUGH = """drawing 1
segment Base 0 0 40 0
segment Side Base.end 45 25
point P 20 10
coincident Base.start Origin
horizontal Base
length Base 40
vertical Side
length Side 20
"""
"""Its side is drawn askew and too long."""


def test_what_is_let_go_draws_all_where_it_is_shown(page: Page) -> None:
    """Also what is fixed, and was drawn roughly; one step of undo."""
    hand = Hand(page, ROUGH)
    before = page.text()
    hand.take("P")
    hand.to((30, 15))
    hand.let_go((30, 15))
    assert "segment Side Base.end 40 20\n" in page.text() and "point P 20 10" not in page.text()
    page.keys(Keys.CONTROL + "z")
    wait_for("one undo", lambda: page.text() == before)


BOW = """drawing 1
segment Base 0 0 40 0
arc Bow 0 0 20 0 0 20
coincident Base.start Origin
horizontal Base
length Base 40
coincident Bow.centre Origin
on Bow.start Base
radius Bow 20
"""
"""The arc begins on the base, and runs to its end at 90 degrees, to the left."""


def test_an_arc_that_goes_past_its_own_end_is_told_until_it_comes_back(page: Page) -> None:
    past = "Bow went past its own end, and takes the other part of the circle now."
    hand = Hand(page, BOW)
    hand.take("Bow.end")
    for turn, is_past in ((40, False), (-40, True), (-70, True), (40, False)):
        hand.to((20 * cos(radians(turn)), 20 * sin(radians(turn))))
        wait_for("it follows", lambda: "measured: at most" in page.told("hint"))
        wait_for(f"told at {turn}", lambda: page.told("hint").startswith(past) is is_past)
    hand.let_go((20 * cos(radians(40)), 20 * sin(radians(40))))


LOSES = """
const { fetch: before } = window;
window.fetch = (path, options) => {
  if (path !== 'call/drag') return before(path, options);
  const given = JSON.parse(options.body);
  if (given.places) Object.keys(given.places.points).forEach((name) => {
    given.places.points[name] = [0, 0]; });
  return before(path, { ...options, body: JSON.stringify({ ...given, drag: 'gone' }) });
};
"""
"""The server knows the drag no more, and is told places that nothing is met near."""


def test_a_drag_that_is_lost_says_so_and_nothing_leaps(page: Page) -> None:
    hand = Hand(page, FOUR_BAR)
    hand.take("Crank.end")
    hand.to((5, 14))
    shown = page.at("Crank.end")
    page.driver.execute_script(LOSES)
    hand.to((-5, 14))
    wait_for("told", lambda: "the drag was lost" in page.told("hint"))
    assert page.at("Crank.end") == pytest.approx(shown, abs=1)
    hand.let_go((-5, 14))
    page.settled()
    assert page.at("Crank.end") == pytest.approx(shown, abs=1), "drawn where it was shown"


def test_a_drag_that_leaves_the_window_ends_where_the_hand_lets_go(page: Page) -> None:
    hand = Hand(page, FOUR_BAR)
    hand.take("Crank.end")
    hand.to((0, 20))
    far = (-hand.x - 400) / hand.scale, 5.0
    hand.to(far)
    hand.let_go(far)
    hand.frames()
    assert hand.points["Crank.end"][0] < -14, "as far to the left as it comes"
    count = hand.count()
    page.hover(300, 300)
    page.settled()
    assert hand.count() == count, "it is let go"


def test_with_a_slow_server_the_last_place_counts(page: Page) -> None:
    hand = Hand(page, FOUR_BAR)
    hand.take("Crank.end")
    with page.held("drag"):
        for angle in range(60, 120, 5):
            hand.to((15 * cos(radians(angle)), 15 * sin(radians(angle))), waits=False)
        hand._mouse("mouseReleased", hand.pixels((-7, 13)), buttons=0)
    wait_for("drawn so", lambda: "8 12" not in page.text())
    places = {tuple(frame["asked"]) for frame in hand.frames()}
    assert len(places) <= 4, "those in between aren't asked for"
    assert hand.points["Crank.end"][0] < 0


def test_escape_gives_a_drag_up(page: Page) -> None:
    hand = Hand(page, FOUR_BAR)
    before, place = page.text(), page.at("Crank.end")
    hand.take("Crank.end")
    hand.to((-5, 14))
    page.keys(Keys.ESCAPE)
    wait_for("as it was", lambda: page.at("Crank.end") == pytest.approx(place, abs=1))
    hand._mouse("mouseReleased", hand.pixels((-5, 14)), buttons=0)
    page.settled()
    assert page.text() == before


def test_two_tabs_drag_beside_each_other(page: Page, board: Served) -> None:
    first = page.driver.current_window_handle
    hand = Hand(page, FOUR_BAR)
    hand.take("Crank.end")
    hand.to((0, 15))
    page.driver.switch_to.new_window("tab")
    try:
        page.driver.get(board.guard.address)
        other = Hand(page, FOUR_BAR.replace("Rocker 26", "Rocker 28"))
        other.take("Crank.end")
        other.to((-4, 14))
        other.let_go((-4, 14))
        other.frames()
        assert other.length("Crank.end", "Coupler.end") == pytest.approx(34, abs=1e-6)
    finally:
        page.driver.close()
        page.driver.switch_to.window(first)
    hand.to((-8, 12))
    hand.let_go((-8, 12))
    hand.frames()
    hand.points["Base.end"] = (40.0, 0.0)
    assert hand.length("Coupler.end", "Base.end") == pytest.approx(26, abs=1e-6)
