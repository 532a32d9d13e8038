"""All that a page shows of a drawing once it has come to rest, beside what another page shows of
the same drawing: where one isn't as the other, one of them shows a stale answer."""
from __future__ import annotations

import math
import time
from collections.abc import Iterator
from contextlib import contextmanager
from dataclasses import dataclass, replace
from itertools import chain

from boards import PATIENCE, Served
from browsing import Page

from pertxogai.board.board_drawing import SEARCH_SECONDS
from pertxogai.board.document import read_document
from pertxogai.search import searched_within

LONGEST_SECONDS = 240 * PATIENCE
"""Within this a page comes to rest, beside other programs too: a range takes many calls of the
program."""
REST_SECONDS = 1.5
"""A page is at rest once nothing has changed for so long: a moment after which it asks is over."""
MOST_ASIDE = 0.001
"""A place is shown where it was within this share of the farthest: about half a pixel."""
KEPT = "pertxogai.drawing"
"""What the browser calls the drawing that it keeps."""
STOPPED = "the call took over"
"""What a page says of that for which there was no time."""
FAULTY = ("fault", "memory", "stopped", "program", "request", "guard", "lost")
"""The kinds of trouble that no hand makes: a fault of the board, memory that ran out, a worker that
ended or was stopped, a program that didn't answer, a request that isn't the page's, no response."""
COUNTS = """
if (!window.calls_) {
  Object.assign(window, { calls_: [], troubles_: [], print: () => {} });
  const { fetch } = window;
  const note = (call, { kind, message }) => window.troubles_.push([kind, `${call}: ${message}`]);
  const lost = (call) => note(call, { kind: 'lost', message: 'no response' });
  const read = async (call, response) => {
    const { trouble } = await response.json();
    if (trouble) note(call, trouble);
  };
  window.fetch = async (...given) => {
    const [call] = given;
    window.calls_.push(call);
    try {
      const response = await fetch(...given);
      read(call, response.clone()).catch(() => lost(call));
      return response;
    } catch (error) {
      lost(call);
      throw error;
    } finally {
      window.calls_.splice(window.calls_.indexOf(call), 1);
    }
  };
}
"""
"""Keeps the calls that are on their way to the server, and the troubles that it tells; the
browser's own window of printers stays shut."""
BOARD = """
const told = (node) => (node?.getAttribute('class') ?? '').split(' ').filter(Boolean).join(' ');
const all = (selector) => [...document.querySelectorAll(`#board ${selector}`)];
const board = document.getElementById('board').getBoundingClientRect();
const along = (path) => (path ? [0, 0.3, 0.6, 1] : []).map((share) => {
  const { x, y } = path.getPointAtLength(path.getTotalLength() * share);
  return [x, y];
});
const edges = all('.edges [data-name]').map((each) => [
  each.dataset.name, each.querySelector('.shape')]);
return {
  points: Object.fromEntries(all('.dots [data-name]').map((each) => {
    const { x, y, width, height } = each.querySelector('.dothit').getBoundingClientRect();
    return [each.dataset.name, [x + width / 2 - board.x, y + height / 2 - board.y]]; })),
  paths: Object.fromEntries(edges.map(([name, path]) => [name, along(path)])),
  edges: Object.fromEntries(edges.map(([name, path]) => [
    name, [told(path), path?.style.stroke]])),
  marks: all('.marks [data-constraint]').map((each) => [
    Number(each.dataset.constraint), each.querySelector('text').textContent, told(each),
    each.querySelector('title')?.textContent]),
  signs: Object.fromEntries(['proposed', 'checks', 'moves', 'joints', 'faults'].map(
    (kind) => [kind, all(`.${kind} > *`).length])),
};
"""
PANEL = """
const told = (id) => {
  const node = document.getElementById(id).cloneNode(true);
  for (const each of node.querySelectorAll('.time, p:has(#other-shape), .controls')) each.remove();
  return [...node.querySelectorAll('h2, p, li, tr, input, .what, dd, [data-step]')].map(
    (each) => each.value || each.textContent);
};
return Object.fromEntries(['verdict', 'proposed', 'checks', 'asked', 'values', 'steps'].map(
  (id) => [id, told(id)]).concat([['language', [document.getElementById('language').textContent]],
  ['refused', [document.getElementById('refused').textContent]]]));
"""
"""What stands in the panel, without the time that a call took, and without what only the hand knows
that has let go of something."""


@dataclass(frozen=True)
class Sight:
    """What a page shows: its text; where the points are in pixels of the board, and some places
    along each edge; the classes and the colour of each edge; the number, the text, the classes and
    the title of each mark; how many other signs of each kind there are; and each part of the
    panel."""

    text: str
    points: dict[str, list[float]]
    paths: dict[str, list[list[float]]]
    edges: dict[str, list[str | None]]
    marks: list[list[int | str | None]]
    signs: dict[str, int]
    panel: dict[str, list[str]]

    @property
    def verdict(self) -> str:
        """The verdict in a word or two; empty where none is shown."""
        return self.panel["verdict"][0] if self.panel["verdict"] else ""

    def untimed(self) -> Sight:
        """What is shown however much time there was to find a shape, or what is too many."""
        timed = "proposed", "checks", "asked"
        told = {part: [] if part in timed else lines for part, lines in self.panel.items()}
        return replace(
            self, paths={}, points={name: [0.0, 0.0] for name in self.points}, signs={},
            edges=dict.fromkeys(self.edges, []), panel={**told, "verdict": [self.verdict]},
            marks=[mark[:2] for mark in self.marks if int(mark[0] or 0) > 0])


@contextmanager
def counting(page: Page) -> Iterator[None]:
    """Has a page keep its calls that are on their way, and the troubles that it is told, from its
    first call on where it is loaded anew."""
    told = page.driver.execute_cdp_cmd(
        "Page.addScriptToEvaluateOnNewDocument", {"source": COUNTS})
    page.driver.execute_script(COUNTS)
    try:
        yield
    finally:
        page.driver.execute_cdp_cmd("Page.removeScriptToEvaluateOnNewDocument", told)


@contextmanager
def opened_by(page: Page, board: Served) -> Iterator[None]:
    """For a while has another board, whose workers know nothing, show the drawing that the browser
    keeps; in a tab of its own."""
    driver = page.driver
    here = driver.current_window_handle
    kept = driver.execute_script("return localStorage.getItem(arguments[0])", KEPT)
    board.workers.stop()
    driver.switch_to.new_window("tab")
    try:
        driver.get(board.guard.address)
        is_loaded(page)
        driver.execute_script("localStorage.setItem(...arguments)", KEPT, kept)
        with counting(page):
            driver.refresh()
            is_loaded(page)
            yield
    finally:
        driver.close()
        driver.switch_to.window(here)


def is_loaded(page: Page) -> None:
    """Waits until a page that was loaded has a verdict."""
    page.wait("the page", "return document.getElementById('verdict').dataset.verdict")


def errors(page: Page) -> list[str]:
    """What the browser complained of, and each trouble since the page was loaded that no hand
    makes."""
    troubles = page.driver.execute_script("return window.troubles_")
    return page.faults() + [f"{kind}: {told}" for kind, told in troubles if kind in FAULTY]


def settle(page: Page) -> str:
    """Waits until no call is on its way, and nothing has changed for a while; gives the text."""
    last, since, ends = ("", ""), time.monotonic(), time.monotonic() + LONGEST_SECONDS
    while time.monotonic() - since < REST_SECONDS:
        now, calls = (page.text(), page.told()), page.driver.execute_script("return window.calls_")
        assert time.monotonic() < ends, f"it doesn't come to rest: {calls}"
        if now != last or calls:
            last, since = now, time.monotonic()
        time.sleep(0.1)
    return last[0]


def sight_of(page: Page) -> Sight:
    """All that a page shows, once it is at rest, with each tab of its open panel opened."""
    settle(page)
    page.keys("0")
    for tab in ("asked", "values", "steps"):
        page.click(f"#tab-{tab}")
    text, panel = settle(page), page.driver.execute_script(PANEL)
    page.click("#tab-text")
    page.settled()
    return Sight(text=text, panel=panel, **page.driver.execute_script(BOARD))


def shortage(here: Sight, there: Sight) -> str:
    """For want of what time two sights of a drawing may differ; empty where there was enough."""
    told = chain.from_iterable([*here.panel.values(), *there.panel.values()])
    if any(STOPPED in line for line in told):
        return "a call was stopped"
    return "the search took over half of its time" if is_hurried(here) else ""


def is_hurried(sight: Sight) -> bool:
    """Whether the search for the shape that is shown takes more than half of the time that it has:
    then it may have ended sooner in another process, with another shape or none."""
    if sight.verdict != "open":
        return False
    drawing = read_document(sight.text)
    searched_within(drawing, 0.0)  # What it reckons by is loaded.
    began = time.thread_time()
    searched_within(drawing, SEARCH_SECONDS)
    return time.thread_time() - began > SEARCH_SECONDS / 2


def differences(one: Sight, other: Sight) -> list[str]:
    """What two sights of a drawing don't have alike; places by where they lie beside the origin,
    wherever that is shown, and however large."""
    found = [f"{what}: {first!r}, and then {second!r}" for what, first, second in (
        ("text", one.text, other.text), ("edges", one.edges, other.edges),
        ("points", sorted(one.points), sorted(other.points)), ("signs", one.signs, other.signs),
        ("marks", sorted(one.marks, key=str), sorted(other.marks, key=str)),
        *((part, one.panel[part], other.panel[part]) for part in one.panel)) if first != second]
    first, then = beside_origin(one), beside_origin(other)
    return found or [
        f"{name}: {places}, and then {then[name]}" for name, places in first.items()
        if any(math.dist(*pair) > MOST_ASIDE for pair in zip(places, then[name], strict=True))]


def beside_origin(sight: Sight) -> dict[str, list[tuple[float, float]]]:
    """Where points, and places along edges, are shown beside the origin; the farthest at 1."""
    x, y = sight.points["Origin"]
    shown = {**{f"edge {name}": places for name, places in sight.paths.items()},
             **{name: [place] for name, place in sight.points.items()}}
    aside = {name: [(u - x, v - y) for u, v in places] for name, places in shown.items()}
    far = max(math.hypot(*place) for places in aside.values() for place in places) or 1.0
    return {name: [(u / far, v / far) for u, v in places] for name, places in aside.items()}
