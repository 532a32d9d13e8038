"""The board in a real browser under a hand that does anything: no error in the console or of the
server, no drawing that is lost, no answer that is stale. PERTXOGAI_SEEDS and PERTXOGAI_ACTIONS have
it do more: `PERTXOGAI_SEEDS=10 PERTXOGAI_ACTIONS=300 pytest -rP` takes some minutes a seed, and
tells of each how much was compared, and what wasn't. PERTXOGAI_PATIENCE=5 has it wait five times as
long, on a slow machine."""
from __future__ import annotations

import os
import random
from collections.abc import Iterator
from dataclasses import dataclass, field, replace

import pytest

from all_shown import (
    Sight, counting, differences, errors, is_loaded, opened_by, shortage, sight_of)
from any_hand import Hand
from boards import DRAWINGS, Served, served
from browsing import Page

from pertxogai.program import Program

pytest.importorskip("numpy", reason="copies are held by rank, by Debian's python3-numpy")
pytest.importorskip("scipy", reason="shapes of what is open are found by Debian's python3-scipy")

SEEDS = range(int(os.environ.get("PERTXOGAI_SEEDS", "1")))
ACTIONS = int(os.environ.get("PERTXOGAI_ACTIONS", "40"))
FITS = DRAWINGS.parent / "fits"
BEGUN = (DRAWINGS / "slotted-plate.drawing", None, DRAWINGS / "open-hinge.drawing",
         DRAWINGS / "over-hole-row.drawing", FITS / "row-of-blocks.drawing",
         DRAWINGS / "plate-by-values.drawing", DRAWINGS / "plate-with-hole.drawing")
"""What the seeds begin with in turn: a drawing, or nothing."""
LOOK = 100
"""After so many actions the hand gives all up, and what is shown is looked at."""
MOST_STEPS = 500
"""So many texts are kept to be undone."""
STEP = """
const [button, done] = arguments, area = document.getElementById('text'), before = area.value;
document.getElementById(button).click();
const look = () => {
  if (area.value !== before) done([area.value, document.getElementById('undo').ariaDisabled]);
  else setTimeout(look, 5);
};
look();
"""
"""Clicks a button of the history, and waits for the other text; gives that, and whether there is
nothing more to be undone."""


@dataclass
class Watch:
    """Looks at a page under a hand, and compares it with another board's. compared: how often;
    in_part: where two sights were compared in part, for want of what time, and what differed."""

    hand: Hand
    other: Served
    compared: int = 0
    in_part: list[str] = field(default_factory=list)

    def look(self, where: str) -> Sight:
        """The hand gives all up: the page shows what another board shows of the drawing that the
        browser keeps, and neither of them was told of an error."""
        page = self.hand.page
        self.hand.give_up()
        here = sight_of(page)
        assert errors(page) == [], self._last(where, here)
        with opened_by(page, self.other):
            there = sight_of(page)
            assert errors(page) == [], self._last(where, here)
        self.compare(where, here, there)
        return here

    def compare(self, where: str, here: Sight, there: Sight) -> None:
        """Two sights are alike; where they aren't and time was short, in what doesn't hang on
        that."""
        self.compared += 1
        found = differences(here, there)
        if found and (why := shortage(here, there)):
            self.in_part.append("\n".join([f"{where}: {why}", *found]))
            found = differences(here.untimed(), there.untimed())
        assert not found, "\n".join([*found, self._last(where, here)])

    def _last(self, where: str, sight: Sight) -> str:
        return f"{where}: {self.hand.done[-40:]}\n{sight.text}"

    def told(self) -> str:
        """How much was compared."""
        return "\n".join([f"{len(self.hand.done)} acts, {self.compared} comparisons, "
                          f"{len(self.in_part)} of them in part", *self.in_part])


@pytest.fixture
def other(program: Program) -> Iterator[Served]:
    """Another board, that knows nothing of what is asked of the first."""
    with served(program) as found:
        yield found


@pytest.mark.parametrize("seed", SEEDS)
def test_a_hand_that_does_anything(page: Page, board: Served, other: Served, seed: int) -> None:
    hand = Hand(page, random.Random(seed))
    watch, begun = Watch(hand, other), BEGUN[seed % len(BEGUN)]
    with counting(page):
        if begun:
            page.type(begun.read_text(encoding="utf-8"))
            page.wait("a drawing", "return document.querySelector('.edges [data-name]')")
            page.keys("0")
            page.settled()
        for number in range(1, ACTIONS + 1):
            hand.act()
            if number % LOOK == 0 and number < ACTIONS:
                watch.look(f"action {number}")
        kept(watch, board)
    print(f"seed {seed}: {watch.told()}")


def kept(watch: Watch, board: Served) -> None:
    """Undoes all, and does as much again; then loads the page anew, with workers that know nothing.
    All is the same each time."""
    page, seen = watch.hand.page, watch.look("the last action")
    undone_and_redone(page, watch.hand, seen.text)
    watch.compare("undone and redone", seen, sight_of(page))
    assert errors(page) == []
    board.workers.stop()
    page.driver.refresh()
    is_loaded(page)
    watch.compare("loaded anew", seen, sight_of(page))
    assert errors(page) == []


def undone_and_redone(page: Page, hand: Hand, text: str) -> None:
    """Undoes all, to the text with which the drawing was begun, and does as much again: the hand
    may have undone its last changes itself, and these stay undone."""
    is_first = page.count("#undo[aria-disabled=true]") > 0
    page.driver.execute_script("document.getElementById('text').focus()")  # It is written at once.
    texts = [text]
    while not is_first:
        before, disabled = page.driver.execute_async_script(STEP, "undo")
        texts.append(before)
        is_first = disabled == "true"
    assert texts[-1] == hand.first or len(texts) == MOST_STEPS, hand.done
    for before in reversed(texts[:-1]):
        assert page.driver.execute_async_script(STEP, "redo")[0] == before, hand.done


# What two sights don't have alike.

SEEN = Sight(
    "drawing 1\nsegment A 0 0 40 0\nlength A 40\n",
    points={"Origin": [100, 300], "A.start": [100, 300], "A.end": [260, 300]},
    paths={"A": [[100, 300], [148, 300], [196, 300], [260, 300]]}, edges={"A": ["shape", "red"]},
    marks=[[1, "40", "markgroup", None]], signs={"moves": 1},
    panel={"verdict": ["open", "3 degrees of freedom"], "asked": ["1 length A 40"]})


def test_a_sight_at_another_place_and_scale_is_the_same() -> None:
    def shown(place: list[float]) -> list[float]:
        return [2 * place[0] + 7, 2 * place[1] - 30]
    there = replace(SEEN, points={name: shown(place) for name, place in SEEN.points.items()},
                    paths={name: list(map(shown, places)) for name, places in SEEN.paths.items()})
    assert differences(SEEN, there) == []


@pytest.mark.parametrize("what, there", [
    ("text", replace(SEEN, text="")),
    ("edges", replace(SEEN, edges={"A": ["shape free", "red"]})),
    ("edges", replace(SEEN, edges={"A": ["shape", "blue"]})),
    ("signs", replace(SEEN, signs={"moves": 0})),
    ("marks", replace(SEEN, marks=[[1, "41", "markgroup", None]])),
    ("asked", replace(SEEN, panel={**SEEN.panel, "asked": []})),
    ("A.end", replace(SEEN, points={**SEEN.points, "A.end": [260, 301]})),
    ("edge A", replace(SEEN, paths={"A": [[100, 300], [148, 301], [196, 301], [260, 300]]})),
])
def test_what_is_shown_otherwise_is_told(what: str, there: Sight) -> None:
    (found,) = differences(SEEN, there)
    assert found.startswith(f"{what}: ")


def test_what_takes_time_is_left_out_where_that_was_short() -> None:
    there = replace(SEEN, edges={"A": ["shape free", "blue"]}, signs={"moves": 2},
                    points={**SEEN.points, "A.end": [100, 140]},
                    panel={"asked": ["1 length A 40: redundant"],
                           "verdict": ["open", "the call took over 60 s and was stopped"]})
    assert shortage(SEEN, there) == shortage(there, SEEN) == "a call was stopped"
    assert differences(SEEN.untimed(), there.untimed()) == []
    for other in (replace(SEEN, text=""), replace(SEEN, edges={}),
                  replace(SEEN, marks=[[1, "41", "markgroup", None]]),
                  replace(SEEN, panel={**SEEN.panel, "verdict": ["well"]})):
        assert len(differences(SEEN.untimed(), other.untimed())) == 1
    assert shortage(SEEN, SEEN) == ""  # A segment of the length that is asked for.
