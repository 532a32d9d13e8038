"""How long a hand takes for what it does on a page: the keystroke-level model of Card, Moran and
Newell."""
from __future__ import annotations

from browsing import Page

POINTING, PRESS, KEY, THOUGHT = 1.1, 0.2, 0.28, 1.35
"""Seconds that a hand takes to point, to press a button, to press a key, and to think before it
points."""
COUNT = """window.hand = { pointerdown: 0, keydown: 0 };
for (const what of Object.keys(window.hand)) {
  addEventListener(what, () => { window.hand[what] += 1; }, { capture: true });
}"""


def count_keystrokes(page: Page) -> None:
    """Counts presses and keys from now on."""
    page.driver.execute_script(COUNT)


def seconds_of(page: Page) -> float:
    """How long a hand would take for the presses and keys that were counted."""
    hand = page.driver.execute_script("return window.hand")
    return float(hand["pointerdown"] * (THOUGHT + POINTING + PRESS) + hand["keydown"] * KEY)
