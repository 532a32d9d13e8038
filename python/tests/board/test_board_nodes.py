"""The nodes of the board in a real browser: one that shows something else now is as a new one of
it, and has nothing left of what it showed before."""
from __future__ import annotations

from browsing import Page

PATH, TEXT = ["path", {"class": "mark", "d": "M0 0L9 9"}], ["text", {"class": "value"}, "40"]
MADE = {
    "plain": ["g", {"class": "a", "data-a": 1}, None, PATH, TEXT],
    "other values": ["g", {"class": "b c", "data-a": 2, "transform": "translate(1 2)"}, None,
                     ["path", {"class": "mark open", "d": "M1 1", "stroke": "red"}],
                     ["text", {"class": "sign"}, "41"]],
    "nothing in its place": ["g", {"class": None, "data-a": 1, "transform": None}, None,
                             ["path", {"class": "mark", "d": None, "stroke": None}], TEXT],
    "a title": ["g", {"class": "a", "data-a": 1}, ["title", {}, "more"], PATH, TEXT],
    "another title": ["g", {"class": "a", "data-a": 2}, ["title", {}, "less"], PATH, TEXT],
    "no path": ["g", {"class": "a", "data-a": 1}, None, None, TEXT],
    "fewer parts": ["g", {"class": "a", "data-a": 1}, TEXT],
    "fewer attributes": ["g", {"class": "a"}, None, PATH, TEXT],
    "another tag": ["a", {"class": "a", "data-a": 1}, None, PATH, TEXT],
    "a text without a number": ["g", {"class": "a", "data-a": 1}, None, PATH, [*TEXT[:2], ""]],
}
FITS = {
    "plain": ("other values", "nothing in its place"),
    "fewer attributes": ("plain", "other values", "nothing in its place"),
    "other values": ("nothing in its place",), "nothing in its place": ("other values",),
    "a title": ("another title",), "another title": ("a title",)}
"""What may become what: the same parts, and each attribute that there was is told."""
FITTED = """
const [made, done] = arguments;
const names = Object.keys(made);
import(new URL('static/nodes.js', document.baseURI)).then(({ svg, fitted }) => {
  const pairs = names.flatMap((one) => names.map((other) => [one, other]));
  done(pairs.map(([one, other]) => {
    const node = svg(...made[one]);
    const isFitted = fitted(node, made[one], made[other]);
    for (const each of [node, ...node.querySelectorAll('[style=""]')]) {
      if (!each.getAttribute('style')) each.removeAttribute('style');
    }
    return [one, other, isFitted, node.isEqualNode(svg(...made[other]))];
  }));
});
"""


def test_a_node_that_shows_something_else_is_as_a_new_one_of_it(page: Page) -> None:
    told = page.driver.execute_async_script(FITTED, MADE)
    assert [(one, other) for one, other, is_fitted, is_same in told if is_fitted > is_same] == []
    assert {(one, other) for one, other, is_fitted, _ in told if is_fitted} == {
        (one, other) for one in MADE for other in (one, *FITS.get(one, ()))}
