"""A chart of what must fit, as SVG: of each check the worst case and the root of the sum of squares
between its limits, and below them which dimension gives how much; and the checks that aren't
known."""
from __future__ import annotations

from collections.abc import Iterator
from fractions import Fraction
from html import escape

from pertxogai.drawing import Drawing
from pertxogai.fitting import Answer, CheckedFit, Fit, Range, Share, UnknownFit
from pertxogai.output.fit_text import (
    number_text, tolerance_text, unit_of, words_of_dimension)

WIDTH, LEFT, RIGHT, MARGIN = 800, 320, 150, 20
"""Pixels: the whole, the room of names to the left of bars, that of numbers to the right."""
ROW, BAR = 24, 12
ROOM = WIDTH - LEFT - RIGHT
MOST_LETTERS = 46
"""A longer name is cut."""
MOST_BARS = 12
KIND = {Answer.FITS: "fits", Answer.UNSURE: "unsure", Answer.BEYOND: "off"}
MARK = {Answer.FITS: "(fits)", Answer.UNSURE: "(not known)", Answer.BEYOND: "(doesn't fit)"}
STYLE = """
    .back { fill: #ffffff }
    .title { font-weight: bold }
    text { font-family: Helvetica, Arial, sans-serif; font-size: 13px; fill: #1d3b5a }
    .end { text-anchor: end }
    .limits { fill: #e3ecf4 }
    .limit { stroke: #5a6673; stroke-width: 1.5 }
    .fits { fill: #1a7048 }
    .off { fill: #c01a1a }
    .unsure { fill: #8a6100 }
    .nominal { stroke: #ffffff; stroke-width: 2 }
    .gives { fill: #4f7ea8 }
"""


def fit_chart(name: str, found: Fit) -> str:
    """The chart of a drawing of that name."""
    rows: list[str] = []
    height = MARGIN
    for each in found.checks:
        if isinstance(each, UnknownFit):
            title = f"{each.check.name}: {each.check.words()} {MARK[each.answer]}"
            rows.append(_text(MARGIN, height + ROW, title, f"title {KIND[each.answer]}"))
            height += 2 * ROW
            continue
        rows.extend(_Check(found.drawing, each, height + ROW).elements())
        height += (4 + min(len(each.shares), MOST_BARS + 1)) * ROW
    return "\n".join([
        f'<svg xmlns="http://www.w3.org/2000/svg" width="{WIDTH}" height="{height + MARGIN}" '
        f'viewBox="0 0 {WIDTH} {height + MARGIN}" role="img">',
        f"<title>the checks of {escape(name)}</title>", f"<style>{STYLE}</style>",
        f'<rect class="back" width="{WIDTH}" height="{height + MARGIN}"/>', *rows, "</svg>", ""])


class _Check:
    """The rows of one check, from a height on."""

    def __init__(self, drawing: Drawing, found: CheckedFit, top: int) -> None:
        self._drawing, self._found, self._top = drawing, found, top
        ranges = [found.placed, *([found.by_squares] if found.by_squares else [])]
        ends = [Fraction(each) for each in (
            found.low, found.high, *(end for it in ranges for end in (it.least, it.greatest)))
            if each is not None]
        least, greatest = min(ends), max(ends)
        room = (greatest - least) * Fraction(1, 10) or Fraction(1)
        self._least, self._wide = least - room, greatest - least + 2 * room

    def elements(self) -> Iterator[str]:
        """The elements of SVG."""
        found, unit = self._found, unit_of(self._found)
        title = f"{found.check.name}: {found.check.words()} ({unit})"
        yield _text(MARGIN, self._top, title, "title")
        yield from self._range(1, "worst case", found.placed, found.answer)
        if found.by_squares is not None:
            answer = Answer.FITS if found.fits_by_squares else Answer.BEYOND
            yield from self._range(2, "root sum square", found.by_squares, answer)
        most = max((share.gives for share in found.shares), default=1)
        for row, share in enumerate(found.shares[:MOST_BARS], start=3):
            yield from self._bar(row, share, most, unit)
        if len(found.shares) > MOST_BARS:
            yield _text(LEFT - 12, self._top + (MOST_BARS + 3) * ROW,
                        f"and {len(found.shares) - MOST_BARS} more, each as much or less", "end")

    def _range(self, row: int, label: str, of: Range, answer: Answer) -> Iterator[str]:
        """A range between the limits, where there are some, with the place of the check as all is
        given."""
        y, found = self._top + row * ROW, self._found
        low, high = (edge if limit is None else self._x(limit) for limit, edge in
                     ((found.low, LEFT), (found.high, LEFT + ROOM)))
        has_limits = found.check.has_limits
        yield _text(LEFT - 12, y, f"{label} {MARK[answer]}" if has_limits else label, "end")
        yield _rect(low, y - BAR - 2, high - low, BAR + 6, "limits")
        begin, end = self._x(of.least), self._x(of.greatest)
        kind = KIND[answer] if has_limits else "gives"
        yield _rect(begin, y - BAR + 1, max(end - begin, 2), BAR, kind)
        for limit in (found.low, found.high):
            if limit is not None:
                yield _upright(self._x(limit), y, "limit")
        yield _upright(self._x(found.nominal), y, "nominal")
        yield _text(LEFT + ROOM + 10, y, f"{number_text(of.least)} .. {number_text(of.greatest)}")

    def _bar(self, row: int, share: Share, most: int, unit: str) -> Iterator[str]:
        """What one dimension gives."""
        y = self._top + row * ROW
        called = words_of_dimension(self._drawing, share.dimension)
        if share.dimension.is_general:
            called = f"{called} ({tolerance_text(share.dimension)})"
        cut = called if len(called) <= MOST_LETTERS else called[:MOST_LETTERS - 2] + ".."
        yield _text(LEFT - 12, y, cut, "end")
        yield _rect(LEFT, y - BAR + 1, max(ROOM * share.gives / most, 1), BAR, "gives")
        yield _text(LEFT + ROOM + 10, y,
                    f"{number_text(share.gives)} {unit}, {100 * share.part:.1f} %")

    def _x(self, millionths: int | Fraction) -> float:
        return LEFT + ROOM * float((Fraction(millionths) - self._least) / self._wide)


def _text(x: float, y: float, text: str, kind: str = "") -> str:
    return f'<text x="{x:.1f}" y="{y:.1f}" class="{kind}">{escape(text)}</text>'


def _rect(x: float, y: float, width: float, height: float, kind: str) -> str:
    return (f'<rect x="{x:.1f}" y="{y:.1f}" width="{width:.1f}" height="{height:.1f}" '
            f'class="{kind}"/>')


def _upright(x: float, y: float, kind: str) -> str:
    return (f'<line x1="{x:.1f}" y1="{y - BAR - 2:.1f}" x2="{x:.1f}" y2="{y + 4:.1f}" '
            f'class="{kind}"/>')
