"""Where names and dimensions stand: each where it covers least."""
from __future__ import annotations

import math
from collections.abc import Callable, Sequence
from dataclasses import dataclass

from pertxogai.output.picture.cells import Cells
from pertxogai.output.picture.marks import Dot, Ink, PointMm, Ring
from pertxogai.output.picture.page import Figure, Page
from pertxogai.output.picture.plane import Box, between, crosses, overlaps, reach, unit

WIDE_LETTER = 0.58
EDGE = 2
"""No text stands nearer to the edge of the page, in pixels."""
EIGHTHS = [(math.cos(turn * math.pi / 4), math.sin(turn * math.pi / 4)) for turn in range(8)]
Places = Callable[[float, float], Sequence[PointMm]]


@dataclass(frozen=True)
class Text:
    """A text on the page: the middle of its foot, in pixels."""

    words: str
    at: PointMm
    size: int
    kind: str
    ink: Ink


class Texts:
    """The texts that stand so far, and the lines and circles that they should leave free."""

    def __init__(
        self, page: Page, figures: Sequence[Figure], bars: Sequence[tuple[PointMm, PointMm]]
    ) -> None:
        self.page = page
        self.written: list[Text] = []
        side = max(page.width, page.height)
        self.boxes: Cells[Box] = Cells(side)
        self.figures: Cells[Figure] = Cells(side)
        self.bars: Cells[tuple[PointMm, PointMm]] = Cells(side)
        for figure in figures:
            _add_figure(self.figures, figure)
        for bar in bars:
            self.bars.add_segment(bar, *bar, 0.0)

    def put_name(self, figure: Figure) -> None:
        """Writes the name of a figure."""
        self._put(figure.mark.name, 14, "name", figure.mark.ink, self._name_places(figure), figure)

    def put_beside(self, words: str, start: PointMm, end: PointMm, ink: Ink) -> None:
        """Writes a dimension along a bar."""
        self._put(
            words, 12, "length", ink, lambda wide, tall: self._beside(start, end, wide, tall), None
        )

    def put_near(self, words: str, at: PointMm, radius: float, ink: Ink) -> None:
        """Writes a dimension near a place, or near the rim around it, in any direction."""
        fars = [radius + far for far in (1, 9, 20)] + ([0.0] if radius > 26 else [])
        self._put(
            words,
            12,
            "length",
            ink,
            lambda wide, tall: [
                _beyond(at, way, far, wide, tall) for far in fars for way in EIGHTHS
            ],
            None,
        )

    def _put(
        self, words: str, size: int, kind: str, ink: Ink, places: Places, named: Figure | None
    ) -> None:
        wide, tall = len(words) * size * WIDE_LETTER, float(size)
        place, box = self._best(places(wide, tall), wide, tall, named)
        if self._is_outside(box):
            place = self._inside(place, wide, tall)
            box = _box(place, wide, tall)
        self.boxes.add_box(box, box)
        self.written.append(Text(words, (place[0], place[1] + 0.35 * tall), size, kind, ink))

    def _is_outside(self, box: Box) -> bool:
        """Whether a text in a box would be cut off at the edge of the page, or touch that."""
        return (
            min(box[0], box[1]) < EDGE
            or box[2] > self.page.width - EDGE
            or box[3] > self.page.height - EDGE
        )

    def _inside(self, place: PointMm, wide: float, tall: float) -> PointMm:
        """The nearest place at which a text isn't cut off, where the page is wide enough."""
        (x, y), page = place, self.page
        return _between_edges(x, wide, page.width), _between_edges(y, tall, page.height)

    def _best(
        self, places: Sequence[PointMm], wide: float, tall: float, named: Figure | None
    ) -> tuple[PointMm, Box]:
        """The first of the places where a text costs least, with its box."""
        best, least = (places[0], _box(places[0], wide, tall)), math.inf
        for place in places:
            box = _box(place, wide, tall)
            cost = self._cost(box, place, named)
            if cost < least:
                best, least = (place, box), cost
            if cost == 0:
                break
        return best

    def _cost(self, box: Box, place: PointMm, named: Figure | None) -> int:
        """How much a text in a box would cover, or mislead."""
        wide = (box[0] - 3, box[1], box[2] + 3, box[3])
        texts = sum(overlaps(wide, it) for it in self.boxes.near(wide))
        figures = self.figures.near(box)
        strokes = sum(_is_covered(it, box) for it in figures)
        strange = named is not None and any(_misleads(place, named, it) for it in figures)
        return (
            5 * texts
            + 40 * self._is_outside(box)
            + 2 * strokes
            + 3 * strange
            + sum(crosses(*it, box) for it in self.bars.near(box))
        )

    def _name_places(self, figure: Figure) -> Places:
        if len(figure.places) > 1:
            middle = len(figure.places) // 2
            start, end = figure.places[middle - 1], figure.places[middle]
            return lambda wide, tall: self._beside(start, end, wide, tall)
        return lambda wide, tall: self._around(figure, wide, tall)

    def _around(self, figure: Figure, wide: float, tall: float) -> list[PointMm]:
        """Within a circle, else outwards from the middle of the page."""
        (x, y), radius = figure.places[0], figure.radius
        within = (
            [(x, y), (x, y + radius - tall), (x, y - radius + tall)]
            if isinstance(figure.mark, Ring)
            else []
        )
        middle = self.page.width / 2, self.page.height / 2
        ways = sorted(
            EIGHTHS, key=lambda way: round(way[0] * (middle[0] - x) + way[1] * (middle[1] - y), 3)
        )
        return within + [
            _beyond((x, y), way, radius + far, wide, tall) for far in (3, 12) for way in ways
        ]

    def _beside(self, start: PointMm, end: PointMm, wide: float, tall: float) -> list[PointMm]:
        """Along a segment: near its middle and outside first."""
        across = unit(start[1] - end[1], end[0] - start[0])
        inwards = across[0] * (self.page.width / 2 - start[0]) + across[1] * (
            self.page.height / 2 - start[1]
        )
        sides = [across, (-across[0], -across[1])]
        if inwards > 0:
            sides.reverse()
        shares = (0.5, 0.4, 0.6, 0.3, 0.7, 0.2, 0.8, 0.12, 0.88)
        return [
            _beyond(between(start, end, share), side, far, wide, tall)
            for far in (2, 11)
            for share in shares
            for side in sides
        ]


def _add_figure(cells: Cells[Figure], figure: Figure) -> None:
    """Adds a figure where it is near enough to a text to matter; a circle with all that is
    within it."""
    if len(figure.places) > 1:
        for one, two in zip(figure.places, figure.places[1:]):
            cells.add_segment(figure, one, two, 0.0)
    else:
        (x, y), far = figure.places[0], figure.radius + 6
        cells.add_box(figure, (x - far, y - far, x + far, y + far))


def _box(place: PointMm, wide: float, tall: float) -> Box:
    x, y = place
    return x - wide / 2, y - tall / 2, x + wide / 2, y + tall / 2


def _between_edges(at: float, long: float, page: float) -> float:
    """The middle of a text that is so long, within a page; where it was, on a shorter page."""
    least, most = long / 2 + EDGE, page - long / 2 - EDGE
    return at if least > most else min(max(at, least), most)


def _beyond(place: PointMm, way: PointMm, far: float, wide: float, tall: float) -> PointMm:
    """The middle of a text that stands so far from a place, and a little more, in a direction."""
    far += abs(way[0]) * wide / 2 + abs(way[1]) * tall / 2 + 4
    return place[0] + way[0] * far, place[1] + way[1] * far


def _is_covered(figure: Figure, box: Box) -> bool:
    """Whether the stroke of a figure runs through a box."""
    if len(figure.places) > 1:
        return any(crosses(one, two, box) for one, two in zip(figure.places, figure.places[1:]))
    near, far = reach(figure.places[0], box)
    return near <= max(figure.radius + 2, 5) and far >= figure.radius - 3


def _misleads(place: PointMm, named: Figure, other: Figure) -> bool:
    """Whether a name at a place would be taken for that of another circle."""
    if isinstance(named.mark, Dot) or named is other:
        return other is not named and other.holds(place) and not other.holds(named.places[0])
    return other.holds(place) and (other.radius < named.radius or not other.holds(named.places[0]))
