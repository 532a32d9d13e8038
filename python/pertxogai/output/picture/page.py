"""Millimetres on a page of pixels, and the shapes on it."""
from __future__ import annotations

import math
from collections.abc import Iterable, Sequence
from dataclasses import dataclass

from pertxogai.output.picture.marks import (
    Bow, Dimension, Dot, LengthBar, Mark, PointMm, Ring, Scene, Stroke)
from pertxogai.output.picture.plane import sweep

MARGIN = 44.0
WIDTH, HEIGHT, MOST = 560.0, 330.0, 8000.0
ROOM = 2600.0
PIXELS = 96 / 25.4
"""The pixels of a millimetre of paper, as SVG has them."""


@dataclass(frozen=True)
class Page:
    """A page on which millimetres (y up) are pixels (y down): so many a millimetre, with
    `middle` in its middle."""

    width: float
    height: float
    scale: float
    middle: PointMm

    def at(self, place: PointMm) -> PointMm:
        """The pixel of a place."""
        return (
            self.width / 2 + (place[0] - self.middle[0]) * self.scale,
            self.height / 2 - (place[1] - self.middle[1]) * self.scale,
        )

    @staticmethod
    def fitted(scene: Scene) -> Page:
        """The page that holds a scene: larger the more there is to name, and no higher than it
        need be."""
        wide, tall, middle = _box(scene)
        scale = _scale(wide, tall, len(scene.marks) + len(scene.dimensions))
        width = max(WIDTH, float(round(wide * scale + 2 * MARGIN)))
        return Page(width, float(round(tall * scale + 2 * MARGIN)), scale, middle)

    @staticmethod
    def to_scale(scene: Scene, paper: float) -> Page:
        """The page that holds a scene on which a millimetre is `paper` millimetres long."""
        (wide, tall, middle), scale = _box(scene), paper * PIXELS
        width, height = (math.ceil(it * scale + 2 * MARGIN) for it in (wide, tall))
        return Page(float(width), float(height), scale, middle)


def _box(scene: Scene) -> tuple[float, float, PointMm]:
    """How wide and tall a scene is, in mm, and its middle."""
    spots = [
        spot for mark in (*scene.marks, *scene.dimensions) for spot in _corners(mark)
    ] or [(0.0, 0.0)]
    low = min(x for x, _ in spots), min(y for _, y in spots)
    high = max(x for x, _ in spots), max(y for _, y in spots)
    middle = (low[0] + high[0]) / 2, (low[1] + high[1]) / 2
    return max(high[0] - low[0], 1e-3), max(high[1] - low[1], 1e-3), middle


def _scale(wide: float, tall: float, count: int) -> float:
    """The pixels of a millimetre, for a scene so wide and tall that has so many things: as many
    as fit the page, or more where each wouldn't have its room; but no side gets longer than
    MOST."""
    fits = min((WIDTH - 2 * MARGIN) / wide, (HEIGHT - 2 * MARGIN) / tall)
    roomy = math.sqrt(ROOM * count / (max(wide, tall / 6) * max(tall, wide / 6)))
    return min(max(fits, roomy), MOST / max(wide, tall))


def _corners(mark: Mark | Dimension) -> Iterable[PointMm]:
    """Places whose box is that of a mark."""
    if isinstance(mark, Ring):
        return _around(mark.centre, mark.radius)
    if isinstance(mark, Bow):
        return arc_places(mark)
    if isinstance(mark, (Stroke, LengthBar)):
        return mark.start, mark.end
    return (mark.at,)


def _around(centre: PointMm, radius: float) -> Sequence[PointMm]:
    x, y = centre
    return (x - radius, y - radius), (x + radius, y + radius)


def arc_places(arc: Bow) -> Sequence[PointMm]:
    """Places along an arc, close enough together to stand for it."""
    first, turn = sweep(arc.centre, arc.start, arc.end)
    radius = math.dist(arc.centre, arc.start)
    count = max(int(turn * 16), 2)
    angles = (first + turn * k / count for k in range(count + 1))
    return [
        (arc.centre[0] + radius * math.cos(it), arc.centre[1] + radius * math.sin(it))
        for it in angles
    ]


@dataclass(frozen=True)
class Figure:
    """A mark on the page: its places in pixels (of an arc many, in order), and its radius if it
    is a circle."""

    mark: Mark
    places: tuple[PointMm, ...]
    radius: float

    @staticmethod
    def of(mark: Mark, page: Page) -> Figure:
        """The figure of a mark."""
        if isinstance(mark, Dot):
            return Figure(mark, (page.at(mark.at),), 0.0)
        if isinstance(mark, Ring):
            return Figure(mark, (page.at(mark.centre),), mark.radius * page.scale)
        spots = arc_places(mark) if isinstance(mark, Bow) else (mark.start, mark.end)
        return Figure(mark, tuple(map(page.at, spots)), 0.0)

    def holds(self, place: PointMm) -> bool:
        """Whether a place lies within it, if it is a circle."""
        return isinstance(self.mark, Ring) and math.dist(place, self.places[0]) < self.radius
