"""A scene as SVG."""
from __future__ import annotations

import math
from collections.abc import Iterator
from dataclasses import dataclass, field
from fractions import Fraction
from html import escape
from pathlib import Path
from textwrap import wrap

from pertxogai.output.picture.marks import (
    Arrow, Bow, Dot, Ink, LengthBar, Manner, PointMm, Ring, Scene, Square, Tag)
from pertxogai.output.picture.page import PIXELS, Figure, Page
from pertxogai.output.picture.plane import sweep
from pertxogai.output.picture.texts import Text, Texts

COLOURS = ("#1d3b5a", "#a8410b", "#1a7048", "#7a2a8c", "#8a6a00", "#0b6a8a", "#a01f4b", "#4d4d4d")
SPARE_COLOUR = "#c01a1a"
LEGEND_LINE = 20
SCALE_ROOM = 30
"""The room of the bar that tells the scale, in pixels."""
LEGEND_LETTER = 7.2
STYLE = """
    .back { fill: #ffffff }
    .edge { stroke-width: 2; fill: none; stroke-linecap: round }
    .construction { stroke-width: 1.3; fill: none; stroke-dasharray: 7 4 }
    .datum { stroke: #9aa5b1; stroke-width: 1; fill: none; stroke-dasharray: 12 3 2 3 }
    .bar { stroke: #8794a2; stroke-width: 1.2; fill: none }
    .spare { stroke: #c01a1a; stroke-width: 1.6; stroke-dasharray: 5 3; fill: none }
    text { font-family: Helvetica, Arial, sans-serif; text-anchor: middle;
      stroke: #ffffff; stroke-width: 3px; stroke-linejoin: round; paint-order: stroke }
    .name { font-size: 14px }
    .length { font-size: 12px; fill: #5a6673 }
    .legend { font-size: 13px; text-anchor: start }
"""
FREE_STYLE = """\
    .free { stroke-width: 2; stroke-opacity: 0.4; fill: none; stroke-linecap: round }
    .move { stroke: #a8410b; stroke-width: 1.4; fill: none; stroke-linejoin: round }
"""
"""What a picture of an open drawing has besides."""
ARROW, BARB = 22, 5
"""Half the length of an arrow, and the length of its barbs."""


@dataclass(frozen=True)
class Picture:
    """A picture of a scene as SVG. Notebooks show it."""

    svg: str
    scene: Scene = field(repr=False, compare=False)

    def _repr_svg_(self) -> str:
        return self.svg

    def save(self, path: str | Path) -> None:
        """Writes it to a file. Raises OSError."""
        Path(path).write_text(self.svg, encoding="utf-8")

    def to_scale(self, paper: Fraction) -> Picture:
        """The same picture for printing: a millimetre of the drawing is `paper` millimetres long,
        and a bar shows the scale."""
        return Picture("\n".join([*_Drawer(self.scene, paper).lines(), ""]), self.scene)


def picture_of(scene: Scene) -> Picture:
    """Draws the picture of a scene."""
    return Picture("\n".join([*_Drawer(scene).lines(), ""]), scene)


class _Drawer:
    """A scene on its page."""

    def __init__(self, scene: Scene, paper: Fraction | None = None) -> None:
        self.scene, self.paper = scene, paper
        self.page = Page.fitted(scene) if paper is None else Page.to_scale(scene, float(paper))
        self.figures = [Figure.of(mark, self.page) for mark in scene.marks]
        self.legend = [
            (row, ink)
            for words, ink in scene.legend
            for row in wrap(
                words, int((self.page.width - 28) / LEGEND_LETTER), subsequent_indent="    "
            )
        ]
        self.bars = [
            (self.page.at(it.start), self.page.at(it.end), it)
            for it in scene.dimensions
            if isinstance(it, LengthBar)
        ]

    def lines(self) -> Iterator[str]:
        """The lines of the SVG."""
        wide, tall = self.page.width, self.page.height + LEGEND_LINE * len(self.legend)
        bar = ScaleBar.of(self.page, self.paper, tall) if self.paper else None
        tall += SCALE_ROOM if bar else 0
        yield f'<svg xmlns="http://www.w3.org/2000/svg" {_size(wide, tall, bar is not None)}>'
        yield f"  <title>{escape(self.scene.title)}</title>"
        yield f"  <style>{STYLE}{self._free_style()}{''.join(self._part_styles())}  </style>"
        yield f'  <rect class="back" width="{wide:g}" height="{tall:g}"/>'
        for start, end, length in self.bars:
            yield f"  <line {_class(length.ink)} {_ends(start, end)}/>"
        yield from self._squares()
        yield from map(_svg_of, self.figures)
        yield from self._arrows()
        yield from map(_text_element, self._texts())
        yield from self._legend()
        if bar:
            yield from bar.lines()
        yield "</svg>"

    def _free_style(self) -> str:
        inks = (it.ink.manner for it in (*self.scene.marks, *self.scene.dimensions))
        return FREE_STYLE if {Manner.FREE, Manner.MOVE} & set(inks) else ""

    def _part_styles(self) -> Iterator[str]:
        inks = [it.ink for it in (*self.scene.marks, *self.scene.dimensions)] + [
            ink for _, ink in self.scene.legend
        ]
        for part in sorted({ink.part or 0 for ink in inks}):
            colour = COLOURS[max(part - 1, 0) % len(COLOURS)]
            yield f"    .p{part} {{ stroke: {colour} }} .f{part} {{ fill: {colour} }}\n"

    def _texts(self) -> list[Text]:
        texts = Texts(self.page, self.figures, [(start, end) for start, end, _ in self.bars])
        for figure in sorted(self.figures, key=_order):
            if figure.mark.name:
                texts.put_name(figure)
        for start, end, bar in self.bars:
            if bar.text:
                texts.put_beside(bar.text, start, end, bar.ink)
        for tag in self.scene.dimensions:
            if isinstance(tag, Tag):
                texts.put_near(
                    tag.text, self.page.at(tag.at), tag.radius * self.page.scale, tag.ink
                )
        return texts.written

    def _squares(self) -> Iterator[str]:
        for it in self.scene.dimensions:
            if isinstance(it, Square):
                x, y = self.page.at(it.at)
                (ux, uy), (vx, vy) = ((8 * way[0], -8 * way[1]) for way in (it.first, it.second))
                spots = ((x + ux, y + uy), (x + ux + vx, y + uy + vy), (x + vx, y + vy))
                points = " ".join(f"{a:.1f},{b:.1f}" for a, b in spots)
                yield f'  <polyline {_class(it.ink)} points="{points}"/>'

    def _arrows(self) -> Iterator[str]:
        """A line with a barb at both ends for each way in which a point still moves."""
        for it in self.scene.dimensions:
            if isinstance(it, Arrow):
                spots = _arrow(self.page.at(it.at), (it.way[0], -it.way[1]))
                points = " ".join(f"{x:.1f},{y:.1f}" for x, y in spots)
                yield f'  <polyline {_class(it.ink)} points="{points}"/>'

    def _legend(self) -> Iterator[str]:
        for row, (words, ink) in enumerate(self.legend):
            x, y = 14 if words == words.lstrip() else 28, self.page.height + LEGEND_LINE * row + 6
            place = f'x="{x}" y="{y:.1f}"'
            yield f'  <text class="legend" {_fill(ink)} {place}>{escape(words.strip())}</text>'


def _size(wide: float, tall: float, is_to_scale: bool) -> str:
    """The size of a picture in pixels; to scale, in millimetres of paper."""
    if not is_to_scale:
        return f'width="{wide:g}" height="{tall:g}" viewBox="0 0 {wide:g} {tall:g}"'
    size = f'width="{wide / PIXELS:.4f}mm" height="{tall / PIXELS:.4f}mm"'
    return f'{size} viewBox="0 0 {wide:g} {tall:g}"'


@dataclass(frozen=True)
class ScaleBar:
    """A bar of a round length (mm of the drawing), `pixels` long, at the foot of a page, and what
    is said of it."""

    pixels: float
    y: float
    text: str

    @staticmethod
    def of(page: Page, paper: Fraction, y: float) -> ScaleBar:
        """The longest of 1, 2, 5, 10, .. mm that takes at most a third of the page's width."""
        most = page.width / 3 / page.scale
        power = 10.0 ** math.floor(math.log10(most))
        length = max(it * power for it in (1, 2, 5) if it * power <= most)
        scale = f"{paper.numerator}:{paper.denominator}"
        return ScaleBar(length * page.scale, y + SCALE_ROOM / 2, f"{length:g} mm, scale {scale}")

    def lines(self) -> Iterator[str]:
        """The lines of the SVG: the bar with a tick at each end, and its text."""
        left, right, y = 14.0, 14.0 + self.pixels, self.y
        points = f"{left:.3f},{y - 5} {left:.3f},{y} {right:.3f},{y} {right:.3f},{y - 5}"
        yield f'  <polyline class="bar" points="{points}"/>'
        place = f'x="{right + 8:.1f}" y="{y + 4:.1f}"'
        yield f'  <text class="legend" fill="#5a6673" {place}>{self.text}</text>'


def _arrow(at: PointMm, way: PointMm) -> list[PointMm]:
    """The corners of an arrow with two heads, in one line."""
    tip, barb = ARROW, ARROW - BARB
    corners = [(-barb, BARB), (-tip, 0), (-barb, -BARB), (-tip, 0),
               (tip, 0), (barb, BARB), (tip, 0), (barb, -BARB)]
    return [(at[0] + way[0] * along - way[1] * aside, at[1] + way[1] * along + way[0] * aside)
            for along, aside in corners]


def _order(figure: Figure) -> int:
    """Names of circles first, since those can stand within them, then of points, then of lines
    and arcs."""
    return [Ring, Dot].index(type(figure.mark)) if isinstance(figure.mark, (Ring, Dot)) else 2


def _svg_of(figure: Figure) -> str:
    """The line of SVG for a figure."""
    mark, ink = figure.mark, figure.mark.ink
    if isinstance(mark, Dot):
        x, y = figure.places[0]
        return f'  <circle class="f{ink.part or 0}" cx="{x:.1f}" cy="{y:.1f}" r="3.5"/>'
    if isinstance(mark, Ring):
        x, y = figure.places[0]
        return f'  <circle {_class(ink)} cx="{x:.1f}" cy="{y:.1f}" r="{figure.radius:.1f}"/>'
    if isinstance(mark, Bow):
        return f'  <path {_class(ink)} d="{_arc(mark, figure)}"/>'
    return f"  <line {_class(ink)} {_ends(*figure.places)}/>"


def _arc(mark: Bow, figure: Figure) -> str:
    (x1, y1), (x2, y2) = figure.places[0], figure.places[-1]
    scale = math.dist(figure.places[0], figure.places[1]) / _chord(mark, len(figure.places) - 1)
    large = int(sweep(mark.centre, mark.start, mark.end)[1] > math.pi)
    return f"M {x1:.1f} {y1:.1f} A {scale:.1f} {scale:.1f} 0 {large} 0 {x2:.1f} {y2:.1f}"


def _chord(mark: Bow, pieces: int) -> float:
    """The chord of one piece of an arc that is cut into so many, over the radius."""
    return 2 * math.sin(sweep(mark.centre, mark.start, mark.end)[1] / pieces / 2)


def _ends(start: PointMm, end: PointMm) -> str:
    return f'x1="{start[0]:.1f}" y1="{start[1]:.1f}" x2="{end[0]:.1f}" y2="{end[1]:.1f}"'


def _class(ink: Ink) -> str:
    own = ink.manner in (Manner.EDGE, Manner.CONSTRUCTION, Manner.FREE)
    return f'class="{ink.manner.value} p{ink.part or 0}"' if own else f'class="{ink.manner.value}"'


def _fill(ink: Ink) -> str:
    if ink.manner is Manner.SPARE:
        return f'fill="{SPARE_COLOUR}"'
    return f'fill="{COLOURS[max((ink.part or 0) - 1, 0) % len(COLOURS)]}"'


def _text_element(text: Text) -> str:
    x, y = text.at
    fill = (
        ""
        if text.kind == "length" and text.ink.manner is not Manner.SPARE
        else f" {_fill(text.ink)}"
    )
    style = f' style="fill:{SPARE_COLOUR}"' if text.kind == "length" and fill else fill
    return (
        f'  <text class="{text.kind}"{style} x="{x:.1f}" y="{y:.1f}">{escape(text.words)}</text>'
    )
