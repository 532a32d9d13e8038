"""Which constraints fit what is selected: those that the drawing's own words allow."""
from __future__ import annotations

import math
from collections.abc import Iterator, Sequence
from dataclasses import dataclass

from pertxogai.board.corners import CornerKind, has_corner, meetings_at
from pertxogai.board.line_reader import asked
from pertxogai.board.marks import sign_of
from pertxogai.board.values_shown import mm_shown, value_shown
from pertxogai.drawing import Drawing, PointRef, ShapeRef, WordFault
from pertxogai.drawing.constraint_lines import ConstraintWord
from pertxogai.drawing.cursor import Cursor
from pertxogai.output.picture.drawings import DrawnPlaces

VALUED = frozenset({
    ConstraintWord.ANGLE, ConstraintWord.LENGTH, ConstraintWord.DISTANCE, ConstraintWord.X,
    ConstraintWord.Y, ConstraintWord.RADIUS, ConstraintWord.DIAMETER})
"""Words with a value behind them."""


@dataclass(frozen=True)
class Offer:
    """A constraint that could be asked for: its words without a value, its sign, and where it
    takes a value, that which is drawn."""

    words: tuple[str, ...]
    sign: str
    value: str | None


def offers(drawing: Drawing, names: Sequence[str]) -> Iterator[Offer]:
    """Each word that takes these points and shapes. Raises WordFault where one doesn't stand."""
    things = [Cursor(drawing.scene, ["", name]).thing() for name in names]
    points = [str(each) for each in things if isinstance(each, PointRef)]
    shapes = [str(each) for each in things if isinstance(each, ShapeRef)]
    if not things:
        return
    for word in ConstraintWord:
        offer = _offer(drawing, word, points, shapes)
        if offer is not None:
            yield offer


@dataclass(frozen=True)
class CornerOffer:
    """What may be made of a corner: its word with the two segments, its sign, and a size that
    fits."""

    words: tuple[str, str, str]
    sign: str
    value: str


def corner_offers(drawing: Drawing, names: Sequence[str]) -> Iterator[CornerOffer]:
    """A fillet and a chamfer of the corner of two segments that are selected, or of a point in
    which two segments end. Raises WordFault where one doesn't stand."""
    things = [Cursor(drawing.scene, ["", name]).thing() for name in names]
    if len(things) == 1 and isinstance(things[0], PointRef):
        edges = list(meetings_at(drawing, things[0]))
    else:
        edges = [each.name for each in things if isinstance(each, ShapeRef)]
    if len(edges) != 2 or not has_corner(drawing, edges[0], edges[1]):
        return
    where = DrawnPlaces(drawing, None)
    short = min(math.dist(*where.ends(name)) for name in edges)
    for kind, sign in CORNER_SIGNS.items():
        yield CornerOffer((kind.value, edges[0], edges[1]), sign, _round_mm(short / 5))


def _round_mm(value: float) -> str:
    """A number of millimetres at most as large, of one digit: 1, 2 or 5 times a power of ten."""
    power = 10.0 ** math.floor(math.log10(value))
    return mm_shown(max(each * power for each in (1, 2, 5) if each * power <= value))


def _offer(drawing: Drawing, word: ConstraintWord, points: list[str],
           shapes: list[str]) -> Offer | None:
    """The word with these things in the order that it takes, or None."""
    for words in _orders(word, points, shapes):
        trial = [*words, _TRIAL.get(word, "1")] if word in VALUED else list(words)
        try:
            found = asked(drawing, trial)
        except WordFault:
            continue
        value = value_shown(DrawnPlaces(drawing, None), found[0]) if word in VALUED else None
        return Offer(words, sign_of(found[0]), value)
    return None


CORNER_SIGNS = {CornerKind.FILLET: "◜", CornerKind.CHAMFER: "◿"}
_TRIAL = {ConstraintWord.ANGLE: "60deg"}


def _orders(word: ConstraintWord, points: list[str],
            shapes: list[str]) -> Iterator[tuple[str, ...]]:
    if word is ConstraintWord.SYMMETRIC:
        if len(points) == 3:
            yield (word.value, *points[:2], "about", points[2])
        if len(shapes) == 2 and not points:
            yield (word.value, shapes[0], "about", shapes[1])
        if len(shapes) == 1:
            yield (word.value, *points, "about", *shapes)
        return
    yield (word.value, *points, *shapes)
