"""Pieces of a drawing, each placed by itself: how each is laid on the drawing, about what is
fixed. In floating point, to look at."""
from __future__ import annotations

from collections.abc import Iterable, Iterator, Mapping
from dataclasses import dataclass, replace

from pertxogai.output.picture.fitting import Motion, fitted
from pertxogai.output.picture.marks import PointMm


@dataclass(frozen=True)
class Piece:
    """A piece by its number, before it is laid: its points, by their names, where it is placed by
    itself, in millimetres.

    turn: how it turns, where its lines are told from the datum's axes. dx_mm, dy_mm: how far it is
    shifted then along an axis, where it has a line that lies beside the other."""

    number: int
    points: Mapping[str, PointMm]
    turn: Motion | None = None
    dx_mm: float | None = None
    dy_mm: float | None = None

    def is_fixed(self) -> bool:
        """Whether nothing of it is free."""
        return None not in (self.turn, self.dx_mm, self.dy_mm)


def in_turn(pieces: Iterable[Piece], drawn: Mapping[str, PointMm],
            fixed: Mapping[str, PointMm]) -> Iterator[tuple[Piece, Motion]]:
    """Each piece and the motion that lays it nearest to where its points are drawn: those first of
    which nothing is free; the others about a point that is fixed, else about one that a piece
    before it has laid, where it has such a point."""
    lies = dict(fixed)
    waiting = sorted(pieces, key=lambda piece: (not piece.is_fixed(), -len(piece.points)))
    while waiting:
        piece = waiting[0]
        if not piece.is_fixed():
            piece = next((each for each in waiting if _shared(each, lies)), piece)
        waiting = [each for each in waiting if each is not piece]
        motion = _motion(piece, lies, drawn)
        for name, spot in piece.points.items():
            lies.setdefault(name, motion.of(spot))
        yield piece, motion


def _shared(piece: Piece, lies: Mapping[str, PointMm]) -> str | None:
    """The point of a piece that lies already; the first of several."""
    return next((name for name in lies if name in piece.points), None)


def _motion(piece: Piece, lies: Mapping[str, PointMm], drawn: Mapping[str, PointMm]) -> Motion:
    """The motion of a piece, once some points lie already."""
    pairs = {name: (spot, lies.get(name, drawn[name])) for name, spot in piece.points.items()}
    shared = _shared(piece, lies)
    motion = fitted(list(pairs.values()), piece.turn, pairs[shared] if shared else None)
    return replace(motion, dx=motion.dx if piece.dx_mm is None else piece.dx_mm,
                   dy=motion.dy if piece.dy_mm is None else piece.dy_mm)
