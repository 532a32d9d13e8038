"""A judged drawing as a picture, or as DXF."""

from __future__ import annotations

from collections.abc import Iterator
from dataclasses import dataclass

from pertxogai.judging.finding import Finding
from pertxogai.judging.good import GoodJudgement, good_of
from pertxogai.judging.judged_drawing import CountedDrawing
from pertxogai.judging.parts import parts_of_shapes
from pertxogai.output.drawing_text import drawing_lines
from pertxogai.output.dxf import dxf_text, without_corners
from pertxogai.output.picture.drawings import Marking, scene_of_designed
from pertxogai.output.picture.marks import Ink, Scene
from pertxogai.output.picture.svg import Picture, picture_of
from pertxogai.output.release import Release
from pertxogai.program.called import COMMAND
from pertxogai.program.reports import Verdict


MOST_SHOWN = 8
"""The most things left out that a picture tells below it."""


class NoPlaces(Exception):
    """What isn't good can't be written as placed. The message is one line, and says why. as_drawn:
    whether it can be written as drawn."""

    def __init__(self, message: str, as_drawn: bool = False) -> None:
        super().__init__(message)
        self.as_drawn = as_drawn


@dataclass(frozen=True)
class DrawingSheet:
    """A designer's drawing, to be drawn."""

    judged: CountedDrawing
    as_drawn: bool

    def picture(self) -> Picture:
        """As placed if it is good, or under-constrained with positions; otherwise as drawn. If it
        isn't good, the reasons stand below it."""
        return picture_of(self._scene())

    def dxf(self, release: Release) -> str:
        """The shapes as placed if it is good, or as drawn if that was asked for; without the points
        in which an edge ends, or that are its centre. Raises NoPlaces, and MissingLibrary without
        ezdxf."""
        found = good_of(self.judged)
        if not self.as_drawn and not isinstance(found, GoodJudgement):
            raise NoPlaces(f"{self.judged.name}: no DXF is written of what isn't good: {found}",
                           as_drawn=True)
        return dxf_text(without_corners(self._scene().marks), release)

    def is_good(self) -> bool:
        """Whether it is good, and so drawn as placed; or drawn as drawn because that was asked
        for."""
        return self.as_drawn or isinstance(good_of(self.judged), GoodJudgement)

    def _scene(self) -> Scene:
        judged, judgement, found = self.judged, self.judged.judgement, good_of(self.judged)
        if self.as_drawn:
            marking = Marking(legend=tuple((line, Ink()) for line in self._left_out()))
            return scene_of_designed(judged.drawing, None, judged.name, marking)
        if isinstance(found, GoodJudgement):
            return scene_of_designed(judged.drawing, found.solution, judged.name, Marking())
        finding, is_open = judged.finding, judgement.verdict is Verdict.OPEN
        if is_open and finding is not None and finding.solution is not None:
            marking = self._open(finding)
            return scene_of_designed(judged.drawing, finding.solution, judged.name, marking)
        spare = frozenset(each.number for each in judgement.surplus)
        marking = Marking(parts_of_shapes(judgement), spare, tuple(self._legend()))
        return scene_of_designed(judged.drawing, None, judged.name, marking)

    def _open(self, finding: Finding) -> Marking:
        """The marking of a drawing that is open and has places: the pieces in their colours, what
        is free lighter, and where to each point still moves."""
        moves = ((each.point, (each.dx, each.dy)) for each in finding.moves)
        return Marking(parts_of_shapes(self.judged.judgement), legend=tuple(self._legend()),
                       free=frozenset(finding.free_shapes(self.judged.drawing)),
                       moves=tuple(moves))

    def _left_out(self) -> Iterator[str]:
        """What the picture lacks; where that is much, how much more."""
        left_out = [*(f"left out of the file: {what}" for what in self.judged.not_drawn),
                    *(f"not passed to the program: {what}"
                      for what in self.judged.judgement.left_out)]
        yield from left_out[:MOST_SHOWN]
        if len(left_out) > MOST_SHOWN:
            yield f"and {len(left_out) - MOST_SHOWN} more: see {COMMAND} judge"

    def _legend(self) -> Iterator[tuple[str, Ink]]:
        """What was judged, each piece in its colour."""
        pieces = self.judged.judgement.missing.pieces if self.judged.judgement.missing else ()
        numbers = {f"cluster {piece.number}": piece.number for piece in pieces}
        for line in drawing_lines(self.judged):
            yield line, Ink(part=numbers.get(line.strip().partition(":")[0]))
