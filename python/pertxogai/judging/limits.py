"""Drawings that are refused before they are spelled, since the program takes no sketch so large,
or since no sketch can say them; and texts that the program refuses."""
from __future__ import annotations

from typing import TYPE_CHECKING

from pertxogai.drawing import Drawing, ends_made_one, mirrored_in_itself
from pertxogai.language.declared import MOST_CONSTRAINTS, MOST_ELEMENTS
from pertxogai.language.refusal import Refusal

if TYPE_CHECKING:
    from pertxogai.program.reports import Refused


class DrawingRefused(Exception):
    """A drawing that can't be made into a sketch. The message is one line, and says what to do."""


class EncodingRefused(DrawingRefused, Refusal):
    """A drawing whose sketch the program rejects: with the lines that its constraints need it has
    more elements, constraints or bytes than the program takes."""

    def __init__(self, refused: Refused) -> None:
        Refusal.__init__(self, refused)
        self.args = (f"the program rejects the encoded sketch ({refused.text().rstrip()}): split "
                     "the drawing, or see 'How a text is refused' in docs/LANGUAGE.md",)


class TextRefused(Exception):
    """The program rejects a text. The message is one line: the name of the sketch, and `told`: the
    place, the code, the line itself, and what to do."""

    def __init__(self, name: str, refused: Refused, text: str) -> None:
        lines = text.split("\n")
        shown = (
            f": {lines[refused.line - 1].strip()[:60]!r}" if 0 < refused.line <= len(lines) else ""
        )
        self.told = (
            f"refused line {refused.line} {refused.code.name}"
            f" {refused.code.word}{shown}: {refused.code.advice}; see 'How a text is refused' in"
            " docs/LANGUAGE.md"
        )
        super().__init__(f"{name}: {self.told}")
        self.refused = refused


def check_fits(drawing: Drawing) -> None:
    """Raises DrawingRefused where a drawing has more points, or more constraints, than the
    program takes, or a segment or arc of which both ends are told to be one point, or a segment
    of which both ends are told to be mirror images in it. Each point that isn't the origin is an
    element of the sketch."""
    points = drawing.meetings.count()
    if points > MOST_ELEMENTS:
        raise DrawingRefused(f"{points} points are drawn, and the program takes "
                             f"{MOST_ELEMENTS} points and lines: split the drawing")
    if len(drawing.constraints) > MOST_CONSTRAINTS:
        raise DrawingRefused(f"{len(drawing.constraints)} constraints are given, and the "
                             f"program takes {MOST_CONSTRAINTS}: split the drawing")
    closed = ends_made_one(drawing)
    if closed is not None:
        number, name = closed
        raise DrawingRefused(f"{drawing.called(number)} makes both ends of {name} one point: "
                             "remove it, or draw a circle or a point")
    mirrored = mirrored_in_itself(drawing)
    if mirrored is not None:
        number, name = mirrored
        raise DrawingRefused(f"{drawing.called(number)}: {name} would be without a length: write "
                             "another segment")
