"""Shapes of a drawing, with all that is said among them, drawn once more in a drawing: the same or
another."""
from __future__ import annotations

from dataclasses import dataclass, replace
from fractions import Fraction

from pertxogai.board.copying import copied
from pertxogai.board.document import read_document
from pertxogai.board.held import placed_by_numbers
from pertxogai.board.line_reader import asking
from pertxogai.board.mapping import shift
from pertxogai.board.more_lines import with_shapes
from pertxogai.drawing import VALUED, Constraint, Drawing, words_of


@dataclass(frozen=True)
class Paste:
    """Draws shapes of a drawing's text so much further than where they are placed, under free
    names, with what is said among them, their dimensions too, and their directions against the
    axes. What ties them to a place or to others stays behind."""

    source: str
    shapes: tuple[str, ...]
    dx_um: Fraction
    dy_um: Fraction

    def on(self, drawing: Drawing) -> Drawing:
        """The drawing with them. Raises DrawingRefusal where the text can't be read, WordFault
        where a shape doesn't stand in it."""
        taken = frozenset(each.name for each in (*drawing.geometry, *drawing.values))
        source = placed_by_numbers(read_document(self.source))
        copy = copied(source, self.shapes, shift(float(self.dx_um), float(self.dy_um)), True, taken)
        made = with_shapes(drawing, copy.shapes())
        for constraint in copy.all_said():
            said = constraint if source.values == drawing.values else _plain(constraint)
            made = asking(made, words_of(said).split())
        return made


def _plain(constraint: Constraint) -> Constraint:
    """A constraint with its value as a number, where that is an expression."""
    return replace(constraint, expression=None) if isinstance(constraint, VALUED) else constraint
