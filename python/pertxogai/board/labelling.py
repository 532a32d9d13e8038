"""Where the label of a dimension stands, and dimensions that are only measured: edits of the notes
that tell them."""
from __future__ import annotations

from dataclasses import dataclass
from fractions import Fraction

from pertxogai.board.line_reader import constraint_at
from pertxogai.board.removal import without
from pertxogai.drawing import VALUED, Drawing, WordFault, asked_of, words_of
from pertxogai.drawing.labels import labelled, labels, references, relabelled, with_reference


@dataclass(frozen=True)
class Measure:
    """Measures what a line says without its value, as `length Bottom`, and asks nothing. number:
    the constraint, by its place from 1, that asked for it before, and goes; then its words
    count."""

    words: tuple[str, ...]
    number: int | None = None

    def on(self, drawing: Drawing) -> Drawing:
        """The drawing that measures it."""
        if self.number is None:
            return with_reference(drawing, list(self.words))
        label, words = labels(drawing).get(self.number), self._words_of(drawing, self.number)
        rest = without(drawing, frozenset(), frozenset({self.number}))
        return with_reference(rest, words, label)

    @staticmethod
    def _words_of(drawing: Drawing, number: int) -> list[str]:
        """The words of a dimension without its value and its tolerance."""
        constraint = constraint_at(drawing, number)
        if not isinstance(constraint, VALUED):
            raise WordFault(words_of(constraint), "is no dimension")
        return list(asked_of(constraint))


@dataclass(frozen=True)
class Label:
    """Puts the label of a dimension so far from where it is measured, in micrometres. number: its
    place, from 1; negative among those that are only measured."""

    number: int
    x_um: Fraction
    y_um: Fraction

    def on(self, drawing: Drawing) -> Drawing:
        """The drawing with it there."""
        label = self.x_um, self.y_um
        count = (len(drawing.constraints) if self.number > 0
                 else len(list(references(drawing))))
        if not 1 <= abs(self.number) <= count:
            raise WordFault(f"dimension {self.number}", "doesn't stand")
        of = labelled if self.number > 0 else relabelled
        return of(drawing, abs(self.number), label)
