"""What one reading of a drawing is spelled as, each style made once. Where an edit only draws
something elsewhere, all but the places is taken over."""
from __future__ import annotations

from collections.abc import Sequence
from dataclasses import replace

from pertxogai.spelling.axes import Axes
from pertxogai.spelling.facts import Facts
from pertxogai.spelling.mirrors import with_halves, with_implied, with_presumed
from pertxogai.spelling.rails import Rails
from pertxogai.spelling.settling import revalued_axes, settled_axes
from pertxogai.spelling.style import Style
from pertxogai.spelling.writing import Spelled, Writer


class Interpretation:
    """The axes of some facts, with their rails and encodings by style. made: the axes from which it
    was found what follows from the facts, the last with all of it."""

    def __init__(self, said: Facts, made: Sequence[Axes]) -> None:
        self.said, self.made = said, made
        self._rails: dict[bool, Rails] = {}
        self._writers: dict[Style, Writer] = {}
        self._before: dict[Style, Writer] = {}

    @staticmethod
    def of(said: Facts) -> Interpretation:
        """The interpretation of what some facts say about x and y, and what follows from it."""
        facts: Facts | None = said
        made = []
        while facts is not None:
            axes = settled_axes(facts)
            made.append(axes)
            facts = with_implied(axes) or with_halves(axes) or with_presumed(axes)
        return Interpretation(said, made)

    def revalued(self, said: Facts) -> Interpretation:
        """Those of facts of a drawing with other dimensions. Of the axes of facts that differ by
        the numbers of lengths alone the lines and frames are taken over."""
        facts: Facts | None = said
        made: list[Axes] = []
        while facts is not None:
            known = self.made[len(made)] if len(made) < len(self.made) else None
            axes = revalued_axes(known, facts) if known else settled_axes(facts)
            made.append(axes)
            facts = with_implied(axes) or with_halves(axes) or with_presumed(axes)
        return Interpretation(said, made)

    @property
    def axes(self) -> Axes:
        """The axes with everything that follows."""
        return self.made[-1]

    def redrawn(self, said: Facts) -> Interpretation | None:
        """The interpretation of facts that differ only in drawn positions; None if they say
        something else, if a side differs from before, or if a direction was chosen by what is
        drawn."""
        facts = self.axes.facts
        if not self.said.says(said) or facts.facts[:len(said.facts)] != self.said.facts:
            return None
        made = [each for axes in self.made
                if (each := axes.redrawn(replace(axes.facts, drawn=said.drawn))) is not None]
        if len(made) < len(self.made):
            return None
        other = Interpretation(said, made)
        other._rails = {solves: rails.of(other.axes) for solves, rails in self._rails.items()}
        other._before = self._writers
        return other

    def sure(self) -> Interpretation | None:
        """The interpretation without what it presumes; None where it presumes nothing."""
        made = [each for each in self.made if not each.facts.presumes]
        return Interpretation(self.said, made) if len(made) < len(self.made) else None

    def rails(self, style: Style) -> Rails:
        """The rails of a style."""
        solves = style.solves()
        if solves not in self._rails:
            self._rails[solves] = Rails(self.axes, style)
        return self._rails[solves]

    def spelled(self, style: Style) -> Spelled:
        """The drawing, encoded in a style."""
        before = self._before.get(style)
        writer = Writer(self.axes, self.rails(style), style)
        if before is None or not writer.write_as(before):
            writer = Writer(self.axes, self.rails(style), style)
            writer.write()
        self._writers[style] = writer
        return writer.spelled()
