"""A drawing that is edited, and what is worked out of it while it is judged."""
from __future__ import annotations

from collections.abc import Iterator
from dataclasses import dataclass, field
from functools import cached_property

from pertxogai.drawing import Drawing
from pertxogai.drawing.changes import Redrawing
from pertxogai.judging.measure.measuring import Measurement
from pertxogai.judging.measure.solution import Solution
from pertxogai.spelling import Interpretation
from pertxogai.spelling.facts import Facts
from pertxogai.spelling.lowering import lowered, lowered_from
from pertxogai.spelling.reading import interpretations
from pertxogai.spelling.revaluing import revalued_from


@dataclass
class Analysis:
    """What was worked out of a drawing so far: its facts, how its readings are spelled, and how far
    its constraints are off where it was placed last. The drawing itself knows which of its points
    are one."""

    drawing: Drawing
    facts: Facts | None = None
    interpretations: list[Interpretation] = field(default_factory=list)
    measurement: Measurement | None = None


class EditedDrawing:
    """A drawing, and the one that an edit made it from, if there is one. What the edit left as it
    was is taken over from the analysis of that one, and isn't worked out again. Nothing older is
    kept."""

    def __init__(self, drawing: Drawing, previous: EditedDrawing | None = None) -> None:
        self._known: Analysis = Analysis(Drawing()) if previous is None else previous.analysis
        self._redrawing = Redrawing.of(self._known.drawing, drawing)
        redrawn = drawing if self._redrawing is None else self._redrawing.new
        self.analysis: Analysis = Analysis(redrawn)

    @property
    def drawing(self) -> Drawing:
        """The drawing."""
        return self.analysis.drawing

    @cached_property
    def facts(self) -> Facts:
        """All that it says."""
        found = None
        if self._redrawing is not None and self._known.facts is not None:
            found = (lowered_from(self._known.facts, self._redrawing)
                     or revalued_from(self._known.facts, self._redrawing))
        self.analysis.facts = found or lowered(self.drawing)
        return self.analysis.facts

    def readings(self) -> Iterator[Interpretation]:
        """How it is spelled by each reading that takes it otherwise than those before."""
        made = self.analysis.interpretations = []
        for each in interpretations(self.facts, self._known.interpretations):
            made.append(each)
            yield each

    def measured(self, solution: Solution) -> Measurement:
        """How far its constraints are off on some places. Raises MissingPlace."""
        last = self._known.measurement
        found = (Measurement(self.drawing, solution) if last is None
                 else last.redrawn(self.drawing, solution))
        if found.all:
            self.analysis.measurement = found
        return found
