"""The page of the panel for Judge: each constraint, and how far it is off."""
from __future__ import annotations

from collections.abc import Callable
from functools import partial
from typing import Protocol

from pertxogai.judging import GoodJudgement
from pertxogai_freecad.changes import place
from pertxogai_freecad.judging import JudgedSketch, Standing
from pertxogai_freecad.window.colours import cluster_colours
from pertxogai_freecad.translating import QT_TRANSLATE_NOOP
from pertxogai_freecad.trouble import Trouble
from pertxogai_freecad.window.command_words import Word
from pertxogai_freecad.window.overlay import Overlay
from pertxogai_freecad.window.selection import edit, edited_sketch, select_constraints
from pertxogai_freecad.window.tables import (
    Table, button, height_of, read_only, stacked)
from pertxogai_freecad.window.words import shown

HEADINGS = (QT_TRANSLATE_NOOP("Pertxogai", "Constraint"),
            QT_TRANSLATE_NOOP("Pertxogai", "Standing"), QT_TRANSLATE_NOOP("Pertxogai", "Off by"),
            QT_TRANSLATE_NOOP("Pertxogai", "Says"))
PLACE = QT_TRANSLATE_NOOP("Pertxogai", "Place")
CLUSTERS = QT_TRANSLATE_NOOP("Pertxogai", "Colour the clusters")
EDITED = QT_TRANSLATE_NOOP(
    "Pertxogai", "while the sketch is edited FreeCAD shows its own colours: close it first")
STRONG = {Standing.OFF, Standing.REDUNDANT, Standing.CONFLICTING, Standing.MAY_GO,
          Standing.IN_PART, Standing.LEFT_OUT}
TOLD_LINES = 6
"""How many lines of all that is told are seen at once."""


class Does(Protocol):
    """What does something for a page, and shows the trouble that it meets."""

    def change(self, act: Callable[[], None], then: Word) -> None: ...
    def attempt(self, act: Callable[[], None]) -> None: ...


class JudgePage:
    """The constraints of the judged sketch. Selecting a row selects the constraint; clicking on it
    twice opens the sketch for it."""

    def __init__(self, panel: Does) -> None:
        self._panel = panel
        self._judged: JudgedSketch | None = None
        self._colours: Overlay | None = None
        self.table = Table("PertxogaiRows", HEADINGS, self._selected, self._opened)
        self.place = button(PLACE, "PertxogaiPlace", self._place)
        self.clusters = button(CLUSTERS, "PertxogaiClusters", self._colour)
        self.clusters.setCheckable(True)
        self.told = read_only("PertxogaiTold")
        self.told.setMaximumHeight(height_of(self.told, TOLD_LINES))
        self.widget = stacked(self.table.widget, self.told, (self.place, self.clusters))

    def show(self, judged: JudgedSketch) -> None:
        """Shows a judged sketch."""
        self.clear()
        self._judged = judged
        rows = judged.rows()
        strong = [place for place, row in enumerate(rows) if row.standing in STRONG]
        self.table.show([(row.name, row.standing.value, row.off, row.says) for row in rows],
                        strong)
        self.told.setPlainText("\n".join(judged.lines()))
        self.place.setEnabled(isinstance(judged.good, GoodJudgement))

    def clear(self) -> None:
        """Shows nothing."""
        self.take_back()
        self._judged = None
        self.table.show([])
        self.told.clear()
        self.place.setEnabled(False)

    def take_back(self) -> None:
        """Takes back what it shows in the sketch."""
        colours, self._colours = self._colours, None
        if colours is not None:
            colours.remove()
        self.clusters.setChecked(False)

    def _selected(self, row: int) -> None:
        judged = self._judged
        if judged is not None:
            self._panel.attempt(partial(select_constraints, judged.read.sketch,
                                        [judged.rows()[row].index]))

    def _opened(self, row: int) -> None:
        judged = self._judged
        if judged is not None:
            self._panel.attempt(partial(edit, judged.read.sketch))
            self._selected(row)

    def _place(self) -> None:
        judged = self._judged
        if judged is not None and isinstance(judged.good, GoodJudgement):
            good = judged.good
            self._panel.change(partial(place, judged.read, good), Word.JUDGE)

    def _colour(self) -> None:
        judged = self._judged
        if self._colours is None and judged is not None:
            self._panel.attempt(partial(self._show_colours, judged))
            self.clusters.setChecked(self._colours is not None)
        else:
            self.take_back()

    def _show_colours(self, judged: JudgedSketch) -> None:
        """Draws the shapes in the colours of their clusters. Raises Trouble while a sketch is
        edited, and where the sketch was changed since."""
        if edited_sketch() is not None:
            raise Trouble(shown(EDITED))
        judged.read.check_unchanged()
        self._colours = Overlay(judged.read.sketch)
        self._colours.show_coloured(cluster_colours(judged))
