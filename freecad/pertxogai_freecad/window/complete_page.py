"""The page of the panel for Complete: the dimensions that are proposed, to be added."""
from __future__ import annotations

from functools import partial

from pertxogai_freecad.completing import Proposed
from pertxogai_freecad.translating import QT_TRANSLATE_NOOP
from pertxogai_freecad.window.command_words import Word
from pertxogai_freecad.window.judge_page import Does
from pertxogai_freecad.window.tables import Table, button, read_only, stacked

HEADINGS = (QT_TRANSLATE_NOOP("Pertxogai", "Dimension to add"),
            QT_TRANSLATE_NOOP("Pertxogai", "Fixes (by numbers)"))
ADD = QT_TRANSLATE_NOOP("Pertxogai", "Add the selected dimension")
ADD_ALL = QT_TRANSLATE_NOOP("Pertxogai", "Add all")


class CompletePage:
    """What completes a sketch."""

    def __init__(self, panel: Does) -> None:
        self._panel = panel
        self._proposed: Proposed | None = None
        self.table = Table("PertxogaiProposals", HEADINGS, self._selected)
        self.add = button(ADD, "PertxogaiAdd", self._add)
        self.add_all = button(ADD_ALL, "PertxogaiAddAll", self._add_all)
        self.told = read_only("PertxogaiCompletion")
        self.widget = stacked(self.table.widget, self.told, (self.add, self.add_all))

    def show(self, proposed: Proposed) -> None:
        """Shows what is proposed, or why nothing is."""
        self._proposed = proposed
        self.table.show([(each.line(), ", ".join(each.fixes)) for each in proposed.proposals])
        self.told.setPlainText("\n".join(proposed.lines()))
        self.add.setEnabled(False)
        self.add_all.setEnabled(bool(proposed.proposals))

    def clear(self) -> None:
        """Shows nothing."""
        self._proposed = None
        self.table.show([])
        self.told.clear()
        self.add.setEnabled(False)
        self.add_all.setEnabled(False)

    def _selected(self, row: int) -> None:
        self.add.setEnabled(True)

    def _add(self) -> None:
        proposed, place = self._proposed, self.table.place
        if proposed is not None and place is not None:
            self._panel.change(partial(proposed.take, [place]), Word.COMPLETE)

    def _add_all(self) -> None:
        proposed = self._proposed
        if proposed is not None:
            self._panel.change(proposed.take_all, Word.JUDGE)
