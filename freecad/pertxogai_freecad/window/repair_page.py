"""The page of the panel for Repair: what may go, and a button that removes one."""
from __future__ import annotations

from functools import partial

from pertxogai_freecad.repairing import Repair
from pertxogai_freecad.translating import QT_TRANSLATE_NOOP
from pertxogai_freecad.window.command_words import Word
from pertxogai_freecad.window.judge_page import Does
from pertxogai_freecad.window.selection import edit, select_constraints
from pertxogai_freecad.window.tables import Table, button, read_only, stacked
from pertxogai_freecad.window.words import shown

HEADINGS = (QT_TRANSLATE_NOOP("Pertxogai", "Removable"), QT_TRANSLATE_NOOP("Pertxogai", "It is"),
            QT_TRANSLATE_NOOP("Pertxogai", "Off by"),
            QT_TRANSLATE_NOOP("Pertxogai", "The rest is then"))
REMOVE = QT_TRANSLATE_NOOP("Pertxogai", "Remove the selected constraint")


class RepairPage:
    """What may go of the judged sketch. Selecting a row selects the constraint."""

    def __init__(self, panel: Does) -> None:
        self._panel = panel
        self._repair: Repair | None = None
        self.table = Table("PertxogaiCandidates", HEADINGS, self._selected, self._opened)
        self.remove = button(REMOVE, "PertxogaiRemove", self._remove)
        self.told = read_only("PertxogaiRepair")
        self.widget = stacked(self.table.widget, self.told, (self.remove,))

    def show(self, repair: Repair) -> None:
        """Shows what may go."""
        self._repair = repair
        rows = [[each.name, each.standing.value, each.off, each.stays() or each.rest]
                for each in repair.candidates]
        self.table.show(rows or [[shown(repair.nothing())]])
        self.told.setPlainText("\n".join(repair.lines()))
        self.remove.setEnabled(False)

    def clear(self) -> None:
        """Shows nothing."""
        self._repair = None
        self.table.show([])
        self.told.clear()
        self.remove.setEnabled(False)

    def _index(self) -> int | None:
        """FreeCAD's number of the constraint that is selected."""
        place = self.table.place
        if self._repair is None or place is None or place >= len(self._repair.candidates):
            return None
        return self._repair.candidates[place].index

    def _selected(self, row: int) -> None:
        index = self._index()
        self.remove.setEnabled(index is not None)
        if self._repair is not None and index is not None:
            self._panel.attempt(partial(select_constraints, self._repair.judged.read.sketch,
                                        [index]))

    def _opened(self, row: int) -> None:
        if self._repair is not None:
            self._panel.attempt(partial(edit, self._repair.judged.read.sketch))
            self._selected(row)

    def _remove(self) -> None:
        repair, index = self._repair, self._index()
        if repair is not None and index is not None:
            self._panel.change(partial(repair.take_away, index), Word.REPAIR)
