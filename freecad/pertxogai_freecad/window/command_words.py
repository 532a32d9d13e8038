"""The commands by their words, as menus, toolbars and the panel show them."""
from __future__ import annotations

from enum import Enum

from pertxogai_freecad.translating import QT_TRANSLATE_NOOP
from pertxogai_freecad.window.words import shown


class Word(Enum):
    """A command; the values are shown."""

    JUDGE = QT_TRANSLATE_NOOP("Pertxogai", "Judge")
    REPAIR = QT_TRANSLATE_NOOP("Pertxogai", "Repair")
    COMPLETE = QT_TRANSLATE_NOOP("Pertxogai", "Complete")
    RANGE = QT_TRANSLATE_NOOP("Pertxogai", "Range")
    CERTIFY = QT_TRANSLATE_NOOP("Pertxogai", "Certify")
    CONSTRUCTION = QT_TRANSLATE_NOOP("Pertxogai", "Construction")

    @property
    def command(self) -> str:
        """FreeCAD's name of the command."""
        return f"Pertxogai_{self.name.title()}"

    @property
    def icon(self) -> str:
        """The name of its icon."""
        return f"Pertxogai_{self.name.title()}"

    def text(self) -> str:
        """What menus show."""
        return shown(self.value)

    def tip(self) -> str:
        """What it does, in a sentence."""
        return shown(TIPS[self])


TIPS = {
    Word.JUDGE: QT_TRANSLATE_NOOP(
        "Pertxogai", "Tells whether the sketch is fully constrained, and how far each constraint "
        "is off"),
    Word.REPAIR: QT_TRANSLATE_NOOP(
        "Pertxogai", "Lists the constraints that are redundant or conflict, and removes one"),
    Word.COMPLETE: QT_TRANSLATE_NOOP(
        "Pertxogai", "Proposes the dimensions that the sketch lacks, and adds them"),
    Word.RANGE: QT_TRANSLATE_NOOP(
        "Pertxogai", "Tells how far the selected dimension may go"),
    Word.CERTIFY: QT_TRANSLATE_NOOP(
        "Pertxogai", "Writes a claim that others can check beside the document"),
    Word.CONSTRUCTION: QT_TRANSLATE_NOOP(
        "Pertxogai", "Shows the steps of the construction over the sketch"),
}
