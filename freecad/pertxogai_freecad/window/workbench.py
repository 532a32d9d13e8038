"""The workbench Pertxogai."""
from __future__ import annotations

import FreeCADGui

from pertxogai_freecad.translating import QT_TRANSLATE_NOOP
from pertxogai_freecad.window.resources import ICONS, PREFERENCES, TRANSLATIONS, icon
from pertxogai_freecad.window.words import shown

TIP = QT_TRANSLATE_NOOP(
    "Pertxogai", "Asks the proved program about sketches: what is redundant, what is missing, how "
    "far it is off")


class PertxogaiWorkbench(FreeCADGui.Workbench):  # type: ignore[misc]
    """Asks the proved program about sketches."""

    MenuText = "Pertxogai"
    ToolTip = shown(TIP)
    Icon = icon("Pertxogai")

    def Initialize(self) -> None:
        """FreeCAD asks for it when the workbench is first chosen."""
        from pertxogai_freecad.window.commands import add_commands

        names = add_commands()
        self.appendToolbar("Pertxogai", names)
        self.appendMenu("Pertxogai", names)

    def GetClassName(self) -> str:
        """The kind of workbench, to FreeCAD."""
        return "Gui::PythonWorkbench"


def install() -> None:
    """Adds the workbench, its icons, translations and page of preferences to FreeCAD."""
    FreeCADGui.addIconPath(str(ICONS))
    FreeCADGui.addLanguagePath(str(TRANSLATIONS))
    FreeCADGui.updateLocale()
    FreeCADGui.addPreferencePage(str(PREFERENCES), "Pertxogai")
    FreeCADGui.addWorkbench(PertxogaiWorkbench())
