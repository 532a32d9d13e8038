"""The commands of the workbench; each does its work in the panel."""
from __future__ import annotations

import FreeCAD
import FreeCADGui
from PySide import QtCore, QtGui

from pertxogai_freecad.home import find_package
from pertxogai_freecad.settings import Settings
from pertxogai_freecad.trouble import Trouble
from pertxogai_freecad.window.command_words import Word
from pertxogai_freecad.window.resources import icon
from pertxogai_freecad.window.selection import chosen_sketch


class SketchCommand:
    """A command on the sketch that is edited or selected, as FreeCAD takes one."""

    def __init__(self, word: Word) -> None:
        self._word = word

    def GetResources(self) -> dict[str, str]:
        """What menus and toolbars show."""
        return {"Pixmap": icon(self._word.icon), "MenuText": self._word.text(),
                "ToolTip": self._word.tip()}

    def IsActive(self) -> bool:
        """Whether there is a sketch to ask about."""
        return chosen_sketch() is not None

    def Activated(self) -> None:
        """Opens the panel, and does the command there."""
        do(self._word)


def do(word: Word) -> None:
    """Does a command in the panel; where the package is missing, a box says so by name."""
    try:
        find_package(Settings.stored())
    except Trouble as trouble:
        complain(trouble)
        return
    from pertxogai_freecad.window.panel import the_panel

    the_panel().do(word)


def complain(trouble: Trouble) -> None:
    """Tells in one line what can't be done, in FreeCAD's report and in a box."""
    FreeCAD.Console.PrintError(f"Pertxogai: {trouble}\n")
    box = QtGui.QMessageBox(FreeCADGui.getMainWindow())
    box.setObjectName("Pertxogai")
    box.setWindowTitle("Pertxogai")
    box.setText(str(trouble))
    box.setAttribute(QtCore.Qt.WA_DeleteOnClose)
    box.setModal(False)
    box.show()


def add_commands() -> list[str]:
    """Makes the commands known to FreeCAD, and answers their names."""
    for word in Word:
        FreeCADGui.addCommand(word.command, SketchCommand(word))
    return [word.command for word in Word]
