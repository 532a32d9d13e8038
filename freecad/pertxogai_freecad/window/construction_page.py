"""The page of the panel for Construction: its steps over the sketch, one after the other."""
from __future__ import annotations

from PySide import QtCore, QtGui

from pertxogai_freecad.constructing import Constructed
from pertxogai_freecad.translating import QT_TRANSLATE_NOOP
from pertxogai_freecad.window.overlay import Overlay
from pertxogai_freecad.window.selection import deselect
from pertxogai_freecad.window.tables import button, stacked
from pertxogai_freecad.window.words import shown

PLAY = QT_TRANSLATE_NOOP("Pertxogai", "Play")
PAUSE = QT_TRANSLATE_NOOP("Pertxogai", "Pause")
PAUSE_MS = 1200
"""How long each step is shown."""


class ConstructionPage:
    """A step that is shown, a slider through all of them, and a button that plays them."""

    def __init__(self) -> None:
        self._constructed: Constructed | None = None
        self._overlay: Overlay | None = None
        self.told = QtGui.QLabel()
        self.told.setObjectName("PertxogaiStep")
        self.told.setWordWrap(True)
        self.slider = QtGui.QSlider(QtCore.Qt.Horizontal)
        self.slider.setObjectName("PertxogaiSlider")
        self.slider.setMinimum(1)
        self.slider.valueChanged.connect(self._show_step)
        self.play = button(PLAY, "PertxogaiPlay", self._turn)
        self._timer = QtCore.QTimer()
        self._timer.setInterval(PAUSE_MS)
        self._timer.timeout.connect(self._next)
        self.widget = stacked(self.told, self.slider, (self.play,))
        self.widget.layout().addStretch()

    def show(self, constructed: Constructed) -> None:
        """Shows the first step of a construction, with nothing selected, so that what isn't
        constructed yet is told from what is."""
        self.clear()
        deselect()
        self._constructed = constructed
        self._overlay = Overlay(constructed.judged.read.sketch)
        self.slider.setMaximum(max(1, len(constructed.steps)))
        self.slider.setValue(1)
        self.told.setText(next(constructed.lines()))
        self._show_step(1)

    def clear(self) -> None:
        """Stops, and takes what it shows out of the window."""
        self._timer.stop()
        self.play.setText(shown(PLAY))
        overlay, self._overlay, self._constructed = self._overlay, None, None
        if overlay is not None:
            overlay.remove()
        self.told.setText("")

    def _show_step(self, number: int) -> None:
        steps = self._constructed.steps if self._constructed is not None else ()
        if self._overlay is None or not steps:
            return
        try:
            self._overlay.show(steps[number - 1])
            self.told.setText(f"{steps[number - 1].line()} ({number} / {len(steps)})")
        except (ReferenceError, IndexError):  # The sketch or one of its shapes was deleted.
            self.clear()

    def _turn(self) -> None:
        """Plays, or pauses."""
        is_playing = self._timer.isActive()
        if is_playing:
            self._timer.stop()
        else:
            self._timer.start()
        self.play.setText(shown(PLAY if is_playing else PAUSE))

    def _next(self) -> None:
        """Goes on to the next step, and from the last to the first."""
        number = self.slider.value() + 1
        self.slider.setValue(number if number <= self.slider.maximum() else 1)
