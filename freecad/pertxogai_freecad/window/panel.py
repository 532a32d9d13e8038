"""The panel beside the sketch, where each command shows what it finds.

It is a dock, and no task of FreeCAD's: there is one task at a time, and while a sketch is edited
that is the sketch's own."""
from __future__ import annotations

from collections.abc import Callable, Iterator
from contextlib import contextmanager
from typing import Protocol

import FreeCAD
import FreeCADGui
from PySide import QtCore, QtGui

from pertxogai.judging import GoodJudgement
from pertxogai_freecad.certifying import certify
from pertxogai_freecad.completing import Proposed
from pertxogai_freecad.constructing import construct
from pertxogai_freecad.freecad_types import OwnDocument, OwnSketch
from pertxogai_freecad.home import find_program, limit_of
from pertxogai_freecad.judging import JudgedSketch, judge_sketch
from pertxogai_freecad.ranging import ranges
from pertxogai_freecad.repairing import Repair
from pertxogai_freecad.settings import Settings
from pertxogai_freecad.sketches import CHANGED, GONE, ReadSketch, read_sketch, stored_of
from pertxogai_freecad.trouble import Trouble
from pertxogai_freecad.translating import QT_TRANSLATE_NOOP
from pertxogai_freecad.window.command_words import Word
from pertxogai_freecad.window.complete_page import CompletePage
from pertxogai_freecad.window.construction_page import ConstructionPage
from pertxogai_freecad.window.judge_page import JudgePage
from pertxogai_freecad.window.repair_page import RepairPage
from pertxogai_freecad.window.resources import icon
from pertxogai_freecad.window.selection import (
    is_in_front, selected_constraints, the_sketch)
from pertxogai_freecad.window.tables import stacked
from pertxogai_freecad.window.text_page import TextPage
from pertxogai_freecad.window.words import shown

NAME = "PertxogaiPanel"
GOOD = QT_TRANSLATE_NOOP("Pertxogai", "good: all of it holds within the limit")
ASKING = QT_TRANSLATE_NOOP("Pertxogai", "asking the program ..")
FAULT = QT_TRANSLATE_NOOP(
    "Pertxogai", "this is a fault of the add-on: FreeCAD's report view has the details")
WIDTH = 420


class Page(Protocol):
    """A page of the panel, for one command."""

    def clear(self) -> None: ...


class Panel:
    """The panel of FreeCAD's window."""

    def __init__(self) -> None:
        self._sketch: OwnSketch | None = None
        self._read: ReadSketch | None = None
        self._document = ""
        self._judge, self._repair = JudgePage(self), RepairPage(self)
        self._complete, self._construction = CompletePage(self), ConstructionPage()
        self._range, self._certify = TextPage("PertxogaiRanges"), TextPage("PertxogaiClaim")
        self.headline, self.facts, self.note = (_label(each) for each in (
            "PertxogaiHeadline", "PertxogaiFacts", "PertxogaiNote"))
        self.headline.setStyleSheet("font-weight: bold")
        self._pages = QtGui.QStackedWidget()
        self._widgets = {
            Word.JUDGE: self._judge.widget, Word.REPAIR: self._repair.widget,
            Word.COMPLETE: self._complete.widget, Word.RANGE: self._range.widget,
            Word.CERTIFY: self._certify.widget, Word.CONSTRUCTION: self._construction.widget}
        for widget in self._widgets.values():
            self._pages.addWidget(widget)
        self.dock = self._docked()
        FreeCAD.addDocumentObserver(self)

    def _docked(self) -> QtGui.QDockWidget:
        """The panel's frame, at the right of FreeCAD's window."""
        window = FreeCADGui.getMainWindow()
        dock = QtGui.QDockWidget("Pertxogai", window)
        dock.setObjectName(NAME)
        dock.setWidget(stacked(self._buttons(), self.headline, self.facts, self.note,
                               self._pages))
        dock.widget().setMinimumWidth(WIDTH)
        dock.visibilityChanged.connect(self._seen)
        window.addDockWidget(QtCore.Qt.RightDockWidgetArea, dock)
        return dock

    def _buttons(self) -> QtGui.QToolBar:
        """The commands, which a user of another workbench finds here."""
        bar = QtGui.QToolBar()
        bar.setToolButtonStyle(QtCore.Qt.ToolButtonTextUnderIcon)
        for word in Word:
            action = bar.addAction(QtGui.QIcon(icon(word.icon)), word.text())
            action.setToolTip(word.tip())
            action.triggered.connect(lambda *_, word=word: self.do(word))
        return bar

    def do(self, word: Word) -> None:
        """Does a command on the sketch that is edited or selected, and shows what came of it."""
        self._clear()
        self._turn_to(word)
        with self._told():
            self._sketch = the_sketch(self._sketch)
            self._say_asking()
            self._ask(word, self._sketch)

    def change(self, act: Callable[[], None], then: Word) -> None:
        """Does what a button says of the sketch that was asked about, and then a command on the
        same. Its document has to be in front, since FreeCAD's undo is that of the one in front."""
        with self._told():
            sketch = self._sketch
            if sketch is None or not is_in_front(sketch):
                raise Trouble("the sketch's document isn't in front: choose its tab, and press "
                              "again")
            act()
            self._clear()
            self._turn_to(then)
            self._say_asking()
            self._ask(then, sketch)

    def _turn_to(self, word: Word) -> None:
        """Shows the page of a command."""
        self.dock.show()
        self.dock.raise_()
        self._pages.setCurrentWidget(self._widgets[word])

    def attempt(self, act: Callable[[], None]) -> None:
        """Does what changes nothing but what the window shows."""
        with self._told():
            act()

    def _ask(self, word: Word, sketch: OwnSketch) -> None:
        """Asks about a sketch. Raises Trouble."""
        settings = Settings.stored()
        program, limit = find_program(settings), limit_of(settings)
        selected = selected_constraints(sketch)
        read = read_sketch(sketch)
        judged = judge_sketch(read, program, limit)
        self._show(judged)
        if word is Word.JUDGE:
            self._judge.show(judged)
        elif word is Word.REPAIR:
            self._repair.show(Repair.of(judged))
        elif word is Word.COMPLETE:
            self._complete.show(Proposed.of(read, program, limit))
        elif word is Word.RANGE:
            self._range.show(ranges(read, program, limit, selected))
        elif word is Word.CERTIFY:
            self._certify.show(certify(judged).lines())
        else:
            self._construction.show(construct(judged))

    def _say_asking(self) -> None:
        """Has the panel seen before the program is asked, which may take long."""
        self.note.setText(shown(ASKING))
        QtGui.QApplication.processEvents(QtCore.QEventLoop.ExcludeUserInputEvents)

    def _show(self, judged: JudgedSketch) -> None:
        """Shows the verdict, and whether all is good."""
        self._read, self._document = judged.read, judged.read.sketch.Document.Name
        document = judged.read.sketch.Document.Label
        several = len(FreeCAD.listDocuments()) > 1
        self.headline.setText(f"{document}: {judged.headline()}" if several else judged.headline())
        self.facts.setText(f"{judged.freedoms()}; {judged.tolerance()}")
        is_good = isinstance(judged.good, GoodJudgement)
        self.note.setText(shown(GOOD) if is_good else f"not good: {judged.good}")

    def _clear(self) -> None:
        """Takes away what was shown of another sketch, or by another command."""
        self._read, self._document = None, ""
        pages: tuple[Page, ...] = (self._judge, self._repair, self._complete, self._range,
                                   self._certify, self._construction)
        for page in pages:
            page.clear()
        for label in (self.headline, self.facts, self.note):
            label.setText("")

    @contextmanager
    def _told(self) -> Iterator[None]:
        """Shows the trouble that is met within, in the panel and in FreeCAD's report."""
        QtGui.QApplication.setOverrideCursor(QtCore.Qt.WaitCursor)
        try:
            yield
        except Trouble as trouble:
            self._complain(str(trouble))
        except ReferenceError:  # What FreeCAD raises where an object was deleted.
            self._clear()
            self._complain(GONE)
        except Exception:
            self.note.setText(shown(FAULT))
            raise
        finally:
            QtGui.QApplication.restoreOverrideCursor()

    def _complain(self, line: str) -> None:
        self.note.setText(line)
        FreeCAD.Console.PrintError(f"Pertxogai: {line}\n")

    def _seen(self, is_visible: bool) -> None:
        """Takes the construction away with the panel."""
        if not is_visible and self.dock.isHidden():
            self._construction.clear()
            self._judge.take_back()

    # -- FreeCAD tells of what changes in documents

    def slotChangedObject(self, changed: object, what: str) -> None:
        """Says so where the sketch isn't any more what was judged."""
        if self._read is not None and what in (
                "Constraints", "Geometry", "ExternalGeometry"):
            try:
                is_changed = stored_of(self._read.sketch) != self._read.stored
            except Trouble:
                is_changed = True
            if is_changed:
                self._read = None
                self._construction.clear()
                self._judge.take_back()
                self.note.setText(shown(CHANGED))

    def slotDeletedObject(self, deleted: OwnSketch) -> None:
        """Shows nothing of a sketch any more that is deleted."""
        if self._read is not None and deleted is self._read.sketch:
            self._clear()
            self.note.setText(GONE)

    def slotDeletedDocument(self, deleted: OwnDocument) -> None:
        """Shows nothing of a sketch any more whose document is closed."""
        if self._document == deleted.Name:
            self._clear()


def _label(name: str) -> QtGui.QLabel:
    made = QtGui.QLabel()
    made.setObjectName(name)
    made.setWordWrap(True)
    made.setTextFormat(QtCore.Qt.PlainText)
    made.setTextInteractionFlags(QtCore.Qt.TextSelectableByMouse)
    return made


_PANELS: list[Panel] = []


def the_panel() -> Panel:
    """The one panel of the window, made when it is first asked for."""
    if not _PANELS:
        _PANELS.append(Panel())
    return _PANELS[0]
