"""A table of the panel: rows of texts, of which one may be selected."""
from __future__ import annotations

from collections.abc import Callable, Sequence

from PySide import QtCore, QtGui

from pertxogai_freecad.window.words import shown


class Table:
    """Rows of texts below headings."""

    def __init__(self, name: str, headings: Sequence[str],
                 selected: Callable[[int], None] | None = None,
                 opened: Callable[[int], None] | None = None) -> None:
        """selected, opened: what is done with the place of a row, from 0, that is selected, or
        clicked on twice."""
        self.widget = QtGui.QTreeWidget()
        self.widget.setObjectName(name)
        self.widget.setHeaderLabels([shown(each) for each in headings])
        self.widget.setRootIsDecorated(False)
        self.widget.setAlternatingRowColors(True)
        if selected is not None:
            act = selected
            self.widget.itemSelectionChanged.connect(
                lambda: act(self.place) if self.place is not None else None)
        if opened is not None:
            open_it = opened
            self.widget.itemDoubleClicked.connect(
                lambda item, column: open_it(self.widget.indexOfTopLevelItem(item)))

    @property
    def place(self) -> int | None:
        """The place of the row that is selected."""
        items = self.widget.selectedItems()
        return self.widget.indexOfTopLevelItem(items[0]) if items else None

    def show(self, rows: Sequence[Sequence[str]], strong: Sequence[int] = ()) -> None:
        """Shows these rows, none of them selected. strong: the places of those that are marked."""
        self.widget.blockSignals(True)
        self._fill(rows, strong)
        self.widget.blockSignals(False)

    def _fill(self, rows: Sequence[Sequence[str]], strong: Sequence[int]) -> None:
        self.widget.clear()
        for place, row in enumerate(rows):
            item = QtGui.QTreeWidgetItem(list(row))
            for column, text in enumerate(row):
                item.setToolTip(column, text)
            if place in strong:
                font = item.font(0)
                font.setBold(True)
                for column in range(len(row)):
                    item.setFont(column, font)
            self.widget.addTopLevelItem(item)
        for column in range(self.widget.columnCount()):
            self.widget.resizeColumnToContents(column)


def button(text: str, name: str, act: Callable[[], None]) -> QtGui.QPushButton:
    """A button that does something."""
    made = QtGui.QPushButton(shown(text))
    made.setObjectName(name)
    made.clicked.connect(lambda *_: act())
    return made


def stacked(*parts: object) -> QtGui.QWidget:
    """Widgets below each other; those in a tuple beside each other."""
    made = QtGui.QWidget()
    layout = QtGui.QVBoxLayout(made)
    layout.setContentsMargins(0, 0, 0, 0)
    for part in parts:
        if isinstance(part, tuple):
            row = QtGui.QHBoxLayout()
            for each in part:
                row.addWidget(each)
            layout.addLayout(row)
        else:
            layout.addWidget(part)
    return made


def read_only(name: str) -> QtGui.QPlainTextEdit:
    """A text that can be read and copied."""
    made = QtGui.QPlainTextEdit()
    made.setObjectName(name)
    made.setReadOnly(True)
    made.setLineWrapMode(QtGui.QPlainTextEdit.WidgetWidth)
    made.setTextInteractionFlags(QtCore.Qt.TextSelectableByMouse
                                 | QtCore.Qt.TextSelectableByKeyboard)
    return made


def height_of(text: QtGui.QPlainTextEdit, lines: int) -> int:
    """How high a text has to be to show some lines whole, in pixels."""
    margin = text.document().documentMargin() + text.frameWidth()
    return int(lines * text.fontMetrics().lineSpacing() + 2 * margin)
