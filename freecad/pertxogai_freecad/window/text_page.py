"""A page of the panel that tells lines: for Range and Certify."""
from __future__ import annotations

from collections.abc import Iterable

from pertxogai_freecad.window.tables import read_only, stacked


class TextPage:
    """Lines to read."""

    def __init__(self, name: str) -> None:
        self.told = read_only(name)
        self.widget = stacked(self.told)

    def clear(self) -> None:
        """Shows nothing."""
        self.told.clear()

    def show(self, lines: Iterable[str]) -> None:
        """Shows these lines."""
        self.told.setPlainText("\n".join(lines))
