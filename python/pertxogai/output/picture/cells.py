"""What lies where on a page: things by the cells that they touch, so that few are looked at for
a place."""
from __future__ import annotations

from collections.abc import Iterator
from typing import Generic, TypeVar

from pertxogai.output.picture.marks import PointMm
from pertxogai.output.picture.plane import Box, crosses

SIZE, MOST = 40.0, 200
"""The pixels of a side of a cell, and the most cells along a side of a page: on a larger page they
are larger."""
T = TypeVar("T")


class Cells(Generic[T]):
    """Things of one kind, each in the cells of a square grid that it touches. side: the pixels of
    the longer side of the page."""

    def __init__(self, side: float) -> None:
        self._size = max(SIZE, side / MOST)
        self._cells: dict[tuple[int, int], list[T]] = {}

    def __len__(self) -> int:
        """How many cells have a thing."""
        return len(self._cells)

    def add_box(self, thing: T, box: Box) -> None:
        """Adds a thing that lies within a box."""
        for cell in self._cells_of(box):
            self._cells.setdefault(cell, []).append(thing)

    def add_segment(self, thing: T, one: PointMm, two: PointMm, width: float) -> None:
        """Adds a thing that lies along a segment, within so many pixels of it."""
        box = (
            min(one[0], two[0]) - width,
            min(one[1], two[1]) - width,
            max(one[0], two[0]) + width,
            max(one[1], two[1]) + width,
        )
        size = self._size
        for column, row in self._cells_of(box):
            left, top = column * size - width, row * size - width
            if crosses(one, two, (left, top, left + size + 2 * width, top + size + 2 * width)):
                self._cells.setdefault((column, row), []).append(thing)

    def near(self, box: Box) -> list[T]:
        """The things that touch a cell which a box touches, each once."""
        cells = [self._cells[cell] for cell in self._cells_of(box) if cell in self._cells]
        if len(cells) == 1:
            return cells[0]
        return list({id(thing): thing for cell in cells for thing in cell}.values())

    def _cells_of(self, box: Box) -> Iterator[tuple[int, int]]:
        left, top, right, bottom = (int(edge // self._size) for edge in box)
        for column in range(left, right + 1):
            for row in range(top, bottom + 1):
                yield column, row
