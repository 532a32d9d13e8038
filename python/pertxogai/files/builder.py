"""A drawing while a file's shapes and constraints are added to it one by one.

What a drawing can't say, or what would make it unsound, is left out and told.
"""

from __future__ import annotations

from collections.abc import Sequence
from dataclasses import replace
from fractions import Fraction

from pertxogai.drawing import Constraint, Drawing, PointRef, Shape, ShapeRef, Value, Which
from pertxogai.drawing.constraint_checks import check_constraint
from pertxogai.drawing.named_shapes import NamedShapes
from pertxogai.drawing.names import MOST_CALLED
from pertxogai.drawing.refusal import WordFault
from pertxogai.drawing.soundness import check_shape
from pertxogai.drawing.values.table import Values
from pertxogai.files.contents import FileSketch, LeftOut, NotDriving
from pertxogai.files.printable import printable

_ROOM = 8
"""Letters that are kept free behind a name for its count."""


class DrawingBuilder:
    """The shapes and constraints so far."""

    def __init__(self, values: tuple[Value, ...] = ()) -> None:
        self._scene = NamedShapes(values=Values(values))
        self._values = values
        self._geometry: list[Shape] = []
        self._constraints: list[Constraint] = []
        self._numbers: list[int] = []
        self._left_out: list[LeftOut] = []
        self._names: dict[str, int] = {}

    def add_shape(self, shape: Shape) -> bool:
        """Adds a shape, or leaves it out where it is unsound; answers whether it was added."""
        try:
            check_shape(self._scene, shape)
        except WordFault as fault:
            self.leave_out(shape.name, str(fault))
            return False
        self._scene.add(shape)
        self._geometry.append(shape)
        return True

    def add_constraints(self, said: Sequence[Constraint], name: str, number: int) -> None:
        """Adds what is said for the constraint of that name and number in the file, or leaves
        all of it out where some is unsound."""
        try:
            for constraint in said:
                check_constraint(self._scene, constraint)
        except WordFault as fault:
            self.leave_out(name, str(fault), number)
            return
        for constraint in said:
            self._constraints.append(replace(constraint, name=self._free_name(name)))
            self._numbers.append(number)

    def is_left(self, first: ShapeRef, second: ShapeRef) -> bool:
        """Whether the second of two segments that were added is drawn to the left of the first,
        seen along it, or runs along it."""
        along, across = self._way(first), self._way(second)
        return along[0] * across[1] - along[1] * across[0] >= 0

    def leave_out(self, what: str, why: str, number: int | None = None) -> None:
        """Notes what is left out, and why; of a constraint also its number in the file, from 1."""
        self._left_out.append(LeftOut(what, why, number))

    def found(self, name: str, label: str, aside: Sequence[NotDriving] = ()) -> FileSketch:
        """The sketch of all that was added."""
        drawing = Drawing(tuple(self._geometry), tuple(self._constraints), values=self._values,
                          not_drawn=tuple(printable(str(each)) for each in self._left_out))
        return FileSketch(name, label, drawing, tuple(self._numbers), tuple(self._left_out),
                          tuple(aside))

    def _way(self, line: ShapeRef) -> tuple[Fraction, Fraction]:
        """The drawn way of a segment."""
        start, end = (self._scene.drawn(PointRef(line.name, which))
                      for which in (Which.START, Which.END))
        return end.x_um - start.x_um, end.y_um - start.y_um

    def _free_name(self, name: str) -> str:
        """A name of a constraint that a drawing takes and that is free, near to the given one."""
        plain = "".join(letter if letter.isprintable() and letter not in ":#" else " "
                        for letter in name)
        fitted = short = " ".join(plain.split())[:MOST_CALLED - _ROOM].strip() or "Constraint"
        while fitted in self._names:
            self._names[short] += 1
            fitted = f"{short} ({self._names[short]})"
        self._names[fitted] = 1
        return fitted
