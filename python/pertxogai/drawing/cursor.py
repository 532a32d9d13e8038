"""The words of one line, taken one by one, and what each of them names."""

from __future__ import annotations

from collections.abc import Sequence
from fractions import Fraction

from pertxogai.drawing.checks import check_point, points_told, standing
from pertxogai.drawing.geometry import Anchor, Arc, Circle, Origin, Point
from pertxogai.drawing.named_shapes import NamedShapes
from pertxogai.drawing.numbers import (
    WrittenAngle, WrittenLength, begins_value, is_number, read_length, read_um, read_written_angle)
from pertxogai.drawing.places import Place
from pertxogai.drawing.references import PointRef, ShapeRef, Which
from pertxogai.drawing.refusal import WordFault
from pertxogai.drawing.tolerances.tolerance import read_tolerance, split_tolerance


class Cursor:
    """The words of a line behind its first, over the shapes that stand above it.

    Each call that takes a word raises WordFault where it isn't what is meant."""

    def __init__(self, scene: NamedShapes, words: Sequence[str]) -> None:
        self.scene = scene
        self._words = words
        self._taken = 1

    def word(self, meant: str) -> str:
        """The next word; `meant` says in a refusal what is missing where there is none."""
        if self._taken == len(self._words):
            raise WordFault(self._words[-1], f"is the last word, and {meant} is missing behind it")
        self._taken += 1
        return self._words[self._taken - 1]

    def left(self) -> int:
        """How many words are still to be taken."""
        return len(self._words) - self._taken

    def peek(self) -> str:
        """The next word, which isn't taken; empty where there is none."""
        return self._words[self._taken] if self.left() else ""

    def took(self, word: str) -> bool:
        """Whether the next word is this one, which is then taken."""
        if self.peek() != word:
            return False
        self._taken += 1
        return True

    def end(self) -> None:
        """Raises WordFault where words are left."""
        if self.left():
            raise WordFault(self.peek(), "is a word too many: leave it out")

    def um(self, meant: str) -> Fraction:
        """A number of millimetres, in micrometres."""
        return read_um(self.word(meant))

    def begins_value(self) -> bool:
        """Whether the next word begins a number or an expression: a shape that stands goes before
        a value."""
        word = self.peek()
        return not self.scene.has(word.partition(".")[0]) and begins_value(word, self.scene.values)

    def rest(self, meant: str) -> str:
        """All words that are left, with single blanks between them."""
        first = self.word(meant)
        rest = self._words[self._taken:]
        self._taken = len(self._words)
        return " ".join([first, *rest])

    def length(self) -> WrittenLength:
        """A number of millimetres, or an expression, and its tolerance, to the end of the line."""
        text, word = split_tolerance(self.rest("a number of millimetres"))
        tolerance = read_tolerance(word, of_angle=False)
        return read_length(text, self.scene.values)._replace(tolerance=tolerance)

    def angle(self) -> WrittenAngle:
        """An angle, or an expression, and its tolerance, to the end of the line."""
        text, word = split_tolerance(self.rest("an angle, such as 60deg,"))
        tolerance = read_tolerance(word, of_angle=True)
        return read_written_angle(text, self.scene.values)._replace(tolerance=tolerance)

    def place(self) -> Place:
        """A place, by two numbers."""
        return Place(self.um("a number for x"), self.um("a number for y"))

    def spot(self, meant: str) -> Anchor:
        """A place by two numbers, or the name of a point that stands."""
        if is_number(self.peek()):
            return self.place()
        return self.point(f"{meant}, a place or a point,")

    def point(self, meant: str = "a point") -> PointRef:
        """A point: `A`, `Bottom.start`, `Hole.centre`; a circle or arc alone is its centre."""
        what = self.thing(meant)
        if isinstance(what, PointRef):
            return what
        shape = standing(self.scene, what.name, what.name)
        if isinstance(shape, Circle | Arc):
            return PointRef(what.name, Which.CENTRE)
        raise WordFault(what.name, "is no point: " + points_told(shape))

    def shape(self, meant: str = "a segment, circle or arc") -> ShapeRef:
        """A whole shape or axis."""
        what = self.thing(meant)
        if isinstance(what, PointRef):
            raise WordFault(str(what), f"is a point: write {meant}")
        return what

    def thing(self, meant: str = "a point or a shape") -> PointRef | ShapeRef:
        """What a word names: a point, or else a whole shape."""
        word = self.word(meant)
        name, dot, which = word.partition(".")
        if dot:
            return self._point_of(word, name, which)
        if is_number(word):
            raise WordFault(word, f"is a number where {meant} is meant: write a name")
        shape = standing(self.scene, name, word)
        return PointRef(name) if isinstance(shape, Point | Origin) else ShapeRef(name)

    def _point_of(self, word: str, name: str, which: str) -> PointRef:
        shape = standing(self.scene, name, word)
        try:
            ref = PointRef(name, Which("centre" if which == "center" else which))
        except ValueError:
            raise WordFault(word, "is no point: " + points_told(shape)) from None
        check_point(self.scene, ref)
        return ref
