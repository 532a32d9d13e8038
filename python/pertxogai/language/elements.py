"""The elements of a sketch. Places are where they are drawn, in whole micrometres, x to the
right and y up."""
from __future__ import annotations

from dataclasses import dataclass

from pertxogai.cached import cached_on
from pertxogai.language.names import checked_name
from pertxogai.language.numbers import checked_length_um, checked_um, mm_text


@dataclass(frozen=True)
class Point:
    """A point, drawn at (x_um, y_um). Raises NotHeld and NotAName."""

    name: str
    x_um: int
    y_um: int

    def __post_init__(self) -> None:
        checked_name(self.name)
        for um in (self.x_um, self.y_um):
            checked_um(um)

    @cached_on
    def text(self) -> str:
        """The line of the language."""
        return f"point {self.name} {mm_text(self.x_um)} {mm_text(self.y_um)}"


@dataclass(frozen=True)
class Line:
    """A directed line without ends, drawn from (x1_um, y1_um) towards (x2_um, y2_um). Raises
    NotHeld if the two coincide, and NotAName."""

    name: str
    x1_um: int
    y1_um: int
    x2_um: int
    y2_um: int

    def __post_init__(self) -> None:
        checked_name(self.name)
        for um in self._places():
            checked_um(um)
        if (self.x1_um, self.y1_um) == (self.x2_um, self.y2_um):
            raise ValueError(
                f"line {self.name} is drawn through one place twice: draw it through two"
            )

    def _places(self) -> tuple[int, int, int, int]:
        return self.x1_um, self.y1_um, self.x2_um, self.y2_um

    @cached_on
    def text(self) -> str:
        """The line of the language."""
        return " ".join(["line", self.name, *map(mm_text, self._places())])


@dataclass(frozen=True)
class Circle:
    """A circle whose radius is a dimension, and exact; drawn with its centre at (x_um, y_um).
    Raises NotHeld and NotAName."""

    name: str
    x_um: int
    y_um: int
    radius_um: int

    def __post_init__(self) -> None:
        checked_name(self.name)
        for um in (self.x_um, self.y_um):
            checked_um(um)
        checked_length_um(self.radius_um)

    def text(self) -> str:
        """The line of the language."""
        return " ".join(
            ["circle", self.name, *map(mm_text, (self.x_um, self.y_um, self.radius_um))]
        )


Element = Point | Line | Circle
"""An element of a sketch: drawn positions in micrometres."""
