"""The constraints of a sketch, between elements by their names."""
from __future__ import annotations

from dataclasses import dataclass

from pertxogai.language.names import checked_name
from pertxogai.language.numbers import checked_length_um, checked_ratio, checked_um, mm_text

MOST_PLACES = 16


@dataclass(frozen=True)
class Distance:
    """The distance of two points or centres is `length_um`; or that of a point or centre and a
    line, in either order."""

    first: str
    second: str
    length_um: int

    def __post_init__(self) -> None:
        checked_length_um(self.length_um)

    def names(self) -> tuple[str, ...]:
        """The elements that the line names, in order."""
        return self.first, self.second

    def text(self) -> str:
        """The line of the language."""
        return f"distance {self.first} {self.second} {mm_text(self.length_um)}"


@dataclass(frozen=True)
class On:
    """A point or centre lies on a line, or a point on a circle: `carrier` is that line or
    circle."""

    point: str
    carrier: str

    def names(self) -> tuple[str, ...]:
        """The elements that the line names, in order."""
        return self.point, self.carrier

    def text(self) -> str:
        """The line of the language."""
        return f"on {self.point} {self.carrier}"


@dataclass(frozen=True)
class Tangent:
    """A line and a circle, in either order, touch. The circle lies on the side on which it is
    drawn."""

    first: str
    second: str

    def names(self) -> tuple[str, ...]:
        """The elements that the line names, in order."""
        return self.first, self.second

    def text(self) -> str:
        """The line of the language."""
        return f"tangent {self.first} {self.second}"


@dataclass(frozen=True)
class Outside:
    """Two circles touch from outside."""

    first: str
    second: str

    def names(self) -> tuple[str, ...]:
        """The elements that the line names, in order."""
        return self.first, self.second

    def text(self) -> str:
        """The line of the language."""
        return f"outside {self.first} {self.second}"


@dataclass(frozen=True)
class Inside:
    """Two circles of different radii touch, one inside the other."""

    first: str
    second: str

    def names(self) -> tuple[str, ...]:
        """The elements that the line names, in order."""
        return self.first, self.second

    def text(self) -> str:
        """The line of the language."""
        return f"inside {self.first} {self.second}"


@dataclass(frozen=True)
class Angle:
    """The angle from the line `first` to the line `second` has the tangent p/q; 1/0 is a right
    angle. Both numbers are at most 10,000, p isn't 0, q isn't negative; the ratio isn't
    reduced. Raises NotHeld."""

    first: str
    second: str
    p: int
    q: int

    def __post_init__(self) -> None:
        checked_ratio(self.p, self.q)

    def names(self) -> tuple[str, ...]:
        """The elements that the line names, in order."""
        return self.first, self.second

    def text(self) -> str:
        """The line of the language."""
        return f"angle {self.first} {self.second} {self.p}/{self.q}"


@dataclass(frozen=True)
class BlockPlace:
    """The position of a point or centre in a block, in micrometres."""

    name: str
    x_um: int
    y_um: int

    def __post_init__(self) -> None:
        checked_name(self.name)
        for um in (self.x_um, self.y_um):
            checked_um(um)


@dataclass(frozen=True)
class Block:
    """A rigid block (version 2): from 2 to 16 points or centres have the relative positions given
    here, not mirrored."""

    places: tuple[BlockPlace, ...]

    def __post_init__(self) -> None:
        if not 2 <= len(self.places) <= MOST_PLACES:
            raise ValueError(
                f"a block has from 2 to {MOST_PLACES} places, and this one {len(self.places)}"
            )

    def names(self) -> tuple[str, ...]:
        """The elements that the line names, in order."""
        return tuple(place.name for place in self.places)

    def text(self) -> str:
        """The line of the language."""
        words = ["block"]
        for place in self.places:
            words += [place.name, mm_text(place.x_um), mm_text(place.y_um)]
        return " ".join(words)


Constraint = Distance | On | Tangent | Outside | Inside | Angle | Block
"""A constraint of the language: lengths in micrometres, angles as ratios."""
