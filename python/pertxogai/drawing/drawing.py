"""A whole drawing: its shapes, its constraints, its notes, and what they say at a look."""

from __future__ import annotations

from collections.abc import Iterator
from copy import copy
from dataclasses import dataclass, field, replace
from fractions import Fraction
from functools import cached_property

from pertxogai.cached import cached_on
from pertxogai.drawing.constraints import Constraint
from pertxogai.drawing.geometry import Datum, Shape
from pertxogai.drawing.meetings import Meetings
from pertxogai.drawing.named_shapes import NamedShapes, points_of, shares, spot_of
from pertxogai.drawing.places import Place
from pertxogai.drawing.references import ORIGIN, Pair, PointRef
from pertxogai.drawing.tolerances.check import Tolerancing
from pertxogai.drawing.values.table import Value, Values
from pertxogai.drawing.wording import words_of


@dataclass(frozen=True)
class Note:
    """A designer's note: the words after a `#`. `before` is the index, from 0, of the shape or
    constraint at which it stands, counted over all shapes and then all constraints; their number is
    the end of the drawing. `beside` is true if it stands in the line itself, and false if it has a
    line of its own above."""

    text: str
    before: int
    beside: bool = False


@dataclass(frozen=True)
class Drawing:
    """A designer's drawing: its shapes and constraints. The origin, the x axis and the y axis
    always exist, and aren't among `geometry`. not_drawn: what the file that it was read from has
    and a drawing can't express, a line for each; drawings that differ in that alone are equal, and
    `write_drawing` doesn't write it. `pertxogai.drawing.checked` says whether a drawing is sound,
    however it was made; the methods here are for sound drawings and raise KeyError for an unknown
    name."""

    geometry: tuple[Shape, ...] = ()
    constraints: tuple[Constraint, ...] = ()
    notes: tuple[Note, ...] = ()
    values: tuple[Value, ...] = ()
    tolerancing: Tolerancing = Tolerancing()
    not_drawn: tuple[str, ...] = field(default=(), compare=False)

    @cached_property
    def scene(self) -> NamedShapes:
        """The shapes by their names, and the values."""
        return NamedShapes(self.geometry, Values(self.values))

    @cached_property
    def meetings(self) -> Meetings:
        """Which points coincide."""
        return Meetings(self)

    def meeting_as(self, other: Drawing) -> Drawing:
        """The same drawing, with the classes of coinciding points taken over from another drawing
        in which the same points coincide."""
        found = copy(self)
        vars(found)["meetings"] = other.meetings.redrawn(found)
        return found

    def with_numbers(self, said: tuple[Constraint, ...],
                     values: tuple[Value, ...] | None = None) -> Drawing:
        """The same with other numbers in its constraints, and with other values. Which of its
        points are one, and where they are drawn, is taken over."""
        found = replace(self, constraints=said, values=self.values if values is None else values)
        vars(found)["scene"] = (self.scene if values is None
                                else self.scene.with_values(Values(values)))
        vars(found)["meetings"] = self.meetings.redrawn(found)
        return found

    @cached_property
    def wordings(self) -> tuple[str, ...]:
        """The words of each constraint, without its name, in order."""
        return tuple(map(words_of, self.constraints))

    def shape(self, name: str) -> Shape | Datum:
        """The shape of that name, or that part of the datum. Raises KeyError."""
        return self.scene.shape(name)

    def has(self, name: str) -> bool:
        """Whether a shape, or a part of the datum, has that name."""
        return self.scene.has(name)

    def called(self, number: int) -> str:
        """The name of constraint `number`, from 1: the name that the designer gave it, else its
        number and words, such as `constraint 7 (length Bottom 120)`."""
        name = self.constraints[number - 1].name
        return name or f"constraint {number} ({self.wordings[number - 1]})"

    def drawn(self, ref: PointRef) -> Place:
        """Where a point is drawn."""
        return self.scene.drawn(ref)

    def drawn_radius_um(self, name: str) -> Fraction:
        """The drawn radius of a circle or an arc, in micrometres."""
        return self.scene.drawn_radius_um(name)

    def points(self) -> Iterator[PointRef]:
        """Every point of every shape, in order, without the origin."""
        for shape in self.geometry:
            yield from points_of(shape)

    @cached_on
    def shared(self) -> tuple[Pair, ...]:
        """Each point that a shape shares with an earlier one, with the earlier one's point."""
        spots = ((ref, spot_of(shape, ref.which)) for shape in self.geometry if shares(shape)
                 for ref in points_of(shape))
        return tuple(Pair(ref, spot) for ref, spot in spots if isinstance(spot, PointRef))

    @cached_on
    def given(self) -> frozenset[PointRef]:
        """The points that are given from outside, each once: of those that outer shapes share, that
        of the first; none that is the origin."""
        earlier = {pair.first: pair.second for pair in self.shared()}
        found = {ORIGIN: ORIGIN}
        for ref in (ref for shape in self.geometry if shape.outer for ref in points_of(shape)):
            spot = ref
            while spot in earlier:
                spot = earlier[spot]
            found.setdefault(spot, ref)
        return frozenset(found.values()) - {ORIGIN}
