"""What a spelling is: the sketch, and what each of its lines and constraints stands for."""
from __future__ import annotations

from collections.abc import Mapping
from dataclasses import dataclass, field, replace
from functools import cached_property
from typing import NamedTuple

from pertxogai import language
from pertxogai.spelling.drafts import Owners, Rounded, Sheet
from pertxogai.spelling.facts import DATUM, Knot, Line, Owner
from pertxogai.spelling.linear import Number
from pertxogai.spelling.rails import Rail
from pertxogai.spelling.style import Style

Track = Rail | Line
"""What becomes a line of the sketch: a rail, or a line that leans."""


class Heading(NamedTuple):
    """A line of the sketch: which way it runs in its frame, `turn` counter-clockwise from the
    first axis, and the rail that it is, with its place along the axis that it fixes."""

    name: str
    frame: int
    quarters: int | None
    radians: float
    rail: Rail | None
    at_um: Number


class Contradiction(NamedTuple):
    """What can't be spelled and isn't so where the rest is placed: by how much it is off, in
    micrometres, None where the rest has no places; who says it, and who says the rest."""

    amount_um: Number | None
    owners: frozenset[Owner]
    others: frozenset[Owner]


@dataclass(frozen=True)
class Care:
    """Further options of an encoding. insist: encode linear constraints twice if they are given
    twice. fine: pass an angle that is no ratio as two angles that add up to it, with an auxiliary
    line. within: how far these two may be off the angle, in radians, where they needn't be the
    nearest. through: the point through which that line runs, by the names of the two lines of the
    angle; where they aren't here, the first point of the second line. off: contradictions to encode
    by points of their own."""

    insist: bool = False
    fine: bool = False
    within: float = 0.0
    off: tuple[Contradiction, ...] = ()
    through: Mapping[tuple[str, ...], Knot] = field(default_factory=dict, hash=False)


class Behind(NamedTuple):
    """A line of help from which a height is told: so many micrometres of the drawing behind the
    line of a rail, and as much longer is the height told."""

    rail: str
    back_um: int


@dataclass(frozen=True)
class Spelled:
    """A drawing in the sketch language. The sketch is `scale` times as large as the drawing. said:
    the constraints of the drawing behind each constraint of the sketch, in order. points: the name
    of each knot's point; a knot is a class of coinciding points. tracks: what each line stands for.
    headings: the direction of each line. left_out: the constraints of the drawing that aren't in
    the sketch. rounded: values that had to be rounded. near: the numbers of the angles that are
    passed as a near ratio. behind: the auxiliary lines behind a rail. unmeasured: the auxiliary
    points between which a distance stands for something without a value. sheet: the same before it
    was put on a grid."""

    style: Style
    sketch: language.Sketch
    scale: int
    said: tuple[Owners, ...]
    points: dict[Knot, str]
    tracks: dict[str, Track | None]
    headings: tuple[Heading, ...]
    left_out: frozenset[Owner]
    rounded: tuple[Rounded, ...]
    near: tuple[int, ...]
    behind: dict[str, Behind]
    unmeasured: frozenset[tuple[str, str]]
    sheet: Sheet = field(repr=False, compare=False)

    @cached_property
    def owners(self) -> tuple[frozenset[Owner], ...]:
        """The constraints of the drawing behind each constraint of the sketch, in order."""
        return tuple(said() for said in self.said)

    def scaled(self, scale: int) -> Spelled:
        """The same, so many times as large as the drawing."""
        sketch, rounded = self.sheet.sketch(scale)
        return replace(self, sketch=sketch, scale=scale, rounded=rounded)

    def tied(self) -> bool:
        """Whether a line of it is tied to the datum's axes; otherwise all of it may turn."""
        return any(each.frame == DATUM for each in self.headings)
