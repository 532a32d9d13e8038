"""Sketches found in a file of another program: their drawings, and what they can't say."""

from __future__ import annotations

from dataclasses import dataclass
from enum import Enum

from pertxogai.drawing import Constraint, Drawing
from pertxogai.judging.measure import Solution


class FileRefusal(Exception):
    """A file can't be read, or can't be written. The message is one line and says what to do."""


class NotSayable(Exception):
    """A shape or constraint of a file that a drawing can't say; the message tells why."""


@dataclass(frozen=True)
class LeftOut:
    """A shape or a constraint of the file that the drawing doesn't have, and why. number: the
    number of the constraint in the file, from 1, if the file numbers them."""

    what: str
    why: str
    number: int | None = None

    def __str__(self) -> str:
        return f"{self.what}: {self.why}"


class NotDrivingCause(Enum):
    """Why a constraint of the file doesn't drive its sketch."""

    REFERENCE = "reference"
    """It measures, and holds nothing."""
    OFF = "off"
    """The designer switched it off."""


@dataclass(frozen=True)
class NotDriving:
    """A constraint of the file that doesn't drive the sketch: its number in the file, from 1,
    its name, why, and what it would ask for (nothing where the drawing can't say it)."""

    number: int
    name: str
    why: NotDrivingCause
    constraints: tuple[Constraint, ...]


@dataclass(frozen=True)
class FileSketch:
    """A sketch of a file. `name` is its name in the file, `label` the designer's name for it.
    `numbers` has for each constraint of the drawing, in order, its number in the file, from 1;
    several constraints of the drawing may stand for one of the file. The drawing itself tells in
    `not_drawn` what is left out, so no judgement on it is good where something is."""

    name: str
    label: str
    drawing: Drawing
    numbers: tuple[int, ...] = ()
    left_out: tuple[LeftOut, ...] = ()
    aside: tuple[NotDriving, ...] = ()


@dataclass(frozen=True)
class Addition:
    """What is written into a sketch of a file besides what stands there: the drawing with it, which
    constraints at the end of that it is, and where the drawing lies with it."""

    drawing: Drawing
    added: tuple[Constraint, ...]
    solution: Solution
