"""What `solve` answers: where each element lies, and how exactly."""
from __future__ import annotations

import re
from dataclasses import dataclass

from pertxogai.language.places import Placed, PlacedCircle, PlacedLine, PlacedPoint
from pertxogai.program.reports.check import Verdict, take_verdict
from pertxogai.program.reports.rows import COUNT, NAME, WHOLE, Rows, whole

_STEPS = f"steps ({COUNT})"
_BITS = "bits (16|27|38)"
_PLACE = (
    f"(?:(point) ({NAME}) ({WHOLE}) ({WHOLE})|(line|circle) ({NAME}) ({WHOLE}) ({WHOLE})"
    f" ({WHOLE}))"
)
_LENGTH = f"length tolerance ({COUNT}) nm at (?:c({COUNT})|none)"
_ANGLE = f"angle tolerance ({COUNT}) ppb at (?:line ({NAME})|c({COUNT})|none)"


@dataclass(frozen=True)
class AtConstraint:
    """The constraint of that number determines the tolerance."""

    number: int

    def text(self) -> str:
        """As the report writes it."""
        return f"c{self.number}"


@dataclass(frozen=True)
class AtLine:
    """The normal of that line determines the tolerance."""

    name: str

    def text(self) -> str:
        """As the report writes it."""
        return f"line {self.name}"


@dataclass(frozen=True)
class Tolerances:
    """The least whole numbers within which the printed positions meet each length, and each angle
    and normal; and the first constraint or line that determines each, None if there is nothing to
    measure."""

    length_nm: int
    length_at: AtConstraint | None
    angle_ppb: int
    angle_at: AtConstraint | AtLine | None

    def text(self) -> str:
        """The two lines of the report."""
        length, angle = (at.text() if at else "none" for at in (self.length_at, self.angle_at))
        return (
            f"length tolerance {self.length_nm} nm at {length}\nangle tolerance {self.angle_ppb}"
            f" ppb at {angle}\n"
        )


@dataclass(frozen=True)
class Shape:
    """The positions of elements, by number, in one coordinate system, and their tolerances."""

    places: tuple[Placed, ...]
    tolerances: Tolerances

    @property
    def length_tolerance_nm(self) -> int:
        """The tolerance of lengths, in nanometres."""
        return self.tolerances.length_nm

    @property
    def length_at(self) -> AtConstraint | None:
        """The first constraint that determines it."""
        return self.tolerances.length_at

    @property
    def angle_tolerance_ppb(self) -> int:
        """The tolerance of angles and normals, in parts per 10^9."""
        return self.tolerances.angle_ppb

    @property
    def angle_at(self) -> AtConstraint | AtLine | None:
        """The first line or angle that determines it."""
        return self.tolerances.angle_at

    def place(self, name: str) -> Placed:
        """The position of the element of that name. Raises KeyError."""
        for placed in self.places:
            if placed.name == name:
                return placed
        raise KeyError(name)

    def text(self) -> str:
        """The lines of the report."""
        return "".join(placed.text() + "\n" for placed in self.places) + self.tolerances.text()


@dataclass(frozen=True)
class Solved(Shape):
    """The shape of a fully constrained sketch, with the number of steps, and the number of binary
    digits of its grid."""

    steps: int
    bits: int

    def text(self) -> str:
        """The report as the program writes it."""
        return "verdict well\n" + self.text_behind_verdict()

    def text_behind_verdict(self) -> str:
        """The same without the line of the verdict, as `parts` writes it."""
        return f"steps {self.steps}\nbits {self.bits}\n{super().text()}"


def read_solve(text: str) -> Solved:
    """Reads the report of `solve` about a sketch that has coordinates. Raises NotAReport."""
    with whole(text, "solve") as rows:
        return take_solve(rows)


def take_solve(rows: Rows) -> Solved:
    """The lines of `solve`, from the next on. Raises NotAReport."""
    rows.claim(take_verdict(rows) is Verdict.WELL)
    return take_solved(rows)


def has_solved(rows: Rows) -> bool:
    """Whether the next lines are those of `solve` behind its verdict."""
    return rows.has(_STEPS)


def take_solved(rows: Rows) -> Solved:
    """The lines of `solve` behind its verdict. Raises NotAReport."""
    steps, bits = int(rows.take(_STEPS)[1]), int(rows.take(_BITS)[1])
    shape = take_shape(rows)
    return Solved(shape.places, shape.tolerances, steps, bits)


def take_shape(rows: Rows) -> Shape:
    """The lines of places and of tolerances. Raises NotAReport."""
    places = take_places(rows)
    rows.claim(len({placed.name for placed in places}) == len(places) > 0)
    return Shape(places, take_tolerances(rows))


def take_places(rows: Rows) -> tuple[Placed, ...]:
    """The lines of places, as many as follow."""
    return tuple(_place(found) for found in rows.take_all(_PLACE))


def take_tolerances(rows: Rows) -> Tolerances:
    """The lines of the two tolerances. Raises NotAReport."""
    length, angle = rows.take(_LENGTH), rows.take(_ANGLE)
    at: AtConstraint | AtLine | None = AtLine(angle[2]) if angle[2] else None
    if angle[3]:
        at = AtConstraint(int(angle[3]))
    return Tolerances(
        int(length[1]), AtConstraint(int(length[2])) if length[2] else None, int(angle[1]), at
    )


def _place(found: re.Match[str]) -> Placed:
    if found[1]:
        return PlacedPoint(found[2], int(found[3]), int(found[4]))
    name, numbers = found[6], (int(found[7]), int(found[8]), int(found[9]))
    return PlacedLine(name, *numbers) if found[5] == "line" else PlacedCircle(name, *numbers)
