"""One row of the equations: a length in nanometres that is 0 where what it asks for holds.

Nothing is an angle or a square, so that all rows are measured alike. With w, u and v for ways, R
for a constant turn, and B for a constant combination of the unknowns, there are five kinds:

    LINEAR     Bx - b                              level, x, y, middle, radius, fixed
    DISTANCE   |w| - b + Bx                        a distance, on a rim, rims that touch
    EQUAL      |u| - |v|                           equal lengths
    ASIDE      side * (u x Rw) / |u| - b + Bx      on a line, off it, tangent to it, mirrored
    LEAN       size * (the angle from u to Rv)     parallel, square, an angle, touch at an end

LEAN takes the angle itself and not its sine, which is 0 half a turn away too, and stands still at a
right angle. `size` is the shorter drawn way: a row of a direction is a length, as the package
measures it, and a line that shrinks gains nothing."""
from __future__ import annotations

from collections.abc import Mapping
from dataclasses import dataclass, field
from enum import IntEnum

from pertxogai.search.combination import Combination
from pertxogai.search.unknowns import Source

Linear = Mapping[int, float]
"""A combination of unknowns: factors by columns."""


class Kind(IntEnum):
    """The form of a row."""

    LINEAR = 0
    DISTANCE = 1
    EQUAL = 2
    ASIDE = 3
    LEAN = 4


@dataclass(frozen=True)
class Row:
    """A row and who asks for it.

    linear and number_nm: B and b. turn: cosine and sine of R. is_sided: the side is the drawn one,
    else the left. is_size: the number is a designer's length, which tells the scale. is_directed:
    two ways may not run against each other; of parallel lines that is left open. level: of a row
    that asks for the direction of a line by its y or x alone, the way along that line."""

    source: Source
    kind: Kind
    ways: tuple[Combination, ...] = ()
    linear: Linear = field(default_factory=dict)
    number_nm: float = 0.0
    turn: tuple[float, float] = (1.0, 0.0)
    is_sided: bool = False
    is_size: bool = False
    is_directed: bool = False
    level: Combination | None = None
