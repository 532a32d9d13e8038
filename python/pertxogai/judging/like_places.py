"""Places at which the words of a drawing hold that tell no length: there its rank is that of its
own shape, and not of a general one, in which sides that are told to be parallel are not.

A place is looked for by Newton's method from the drawn one, which is moved a little by chance, so
that nothing else holds there. Where directions and runs contradict what is told without a value,
these values are left general as well; where that contradicts itself, all that isn't linear is."""
from __future__ import annotations

from collections.abc import Iterator, Sequence
from dataclasses import dataclass
from decimal import Decimal, localcontext
from enum import Enum
from math import hypot
from random import Random
from typing import Generic

from pertxogai.drawing import (
    AngleBetween, Arc, Circle, Coincident, Concentric, Constraint, Degrees, Diameter, Distance,
    Drawing, Fixed, Horizontal, Length, Midpoint, ParallelDistance, PointLineDistance, PointRef,
    Radius, Segment, ShapeRef, Symmetric, Vertical, XDistance, YDistance)
from pertxogai.judging.equations import Plane, Unknowns
from pertxogai.judging.jets import DECIMALS, EXACT, FLOATS, Jet, N, Rows, Steps, unit_row

LENGTHS = Length, Distance, PointLineDistance, ParallelDistance, Radius, Diameter
LINEAR = Coincident, Concentric, Horizontal, Vertical, Midpoint
STIR = 0.01
"""The share of the shortest drawn length by which a place is moved at most."""
SHRUNK = 0.05
"""A length that comes to less of its drawn one has vanished."""
TRIES = 2
TURNS, POLISHING = 10, 4
"""The most steps in floats, and the most in decimals, each of which doubles the digits that are
right."""
WEAK = 1e-2, 1e-6
"""What is left of a row beside the others by less makes no step: it may say what they say. By the
second where the first leaves out what is needed."""
HELD_MM = 1e-10
WEAK_EXACTLY, HELD_EXACTLY_MM = Decimal("1e-8"), Decimal("1e-45")


class Held(Enum):
    """Which words hold at a place."""

    DIRECTIONS = "all but lengths"
    NO_VALUE = "what tells no value"
    LINEAR = "what is linear, and tells no value"

    def has(self, constraint: Constraint) -> bool:
        """Whether a word is among these."""
        match self:
            case Held.DIRECTIONS:
                return not isinstance(constraint, LENGTHS)
            case Held.NO_VALUE:
                return not (isinstance(constraint, (*LENGTHS, Fixed))
                            or _tells_an_angle(constraint) or _tells_a_run(constraint))
            case Held.LINEAR:
                return isinstance(constraint, LINEAR) or (
                    isinstance(constraint, Symmetric) and isinstance(constraint.about, PointRef))


def _tells_an_angle(constraint: Constraint) -> bool:
    """Whether it tells an angle that isn't a right one: two lines at a right angle are
    perpendicular, whichever of the two words says so."""
    if not isinstance(constraint, AngleBetween):
        return False
    value = constraint.value
    return value.value % 180 != 90 if isinstance(value, Degrees) else value.q != 0


def _tells_a_run(constraint: Constraint) -> bool:
    return isinstance(constraint, (XDistance, YDistance)) and constraint.value_um != 0


def like_places(drawing: Drawing, steps: Steps) -> Iterator[Plane[Decimal]]:
    """Places like the drawing, the most like it first; of each kind two, since one may be special
    by chance. Raises TooMany."""
    unknowns = Unknowns.of(drawing)
    for held in (Held.DIRECTIONS, Held.NO_VALUE, Held.LINEAR):
        words = [each for each in drawing.constraints if held.has(each)]
        for seed in range(TRIES):
            found = _place(unknowns, words, Random(seed), steps)
            if found is None:
                break
            yield found


def has_shape(drawing: Drawing, words: Sequence[Constraint], steps: Steps) -> bool:
    """Whether a place near the drawn one is found at which these words hold: by numbers, so that
    there may be one where none is found. Raises TooMany."""
    unknowns = Unknowns.of(drawing)
    return any(_place(unknowns, words, Random(seed), steps) for seed in range(TRIES))


def _place(unknowns: Unknowns, words: Sequence[Constraint], chance: Random, steps: Steps
           ) -> Plane[Decimal] | None:
    """A place at which these words hold; None where none is found near the drawn one. Raises
    TooMany."""
    drawn = Plane(unknowns, [float(each) for each in unknowns.drawn()], FLOATS)
    reach = STIR * min(filter(None, _lengths(drawn)), default=1.0)
    begin = Plane(unknowns, [each + reach * chance.uniform(-1, 1) for each in drawn.vector], FLOATS)
    try:
        rough = (_Newton(words, WEAK[0], HELD_MM, steps).held(begin, TURNS)
                 or _Newton(words, WEAK[1], HELD_MM, steps).held(begin, TURNS))
        if rough is None or _has_vanished(drawn, rough):
            return None
        with localcontext(EXACT):
            fine = Plane(unknowns, [Decimal(each) for each in rough.vector], DECIMALS)
            return _Newton(words, WEAK_EXACTLY, HELD_EXACTLY_MM, steps).held(fine, POLISHING)
    except ArithmeticError:
        return None


RIGHT = -1
"""The key of what a row has to come to."""


@dataclass(frozen=True)
class _Newton(Generic[N]):
    """Newton's method for what some words ask. weak: what is left of a row beside the others by
    less makes no step. most: within how much they hold."""

    words: Sequence[Constraint]
    weak: N
    most: N
    steps: Steps

    def held(self, plane: Plane[N], turns: int) -> Plane[N] | None:
        """The place that is reached from another in some turns; None where it isn't reached."""
        for _ in range(turns + 1):
            asked = list(self._equations(plane))
            if all(abs(each.value) < self.most for each in asked):
                return plane
            off = self._off(asked)
            vector = [each - off[place] if place in off else each
                      for place, each in enumerate(plane.vector)]
            plane = Plane(plane.unknowns, vector, plane.numbers)
        return None

    def _equations(self, plane: Plane[N]) -> Iterator[Jet[N]]:
        yield from (jet for _, jet in plane.of_shapes())
        for constraint in self.words:
            yield from plane.asked(constraint)

    def _off(self, asked: list[Jet[N]]) -> dict[int, N]:
        """What has to be taken off the unknowns, so that each number is 0 by its slope."""
        rows = Rows(self.weak, self.steps)
        for jet in asked:
            row = unit_row({**jet.slope, RIGHT: jet.value})
            if row is not None:
                rows.add(row)
        return rows.solved(RIGHT)


def _lengths(plane: Plane[float]) -> list[float]:
    """The lengths of the segments, and the radii."""
    found = []
    for shape in plane.drawing.geometry:
        if isinstance(shape, Segment):
            x, y = plane.way(ShapeRef(shape.name))
            found.append(hypot(x.value, y.value))
        elif isinstance(shape, Circle):
            found.append(plane.radius(ShapeRef(shape.name)).value)
        elif isinstance(shape, Arc):
            start, _ = plane.ends(ShapeRef(shape.name))
            centre = plane.centre(ShapeRef(shape.name))
            found.append(hypot(*((one - other).value for one, other in zip(start, centre))))
    return found


def _has_vanished(drawn: Plane[float], found: Plane[float]) -> bool:
    """Whether a length has come to next to nothing."""
    return any(after < SHRUNK * before for before, after in zip(_lengths(drawn), _lengths(found)))
