"""Circles and arcs as they are drawn and as they are placed, and what cuts them, in whole
nanometres."""
from __future__ import annotations

from collections.abc import Iterator
from math import isqrt
from typing import NamedTuple

from pertxogai.drawing import Arc, Circle, Drawing, PointRef, Which
from pertxogai.exact import Vector, between, cross, dot, square, whole_near
from pertxogai.judging.edges import Chord
from pertxogai.judging.measure.solution import Solution

TOUCHING_NM = 1000
"""What cuts no deeper than this touches, and what ends no further behind a rim ends on it."""


class Round(NamedTuple):
    """A circle, or an arc counter-clockwise from the first of its ends to the second, in one place,
    in nm."""

    centre: Vector
    radius: int
    ends: tuple[Vector, Vector] | None = None

    def box(self) -> tuple[Vector, Vector]:
        """From where to where its whole circle goes in x, and in y."""
        (x, y), radius = self.centre, self.radius
        return (x - radius, x + radius), (y - radius, y + radius)

    def has(self, spot: Vector) -> bool:
        """Whether a place on its circle lies on it, and not at an end of it."""
        if self.ends is None:
            return True
        start, end = self.ends
        return (cross(between(start, end), between(start, spot)) < 0
                and _is_apart(start, spot) and _is_apart(end, spot))

    def is_near(self, spot: Vector) -> bool:
        """Whether a place is as near to it as what touches."""
        least, most = max(0, self.radius - TOUCHING_NM), self.radius + TOUCHING_NM
        if not least ** 2 <= square(between(self.centre, spot)) <= most ** 2:
            return False
        return self.has(spot) or not all(_is_apart(end, spot) for end in self.ends or ())

    def is_cut_by(self, chord: Chord) -> bool:
        """Whether a segment crosses it, and doesn't only touch it or end on it."""
        return any(map(self.has, self._cuts(chord)))

    def crosses(self, other: Round) -> bool:
        """Whether another rim crosses it, and doesn't only touch it or end on it."""
        return any(self.has(spot) and other.has(spot) for spot in self._meets(other))

    def _cuts(self, chord: Chord) -> Iterator[Vector]:
        """Where a segment crosses its circle."""
        way, here = chord.way, between(self.centre, chord.start)
        long, deep = square(way), self.radius - TOUCHING_NM
        if not long or deep <= 0 or cross(way, here) ** 2 >= deep * deep * long:
            return
        along = dot(way, here)
        root = isqrt(whole_near(along * along - long * (square(here) - self.radius ** 2)))
        short = TOUCHING_NM * (isqrt(whole_near(long)) + 1)
        for much in (-along - root, -along + root):
            if short < much < long - short:
                x, y = (start + whole_near(step * much) // whole_near(long)
                        for start, step in zip(chord.start, way))
                yield x, y

    def _meets(self, other: Round) -> Iterator[Vector]:
        """Where the circle of another rim crosses its own."""
        way = between(self.centre, other.centre)
        far = isqrt(whole_near(square(way)))
        least = abs(self.radius - other.radius) + TOUCHING_NM
        if not least < far < self.radius + other.radius - TOUCHING_NM:
            return
        along = (far * far + self.radius ** 2 - other.radius ** 2) // (2 * far)
        aside = isqrt(self.radius ** 2 - along * along)
        (x, y), (dx, dy) = self.centre, way
        for side in (aside, -aside):
            yield (x + whole_near(dx * along - dy * side) // far,
                   y + whole_near(dy * along + dx * side) // far)


def _is_apart(first: Vector, second: Vector) -> bool:
    return square(between(first, second)) > TOUCHING_NM ** 2


class Rim(NamedTuple):
    """A circle or an arc as it is drawn, and as it is placed."""

    name: str
    drawn: Round
    placed: Round

    def ends(self) -> tuple[PointRef, PointRef]:
        """The ends of an arc."""
        return PointRef(self.name, Which.START), PointRef(self.name, Which.END)

    @staticmethod
    def of(drawing: Drawing, solution: Solution, shape: Circle | Arc) -> Rim:
        """Raises MissingPlace."""
        centre = PointRef(shape.name, Which.CENTRE)
        ends = [PointRef(shape.name, each) for each in (Which.START, Which.END)
                if isinstance(shape, Arc)]
        drawn = [*map(drawing.scene.drawn_nm, (centre, *ends))]
        placed = [(whole_near(x), whole_near(y)) for x, y in map(solution.spot, (centre, *ends))]
        radius = whole_near(drawing.drawn_radius_um(shape.name) * 1000)
        return Rim(shape.name, _round(drawn, radius),
                   _round(placed, whole_near(solution.radius(shape.name))))


def _round(places: list[tuple[int, int]], radius: int) -> Round:
    centre, *ends = places
    return Round(centre, radius, (ends[0], ends[1]) if ends else None)
