"""Places and motions in space, in millimetres: where outer geometry lies before it is seen from a
sketch's plane."""

from __future__ import annotations

from dataclasses import dataclass

Vector = tuple[float, float, float]
"""A place or a direction in space."""

Rows = tuple[Vector, Vector, Vector]


@dataclass(frozen=True)
class Motion:
    """A rotation, by its rows, and then a shift."""

    rows: Rows = ((1.0, 0.0, 0.0), (0.0, 1.0, 0.0), (0.0, 0.0, 1.0))
    shift: Vector = (0.0, 0.0, 0.0)

    def place(self, at: Vector) -> Vector:
        """Where a place goes."""
        return add(self.way(at), self.shift)

    def way(self, along: Vector) -> Vector:
        """Where a direction goes."""
        return (dot(self.rows[0], along), dot(self.rows[1], along), dot(self.rows[2], along))

    def after(self, first: Motion) -> Motion:
        """This motion after another."""
        columns = [self.way(column) for column in _transpose(first.rows)]
        return Motion(_transpose((columns[0], columns[1], columns[2])), self.place(first.shift))

    def inverse(self) -> Motion:
        """The motion back."""
        back = Motion(_transpose(self.rows))
        return Motion(back.rows, scaled(back.way(self.shift), -1))


def turned(x: float, y: float, z: float, w: float, shift: Vector) -> Motion:
    """The motion of a unit quaternion and a shift."""
    return Motion(((1 - 2 * (y * y + z * z), 2 * (x * y - z * w), 2 * (x * z + y * w)),
                   (2 * (x * y + z * w), 1 - 2 * (x * x + z * z), 2 * (y * z - x * w)),
                   (2 * (x * z - y * w), 2 * (y * z + x * w), 1 - 2 * (x * x + y * y))), shift)


def add(first: Vector, second: Vector) -> Vector:
    """The sum of two."""
    return (first[0] + second[0], first[1] + second[1], first[2] + second[2])


def scaled(vector: Vector, by: float) -> Vector:
    """A multiple."""
    return (vector[0] * by, vector[1] * by, vector[2] * by)


def dot(first: Vector, second: Vector) -> float:
    """The inner product."""
    return first[0] * second[0] + first[1] * second[1] + first[2] * second[2]


def _transpose(rows: Rows) -> Rows:
    first, second, third = rows
    return ((first[0], second[0], third[0]), (first[1], second[1], third[1]),
            (first[2], second[2], third[2]))
