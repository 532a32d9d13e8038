"""Numbers with their slopes by unknowns, and rows of slopes in steps.

The numbers are floats where a place is looked for, and decimals of sixty digits where a rank is
reckoned: there rounding comes to far less than what isn't 0. An unknown is a place in a vector."""
from __future__ import annotations

from collections.abc import Callable, Mapping
from dataclasses import dataclass
from decimal import Context, Decimal
from fractions import Fraction
from heapq import heapify, heappop, heappush
from math import sqrt
from typing import Generic, TypeVar

EXACT = Context(prec=60)
"""How decimals are reckoned."""
MOST_STEPS = 3_000_000
"""The most products of a number and an entry of a row that are reckoned for a drawing."""
STEPS_A_ROW = 50
"""As many as a row takes besides."""
N = TypeVar("N", float, Decimal)
Slope = Mapping[int, N]


@dataclass(frozen=True)
class Numbers(Generic[N]):
    """A kind of numbers: the one of a fraction, and the square root of one."""

    of: Callable[[Fraction], N]
    root: Callable[[N], N]


def _decimal(value: Fraction) -> Decimal:
    return Decimal(value.numerator) / Decimal(value.denominator)


FLOATS = Numbers[float](float, sqrt)
DECIMALS = Numbers[Decimal](_decimal, Decimal.sqrt)


class TooMany(Exception):
    """The rows would take too many steps."""


class Steps:
    """How many steps may still be made."""

    def __init__(self, left: int = MOST_STEPS) -> None:
        self._left = left

    def take(self, count: int) -> None:
        """Takes some. Raises TooMany where no more are left."""
        self._left -= count
        if self._left < 0:
            raise TooMany


@dataclass(frozen=True)
class Jet(Generic[N]):
    """A number, and by how much it changes with each unknown."""

    value: N
    slope: Slope[N]

    def __add__(self, other: Jet[N]) -> Jet[N]:
        return Jet(self.value + other.value, _plus(self.slope, other.slope, 1))

    def __sub__(self, other: Jet[N]) -> Jet[N]:
        return Jet(self.value - other.value, _plus(self.slope, other.slope, -1))

    def __mul__(self, other: Jet[N]) -> Jet[N]:
        slope = _plus(_times(self.slope, other.value), other.slope, self.value)
        return Jet(self.value * other.value, slope)

    def __truediv__(self, other: Jet[N]) -> Jet[N]:
        value = self.value / other.value
        slope = _plus(_times(self.slope, 1 / other.value), other.slope, -value / other.value)
        return Jet(value, slope)

    def __neg__(self) -> Jet[N]:
        return Jet(-self.value, _times(self.slope, -1))

    def __abs__(self) -> Jet[N]:
        return -self if self.value < 0 else self

    def times(self, factor: N) -> Jet[N]:
        """The number times one that doesn't change."""
        return Jet(self.value * factor, _times(self.slope, factor))

    def root(self, numbers: Numbers[N]) -> Jet[N]:
        """Its square root. Raises ArithmeticError where it is 0."""
        root = numbers.root(self.value)
        return Jet(root, _times(self.slope, 1 / (2 * root)))


def _plus(first: Slope[N], second: Slope[N], factor: N | int) -> dict[int, N]:
    """first + factor · second."""
    total = dict(first)
    for key, value in second.items():
        known = total.get(key)
        total[key] = value * factor if known is None else known + value * factor
    return total


def _times(slope: Slope[N], factor: N | int) -> dict[int, N]:
    return {key: value * factor for key, value in slope.items()}


class Rows(Generic[N]):
    """Rows in steps: each has a pivot that no later one has. The keys below 0 of a row go with it,
    and are no unknowns, as the number that it comes to, or whose it is."""

    def __init__(self, zero: N, steps: Steps | None = None) -> None:
        """`zero`: a row whose greatest entry is 1 follows from others where less than that is left
        of each entry. `steps`: those that may be made, with others; else as many as for a
        drawing."""
        self._zero: N = zero
        self._order: dict[int, int] = {}
        self._rows: list[tuple[int, dict[int, N]]] = []
        self._steps = steps or Steps()

    def __len__(self) -> int:
        """The rank of all rows."""
        return len(self._rows)

    def add(self, row: Slope[N]) -> tuple[N, dict[int, N]]:
        """Takes a row whose greatest entry is 1. How much of it is left, and that; where it is less
        than `zero`, the row isn't kept. Raises TooMany."""
        rest = self.reduced(row)
        pivot = max((key for key in rest if key >= 0), key=lambda key: abs(rest[key]), default=-1)
        left = abs(rest[pivot]) if pivot >= 0 else self._zero * 0
        if left > self._zero:
            unit = 1 / rest.pop(pivot)
            self._order[pivot] = len(self._rows)
            self._rows.append((pivot, _times(rest, unit)))
        return left, rest

    def reduced(self, row: Slope[N]) -> dict[int, N]:
        """What is left of a row without the pivots of the others, the earlier before the later."""
        rest, order = dict(row), self._order
        self._steps.take(STEPS_A_ROW)
        waiting = [order[key] for key in rest if key in order]
        heapify(waiting)
        while waiting:
            pivot, known = self._rows[heappop(waiting)]
            factor = rest.pop(pivot)
            self._steps.take(len(known))
            for key, value in known.items():
                before = rest.get(key)
                if before is not None:
                    rest[key] = before - factor * value
                else:
                    rest[key] = -factor * value
                    if key in order:
                        heappush(waiting, order[key])
        return rest

    def copy(self) -> Rows[N]:
        """The same rows, to which others may be added."""
        other = Rows(self._zero, self._steps)
        other._order, other._rows = dict(self._order), list(self._rows)
        return other

    def solved(self, right: int) -> dict[int, N]:
        """The values of the pivots by which each row comes to what its key `right` says, where all
        other unknowns are 0."""
        found: dict[int, N] = {}
        for pivot, row in reversed(self._rows):
            total = row.get(right, self._zero * 0)
            for key, value in row.items():
                known = found.get(key)
                if known is not None:
                    total -= value * known
            found[pivot] = total
        return found


def unit_row(slope: Slope[N]) -> dict[int, N] | None:
    """A row whose greatest entry by an unknown is 1; None where it changes with none."""
    most = max((abs(value) for key, value in slope.items() if key >= 0), default=None)
    return None if not most else _times(slope, 1 / most)
