"""The ratio nearest to a number, found by whole numbers alone, is the one that fractions find."""
from __future__ import annotations

import random
from collections.abc import Iterator
from fractions import Fraction
from math import gcd, sin, tan

import pytest

from pertxogai.drawing import Degrees, Slope
from pertxogai.language.numbers import MOST_RATIO, nearest_ratio
from pertxogai.spelling.lean import Lean

Number = int | Fraction


def by_fractions(p: Number, q: Number) -> tuple[int, int]:
    """The same, by `Fraction.limit_denominator`."""
    if q == 0:
        return (1, 0) if p > 0 else (-1, 0)
    tangent = Fraction(p) / Fraction(q)
    if abs(tangent) <= 1:
        near = tangent.limit_denominator(MOST_RATIO)
        return ((near.numerator, near.denominator) if near
                else (1 if tangent >= 0 else -1, MOST_RATIO))
    near = (1 / tangent).limit_denominator(MOST_RATIO)
    return (-1 if tangent < 0 else 1) * near.denominator, abs(near.numerator)


def numbers_by_chance(chance: random.Random, count: int) -> Iterator[tuple[Number, Number]]:
    """Ratios of each size and sign."""
    for _ in range(count):
        yield chance.randint(-10 ** 5, 10 ** 5), chance.randint(1, 10 ** 5)
        yield Fraction(chance.uniform(-3, 3)), 1
        yield Fraction(chance.uniform(-1e-4, 1e-4)), 1
        yield Fraction(chance.uniform(-1e6, 1e6)), Fraction(chance.randint(1, 9), 7)
        yield chance.randint(-10 ** 12, 10 ** 12), -chance.randint(1, 10 ** 12)


def test_ratios_by_chance() -> None:
    for p, q in numbers_by_chance(random.Random(1), 3000):
        assert nearest_ratio(p, q) == by_fractions(p, q), (p, q)


EDGES = (0, 1, 2, MOST_RATIO - 1, MOST_RATIO, MOST_RATIO + 1, 2 * MOST_RATIO, 2 * MOST_RATIO + 1)


@pytest.mark.parametrize("p", EDGES)
@pytest.mark.parametrize("q", EDGES[1:])
def test_ratios_at_the_edges(p: int, q: int) -> None:
    for signs in ((1, 1), (-1, 1), (1, -1), (-1, -1)):
        ratio = signs[0] * p, signs[1] * q
        assert nearest_ratio(*ratio) == by_fractions(*ratio)
    assert nearest_ratio(p, 0) == by_fractions(p, 0)


def ties() -> Iterator[Fraction]:
    """Numbers in the middle between two ratios with none between them: of a/b and c/d these are
    those with bc - ad = 1 and b + d beyond the most."""
    for b in (*range(2, 60), *range(MOST_RATIO - 60, MOST_RATIO + 1)):
        for a in (each for each in (1, 2, b // 2, b - 1) if gcd(each, b) == 1):
            d = MOST_RATIO - (MOST_RATIO - pow(-a, -1, b)) % b
            c = (1 + a * d) // b
            assert b * c - a * d == 1 and MOST_RATIO - b < d <= MOST_RATIO
            yield (Fraction(a, b) + Fraction(c, d)) / 2


def test_ratios_in_the_middle_of_two() -> None:
    for each in ties():
        for number in (each, -each, 1 / each, -1 / each):
            assert nearest_ratio(number, 1) == by_fractions(number, 1), number
    # Of 1/20000, in the middle between 0 and 1/10000, neither is 0.
    assert nearest_ratio(1, 2 * MOST_RATIO) == (1, MOST_RATIO)


def halves_by_fractions(lean: Lean) -> tuple[Lean, Lean]:
    """Two leans by ratios of which the sum is this as nearly as can be, one after the other."""
    goal = lean.radians()

    def pair(p: int, q: int) -> tuple[Lean, Lean] | None:
        first = Lean.of(Slope(p, q, False))
        tangent = tan(goal - first.radians())
        if not 0.01 <= abs(tangent) <= 100:
            return None
        return first, Lean.of(Slope(*by_fractions(Fraction(tangent), 1), False))

    pairs = (pair(p, q) for q in range(1, 40) for p in range(-q, q + 1) if p and gcd(p, q) == 1)
    return min((each for each in pairs if each is not None),
               key=lambda each: abs(sin(goal - each[0].radians() - each[1].radians())))


def test_halves_are_those_of_fractions() -> None:
    chance = random.Random(2)
    leans = [Lean.of(Degrees(Fraction(each, 10_000)))
             for each in (1, 599_999, 899_999, 1_799_999,
                          *(chance.randint(1, 1_799_999) for _ in range(20)))]
    leans += [Lean.of(Degrees(Fraction(chance.randint(1, 44)))) + Lean.of(Slope(3, 4, False))
              for _ in range(10)]
    for lean in leans:
        if not lean.exact():
            assert lean.halves() == halves_by_fractions(lean)


def first_halves(lean: Lean, within: float) -> tuple[Lean, Lean] | None:
    """The first two leans by ratios of which the sum is this within so many radians."""
    goal = lean.radians()
    for p, q in ((p, q) for q in range(1, 40) for p in range(-q, q + 1) if p and gcd(p, q) == 1):
        first = Lean.of(Slope(p, q, False))
        tangent = tan(goal - first.radians())
        if 0.01 <= abs(tangent) <= 100:
            rest = Lean.of(Slope(*by_fractions(Fraction(tangent), 1), False))
            if abs(sin(goal - first.radians() - rest.radians())) <= within:
                return first, rest
    return None


@pytest.mark.parametrize("within", [4e-10, 1e-11, 1e-12])
def test_the_first_halves_that_come_near_are_those_of_fractions(within: float) -> None:
    chance = random.Random(5)
    for _ in range(40):
        lean = Lean.of(Degrees(Fraction(chance.randint(1, 1_799_999), 10_000)))
        if not lean.exact():
            assert lean.halves(within) == (first_halves(lean, within) or lean.halves())


def test_a_lean_less_another_and_one_that_is_turned() -> None:
    # 30 less 135 degrees are -105, which up to half turns are 75.
    leans = [Lean(), Lean.of(Degrees(Fraction(30))), Lean.of(Degrees(Fraction(135))),
             Lean.of(Degrees(Fraction(90))), Lean.of(Slope(3, 4, False)),
             Lean.of(Degrees(Fraction(50))) + Lean.of(Slope(3, 4, False))]
    assert leans[1] - leans[2] == Lean.of(Degrees(Fraction(75)))
    assert leans[2] - leans[1] == Lean.of(Degrees(Fraction(105)))
    for first in leans:
        for second in leans:
            assert first - second == -second + first and first - second + second == first
        for degrees in (Fraction(0), Fraction(7, 2), Fraction(-40), Fraction(180)):
            assert first.turned(degrees) == first + Lean.of(Degrees(degrees))
