"""What a drawing with other numbers takes over from the one it was made of is what is made anew."""
from __future__ import annotations

import random
from collections.abc import Iterator, Sequence
from dataclasses import replace
from fractions import Fraction

import pytest

from conftest import TOP
from pertxogai.drawing import (
    AngleBetween, Arc, Circle, Degrees, Drawing, DrawingUnsound, PointRef, line_of, parameters,
    read_drawing)
from pertxogai.judging.departures import Comparison, warnings
from pertxogai.judging.edges import Edges
from pertxogai.judging.measure import Solution
from pertxogai.judging.mirrored import Pieces, mirrored
from pertxogai.language import NotHeld
from pertxogai.spelling import READINGS, Interpretation, Style
from pertxogai.spelling.reading import interpreted

DRAWINGS = sorted((TOP / "python" / "tests" / "drawings").glob("*.drawing"))
FACTORS = (Fraction(1, 7), Fraction(9, 10), 2)
ANEW = (None,) * len(READINGS)
"""For each reading, that it takes over nothing."""


def with_other_numbers(drawing: Drawing) -> Iterator[Drawing]:
    """The drawing with a few other numbers for each value and dimension, 0 among them."""
    for of in parameters(drawing):
        for number in (*(of.present * factor for factor in FACTORS), Fraction(0)):
            try:
                yield of.on(drawing, number)
            except DrawingUnsound:
                pass


def test_a_dimension_goes_back_to_its_first_value() -> None:
    """Also in a drawing that was given other numbers since."""
    drawing = read_drawing("segment S 0 0 4 0\nsegment T 0 0 0 3\nlength S 40\nlength T 30\n")
    first, second = parameters(drawing)
    changed = second.on(first.on(drawing, Fraction(90)), Fraction(50))
    assert [*map(line_of, changed.constraints)] == ["length S 90", "length T 50"]
    back = first.on(changed, Fraction(40))
    assert [*map(line_of, back.constraints)] == ["length S 40", "length T 50"]
    assert second.on(back, Fraction(50)) is back
    turned = read_drawing("segment S 0 0 4 0\nsegment T 0 0 4 4\nangle S T 1/1\n")
    (angle,) = parameters(turned)
    assert angle.present == 45 and angle.on(turned, Fraction(45)) is turned
    wider = angle.on(turned, Fraction(60))
    for drawing, degrees in ((wider, 60), (angle.on(wider, Fraction(45)), 45)):
        (said,) = drawing.constraints
        assert isinstance(said, AngleBetween) and said.value == Degrees(Fraction(degrees))


def anew(drawing: Drawing) -> Drawing:
    """The same, with nothing taken over."""
    return replace(drawing)


def interpretations(drawing: Drawing) -> list[Interpretation]:
    """How each reading takes a drawing."""
    return [interpreted(drawing, reading) for reading in READINGS]


def texts(drawing: Drawing, known: Sequence[Interpretation | None]) -> Iterator[list[str]]:
    """How each reading is spelled in each style, from how it takes a known drawing, or not."""
    for reading, before in zip(READINGS, known, strict=True):
        found = interpreted(drawing, reading, before)
        try:
            yield [found.spelled(style).sketch.text() for style in Style]
        except NotHeld:
            yield []


@pytest.mark.parametrize("path", DRAWINGS, ids=lambda it: it.stem)
def test_a_drawing_is_spelled_as_anew(path):
    drawing = read_drawing(path.read_text())
    known = interpretations(drawing)
    for other in [*with_other_numbers(drawing)][::5]:
        assert [*texts(other, known)] == [*texts(anew(other), ANEW)]


def test_a_length_that_comes_to_nothing_is_spelled_as_anew():
    # Where B lies above A, two lines share two points, and are one.
    drawing = read_drawing("point A 0 0\npoint B 5 9\npoint C 2 20\ncoincident A Origin\nx A B 5\n"
                           "y A B 9\ndistance A C 20\ndistance B C 12\n")
    (other,) = (each for each in with_other_numbers(drawing)
                if each.constraints[1].value_um == 0)
    assert [*texts(other, interpretations(drawing))] == [*texts(anew(other), ANEW)]


def moved(drawing: Drawing, chance: random.Random) -> Solution:
    """Places by chance, some of them far from where the points are drawn."""
    def spot(ref: PointRef) -> tuple[int, int]:
        at, size = drawing.scene.drawn_nm(ref), chance.choice([10 ** 5, 10 ** 7, 10 ** 8])
        return at[0] + chance.randint(-size, size), at[1] + chance.randint(-size, size)

    places = {}
    for ref in drawing.points():
        leader = drawing.meetings.leader(ref)
        places[ref] = places.get(leader) or ((0, 0) if leader.shape == "Origin" else spot(leader))
    rims = [each.name for each in drawing.geometry if isinstance(each, Circle | Arc)]
    return Solution(places, {name: chance.randint(10 ** 5, 10 ** 8) for name in rims})


@pytest.mark.parametrize("path", DRAWINGS, ids=lambda it: it.stem)
def test_departures_are_those_found_anew(path):
    drawing, chance = read_drawing(path.read_text()), random.Random(path.stem)
    others = [drawing, *with_other_numbers(drawing)][:4]
    radii = moved(drawing, chance).radii
    comparison, pieces = Comparison(drawing, radii), Pieces.of(drawing)
    for other in others:
        solution = moved(other, chance)
        edges = Edges(other, solution)
        fresh = anew(other)
        for free in (False, True):
            assert comparison.warnings(edges, free) == warnings(fresh, solution, free)
        assert [*pieces.mirrored(edges)] == [*mirrored(fresh, solution)]
        assert all(other.meetings.leader(each) == fresh.meetings.leader(each)
                   and other.drawn(each) == fresh.drawn(each) for each in other.points())
