"""Each drawing of the gallery, turned by right angles and moved: with frame=drawn the places go
with it, but for the last nanometre where one is rounded otherwise."""
from dataclasses import replace
from pathlib import Path

import pytest

from pertxogai.language import Circle, Line, PlacedLine, Point, Sketch
from pertxogai.program import Status
from pertxogai.program.reports import Solved, read_answer

GALLERY = sorted((Path(__file__).parents[2] / "examples").glob("*.sketch"))
WORDS = ["solve", "frame=drawn"]
SAME = (0, 0, 0)
MOVES = [(1, 0, 0), (2, 0, 0), (3, 0, 0), (0, 37_000, -21_000), (1, 100_000, 50_000), (2, -30_000, 70_001), (3, 12, 13)]


def turned(x, y, quarters):
    """The pair turned so many right angles to the left about 0 0."""
    for _ in range(quarters):
        x, y = -y, x
    return x, y


def moved_element(element, move):
    """The element drawn anew, turned by quarters and then moved by micrometres."""
    quarters, dx, dy = move

    def at(x, y):
        x, y = turned(x, y, quarters)
        return x + dx, y + dy

    if isinstance(element, Line):
        (x1, y1), (x2, y2) = at(element.x1_um, element.y1_um), at(element.x2_um, element.y2_um)
        return Line(element.name, x1, y1, x2, y2)
    x, y = at(element.x_um, element.y_um)
    return replace(element, x_um=x, y_um=y)


def expected(place, move):
    """The numbers of a printed place, turned and moved: a line's c is a fraction of a nanometre."""
    quarters, dx, dy = move
    if isinstance(place, PlacedLine):
        a, b = turned(place.a_ppb, place.b_ppb, quarters)
        return a, b, place.c_nm + (a * dx + b * dy) / 10**6
    x, y = turned(place.x_nm, place.y_nm, quarters)
    return x + 1000 * dx, y + 1000 * dy


def numbers(place):
    if isinstance(place, PlacedLine):
        return place.a_ppb, place.b_ppb, place.c_nm
    return place.x_nm, place.y_nm


def solved(program, sketch):
    answer = program.ask(WORDS, sketch.text())
    return read_answer(WORDS, answer) if answer.status is Status.DONE else None


@pytest.mark.parametrize("path", GALLERY, ids=lambda path: path.stem)
def test_a_drawing_turned_and_moved(path, program):
    sketch = Sketch.parse(path.read_text())
    assert all(isinstance(element, Point | Line | Circle) for element in sketch.elements)
    assert tuple(moved_element(element, SAME) for element in sketch.elements) == tuple(sketch.elements)
    places = solved(program, sketch)
    for move in MOVES:
        elements = tuple(moved_element(element, move) for element in sketch.elements)
        there = solved(program, replace(sketch, elements=elements))
        assert (there is None) == (places is None)
        if places is None:
            continue
        assert isinstance(places, Solved) and isinstance(there, Solved)
        for before, after in zip(places.places, there.places, strict=True):
            wanted = zip(numbers(after), expected(before, move), strict=True)
            assert before.name == after.name and all(abs(got - want) <= 1 for got, want in wanted), (before, after)
