"""The two tolerances of a placed sketch, worked out beside the program: by hand for each kind of
constraint, and as the program tells them for the gallery."""
from __future__ import annotations

import pytest

from conftest import TOP
from pertxogai.judging.measure.sketches import sketch_tolerances
from pertxogai.language import PlacedCircle, PlacedLine, PlacedPoint, Sketch
from pertxogai.program.reports import Verdict, read_check, read_solve

MM = 1_000_000
LEVEL = PlacedLine("X", 0, 10 ** 9, 0)
"""It runs to the right, in the direction (b, -a), and its left side lies above."""


@pytest.mark.parametrize("text, places, tolerances", [
    # Points 3 and 4 mm apart along the axes are 5 mm apart; 5 mm less 2 nm is within 2 nm.
    ("point A 0 0\npoint B 3 4\ndistance A B 5",
     [PlacedPoint("A", 0, 0), PlacedPoint("B", 3 * MM, 4 * MM)], (0, 0)),
    ("point A 0 0\npoint B 5 0\ndistance A B 5",
     [PlacedPoint("A", 0, 0), PlacedPoint("B", 5 * MM - 2, 0)], (2, 0)),
    # Drawn 1 mm above a line to the right: on its left, where a·x + b·y is greater than c.
    ("point P 0 1\nline X 0 0 1 0\ndistance P X 1", [PlacedPoint("P", 0, MM), LEVEL], (0, 0)),
    ("point P 0 1\nline X 0 0 1 0\ndistance P X 1", [PlacedPoint("P", 0, -MM), LEVEL], (2 * MM, 0)),
    ("point P 0 0\nline X 0 0 1 0\non P X", [PlacedPoint("P", 7 * MM, -3), LEVEL], (3, 0)),
    ("point P 2 0\ncircle C 0 0 2\non P C",
     [PlacedPoint("P", 2 * MM + 5, 0), PlacedCircle("C", 0, 0, 2 * MM)], (5, 0)),
    ("circle C 0 2 2\nline X 0 0 1 0\ntangent C X",
     [PlacedCircle("C", 0, 2 * MM - 4, 2 * MM), LEVEL], (4, 0)),
    ("circle C 0 0 2\ncircle D 5 0 3\noutside C D",
     [PlacedCircle("C", 0, 0, 2 * MM), PlacedCircle("D", 5 * MM, 0, 3 * MM)], (0, 0)),
    ("circle C 0 0 2\ncircle D 1 0 3\ninside C D",
     [PlacedCircle("C", 0, 0, 2 * MM), PlacedCircle("D", MM + 6, 0, 3 * MM)], (6, 0)),
    # A right angle, by 7 parts: with p = 1 and q = 0 the dot product, 7·10^9, is off.
    ("line X 0 0 1 0\nline Y 0 0 0 1\nangle X Y 1/0",
     [LEVEL, PlacedLine("Y", -(10 ** 9), 7, 0)], (0, 7)),
    # A normal of the length 1 + 2·10^-9: its square is 4 parts too much, and a little.
    ("line X 0 0 1 0", [PlacedLine("X", 0, 10 ** 9 + 2, 0)], (0, 5)),
])
def test_each_kind_of_constraint(text, places, tolerances):
    assert sketch_tolerances(Sketch.parse(f"sketch 1\n{text}\nend\n"), places) == tolerances


def test_a_block_is_off_by_its_worst_pair():
    text = "sketch 2\npoint A 0 0\npoint B 4 0\npoint C 4 3\nblock A 0 0 B 4 0 C 4 3\nend\n"
    places = [PlacedPoint("A", 0, 0), PlacedPoint("B", 4 * MM - 1, 0),
              PlacedPoint("C", 4 * MM - 1, 3 * MM + 9)]
    assert sketch_tolerances(Sketch.parse(text), places) == (9, 0)


def test_the_program_tells_the_same_of_the_gallery(program):
    told = 0
    for path in sorted((TOP / "examples").glob("*.sketch")):
        text = path.read_text()
        if read_check(program.ask(["check"], text).text).verdict is not Verdict.WELL:
            continue
        answer = program.ask(["solve"], text).text
        if answer.startswith("fault"):
            continue
        solved = read_solve(answer)
        assert sketch_tolerances(Sketch.parse(text), solved.places) == (
            solved.length_tolerance_nm, solved.angle_tolerance_ppb), path.stem
        told += 1
    assert told >= 20
