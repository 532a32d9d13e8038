"""The rows of a drawing: their slopes against differences, and their rank."""

from __future__ import annotations

from dataclasses import replace
from itertools import islice
from pathlib import Path

import numpy as np
import pytest
from scipy import sparse

from pertxogai.completing.dimensions import Kind, dimensions
from pertxogai.completing.figure import Figure
from pertxogai.drawing import PointOn, read_drawing
from pertxogai.search.arrays import Sums, dense
from pertxogai.search.constraint_rows import rows_asked
from pertxogai.search.equations import Equations
from pertxogai.search.multipliers import steps_with_multipliers
from pertxogai.search.rank import CUT, rank_of
from strips import strip

TESTS = Path(__file__).parent
DRAWINGS = [*sorted((TESTS / "drawings").glob("*.drawing"))[::6],
            *sorted((TESTS / "beyond_triangles").glob("*.drawing"))]


def assert_slopes_are_differences(equations: Equations, columns) -> None:
    """At places beside the drawn ones."""
    step = 1e-6 * equations.size_nm
    aside = np.random.default_rng(3).uniform(-1e-2, 1e-2, len(equations.drawn))
    x = equations.drawn + aside * equations.size_nm
    slopes = dense(equations.tangents(x).jacobian)
    for column in columns:
        step_there = np.eye(1, len(x), column)[0] * step
        by_difference = (equations.off(x + step_there) - equations.off(x - step_there)) / (2 * step)
        assert np.abs(slopes[:, column] - by_difference).max(initial=0) < 1e-6


@pytest.mark.parametrize("path", DRAWINGS, ids=lambda path: path.stem)
def test_slopes_are_what_differences_say(path):
    equations = Equations(read_drawing(path.read_text()))
    assert_slopes_are_differences(equations, range(len(equations.drawn)))


def test_slopes_of_a_sparse_jacobian_are_what_differences_say():
    equations = Equations(read_drawing(strip(200)))
    assert not isinstance(equations.tangents(equations.drawn).jacobian, np.ndarray)
    assert_slopes_are_differences(equations, range(0, len(equations.drawn), 37))


@pytest.mark.parametrize("path", DRAWINGS, ids=lambda path: path.stem)
def test_rows_beside_a_drawing_are_those_that_it_has_with_the_constraint(path):
    drawing = read_drawing(path.read_text())
    equations = Equations(drawing)
    figure = Figure(drawing)
    points = figure.points
    asked = [each for kind in (Kind.SIZE, Kind.LENGTH, Kind.RUN, Kind.HEIGHT, Kind.APART)
             for each in islice(dimensions(figure, kind, points[0]), 20)
             if not isinstance(each, PointOn)]
    more = Equations(replace(drawing, constraints=(*drawing.constraints, *asked)))
    rows = (row for each in asked for row in rows_asked(equations.unknowns, each))
    beside = equations.beside(rows).tangents(equations.drawn)
    whole = more.tangents(more.drawn)
    count = len(beside.off)
    assert count == len(more.rows) - len(equations.rows) > 0
    assert np.array_equal(beside.off, whole.off[-count:])
    assert np.array_equal(dense(beside.jacobian), dense(whole.jacobian)[-count:])


@pytest.mark.parametrize("count", [0, 3])
def test_sums_are_those_of_a_matrix(count):
    entries = [(0, 1, 2.0), (2, 0, -1.0), (0, 1, 0.5), (2, 2, 4.0)][:count]
    matrix = np.zeros((3, 3))
    for row, column, factor in entries:
        matrix[row, column] += factor
    numbers = np.array([3.0, 5.0, 7.0])
    assert np.array_equal(Sums(entries, 3).of(numbers), matrix @ numbers)


def test_the_rank_of_a_peeled_matrix_is_that_of_the_dense_one():
    equations = Equations(read_drawing(strip(200, without=100)))
    matrix = equations.tangents(equations.drawn).jacobian
    rank = rank_of(matrix, len(equations.unknowns.points))
    assert rank.rank == np.linalg.matrix_rank(dense(matrix), tol=CUT)
    for free in rank.free:
        moved = dense(matrix)[:, free.columns] @ free.ways
        assert np.abs(moved).max() < 1e-9
        assert np.allclose(free.ways.T @ free.ways, np.eye(free.ways.shape[1]))


def test_steps_with_multipliers_are_those_of_the_dense_matrix():
    """Also of the second matrix with entries in the same places, which are other ones there."""
    random = np.random.default_rng(1)
    places = random.random((12, 30)) < 0.3
    places[:, 0] = True
    for damping in (1e-3, 2.0):
        whole = np.where(places, random.normal(size=places.shape), 0.0)
        matrix, wanted = sparse.csr_matrix(whole), random.normal(size=12)
        square = whole @ whole.T + damping * np.identity(12)
        step = steps_with_multipliers(matrix, damping)(wanted)
        assert step == pytest.approx(whole.T @ np.linalg.solve(square, wanted), abs=1e-12)
