"""How far a constraint is off on one placed piece of a drawing that is open."""
from __future__ import annotations

from collections.abc import Collection, Iterator, Mapping
from contextlib import suppress

from pertxogai.drawing import (
    ORIGIN, X_AXIS, Y_AXIS, Arc, Circle, Constraint, Drawing, Fixed, Horizontal, PointRef, Segment,
    Vertical, Which, XDistance, YDistance)
from pertxogai.drawing.mentions import named
from pertxogai.exact import square
from pertxogai.judging.edges import LEAST_NM
from pertxogai.judging.measure.limit import Limit
from pertxogai.judging.measure.measuring import Deviations, measure_one
from pertxogai.judging.measure.solution import Frame, MissingPlace, PointNm, Solution
from pertxogai.judging.printed import PrintedPlaces
from pertxogai.judging.trials import Trial, written_by
from pertxogai.program import Solver
from pertxogai.program.reports import Solved, read_parts
from pertxogai.spelling.facts import DATUM, RadiusOf
from pertxogai.spelling.linear import Number

UPRIGHT = Horizontal, Vertical, XDistance, YDistance
"""What speaks of the datum's directions."""
DATUM_NAMES = {ORIGIN.shape, X_AXIS.name, Y_AXIS.name}


def off_in_pieces(drawing: Drawing, number: int, asked: Trial, program: Solver) -> Deviations:
    """How far a constraint is off on the first placed piece that has all that it speaks of, where
    `asked` is of the drawing without it; nothing where none has. Raises ProgramError."""
    for _, deviations in _measured(drawing, number, asked, program):
        return deviations
    return ()


def is_lost_in_pieces(drawing: Drawing, number: int, asked: Trial, program: Solver) -> bool:
    """Whether an edge that is drawn with a length has none on the piece on which a constraint is
    measured, and so has any direction. Raises ProgramError."""
    for solution, _ in _measured(drawing, number, asked, program):
        return has_lost(drawing, solution)
    return False


def has_lost(drawing: Drawing, solution: Solution) -> bool:
    """Whether an edge that is drawn with a length has none on some places."""
    edges = (each for each in drawing.geometry if isinstance(each, Segment))
    return any(_is_lost(drawing, solution, each) for each in edges)


def are_met_in_a_piece(drawing: Drawing, numbers: Collection[int], asked: Trial, program: Solver,
                       limit: Limit) -> bool:
    """Whether some constraints, by their places, hold on one placed piece. Raises ProgramError."""
    return any(_are_met(piece, numbers, limit) for piece in _pieces(drawing, asked, program))


def _are_met(piece: _Piece, numbers: Collection[int], limit: Limit) -> bool:
    """Whether some constraints hold on a piece that has all that they speak of."""
    drawing, solution = piece.drawing, piece.solution()
    with suppress(MissingPlace):
        return all(piece.lies_as_needed(drawing.constraints[number - 1])
                   and not any(limit.beyond(measure_one(drawing, solution, number)))
                   for number in numbers)
    return False


def _is_lost(drawing: Drawing, solution: Solution, edge: Segment) -> bool:
    """Whether an edge has no length on some places, and is drawn with one."""
    start, end = (PointRef(edge.name, which) for which in (Which.START, Which.END))
    if start not in solution.points or end not in solution.points:
        return False
    (x, y), (u, v) = solution.points[start], solution.points[end]
    is_short = square((u - x, v - y)) < LEAST_NM ** 2
    return is_short and drawing.drawn(start) != drawing.drawn(end)


def _measured(drawing: Drawing, number: int, asked: Trial,
              program: Solver) -> Iterator[tuple[Solution, Deviations]]:
    """Each placed piece that has all that a constraint speaks of, and how far it is off there."""
    for piece in _pieces(drawing, asked, program):
        with suppress(MissingPlace):
            if piece.lies_as_needed(drawing.constraints[number - 1]):
                solution = piece.solution()
                yield solution, measure_one(drawing, solution, number)


def _pieces(drawing: Drawing, asked: Trial, program: Solver) -> Iterator[_Piece]:
    """The pieces that the program has placed. Raises ProgramError."""
    report = read_parts(written_by(program, "parts", asked.spelled.sketch.text()))
    for part in report.parts:
        if isinstance(part.shape, Solved):
            yield _Piece(drawing, asked, PrintedPlaces.of(part.shape.places, asked.spelled.scale))


class _Piece:
    """A placed piece of a drawing, in micrometres, in a frame of its own."""

    def __init__(self, drawing: Drawing, asked: Trial, plate: PrintedPlaces) -> None:
        self.drawing, self.asked, self.plate = drawing, asked, plate
        self.right = plate.axis(asked.spelled.headings, DATUM)

    def lies_as_needed(self, constraint: Constraint) -> bool:
        """Whether the piece lies to the datum as a constraint needs it."""
        if isinstance(constraint, Fixed) or DATUM_NAMES.intersection(named(constraint)):
            return self.right is not None and len(self._axes()) == 2
        return self.right is not None or not isinstance(constraint, UPRIGHT)

    def _axes(self) -> list[str]:
        """The lines of the datum's axes in the piece."""
        return [each.name for each in self.asked.spelled.headings
                if each.rail is not None and each.rail.datum() and each.name in self.plate.lines]

    def solution(self) -> Solution:
        """The places of the piece, in nanometres of the drawing."""
        return Solution(dict(self._points()), dict(self._radii()),
                        Frame(self._origin(), self.right or (1, 0)))

    def _origin(self) -> PointNm:
        """Where the datum's axes meet: they are square to each other."""
        feet = [self.plate.foot(name) for name in self._axes()]
        return sum(x for x, _ in feet) * 1000, sum(y for _, y in feet) * 1000

    def _points(self) -> Mapping[PointRef, PointNm]:
        found = {}
        for ref, knot in self.asked.axes.facts.refs.items():
            name = self.asked.spelled.points.get(knot)
            if name in self.plate.points and name is not None and ref != ORIGIN:
                x, y = self.plate.points[name]
                found[ref] = x * 1000, y * 1000
        return found

    def _radii(self) -> Mapping[str, Number]:
        """The radii that are told, and above 0."""
        rims = [each.name for each in self.drawing.geometry if isinstance(each, (Circle, Arc))]
        sizes = {name: self.asked.rails.size(RadiusOf(name)) for name in rims}
        return {name: size * 1000 for name, size in sizes.items() if size is not None and size > 0}
