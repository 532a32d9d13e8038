"""Which of some relations hold the shapes of a copy in their places, with none too many: chosen by
rank, by numbers, where the drawing is placed. What comes of them the program says."""
from __future__ import annotations

from collections.abc import Callable, Iterable, Sequence
from dataclasses import dataclass, replace
from fractions import Fraction
from typing import TYPE_CHECKING

from pertxogai.board.anchors import with_spot
from pertxogai.board.copying import Copy
from pertxogai.board.line_reader import asked
from pertxogai.drawing import Circle, Constraint, Drawing, Place, PointRef, WordFault, points_of
from pertxogai.drawing.named_shapes import spot_of

if TYPE_CHECKING:
    from pertxogai.search.arrays import Array

LEAST = 1e-3
"""A relation that moves what is left by a smaller share says nothing of its own."""
Words = list[str]


def placed_by_numbers(drawing: Drawing) -> Drawing:
    """A drawing with its places where the search finds them; as drawn where it finds none. Raises
    MissingLibrary."""
    from pertxogai.search import check_libraries
    check_libraries()
    from pertxogai.search.equations import Equations
    from pertxogai.search.rounding import solution_of
    from pertxogai.search.solving import solve
    equations = Equations(drawing)
    found = solve(equations)
    if not found.is_solved():
        return drawing
    solution = solution_of(equations.unknowns, found.x)

    def at(ref: PointRef) -> Place:
        x, y = solution.spot(ref)
        return Place(Fraction(x) / 1000, Fraction(y) / 1000)
    return redrawn(drawing, at, lambda name: Fraction(solution.radius(name)) / 1000)


def redrawn(drawing: Drawing, at: Callable[[PointRef], Place],
            radius_um: Callable[[str], Fraction]) -> Drawing:
    """A drawing with its points and its circles' radii drawn elsewhere."""
    shapes = []
    for shape in drawing.geometry:
        if isinstance(shape, Circle):
            shape = replace(shape, radius_um=radius_um(shape.name))
        for ref in points_of(shape):
            if not isinstance(spot_of(shape, ref.which), PointRef):
                shape = with_spot(shape, ref.which, at(ref))
        shapes.append(shape)
    return replace(drawing, geometry=tuple(shapes))


@dataclass(frozen=True)
class Held:
    """Relations that are chosen, each by a line's words, and how many freedoms they leave."""

    lines: tuple[tuple[str, ...], ...]
    left: int


def held(copy: Copy, orders: Iterable[Sequence[Words]]) -> Held:
    """Of some orders of relations the one that leaves the fewest freedoms of a copy where all else
    stays as it is drawn; of each the relations that say something of their own, whole."""
    scene = Drawing(tuple(replace(each, outer=True) if each.name in copy.before else each
                          for each in copy.whole.geometry))
    return min((chosen(scene, order) for order in orders), key=lambda each: each.left)


def chosen(drawing: Drawing, order: Sequence[Words]) -> Held:
    """The first of some relations of which each says something, whole, beside what a drawing says
    already and those before it. One that the drawing's words don't take is passed over."""
    said = [(tuple(words), constraint) for words in order for constraint in _asked(drawing, words)]
    asks = tuple(constraint for _, constraint in said)
    rows = _Rows.of(replace(drawing, constraints=(*drawing.constraints, *asks)))
    known = len(drawing.constraints)
    for number in range(known + 1):
        rows.takes(number)
    lines = [words for number, (words, _) in enumerate(said, known + 1) if rows.adds(number)]
    return Held(tuple(dict.fromkeys(lines)), rows.left())


def _asked(drawing: Drawing, words: Words) -> tuple[Constraint, ...]:
    try:
        return asked(drawing, words)
    except WordFault:
        return ()


@dataclass
class _Rows:
    """The rows of a drawing's constraints where it is drawn, each of length 1, by the number of the
    constraint; under 0 those of the shapes themselves. basis: what was taken, made square."""

    rows: dict[int, list[Array]]
    count: int
    basis: list[Array]

    @staticmethod
    def of(drawing: Drawing) -> _Rows:
        """The rows of a drawing. Raises MissingLibrary."""
        from pertxogai.search.arrays import dense
        from pertxogai.search.equations import Equations
        from pertxogai.search.unknowns import By
        equations = Equations(drawing)
        slopes = dense(equations.tangents(equations.drawn).jacobian)
        rows: dict[int, list[Array]] = {}
        for row, slope in zip(equations.rows, slopes):
            number = 0 if row.source.by is By.SHAPE else row.source.number
            if row.source.by is not By.MEASURED:
                rows.setdefault(number, []).append(_unit(slope))
        return _Rows(rows, equations.unknowns.count, [])

    def takes(self, number: int) -> None:
        """Takes what the rows of a constraint say, be it little."""
        for row in self.rows.get(number, []):
            rest = self._rest(row, self.basis)
            self.basis += [_unit(rest)] if _length(rest) > LEAST else []

    def adds(self, number: int) -> bool:
        """Takes the rows of a constraint if each says something beside those before."""
        more: list[Array] = []
        for row in self.rows.get(number, []):
            rest = self._rest(row, [*self.basis, *more])
            if _length(rest) <= LEAST:
                return False
            more.append(_unit(rest))
        self.basis += more
        return bool(more)

    def left(self) -> int:
        """How many freedoms are left."""
        return self.count - len(self.basis)

    @staticmethod
    def _rest(row: Array, basis: Iterable[Array]) -> Array:
        for each in basis:
            row = row - (row @ each) * each
        return row


def _unit(row: Array) -> Array:
    length = _length(row)
    return row / length if length > 0 else row


def _length(row: Array) -> float:
    return float((row @ row) ** 0.5)
