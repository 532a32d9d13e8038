"""A drawing as the page is told it: its shapes where they are drawn, its constraints, and their
marks where all is shown. What an edit leaves as it was is taken over from the drawing before, and
isn't told again to a page that knows it."""
from __future__ import annotations

from collections.abc import Iterator, Sequence
from dataclasses import dataclass
from typing import TypeVar, assert_never

from pertxogai.board.anchors import leader_of
from pertxogai.board.marks import marks, reference_marks, with_labels
from pertxogai.board.protocol import (
    ChangedDrawing, Constraint as ConstraintJson, Drawing as DrawingJson, Kind, Mark, NamedValue,
    Shape as ShapeJson)
from pertxogai.drawing import (
    VALUED, Arc, Circle, Constraint, Drawing, Segment, Shape, points_of, reckoned_values,
    value_text)
from pertxogai.drawing.geometry import Point as DrawnPoint
from pertxogai.drawing.labels import all_labels, references
from pertxogai.drawing.mentions import named
from pertxogai.drawing.named_shapes import shares
from pertxogai.judging.measure import Solution
from pertxogai.output.picture.drawings import DrawnPlaces

Thing = TypeVar("Thing")


@dataclass(frozen=True)
class Sight:
    """What is told: each shape, each constraint, and the marks of each constraint. solution: where
    all is shown; None for where it is drawn."""

    drawing: Drawing
    solution: Solution | None
    shapes: Sequence[ShapeJson]
    constraints: Sequence[ConstraintJson]
    marks: Sequence[Sequence[Mark]]

    def told(self) -> DrawingJson:
        """All of it."""
        marks = with_labels(self._all_marks(), all_labels(self.drawing))
        return {"shapes": list(self.shapes), "constraints": list(self.constraints),
                "marks": list(marks), "values": named_values(self.drawing)}

    def _all_marks(self) -> Iterator[Mark]:
        """The marks of the constraints, and of what is only measured."""
        for each in self.marks:
            yield from each
        where = DrawnPlaces(self.drawing, self.solution)
        for number, reference in enumerate(references(self.drawing), 1):
            yield from reference_marks(where, number, reference)

    def changed(self, known: Sight) -> ChangedDrawing:
        """All of it; None for a list, or a thing of a list, that is as it was in what is known."""
        now, before = self.told(), known.told()
        return {"shapes": _unknown(now["shapes"], before["shapes"]),
                "constraints": _unknown(now["constraints"], before["constraints"]),
                "marks": _unknown(now["marks"], before["marks"]),
                "values": _unknown(now["values"], before["values"])}


def _unknown(now: Sequence[Thing], known: Sequence[Thing]) -> list[Thing | None] | None:
    """What of a list isn't the same at the same place of a known one."""
    if len(now) != len(known):
        return list(now)
    left = [None if each is other or each == other else each for each, other in zip(now, known)]
    return None if left.count(None) == len(left) else left


def named_values(drawing: Drawing) -> list[NamedValue]:
    """The named values, and what each of them comes to."""
    return [{"name": each.name, "expression": each.text, "comes": each.quantity.text()}
            for each in reckoned_values(drawing)]


def sight_of(drawing: Drawing, solution: Solution | None, before: Sight | None = None) -> Sight:
    """A drawing as it is told, by that of the drawing that it was made from."""
    drawn, where = DrawnPlaces(drawing, None), DrawnPlaces(drawing, solution)
    shapes: list[ShapeJson] = []
    whole = {id(shape): told for shape, told in zip(before.drawing.geometry, before.shapes)
             if not shares(shape)} if before else {}
    for shape in drawing.geometry:
        shapes.append(whole.get(id(shape)) or _shape(drawn, shape))
    elsewhere = _elsewhere(drawing, solution, before)
    constraints: list[ConstraintJson] = []
    shown: list[Sequence[Mark]] = []
    for number, constraint in enumerate(drawing.constraints, 1):
        told, marked = _known(before, number, constraint)
        constraints.append(told or _constraint(drawing, number, constraint))
        stays = told is not None and elsewhere.isdisjoint(named(constraint))
        shown.append(marked if stays else list(marks(where, number, constraint)))
    return Sight(drawing, solution, shapes, constraints, shown)


def _known(before: Sight | None, number: int,
           constraint: Constraint) -> tuple[ConstraintJson | None, Sequence[Mark]]:
    """What was told of a constraint at its place, and its marks; None where another stood there."""
    if before is None or number > len(before.constraints):
        return None, ()
    if before.drawing.constraints[number - 1] is not constraint:
        return None, ()
    return before.constraints[number - 1], before.marks[number - 1]


def _elsewhere(drawing: Drawing, solution: Solution | None, before: Sight | None) -> frozenset[str]:
    """The shapes that are shown otherwise than before."""
    if solution is not None and before is not None and before.solution is not None:
        return solution.elsewhere(before.solution)
    lies = {shape.name: _drawn(drawing, shape) for shape in drawing.geometry}
    if before is None or solution is not None or before.solution is not None:
        return frozenset(lies)
    lay = {shape.name: _drawn(before.drawing, shape) for shape in before.drawing.geometry}
    return frozenset(name for name, spots in lies.items() if lay.get(name) != spots)


def _drawn(drawing: Drawing, shape: Shape) -> list[object]:
    """Where the points of a shape are drawn, and how large it is."""
    return [*map(drawing.drawn, points_of(shape)), getattr(shape, "radius_um", None)]


def _shape(where: DrawnPlaces, shape: Shape) -> ShapeJson:
    drawing = where.drawing
    found: ShapeJson = {
        "name": shape.name, "kind": _kind(shape),
        "construction": shape.construction, "outer": shape.outer,
        "points": {str(ref): where.at(ref) for ref in points_of(shape)},
        "shares": [str(ref) for ref in points_of(shape) if leader_of(drawing, ref) != ref],
    }
    if isinstance(shape, (Circle, Arc)):
        found["radius"] = where.radius(shape.name)
    return found


def _kind(shape: Shape) -> Kind:
    """The word of a shape."""
    match shape:
        case Segment():
            return "segment"
        case Circle():
            return "circle"
        case Arc():
            return "arc"
        case DrawnPoint():
            return "point"
        case other:
            assert_never(other)


def _constraint(drawing: Drawing, number: int, constraint: Constraint) -> ConstraintJson:
    value = value_text(constraint) if isinstance(constraint, VALUED) else None
    return {"number": number, "name": constraint.name, "called": drawing.called(number),
            "words": drawing.wordings[number - 1], "value": value}
