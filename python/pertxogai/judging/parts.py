"""Which shapes and points of a drawing lie in which of the parts that the program tells of it."""
from __future__ import annotations

from collections import defaultdict
from collections.abc import Mapping

from pertxogai.drawing import Shape, points_of
from pertxogai.judging.judgement import Judgement


def parts_of_shapes(judgement: Judgement) -> Mapping[str, int]:
    """The number of the part that has all points of a shape, by the shape's name: the greatest
    of several. A shape that hangs between parts has none."""
    largest = sorted(judgement.asked.parts, key=lambda part: -len(part.elements))
    holding = [(part.number, frozenset(part.elements)) for part in largest]
    found = (
        (shape.name, _part_of(judgement, shape, holding))
        for shape in judgement.names.drawing.geometry
    )
    return {name: number for name, number in found if number is not None}


def parts_of_points(judgement: Judgement) -> Mapping[str, int]:
    """The number of the part that has a point, by the point's name. A point that no part has, or
    several, has none."""
    names, holding = judgement.names, _parts_by_element(judgement)
    found = ((ref, holding[names.spelled.points.get(names.refs[ref], "")])
             for ref in names.drawing.points() if ref in names.refs)
    return {str(ref): numbers[0] for ref, numbers in found if len(numbers) == 1}


def _parts_by_element(judgement: Judgement) -> defaultdict[str, list[int]]:
    """The numbers of the parts that have an element, by its name in the sketch."""
    found = defaultdict(list)
    for part in judgement.asked.parts:
        for element in part.elements:
            found[element].append(part.number)
    return found


def _part_of(
    judgement: Judgement, shape: Shape, parts: list[tuple[int, frozenset[str]]]
) -> int | None:
    """The first of the parts, each a number and its elements, that has all points of a shape."""
    names = judgement.names
    points = {
        names.spelled.points.get(names.refs[ref]) for ref in points_of(shape) if ref in names.refs
    } - {None}
    return next((number for number, elements in parts if points and points <= elements), None)
