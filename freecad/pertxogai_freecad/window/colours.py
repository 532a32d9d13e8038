"""The colours of the program's rigid clusters."""
from __future__ import annotations

from collections.abc import Mapping

from pertxogai.judging.parts import parts_of_shapes
from pertxogai_freecad.judging import JudgedSketch

Colour = tuple[float, float, float]
COLOURS: tuple[Colour, ...] = (
    (0.13, 0.40, 0.67), (0.84, 0.37, 0.00), (0.00, 0.62, 0.45), (0.80, 0.47, 0.65),
    (0.34, 0.71, 0.91), (0.90, 0.62, 0.00), (0.94, 0.89, 0.26))
LOOSE: Colour = (0.45, 0.45, 0.45)
"""The colour of a shape that hangs between clusters."""


def cluster_colours(judged: JudgedSketch) -> Mapping[int, Colour]:
    """The colour of the rigid cluster that has all of a shape, by FreeCAD's number of it, from
    0."""
    cluster_of = parts_of_shapes(judged.judged.judgement)
    numbers = {index: cluster_of.get(shape.name) for index, shape in judged.read.curves().items()}
    return {index: COLOURS[(number - 1) % len(COLOURS)] if number else LOOSE
            for index, number in numbers.items()}
