"""A judged sketch as a picture."""
from __future__ import annotations

from collections.abc import Iterator

from pertxogai.judging.choices import tried_lines
from pertxogai.judging.judged_sketch import JudgedSketch, concerned, what_to_do
from pertxogai.output.picture.sketches import (
    picture_of_drawing, picture_of_parts, picture_of_shape)
from pertxogai.output.picture.svg import Picture

MOST_SHOWN = 8
"""The most constraints that a picture tells below it."""


def picture_of_judged(judged: JudgedSketch, as_drawn: bool = False) -> Picture:
    """The sketch as placed; cluster by cluster if it isn't fully constrained; as drawn if it has no
    positions."""
    if judged.solved and not as_drawn:
        return picture_of_shape(judged.sketch, judged.solved, judged.name)
    if judged.parts and not as_drawn:
        return picture_of_parts(judged.sketch, judged.parts, judged.spare, judged.name)
    below = () if as_drawn else tuple(_fault_lines(judged))
    return picture_of_drawing(judged.sketch, judged.name, below)


def _fault_lines(judged: JudgedSketch) -> Iterator[str]:
    """What stands below a picture of a sketch as it is drawn, of its fault."""
    if judged.fault:
        yield f"can't be placed, shown as drawn: {judged.fault.text().strip()}"
        yield from (f"of {constraint.text()}" for constraint in concerned(judged)[:MOST_SHOWN])
        yield from tried_lines(judged.sketch, judged.tried)
        yield f"what to do: {what_to_do(judged.fault, judged.tried, judged.by_points)}"
