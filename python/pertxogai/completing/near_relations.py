"""The relations that a drawing nearly has, of which each could be added, or is told otherwise."""
from __future__ import annotations

from collections.abc import Iterator

from pertxogai.completing.figure import Figure
from pertxogai.completing.relations import relations
from pertxogai.completing.slack import Slack, Remaining
from pertxogai.drawing import Drawing, line_of
from pertxogai.judging.finding import Nearly


def nearly_of(drawing: Drawing) -> Iterator[Nearly]:
    """Those of a sound drawing, but for what holds since it follows from what is told."""
    slack = Slack.of(drawing)
    if slack is None:
        return
    remaining, said = Remaining.all(slack), set(drawing.wordings)
    found = list(relations(Figure(slack.placed)))
    of = {id(each.constraint): each for each in found}
    for constraint, demand in slack.demands([each.constraint for each in found]):
        relation, line = of[id(constraint)], line_of(constraint)
        is_free = remaining.after(demand, ties_the_whole=True) is not None
        if line not in said and (is_free or not relation.holds()):
            yield Nearly(line, relation.off, relation.unit.value, is_free)
