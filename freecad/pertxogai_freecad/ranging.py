"""The command Range: how far a dimension may go while the sketch stays good and as it is drawn."""
from __future__ import annotations

from collections.abc import Iterator, Mapping
from importlib.util import find_spec

from pertxogai.drawing import (
    VALUED, Constraint, Dimension, Drawing, Parameter, parameters)
from pertxogai.judging.measure import Limit
from pertxogai.judging.remembering import Remembering
from pertxogai.program import Program
from pertxogai_freecad.following import set_by
from pertxogai_freecad.sketches import ReadSketch
from pertxogai_freecad.trouble import NotGoodTrouble, Trouble, troubles

MISSING = ("this version of the package pertxogai has no ranges (its module pertxogai.ranging is "
           "missing): install a later one")


def check_there() -> None:
    """Raises Trouble where the package can't tell ranges."""
    if find_spec("pertxogai.ranging") is None:
        raise Trouble(MISSING)


def ranges(read: ReadSketch, program: Program, limit: Limit,
           indices: frozenset[int] | None = None) -> Iterator[str]:
    """How far the dimensions of these of FreeCAD's numbers may go, or all of them, in lines to
    read; where one follows from named constraints, how far these may go. What FreeCAD sets by an
    expression that isn't read has no range, and is held. Raises NotGoodTrouble where the sketch
    isn't good; Trouble where none of these is a dimension, or the package can't tell ranges."""
    check_there()
    from pertxogai.output.ranges_text import ranges_lines
    from pertxogai.ranging import NoRange, Ranging

    with troubles():
        try:
            ranging = Ranging.of(read.drawing, Remembering(program), limit)
        except NoRange as why:
            raise NotGoodTrouble(f"{read.label}: no ranges: {why}") from None
        asked = [each for each in parameters(read.drawing)
                 if indices is None or _is_of(each, read, indices)]
        if not asked and indices is not None:
            raise Trouble(f"{read.label}: no dimension is selected: click on one of its "
                          "dimensions, and ask again")
        held = _held(read)
        free = [each for each in asked if each.called(read.drawing) not in held]
        yield from ranges_lines(read.label, read.drawing, [ranging.range_of(each) for each in free])
    for each in asked:
        if each not in free:
            name = each.called(read.drawing)
            yield f"  {name}: no range, since FreeCAD sets it by {held[name]}"
    if free and held:
        yield f"  held as they are, since FreeCAD sets them by expressions: {', '.join(held)}"


def _held(read: ReadSketch) -> Mapping[str, str]:
    """What FreeCAD sets by an expression that isn't read, by its name: the expression."""
    behind = {each.name: each.expression.names for each in read.drawing.values}
    found = {}
    for index, text in set_by(read.sketch).items():
        for number in read.numbers(index):
            name = read.drawing.called(number)
            said = read.drawing.constraints[number - 1]
            is_read = behind[name] if name in behind else _names_behind(said, read.drawing)
            if not is_read:
                found[name] = text
    return found


def _is_of(parameter: Parameter, read: ReadSketch, indices: frozenset[int]) -> bool:
    """Whether constraints of FreeCAD's numbers have a number that may go, or follow from it."""
    if isinstance(parameter, Dimension):
        return read.index(parameter.number) in indices
    said = (read.drawing.constraints[number - 1] for index in indices
            for number in read.numbers(index))
    return any(parameter.name in _names_behind(each, read.drawing) for each in said)


def _names_behind(constraint: Constraint, drawing: Drawing) -> frozenset[str]:
    """The values that a constraint follows from."""
    found: set[str] = set()
    due: list[str] = []
    if isinstance(constraint, VALUED) and constraint.expression is not None:
        due += constraint.expression.names
    behind = {each.name: each.expression.names for each in drawing.values}
    while due:
        name = due.pop()
        if name not in found:
            found.add(name)
            due += behind.get(name, ())
    return frozenset(found)
