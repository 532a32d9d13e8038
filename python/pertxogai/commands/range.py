"""The command `range`."""
from __future__ import annotations

import argparse
import json
from collections.abc import Iterator, Sequence

from pertxogai.commands.judging import chosen, made_of
from pertxogai.commands.progress import show_progress
from pertxogai.commands.solvers import solver_of
from pertxogai.drawing import VALUED, Drawing, Parameter
from pertxogai.drawing.values.parameters import Dimension
from pertxogai.exits import CommandError, Exit
from pertxogai.files.kinds import DesignerDrawing, Input, read_inputs
from pertxogai.files.printable import printable
from pertxogai.output.ranges_text import range_json, ranges_lines
from pertxogai.program import Solver
from pertxogai.ranging import NoRange, Range, Ranging


def tell_ranges(options: argparse.Namespace) -> Exit:
    """Prints the ranges of each sketch of a file that is good: of the values and dimensions that
    are named, or of all. Raises CommandError, InputRefused, FileRefusal and ProgramError."""
    drawings = _drawings(options)
    program = solver_of(options)
    told: list[dict[str, object]] = []
    ends = Exit.GOOD
    for found in drawings:
        try:
            ranges = tuple(_ranges(found, program, options))
        except NoRange as why:
            ends = Exit.NOT_GOOD
            told.append({"name": found.name, "ranges": [], "why": str(why)})
            _print(options, [f"{found.name}: no ranges: {why}"])
            continue
        told.append({"name": found.name,
                     "ranges": [range_json(found.drawing, each) for each in ranges]})
        _print(options, ranges_lines(found.name, found.drawing, ranges))
    if options.json:
        print(json.dumps({"sketches": told}, indent=2))
    return ends


def _drawings(options: argparse.Namespace) -> list[DesignerDrawing]:
    """The drawings that are asked about. Raises CommandError, InputRefused and FileRefusal."""
    inputs = read_inputs(options.file)
    if options.sketch is not None:
        inputs = (chosen(inputs, options.sketch),)
    return [_drawing(each, options) for each in inputs]


def _print(options: argparse.Namespace, lines: Iterator[str] | Sequence[str]) -> None:
    if not options.json:
        print(*map(printable, lines), sep="\n", flush=True)


def _drawing(found: Input, options: argparse.Namespace) -> DesignerDrawing:
    if not isinstance(found, DesignerDrawing):
        raise CommandError(f"{options.file}: a sketch of the language has no ranges: open it on "
                           "the board, and save it as a drawing")
    return found


def _ranges(found: DesignerDrawing, program: Solver,
            options: argparse.Namespace) -> Iterator[Range]:
    with made_of(found):
        ranging = Ranging.of(found.drawing, program, options.within)
        asked = _asked_for(found.drawing, ranging.parameters(), options.names)
        for done, each in enumerate(asked):
            show_progress(done, len(asked))
            yield ranging.range_of(each)
        show_progress(len(asked), len(asked))


def _asked_for(drawing: Drawing, known: Sequence[Parameter],
               names: Sequence[str]) -> Sequence[Parameter]:
    """The parameters of these names, or all. A dimension is named by its own name, by its place, as
    `7`, or as it is called. Raises CommandError."""
    if not names:
        return known
    return [_named(drawing, known, name) for name in names]


def _named(drawing: Drawing, known: Sequence[Parameter], name: str) -> Parameter:
    found = [each for each in known
             if each.called(drawing) == name or _is_number_of(name, each)]
    if len(found) > 1:
        raise CommandError(f"{name!r} is a value and a dimension: give the dimension another name")
    if found:
        return found[0]
    told_by = _told_by(drawing, name)
    if told_by:
        raise CommandError(f"{name!r} has no range of its own: it follows from "
                           f"{', '.join(told_by)}")
    names = ", ".join(each.called(drawing) for each in known)
    raise CommandError(f"{name!r} isn't a value or a dimension with a range: "
                       f"{f'write one of {names}' if names else 'the drawing has none'}")


def _is_number_of(name: str, of: Parameter) -> bool:
    """Whether a name is the number of a dimension, which may have a name of its own too."""
    return isinstance(of, Dimension) and name.removeprefix("constraint ") == str(of.number)


def _told_by(drawing: Drawing, name: str) -> tuple[str, ...]:
    """The values that a value or a dimension of a name is told by; none where it isn't so told."""
    for value in drawing.values:
        if value.name == name:
            return value.expression.names
    for number, each in enumerate(drawing.constraints, start=1):
        names = each.name, drawing.called(number), str(number), f"constraint {number}"
        if name in names and isinstance(each, VALUED):
            return each.expression.names if each.expression is not None else ()
    return ()
