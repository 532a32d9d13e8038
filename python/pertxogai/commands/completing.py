"""The command `complete`."""
from __future__ import annotations

import argparse
import json
from collections.abc import Mapping, Sequence
from pathlib import Path

from pertxogai.commands.judging import chosen, made_of, program_of
from pertxogai.completing import Completion, NoProposal, complete
from pertxogai.drawing import write_drawing
from pertxogai.exits import CommandError, Exit
from pertxogai.files.atomic import written_whole
from pertxogai.files.contents import Addition
from pertxogai.files.kinds import DesignerDrawing, Input, kind_of, read_inputs
from pertxogai.files.printable import printable
from pertxogai.output.completion_text import completion_json, completion_lines, is_whole
from pertxogai.program import Solver
from pertxogai.program.called import PROGRAM

Found = Completion | NoProposal


def complete_file(options: argparse.Namespace) -> Exit:
    """Prints what each sketch of a file lacks, and writes the file with that added, where that is
    asked for. Raises CommandError, InputRefused, FileRefusal and ProgramError."""
    inputs = read_inputs(options.file)
    if options.sketch is not None:
        inputs = (chosen(inputs, options.sketch),)
    drawings = [_drawing(each, options.file) for each in inputs]
    program = program_of(options)
    found = [_complete(each, program, options) for each in drawings]
    if options.json:
        sketches = [completion_json(it.name, each, it.left_out)
                    for it, each in zip(drawings, found)]
        print(json.dumps({"file": str(options.file), "sketches": sketches}, indent=2))
    else:
        for it, each in zip(drawings, found):
            print(*map(printable, completion_lines(it.name, each, it.left_out)), sep="\n")
    if options.output is not None:
        _write(options.file, options.output, drawings, found)
    are_whole = (is_whole(each, it.left_out) for it, each in zip(drawings, found))
    return Exit.GOOD if all(are_whole) else Exit.NOT_GOOD


def _drawing(found: Input, path: Path) -> DesignerDrawing:
    if not isinstance(found, DesignerDrawing):
        raise CommandError(f"{path}: a sketch of the language is completed by {PROGRAM} complete")
    return found


def _complete(found: DesignerDrawing, program: Solver, options: argparse.Namespace) -> Found:
    with made_of(found):
        return complete(found.drawing, program, options.within)


def _write(path: Path, out: Path, drawings: Sequence[DesignerDrawing],
           found: Sequence[Found]) -> None:
    """Writes what was completed: into a copy of the file, or as a drawing. Raises CommandError and
    FileRefusal."""
    completed = {it.key: each for it, each in zip(drawings, found) if isinstance(each, Completion)}
    if not completed:
        raise CommandError(f"{path}: nothing is proposed, so {out} isn't written")
    if out.suffix.lower() != ".drawing" or path.suffix.lower() == ".drawing":
        _write_into(path, out, completed)
        return
    if len(drawings) > 1:
        names = ", ".join(it.name for it in drawings)
        raise CommandError(f"the file has the sketches {names}: choose one by --sketch NAME")
    (only,) = completed.values()
    with written_whole(out, path) as file:
        file.write(write_drawing(only.drawing).encode("utf-8", "surrogateescape"))


def _write_into(path: Path, out: Path, completed: Mapping[str, Completion]) -> None:
    """Copies a file with what was completed written in: a drawing keeps its lines, notes and
    order."""
    kind = kind_of(path)
    if kind is None or kind.add is None or out.suffix.lower() != kind.suffix.lower():
        raise CommandError(f"{out}: a completed drawing is written as a .drawing, or into a copy of"
                           " a .FCStd or .slvs")
    kind.add(path, out, {key: _addition(each) for key, each in completed.items()})


def _addition(completion: Completion) -> Addition:
    added = tuple(each.constraint for each in completion.all())
    return Addition(completion.drawing, added, completion.solution)
