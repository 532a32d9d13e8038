"""The same commands without a window, for every document of a folder:

    freecadcmd -c "from pertxogai_freecad.documents import main; main('judge', 'FOLDER')"

The commands are judge, repair, complete, range, certify and construction; they print what the
window shows. The documents stay as they are: `certify` writes its claims beside them, and
`complete` writes copies with all that it proposes, of those documents of which it proposes
something, into the folder that is named behind. FreeCAD ends with status 0 where all sketches are
good (of `certify`: accepted by all checkers), 1 where one isn't, 2 where something can't be
done."""
from __future__ import annotations

import sys
import traceback
from collections.abc import Callable, Iterator
from contextlib import contextmanager
from dataclasses import dataclass
from enum import IntEnum
from pathlib import Path
from typing import TYPE_CHECKING

import FreeCAD

from pertxogai_freecad.freecad_types import OwnDocument
from pertxogai_freecad.home import find_package, find_program, limit_of
from pertxogai_freecad.settings import Settings
from pertxogai_freecad.trouble import NotGoodTrouble, Trouble

if TYPE_CHECKING:  # The package is found by `main`.
    from pertxogai.judging.measure import Limit
    from pertxogai.program import Program
    from pertxogai_freecad.sketches import ReadSketch

COMPLETE = "complete"
SUFFIX = ".fcstd"
"""How the name of a document ends, in small letters."""


class Ends(IntEnum):
    """How FreeCAD ends."""

    GOOD = 0
    NOT_GOOD = 1
    TROUBLE = 2


@dataclass(frozen=True)
class Asked:
    """What the commands ask, within what a constraint has to hold, and where copies go."""

    program: Program
    limit: Limit
    out: Path | None


@dataclass(frozen=True)
class Found:
    """What is told of a sketch, in lines; whether it is good; and whether it was changed."""

    lines: Iterator[str]
    is_good: bool = True
    is_changed: bool = False


def main(command: str, folder: str, out: str = "") -> None:
    """Does a command for each document of a folder, or for one document, and ends FreeCAD."""
    try:
        status = run(command, Path(folder), Path(out) if out else None)
    except Trouble as trouble:
        print(f"pertxogai: {trouble}", file=sys.stderr)
        status = Ends.TROUBLE
    sys.stdout.flush()
    sys.exit(int(status))


def run(command: str, folder: Path, out: Path | None = None) -> Ends:
    """Does a command for each document of a folder, or for one document, and prints what came of
    it. Raises Trouble where nothing can be asked at all."""
    if command not in COMMANDS:
        raise Trouble(f"there is no command {command!r}: write one of {', '.join(COMMANDS)}")
    if out is not None and command != COMPLETE:
        raise Trouble(f"{command} writes no copies, so {out} isn't taken: leave it out")
    paths = [folder]
    if folder.is_dir():
        paths = sorted(each for each in folder.iterdir() if each.suffix.lower() == SUFFIX)
    if not paths:
        raise Trouble(f"{folder} has no document (.FCStd)")
    settings = Settings.stored()
    find_package(settings)
    asked = Asked(find_program(settings), limit_of(settings), out)
    return max(_document(command, path, asked) for path in paths)


def _document(command: str, path: Path, asked: Asked) -> Ends:
    """Does a command for each sketch of one document."""
    from pertxogai_freecad.sketches import read_sketches, write_copy

    out = asked.out / path.name if asked.out is not None else None
    try:
        if out is not None and out.exists():
            raise Trouble(f"{out} is there already, and isn't written over: name another folder")
        with _opened(path) as document:
            print()  # FreeCAD's own line of progress has no end.
            told = [_sketch(command, read, asked) for read in read_sketches(document)]
            if out is not None and any(is_changed for _, is_changed in told):
                out.parent.mkdir(parents=True, exist_ok=True)
                write_copy(document, out)
                print(f"{path.name}: wrote {out}")
    except (Trouble, OSError) as trouble:
        print(f"{path.name}: {trouble}")
        return Ends.TROUBLE
    except Exception as fault:  # The package's own; the other documents are asked all the same.
        traceback.print_exc()
        print(f"{path.name}: {type(fault).__name__}: {' '.join(str(fault).split())}")
        return Ends.TROUBLE
    return max(ends for ends, _ in told)


@contextmanager
def _opened(path: Path) -> Iterator[OwnDocument]:
    """A document while it is asked about. Raises Trouble."""
    try:
        document: OwnDocument = FreeCAD.openDocument(str(path))
    except Exception as error:  # FreeCAD raises what its readers do.
        raise Trouble(f"FreeCAD can't open it: {error}") from None
    document.UndoMode = 1  # So that what FreeCAD refuses is taken back.
    try:
        yield document
    finally:
        FreeCAD.closeDocument(document.Name)


def _sketch(command: str, read: ReadSketch, asked: Asked) -> tuple[Ends, bool]:
    """Does a command for one sketch, and prints what came of it; how it ends, and whether the
    sketch was changed."""
    name = f"{Path(read.sketch.Document.FileName).name} {read.sketch.Name}"
    try:
        found = COMMANDS[command](read, asked)
        for line in found.lines:
            print(f"{name}: {line}")
    except Trouble as trouble:
        print(f"{name}: {trouble}")
        is_sketchs = isinstance(trouble, NotGoodTrouble)
        return Ends.NOT_GOOD if is_sketchs else Ends.TROUBLE, False
    return Ends.GOOD if found.is_good else Ends.NOT_GOOD, found.is_changed


def _judge(read: ReadSketch, asked: Asked) -> Found:
    from pertxogai.judging import GoodJudgement
    from pertxogai_freecad.judging import judge_sketch

    judged = judge_sketch(read, asked.program, asked.limit)
    return Found(judged.lines(), isinstance(judged.good, GoodJudgement))


def _repair(read: ReadSketch, asked: Asked) -> Found:
    from pertxogai_freecad.judging import judge_sketch
    from pertxogai_freecad.repairing import Repair

    repair = Repair.of(judge_sketch(read, asked.program, asked.limit))
    return Found(repair.lines(), not repair.candidates)


def _complete(read: ReadSketch, asked: Asked) -> Found:
    from pertxogai.output.completion_text import is_whole
    from pertxogai_freecad.completing import Proposed

    proposed = Proposed.of(read, asked.program, asked.limit)
    is_changed = asked.out is not None and bool(proposed.proposals)
    if is_changed:
        proposed.take_all()
    is_good = is_whole(proposed.found, [*map(str, read.found.left_out)])
    return Found(proposed.lines(), is_good, is_changed)


def _range(read: ReadSketch, asked: Asked) -> Found:
    from pertxogai_freecad.ranging import ranges

    return Found(ranges(read, asked.program, asked.limit))


def _certify(read: ReadSketch, asked: Asked) -> Found:
    from pertxogai_freecad.certifying import certify
    from pertxogai_freecad.judging import judge_sketch

    certified = certify(judge_sketch(read, asked.program, asked.limit))
    return Found(certified.lines(), certified.is_accepted())


def _construction(read: ReadSketch, asked: Asked) -> Found:
    from pertxogai_freecad.constructing import construct
    from pertxogai_freecad.judging import judge_sketch

    return Found(construct(judge_sketch(read, asked.program, asked.limit)).lines())


COMMANDS: dict[str, Callable[["ReadSketch", Asked], Found]] = {
    "judge": _judge, "repair": _repair, COMPLETE: _complete, "range": _range,
    "certify": _certify, "construction": _construction,
}
