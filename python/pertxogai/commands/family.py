"""The command `family`: one drawing with many values, a line of a table for each variant.

Each is judged, placed, and drawn where that is asked for, on all processors. What becomes of each
is a line of a table of verdicts; begun again, the command goes on behind those that stand there.
"""
from __future__ import annotations

import argparse
import hashlib
import sys
from collections import Counter, deque
from collections.abc import Iterator
from concurrent.futures import Future
from dataclasses import dataclass
from functools import partial
from itertools import chain
from pathlib import Path

from pertxogai.commands.judging import chosen
from pertxogai.commands.processes import processes
from pertxogai.commands.solvers import solver_of
from pertxogai.commands.variants import Table, Variant, drawing_of
from pertxogai.commands.verdicts import Begun, Told, Verdicts, verdicts
from pertxogai.drawing import Drawing, DrawingUnsound, write_drawing
from pertxogai.exits import CommandError, Exit
from pertxogai.files.atomic import written_whole
from pertxogai.files.kinds import DesignerDrawing, kind_of, read_inputs
from pertxogai.judging import (
    CountedDrawing, DrawingRefused, GoodJudgement, JudgedDrawing, Judgement, good_of,
    judge_at_once, reasons_against, with_counts)
from pertxogai.judging.good import missing_text
from pertxogai.judging.measure import Limit
from pertxogai.judging.within import Wider
from pertxogai.language import NotHeld, Refusal
from pertxogai.output.drawing_sheet import DrawingSheet, NoPlaces
from pertxogai.output.release import Release
from pertxogai.program import ProgramError, Solver
from pertxogai.ranging.faults import of_failure, of_surplus, of_verdict

AHEAD = 8
"""Variants that are handed out for each process before the first of them is done."""


@dataclass(frozen=True)
class Task:
    """What is done with each variant of a sketch of a file: judged within a limit, and drawn into a
    folder; copy: whether the file is copied there with its values."""

    file: Path
    key: str
    drawing: Drawing
    columns: tuple[str, ...]
    limit: Limit
    folder: Path | None
    svg: bool
    dxf: bool
    copy: bool

    def begun(self) -> Begun:
        """What a folder is begun with."""
        text = "\n".join([write_drawing(self.drawing), *self.drawing.not_drawn])
        digest = hashlib.sha256(text.encode("utf-8", "replace")).hexdigest()
        return Begun(digest, self.columns, self.limit.amount, self.svg, self.dxf, self.copy)


def judge_family(options: argparse.Namespace) -> Exit:
    """Judges each variant of a table, and tells how many are what. The exit status is the worst.
    Raises CommandError, InputRefused, FileRefusal and ProgramError."""
    found = _drawing(options)
    _check_words(options)
    solver_of(options)  # What is wrong with all of them is told once.
    table = Table.of(_lines(options), found.drawing, options.part)
    task = Task(options.file, found.key, found.drawing, table.columns, options.within,
                options.output, options.svg, options.dxf, options.copy)
    counts, before = Counter[Exit](), Counter[Exit]()
    with verdicts(task.folder, task.begun()) as kept:
        for told in _told(task, _left(table.variants, kept, before), options):
            kept.add(told)
            counts[told.exit] += 1
            _show_progress(counts.total())
    _sum_up(counts, before.total(), options)
    return max([*counts, *before], default=Exit.GOOD)


def _drawing(options: argparse.Namespace) -> DesignerDrawing:
    """The drawing of which the variants are. Raises CommandError, InputRefused and FileRefusal."""
    found = chosen(read_inputs(options.file), options.sketch)
    if not isinstance(found, DesignerDrawing):
        raise CommandError(f"{options.file}: a sketch of the language has no values")
    return found


def _check_words(options: argparse.Namespace) -> None:
    """Raises CommandError at words that don't go together."""
    kind = kind_of(options.file)
    if options.output is None and (options.svg or options.dxf or options.copy):
        raise CommandError("--svg, --dxf and --copy need a folder: name one by -o FOLDER")
    if options.copy and (kind is None or kind.vary is None):
        raise CommandError(f"{options.file}: no copy of it has other values: give a drawing, or a "
                           "file of FreeCAD or SolveSpace")
    if options.jobs < 1:
        raise CommandError("--jobs takes a whole number from 1 on")


def _left(variants: Iterator[Variant], kept: Verdicts,
          before: Counter[Exit]) -> Iterator[Variant]:
    """The variants that aren't told yet; how those that are end is counted. Raises CommandError."""
    for variant in variants:
        if kept.left(variant):
            yield variant
        else:
            before[kept.done[variant.name].exit] += 1


def _lines(options: argparse.Namespace) -> Iterator[str]:
    """The lines of the table of variants. Raises CommandError."""
    if str(options.sizes) == "-":
        yield from sys.stdin
        return
    try:
        with open(options.sizes, encoding="utf-8-sig", newline="") as stream:
            yield from stream
    except (OSError, UnicodeDecodeError) as error:
        why = error.strerror if isinstance(error, OSError) else error
        raise CommandError(f"{options.sizes}: can't be read as a table: {why}") from None


def _told(task: Task, variants: Iterator[Variant], options: argparse.Namespace) -> Iterator[Told]:
    """What becomes of each variant, in their order. Raises CommandError."""
    plain = argparse.Namespace(program=options.program, seconds=options.seconds)
    if options.jobs == 1:
        program = solver_of(plain)
        yield from (tell(task, program, each) for each in variants)
        return
    waiting: deque[Future[Told]] = deque()
    with processes(options.jobs, partial(_begin, task, plain)) as pool:
        for each in chain(variants, [None] * (AHEAD * options.jobs)):
            if each is not None:
                waiting.append(pool.submit(_tell, each))
            if waiting and (each is None or len(waiting) > AHEAD * options.jobs):
                yield waiting.popleft().result()


_at_work: list[tuple[Task, Solver]] = []
"""In a process of the pool: what it does, and whom it asks."""


def _begin(task: Task, options: argparse.Namespace) -> None:
    _at_work[:] = [(task, solver_of(options))]


def _tell(variant: Variant) -> Told:
    (task, program), = _at_work
    return tell(task, program, variant)


def tell(task: Task, program: Solver, variant: Variant) -> Told:
    """What becomes of one variant, whatever it is; its drawings are written."""
    try:
        drawing = drawing_of(task.drawing, task.columns, variant)
        judgement = judge_at_once(drawing, Wider(program, task.limit), limit=task.limit)
        counted = with_counts(judgement, program) if task.svg or task.dxf else None
    except (DrawingUnsound, DrawingRefused, NotHeld, Refusal) as refused:
        return Told(variant, Exit.BAD_INPUT, "refused", " ".join(str(refused).split()))
    except ProgramError as error:
        return Told(variant, Exit.NO_ANSWER, "no answer", " ".join(str(error).split()))
    judged = JudgedDrawing(variant.name, drawing, judgement, limit=task.limit)
    if counted is not None:
        _draw(task, CountedDrawing(variant.name, drawing, counted, limit=task.limit))
    if task.copy:
        _copy(task, judged)
    fault = _fault(judged)
    look = "; ".join(each.text() for each in judgement.warnings)
    ends = Exit.NOT_GOOD if fault else Exit.GOOD
    return Told(variant, ends, judgement.verdict.value, fault, look)


def _fault(judged: JudgedDrawing) -> str:
    """The first reason why a variant isn't good; nothing where it is."""
    judgement: Judgement = judged.judgement
    if judgement.failure is not None:
        return of_failure(judgement.names, judgement.failure).text
    if judgement.surplus:
        return of_surplus([each.name for each in judgement.surplus]).text
    if judgement.missing is not None and judgement.missing.count:
        return f"{of_verdict(judgement.verdict).text}: {missing_text(judgement.missing.count)}"
    reasons = reasons_against(judged)
    return reasons[0].text if reasons else ""


def _draw(task: Task, judged: CountedDrawing) -> None:
    """Writes the drawings of a variant that are asked for; a DXF of what is good alone."""
    sheet = DrawingSheet(judged, False)
    if task.folder is not None and task.svg:
        _write(task.folder / f"{judged.name}.svg", sheet.picture().svg)
    if task.folder is not None and task.dxf:
        try:
            _write(task.folder / f"{judged.name}.dxf", sheet.dxf(list(Release)[-1]))
        except NoPlaces:
            pass


def _copy(task: Task, judged: JudgedDrawing) -> None:
    """Copies the file with the values of a variant that is good."""
    good, kind = good_of(judged), kind_of(task.file)
    if isinstance(good, GoodJudgement) and kind and kind.vary and task.folder is not None:
        kind.vary(task.file, task.folder / f"{judged.name}{kind.suffix}", {task.key: good})


def _write(path: Path, text: str) -> None:
    with written_whole(path, path.parent) as file:
        file.write(text.encode("utf-8", "replace"))


def _show_progress(done: int) -> None:
    """How many variants are judged, on a terminal."""
    if sys.stderr.isatty():
        print(f"{done} judged", end="\r", file=sys.stderr, flush=True)


def _sum_up(counts: Counter[Exit], before: int, options: argparse.Namespace) -> None:
    """How many variants are what."""
    words = {Exit.GOOD: "good", Exit.NOT_GOOD: "not good", Exit.BAD_INPUT: "refused",
             Exit.NO_ANSWER: "without an answer"}
    parts = [f"{counts[each]} {words[each]}" for each in Exit if counts[each]]
    parts += [f"{before} judged before"] if before else []
    sink = sys.stderr if options.output is None else sys.stdout
    total = counts.total() + before
    print(f"{total} variant{'s' if total != 1 else ''}: {', '.join(parts) or 'none'}", file=sink)
