"""The command `judge` on one file, and what the other commands ask of one."""
from __future__ import annotations

import argparse
from collections.abc import Iterator, Sequence
from contextlib import contextmanager
from dataclasses import replace
from pathlib import Path

from pertxogai.exits import CommandError, Exit, MissingLibrary
from pertxogai.files.contents import FileRefusal
from pertxogai.files.kinds import (
    DesignerDrawing, Input, InputRefused, SketchText, kind_of, read_inputs)
from pertxogai.judging import (
    CountedDrawing, CountedJudgement, DrawingRefused, GoodJudgement, JudgedDrawing, TextRefused,
    judge)
from pertxogai.judging.remembering import Remembering
from pertxogai.language import NotHeld, Refusal
from pertxogai.output.outcome import DrawingOutcome, Outcome, SketchOutcome
from pertxogai.program import Program, ProgramError, Solver
from pertxogai.program.called import COMMAND
from pertxogai.program.reports import Verdict

PROPOSING_SECONDS = 1.0
"""The seconds of a processor after which no more is tried to complete what is judged."""
SAID = {Exit.GOOD: "good", Exit.NOT_GOOD: "not good", Exit.BAD_INPUT: "refused",
        Exit.NO_ANSWER: "without an answer"}
"""What a file is, by how `judge` on it alone would end."""
REFUSALS = TextRefused, CommandError, FileRefusal, InputRefused, ProgramError
"""What is raised of a file that there is no judgement on."""


def program_of(options: argparse.Namespace) -> Program:
    """The program that the words of a command name. Raises CommandError and MissingProgram."""
    if not options.seconds > 0:
        raise CommandError("--seconds takes a number above 0")
    return replace(Program.find(options.program), seconds=options.seconds)


def outcome_of(found: Input, program: Solver, options: argparse.Namespace) -> Outcome:
    """What the program says of one sketch of a file. Raises CommandError, TextRefused and
    ProgramError."""
    program = Remembering(program)  # The judgement and the search ask some of the same.
    if isinstance(found, SketchText):
        if options.as_stored:
            raise CommandError(f"{found.name}: --as-stored takes a drawing, or a file of FreeCAD,"
                               " SolveSpace or DXF: a sketch of the language stores no positions")
        from pertxogai.judging import judge_sketch

        return SketchOutcome(judge_sketch(found.name, found.text, program, options.within),
                             program)
    judgement = _judgement(found, program, options)
    judged = CountedDrawing(found.name, found.drawing, judgement, aside=found.aside,
                            limit=options.within, short=_short(judgement, program))
    if options.as_stored:
        from pertxogai.judging.as_stored import as_stored

        with made_of(found):
            judged = replace(judged, stored=as_stored(judged.judgement, program))
    return DrawingOutcome(_with_finding(judged, program, options))


def _short(judgement: CountedJudgement, program: Solver) -> str:
    """By how much the dimensions beneath a fault miss each other; nothing where there is none."""
    if judgement.failure is None:
        return ""
    from pertxogai.judging.shortage import shortage_of

    return shortage_of(judgement, program)


def _with_finding(judged: CountedDrawing, program: Solver,
                  options: argparse.Namespace) -> CountedDrawing:
    """The same with what is found by numbers: where it isn't well, its freedoms and what would
    complete it; what it nearly has, where that is asked for. Without numpy or scipy, with what to
    install."""
    try:
        if options.nearly:
            from pertxogai.completing import nearly

            judged = replace(judged, nearly=nearly(judged.drawing))
        if options.no_search or judged.judgement.verdict is Verdict.WELL:
            return judged
        from pertxogai.search import search_judged

        finding = search_judged(judged.drawing, judged.judgement, program)
        return replace(judged, finding=finding, proposed=_proposals(judged, program))
    except MissingLibrary as missing:
        return replace(judged, not_searched=str(missing))


def _proposals(judged: JudgedDrawing, program: Solver) -> tuple[str, ...]:
    """The lines with which a drawing that is open is well; none where none are found."""
    if judged.judgement.verdict is not Verdict.OPEN:
        return ()
    from pertxogai.completing import lines_to_add

    return lines_to_add(judged.drawing, program, judged.limit, PROPOSING_SECONDS)


def _judgement(found: DesignerDrawing, program: Solver,
               options: argparse.Namespace) -> CountedJudgement:
    """The judgement on a drawing. Raises CommandError where no sketch can be made of it, or the
    program refuses the one that was made."""
    with made_of(found):
        return judge(found.drawing, program, options.freeze, options.within)


@contextmanager
def made_of(found: DesignerDrawing) -> Iterator[None]:
    """Raises CommandError where no sketch can be made of a drawing, or the program refuses the one
    that was made."""
    try:
        yield
    except (DrawingRefused, NotHeld) as refused:
        raise CommandError(f"{found.name}: {refused}") from None
    except Refusal as refused:
        raise CommandError(
            f"{found.name}: the program rejects the encoded sketch ({refused}): split the drawing,"
            " or see 'How a text is refused' in docs/LANGUAGE.md") from None


def chosen(found: Sequence[Input], name: str | None) -> Input:
    """The sketch of that name, or the only one. Raises CommandError."""
    names = ", ".join(it.name for it in found)
    fitting = [it for it in found if name in (None, it.name)]
    if len(fitting) != 1:
        raise CommandError(f"the file has the sketches {names}: choose one by --sketch NAME")
    return fitting[0]


def judge_file(path: Path, options: argparse.Namespace) -> Exit:
    """Prints what the program says of each sketch of a file, and writes a copy with those placed
    that are good, where that is asked for. Raises CommandError, InputRefused, FileRefusal,
    TextRefused and ProgramError."""
    try:
        found = read_inputs(path)
        program = program_of(options)
        outcomes = [outcome_of(it, program, options) for it in found]
    except REFUSALS as error:
        if options.json:
            _print_json(refusal_json(path, *refusal(path, error)))
        raise
    if options.write is not None:
        _write_placed(path, options.write, found, outcomes)
    if options.json:
        _print_json(file_json(path, outcomes))
    else:
        for it in outcomes:
            print("\n".join(it.lines()))
    return Exit.NOT_GOOD if any(it.reasons() for it in outcomes) else Exit.GOOD


def _print_json(told: dict[str, object]) -> None:
    """Prints one object, to read."""
    import json

    print(json.dumps(told, indent=2))


def refusal(path: Path, error: Exception) -> tuple[Exit, str]:
    """How `judge` ends on a file that there is no judgement on, and why, in a line."""
    ends = Exit.NO_ANSWER if isinstance(error, ProgramError) else Exit.BAD_INPUT
    why = f"{path}: {error.told}" if isinstance(error, TextRefused) else str(error)
    return ends, " ".join(why.split())


def refusal_json(path: Path, ends: Exit, why: str) -> dict[str, object]:
    """The same, as one object for JSON."""
    return {"file": str(path), SAID[ends]: why}


def file_json(path: Path, outcomes: Sequence[Outcome]) -> dict[str, object]:
    """All that is told of a file, as one object for JSON."""
    return {"file": str(path), "sketches": [it.json() for it in outcomes]}


def _write_placed(path: Path, out: Path, found: Sequence[Input],
                  outcomes: Sequence[Outcome]) -> None:
    """Copies a file with those of its sketches placed that are good. Raises CommandError and
    FileRefusal."""
    kind = kind_of(path)
    if kind is None or kind.write is None:
        raise CommandError(f"{path}: only .FCStd and .slvs are written back")
    known = {each.key: it.good() for each, it in zip(found, outcomes)
             if isinstance(each, DesignerDrawing)}
    good = {key: it for key, it in known.items() if isinstance(it, GoodJudgement)}
    if not good:
        raise CommandError(
            f"{path}: no sketch of it is good, so {out} isn't written: see {COMMAND} judge")
    kind.write(path, out, good)
