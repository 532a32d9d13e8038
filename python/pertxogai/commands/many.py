"""The command `judge` on many files: a line for each sketch, on all processors, and a summary.

A file that can't be read, or on which the program gives no answer, is told on its line, and the
others are judged all the same.
"""
from __future__ import annotations

import argparse
import json
import sys
from collections import Counter
from collections.abc import Iterator, Sequence
from dataclasses import dataclass
from functools import partial
from pathlib import Path

from pertxogai.commands.judging import (
    REFUSALS, SAID, file_json, outcome_of, program_of, refusal, refusal_json)
from pertxogai.commands.processes import processes
from pertxogai.commands.progress import show_progress
from pertxogai.exits import CommandError, Exit
from pertxogai.files.kinds import read_inputs
from pertxogai.files.printable import printable
from pertxogai.output.outcome import Outcome


@dataclass(frozen=True)
class JudgedFile:
    """How `judge` on one file ends, and the lines of it: to read, or one object of JSON."""

    exit: Exit
    lines: tuple[str, ...]


def judge_files(options: argparse.Namespace) -> Exit:
    """Prints what each file is, in their order, and how many are what. The exit status is the
    worst. Raises CommandError."""
    if options.write is not None:
        raise CommandError("--write takes one file")
    if options.as_stored and not options.json:
        raise CommandError("--as-stored takes one file, or many with --json")
    if options.jobs < 1:
        raise CommandError("--jobs takes a whole number from 1 on")
    program_of(options)  # What is wrong with all of them is told once.
    counts: Counter[Exit] = Counter()
    for judged in _judge_each(options):
        print(*judged.lines, sep="\n", flush=True)
        counts[judged.exit] += 1
        show_progress(counts.total(), len(options.file))
    print(_summary(counts), file=sys.stderr if options.json else sys.stdout)
    return max(counts)


def _judge_each(options: argparse.Namespace) -> Iterator[JudgedFile]:
    """What becomes of each file, in their order. Raises CommandError."""
    plain = argparse.Namespace(**{name: value for name, value in vars(options).items()
                                  if name not in ("act", "file")})
    act = partial(judged_file, options=plain)
    if options.jobs == 1:
        yield from map(act, options.file)
        return
    with processes(min(options.jobs, len(options.file))) as pool:
        yield from pool.map(act, options.file)


def judged_file(path: Path, options: argparse.Namespace) -> JudgedFile:
    """What becomes of one file, whatever it is."""
    try:
        program = program_of(options)
        outcomes = [outcome_of(it, program, options) for it in read_inputs(path)]
    except REFUSALS as error:
        return _refused(path, *refusal(path, error), options.json)
    ends = Exit.NOT_GOOD if any(it.reasons() for it in outcomes) else Exit.GOOD
    if options.json:
        return JudgedFile(ends, (json.dumps(file_json(path, outcomes)),))
    return JudgedFile(ends, tuple(_line(path, it) for it in outcomes))


def _line(path: Path, outcome: Outcome) -> str:
    """The line of one sketch of a file: its verdict, and the first reason why it isn't good."""
    reasons = outcome.reasons()
    more = f", and {len(reasons) - 1} more" if len(reasons) > 1 else ""
    said = f"not good: {reasons[0].text}{more}" if reasons else "good"
    return printable(f"{path}: {outcome.name}: {outcome.verdict().value}, {said}")


def _refused(path: Path, ends: Exit, why: str, as_json: bool) -> JudgedFile:
    """What is told of a file that there is no judgement on."""
    if as_json:
        return JudgedFile(ends, (json.dumps(refusal_json(path, ends, why)),))
    told = why.removeprefix(f"{path}: ")
    return JudgedFile(ends, (printable(f"{path}: {SAID[ends]}: {told}"),))


def _summary(counts: Counter[Exit]) -> str:
    """How many files are what, as `3 files: 2 good, 1 refused`."""
    parts: Sequence[str] = [f"{counts[each]} {SAID[each]}" for each in Exit if counts[each]]
    return f"{counts.total()} files: {', '.join(parts)}"
