"""Every answer of the program as the value that fits its command and status."""
from __future__ import annotations

from collections.abc import Callable, Sequence
from importlib import import_module
from typing import TYPE_CHECKING

from pertxogai.language.refusal import Refusal
from pertxogai.language.sketch import Sketch
from pertxogai.program.reports.check import read_check
from pertxogai.program.reports.rows import NotAReport
from pertxogai.program.running import Answer, Status

if TYPE_CHECKING:
    from pertxogai.program.reports.measured import Measured, Unplaced
    from pertxogai.program.reports.report import Report


class NoAnswer(NotAReport):
    """The program ended with a status that has no whole report: a read, a write or an allocation
    failed. `text` is what it had written: if memory ran out in a session, whole replies."""

    def __init__(self, answer: Answer) -> None:
        super().__init__(
            f"the program ended with status {answer.status.value}, {_WHAT[answer.status]}"
        )
        self.status = answer.status
        self.text = answer.text


_WHAT = {
    Status.READ_FAILED: "since its input couldn't be read: try again",
    Status.WRITE_FAILED: "since its output couldn't be written: try again",
    Status.NO_MEMORY: "since memory ran out: give it more, or a smaller sketch",
    Status.NO_ARGUMENTS: "since its arguments couldn't be read: try again",
}
_READERS = {
    "check": "check.read_check",
    "complete": "completed.read_complete",
    "derive": "derived.read_derive",
    "dxf": "dxf.read_dxf",
    "excess": "excess.read_excess",
    "flips": "flips.read_flips",
    "grow": "grown.read_grow",
    "live": "session.read_session",
    "offers": "offers.read_offers",
    "parts": "parts.read_parts",
    "plan": "plan.read_plan",
    "session": "session.read_session",
    "solve": "solved.read_solve",
    "spare": "spare.read_spare",
    "verify": "verified.read_verify",
    "why": "why.read_why",
}
"""What reads the report of a command, behind `pertxogai.program.reports.`: each is imported once it
is needed."""


def read_answer(words: Sequence[str], answer: Answer) -> Report:
    """Reads the program's answer to a command. Raises NotAReport, and NoAnswer if there is no
    report."""
    status, command = answer.status, words[0] if words else ""
    if status in _WHAT:
        raise NoAnswer(answer)
    if status in (Status.REFUSED, Status.USAGE):
        return _refused(status, answer.text)
    if status is Status.NOT_WELL:
        return _not_well(command, answer.text)
    if command == "measure":
        return _read_measured(answer)
    if status in (Status.FAULT, Status.TOLERANCE):
        from pertxogai.program.reports.faults import read_fault

        return read_fault(answer.text)
    return _report(command, answer.text)


def _refused(status: Status, text: str) -> Report:
    """Why a text, or the words of the command, are refused."""
    from pertxogai.program.reports.refused import read_refusal, read_usage

    return read_refusal(text) if status is Status.REFUSED else read_usage(text)


def _not_well(command: str, text: str) -> Report:
    """What is told of a sketch that isn't well."""
    if command != "complete":
        return read_check(text)
    from pertxogai.program.reports.completed import read_no_completion

    return read_no_completion(text)


def _read_measured(answer: Answer) -> Measured | Unplaced:
    """What `measure` says, which fits its status."""
    from pertxogai.program.reports.faults import TurnedFault
    from pertxogai.program.reports.measured import Unplaced, read_measure

    told = read_measure(answer.text)
    if isinstance(told, Unplaced):
        fits = answer.status is Status.CLAIM_FAILS
    elif told.fault is None:
        fits = answer.status is Status.DONE
    else:
        is_turned = isinstance(told.fault, TurnedFault)
        fits = answer.status is (Status.FAULT if is_turned else Status.TOLERANCE)
    if not fits:
        raise NotAReport(f"no report of measure: it doesn't end with {answer.status.value}")
    return told


def _report(command: str, text: str) -> Report:
    if command == "migrate":
        return _read_migrated(text)
    if command not in _READERS:
        raise NotAReport(
            f"no report of {command!r} is known: update pertxogai, or use another command"
        )
    module, _, name = _READERS[command].partition(".")
    read: Callable[[str], Report] = getattr(
        import_module(f"pertxogai.program.reports.{module}"), name)
    return read(text)


def _read_migrated(text: str) -> Sketch:
    try:
        return Sketch.parse(text)
    except Refusal as refusal:
        raise NotAReport(f"no report of migrate: {refusal}") from None
