"""The proved program: words and a text go in, a status and a text come out.

`Program.find().ask(["check"], text)` runs it as a process. `pertxogai.program.library` has the same
call within this process. Nothing here decides anything: what the program answers is handed on
whole.
"""
from __future__ import annotations

import os
import shutil
from collections.abc import Sequence
from dataclasses import dataclass
from enum import IntEnum
from pathlib import Path
from typing import Protocol

from pertxogai.language.encoding import as_bytes
from pertxogai.program.errors import (
    MissingProgram, ProgramCrashed, ProgramError, ProgramSpoke, ProgramTimedOut)
from pertxogai.program.process import Limits, run_process

__all__ = ["Answer", "MissingProgram", "Program", "ProgramCrashed", "ProgramError", "ProgramSpoke",
           "ProgramTimedOut", "Solver", "Status"]

VARIABLE = "PERTXOGAI_SKETCH"
MEMORY_VARIABLE = "PERTXOGAI_MEMORY_MIB"
BUILD = Path(__file__).resolve().parents[3] / "crates" / "sketch" / "out" / "sketch"


class Status(IntEnum):
    """The status with which the program ended: those of docs/LANGUAGE.md, 'Statuses'."""

    DONE = 0  #: the command did its work: its report
    REFUSED = 1  #: the input is refused: the refusal line
    USAGE = 2  #: the words aren't of the form: the usage line
    READ_FAILED = 3  #: standard input failed: nothing, or the whole replies of a talk so far
    WRITE_FAILED = 4  #: standard output failed: what could be written
    NO_MEMORY = 5  #: memory ran out: nothing, or the whole replies of a session or talk so far
    NOT_WELL = 6  #: the verdict isn't `well`: the check report
    FAULT = 7  #: a step has no places, or a sign isn't as drawn: the fault line
    TOLERANCE = 8  #: a tolerance is beyond the limit: the fault line
    CLAIM_FAILS = 9  #: something of a claim fails: the line that names it
    NO_ARGUMENTS = 10  #: there is no memory for the arguments: nothing


@dataclass(frozen=True)
class Answer:
    """The result of one call: the status, and the whole text that the program wrote."""

    status: Status
    text: str


class Solver(Protocol):
    """What answers a command on a text: `Program`, `Library` of `program.library`, or a mock in a
    test."""

    def ask(self, words: Sequence[str], text: str) -> Answer:
        """Runs a command with its keys, such as ("solve", "bits=27"), on a text. Raises
        ProgramError."""
        ...


@dataclass(frozen=True)
class Program:
    """The program as a file that is run once for each call. seconds: the time limit of a call.
    memory_mib: the memory limit of a call, in MiB; None for no limit. Any number of threads may
    share one."""

    path: str
    seconds: float = 60.0
    memory_mib: int | None = 4096

    @staticmethod
    def find(path: str | None = None) -> Program:
        """The program at `path`, else the one that the variable PERTXOGAI_SKETCH names, else the
        repository's own build, else `sketch` on the path. PERTXOGAI_MEMORY_MIB sets its memory
        limit; 0 is no limit. Raises MissingProgram."""
        named = path or os.environ.get(VARIABLE) or None  # None also if it is set to nothing.
        if named is None and os.access(BUILD, os.X_OK):
            named = str(BUILD)
        found = shutil.which(named or "sketch")
        if found is None and named is None:
            raise MissingProgram(f"no program: {_where_to_get_it()}, or name one by {VARIABLE}")
        if found is None:
            raise MissingProgram(
                f"{named} is no program that can be run: look at its name and its rights"
            )
        return Program(found, memory_mib=_memory_mib())

    def ask(self, words: Sequence[str], text: str) -> Answer:
        """Runs the program with these arguments on this text. Raises ProgramError."""
        ended = run_process(
            [self.path, *words], as_bytes(text), Limits(self.seconds, self.memory_mib)
        )
        try:
            return Answer(Status(ended.code), ended.written.decode("ascii"))
        except UnicodeDecodeError:
            raise ProgramSpoke(
                f"{self.path} wrote bytes that are no text: is it the program `sketch`?"
            ) from None
        except ValueError:
            raise ProgramCrashed(
                f"{self.path} {' '.join(words)} {ended.how()}: it isn't the program `sketch`, or"
                f" ran into a limit ({self.memory_mib} MiB)"
            ) from None


def _where_to_get_it() -> str:
    """What to do where there is no program: in a clone of the repository, and elsewhere."""
    if BUILD.parents[2].is_dir():
        return f"{BUILD} isn't built and `sketch` isn't on the path; build it by ./sketch prove"
    return ("`sketch` isn't on the path; install the Debian package pertxogai or the tarball of a"
            " release")


def _memory_mib() -> int | None:
    """The limit of memory that the environment sets, or 4 GiB. Raises MissingProgram where it
    is no whole number."""
    said = os.environ.get(MEMORY_VARIABLE, "4096")
    if not said.isdecimal():
        raise MissingProgram(
            f"{MEMORY_VARIABLE} is {said!r}: give a whole number of MiB, or 0 for no limit"
        )
    return int(said) or None
