"""The proved program `sketch`, run as a process, as an interactive session, or as a library in C.
Arguments and a text go in; the program's status and its output come out. `reports` reads the output
as values. Nothing here decides anything."""
from typing import TYPE_CHECKING

from pertxogai.program.errors import (
    MissingProgram, ProgramCrashed, ProgramError, ProgramSpoke, ProgramTimedOut)
from pertxogai.program.running import Answer, Program, Solver, Status

__all__ = ["Answer", "MissingProgram", "Program", "ProgramCrashed", "ProgramError", "ProgramSpoke",
           "ProgramTimedOut", "Solver", "Status"]

if not TYPE_CHECKING:
    from pertxogai._former import former_names

    __getattr__ = former_names("program")
