"""Which program the commands ask that ask many times."""
from __future__ import annotations

import argparse
import os

from pertxogai.commands.judging import program_of
from pertxogai.program import Solver
from pertxogai.program.library import VARIABLE, Library


def solver_of(options: argparse.Namespace) -> Solver:
    """The program that the words of a command name; the library where the variable names one, and
    no word a program. Raises CommandError and MissingProgram."""
    program = program_of(options)
    if options.program is None and os.environ.get(VARIABLE):
        return Library.find()
    return program
