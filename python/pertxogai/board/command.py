"""The words of `./pertxogai page`."""
from __future__ import annotations

import argparse
from contextlib import suppress
from dataclasses import replace
from typing import TypeAlias

from pertxogai.exits import CommandError, Exit, MissingLibrary
from pertxogai.program import Program

Commands: TypeAlias = "argparse._SubParsersAction[argparse.ArgumentParser]"
WHAT = "opens a sketcher in the browser, for this machine only"
MOST_SECONDS = 86_400
SECONDS = "the time limit of a call of the board (default: %(default)g)"


def add_page(commands: Commands) -> None:
    """Adds the command."""
    parser = commands.add_parser("page", help=WHAT, description=WHAT)
    parser.set_defaults(act=_page)
    parser.add_argument("--port", type=int, help="the port (default: your usual or a free one)")
    parser.add_argument("--no-browser", action="store_true", help="only print the address")
    parser.add_argument("--program", metavar="PATH", help="the program `sketch`")
    parser.add_argument("--seconds", type=float, default=10.0, help=SECONDS)


def _page(options: argparse.Namespace) -> Exit:
    """Serves until Ctrl+C. Raises CommandError, MissingLibrary, ProgramError."""
    try:
        from pertxogai.board.serve import serve
    except ImportError as error:
        raise MissingLibrary(f"the board needs {error.name or 'flask'}: install Debian's "
                             "python3-flask, or start it with a Python that has it") from None
    if not 0 < options.seconds <= MOST_SECONDS:
        raise CommandError(f"--seconds takes a number above 0 and up to {MOST_SECONDS}")
    program = replace(Program.find(options.program), seconds=options.seconds)
    try:
        with suppress(KeyboardInterrupt):
            serve(program, options.port, not options.no_browser)
    except (OSError, OverflowError) as error:
        raise CommandError(f"the board can't use port {options.port}: {error}; choose another "
                           "by --port, or leave it out") from None
    print("the board is stopped")
    return Exit.GOOD
