"""Where the package `pertxogai` and the program `sketch` lie: with the add-on, or installed."""
from __future__ import annotations

import importlib.util
import os
import re
import sys
from collections.abc import Iterator
from contextlib import suppress
from dataclasses import replace
from pathlib import Path
from typing import TYPE_CHECKING

from pertxogai_freecad.settings import Settings
from pertxogai_freecad.trouble import Trouble, troubles

if TYPE_CHECKING:  # The package is found by this module.
    from pertxogai.judging.measure import Limit
    from pertxogai.program import Program

ADDON = Path(__file__).resolve().parents[1]
"""The folder of the add-on, where links lead."""
VERSION = re.compile(r"<version>(.*)</version>")
HOME_VARIABLE = "PERTXOGAI_HOME"
PROGRAM_VARIABLE = "PERTXOGAI_SKETCH"
LEAST = (3, 11)
"""The least version of Python that the package takes."""


def find_package(settings: Settings) -> None:
    """Puts the package `pertxogai` on Python's path. Raises Trouble where it isn't found, or is of
    another version than the add-on."""
    if sys.version_info < LEAST:
        raise Trouble(f"FreeCAD's Python is {sys.version.split()[0]}: Pertxogai needs 3.11 or "
                      "later")
    there = (each for each in _folders(settings)
             if (each / "pertxogai" / "__init__.py").is_file())
    folder = next(there, None)
    if folder is not None and str(folder) not in sys.path:
        sys.path.insert(0, str(folder))
    if importlib.util.find_spec("pertxogai") is None:
        raise Trouble("the Python package pertxogai isn't found: install Pertxogai, or name the "
                      "folder that has it in Edit, Preferences.., Pertxogai")
    _check_version()


def _check_version() -> None:
    """Raises Trouble where the package is of another version than the add-on."""
    import pertxogai

    own = VERSION.search((ADDON / "package.xml").read_text(encoding="utf-8"))
    if own is not None and own[1] != pertxogai.__version__:
        raise Trouble(f"the Python package pertxogai is {pertxogai.__version__}, and the add-on "
                      f"{own[1]}: install the same version of both, and start FreeCAD anew")


def _folders(settings: Settings) -> Iterator[Path]:
    """Where the package may lie: as it is set, in the repository that a variable names, with the
    add-on, and in the repository that has the add-on."""
    if settings.package:
        yield Path(settings.package)
    if HOME_VARIABLE in os.environ:
        yield Path(os.environ[HOME_VARIABLE], "python")
    yield ADDON / "python"
    yield ADDON.parent / "python"


def find_program(settings: Settings) -> Program:
    """The program: the one that is set, that the variable PERTXOGAI_SKETCH names, that the add-on
    carries, or as ./pertxogai finds it. Raises Trouble."""
    find_package(settings)
    from pertxogai.program import Program

    named = settings.program or os.environ.get(PROGRAM_VARIABLE) or _carried()
    with troubles():
        return replace(Program.find(named), seconds=float(settings.seconds))


def _carried() -> str | None:
    """The program that the add-on carries, which an unpacker may have left without the right to be
    run; None where it carries none."""
    carried = ADDON / "bin" / "sketch"
    if carried.is_file() and not os.access(carried, os.X_OK):
        with suppress(OSError):
            carried.chmod(0o755)
    return str(carried) if os.access(carried, os.X_OK) else None


def limit_of(settings: Settings) -> Limit:
    """Within what a constraint has to hold. Raises Trouble."""
    find_package(settings)
    from pertxogai.judging.measure import Limit

    try:
        return Limit(settings.within)
    except ValueError as error:
        raise Trouble(f"{error}: change it in Edit, Preferences.., Pertxogai") from None
