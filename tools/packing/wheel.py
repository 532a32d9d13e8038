"""The Python package as a wheel."""
import shutil
import sys
from pathlib import Path

from .running import at_time, said

PYTHON = "/usr/bin/python3"
"""Debian's, which has pip, setuptools and wheel by its packages python3-pip, python3-setuptools and python3-wheel."""


def make_wheel(source: Path, room: Path, time: int) -> Path:
    """The wheel of the package in the folder `source`, made in the folder `room` without network, with the
    licences that lie beside that folder; answers its path."""
    copy = room / "python"
    shutil.copytree(source, copy)
    for licence in source.parent.glob("LICENSE-*"):
        shutil.copy2(licence, copy)
    alone = ["--quiet", "--no-deps", "--no-index", "--no-build-isolation", "--disable-pip-version-check"]
    said(PYTHON, "-m", "pip", "wheel", *alone, "-w", room, copy, env=at_time(time))
    (wheel,) = room.glob("*.whl")
    return wheel


def version_of(source: Path) -> str:
    """The version that the package says, which is that of all of a release."""
    sys.path.insert(0, str(source))
    import pertxogai
    return pertxogai.__version__
