"""The add-on for FreeCAD as a user installs it, in a home of its own."""
from __future__ import annotations

import os
import shutil
import signal
import subprocess
from contextlib import suppress
from dataclasses import dataclass
from pathlib import Path

import pytest

from conftest import TOP
from screens import screen

ADDON = TOP / "freecad"
FILES = TOP / "python" / "tests" / "files"
CHECKS = TOP / "python" / "tests" / "with_programs"
CONSOLE = shutil.which("freecadcmd") or shutil.which("/usr/lib/freecad/bin/freecadcmd-python3")
WINDOW = shutil.which("freecad") or shutil.which("/usr/lib/freecad/bin/freecad-python3")
SECONDS = 480
"""How long FreeCAD may take; a quiet machine takes a tenth of it."""
SETTINGS = """<?xml version="1.0" encoding="UTF-8" standalone="no" ?>
<FCParameters>
  <FCParamGroup Name="Root"><FCParamGroup Name="BaseApp"><FCParamGroup Name="Preferences">
    <FCParamGroup Name="General">
      <FCText Name="AutoloadModule">SketcherWorkbench</FCText>
    </FCParamGroup>
  </FCParamGroup></FCParamGroup></FCParamGroup>
</FCParameters>
"""
"""FreeCAD begins with the Sketcher, and not with its first page, which is a browser."""


@dataclass(frozen=True)
class Ended:
    """How FreeCAD has ended: its status, what it wrote, and of what it complained."""

    status: int
    out: str
    complaint: str

    @property
    def all(self) -> str:
        """All that it wrote."""
        return self.out + self.complaint


@dataclass(frozen=True)
class Installed:
    """A home in which the add-on lies in FreeCAD's folder Mod, and a folder of documents."""

    home: Path

    @property
    def mod(self) -> Path:
        """Where FreeCAD looks for add-ons."""
        return self.home / ".local" / "share" / "FreeCAD" / "Mod"

    @property
    def folder(self) -> Path:
        """Copies of files, which may be changed."""
        return self.home / "documents"

    @staticmethod
    def empty(home: Path) -> Installed:
        """No add-on."""
        made = Installed(home)
        made.mod.mkdir(parents=True)
        made.folder.mkdir()
        return made

    @staticmethod
    def by_link(home: Path) -> Installed:
        """The add-on of the repository, linked."""
        made = Installed.empty(home)
        (made.mod / "Pertxogai").symlink_to(ADDON)
        return made

    @staticmethod
    def by_copy(home: Path) -> Installed:
        """The add-on of the repository, copied without all else."""
        made = Installed.empty(home)
        shutil.copytree(ADDON, made.mod / "Pertxogai")
        return made

    def copy(self, *names: str) -> None:
        """Puts copies of files into the folder."""
        for name in names:
            shutil.copy(FILES / f"{name}.FCStd", self.folder)

    def environment(self, **more: str) -> dict[str, str]:
        """What FreeCAD is started with."""
        return {**os.environ, "HOME": str(self.home), "QT_QPA_PLATFORM": "offscreen",
                "FOLDER": str(self.folder), **more}

    def window(self, script: Path, **more: str) -> Ended:
        """FreeCAD's window with a script that ends it, on a screen of its own that isn't seen."""
        assert WINDOW is not None
        settings = self.home / ".config" / "FreeCAD" / "user.cfg"
        settings.parent.mkdir(parents=True, exist_ok=True)
        settings.write_text(SETTINGS)
        with screen() as display:
            environment = {**self.environment(**more), "DISPLAY": display}
            environment.pop("QT_QPA_PLATFORM")
            return self._run([WINDOW, str(script)], environment)

    def console(self, *words: str | Path, **more: str) -> Ended:
        """FreeCAD's console with these words, to its end."""
        assert CONSOLE is not None
        return self._run([CONSOLE, *map(str, words)], self.environment(**more))

    def _run(self, words: list[str], environment: dict[str, str]) -> Ended:
        """A command, run to its end; what it has started ends with it, also where that takes too
        long."""
        out, complaint = self.home / "stdout", self.home / "stderr"
        with out.open("w") as written, complaint.open("w") as complained, subprocess.Popen(
                words, env=environment, stdin=subprocess.DEVNULL, stdout=written,
                stderr=complained, start_new_session=True) as process:
            try:
                status = process.wait(SECONDS)
            except subprocess.TimeoutExpired:
                pytest.fail(f"FreeCAD takes over {SECONDS} s: {complaint.read_text()}")
            finally:
                with suppress(ProcessLookupError):
                    os.killpg(process.pid, signal.SIGKILL)
        return Ended(status, out.read_text(errors="replace"), complaint.read_text(errors="replace"))
