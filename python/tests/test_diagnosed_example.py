"""The example that prints what the command `judge` prints, and judges without each removable
constraint."""
from __future__ import annotations

import os
import subprocess
import sys
from pathlib import Path

import pytest

from conftest import TOP
from pertxogai.commands import main
from pertxogai.program import Program

DRAWINGS = Path(__file__).parent / "drawings"


def told(path: Path, program: Program) -> str:
    """What the example prints of a drawing."""
    words = [sys.executable, str(TOP / "python/examples/diagnosed.py"), str(path)]
    here = {**os.environ, "PYTHONPATH": str(TOP / "python"), "PERTXOGAI_SKETCH": program.path}
    return subprocess.run(words, env=here, capture_output=True, text=True, check=True).stdout


@pytest.mark.parametrize(("name", "rests"), [
    ("open-hole-without-y", []),
    ("over-plate-contradiction", [
        "without constraint 2 (vertical PlateRight): well",
        "without constraint 4 (vertical PlateLeft): well",
        "without Bottom width: well",
        "without Top width: well"]),
])
def test_it_prints_what_the_command_prints(
    name: str, rests: list[str], program: Program, capsys: pytest.CaptureFixture[str],
    monkeypatch: pytest.MonkeyPatch,
) -> None:
    monkeypatch.setenv("PERTXOGAI_SKETCH", program.path)
    path = DRAWINGS / f"{name}.drawing"
    main(["judge", str(path)])
    printed = capsys.readouterr().out
    assert told(path, program) == printed + "".join(f"{each}\n" for each in rests)


def test_it_says_by_how_much_dimensions_are_too_short(program: Program, tmp_path: Path) -> None:
    """Sides of 36 and 3 mm end 1 mm apart over one of 40 mm."""
    path = tmp_path / "thin.drawing"
    path.write_text("segment A 0 0 40 0\nsegment B A.end 20 20\nsegment C B.end A.start\n"
                    "length A 40\nlength B 36\nlength C 3\n")
    assert "1 mm too short" in told(path, program)
