"""The example that goes on through files of every kind."""
from __future__ import annotations

import os
import subprocess
import sys
from pathlib import Path

from conftest import TOP
from pertxogai.program import Program

FILES = Path(__file__).parent / "files"


def test_a_file_that_is_refused_stops_none_behind_it(program: Program, tmp_path: Path) -> None:
    broken = {"text.sketch": "sketch 1\npoint A 0 0 0\nend\n", "words.drawing": "segment A\n",
              "no-zip.FCStd": "", "no-sketch.slvs": "", "ending.step": ""}
    for name, text in broken.items():
        (tmp_path / name).write_text(text)
    refused = [tmp_path / name for name in broken]
    refused.append(tmp_path / "nowhere.dxf")
    judged = [TOP / "examples/no-triangle.sketch", FILES / "plate.FCStd"]
    words = [sys.executable, *map(str, [TOP / "python/examples/files.py", *refused, *judged])]
    here = {**os.environ, "PYTHONPATH": str(TOP / "python"), "PERTXOGAI_SKETCH": program.path}
    lines = subprocess.run(words, env=here, capture_output=True, text=True,
                           check=True).stdout.splitlines()
    assert len(lines) == 8
    assert lines[0].startswith("text: refused line 2 E3 shape: 'point A 0 0 0': ")
    for path, line in zip(refused[1:], lines[1:6], strict=True):
        assert line.startswith(f"{path}: ")
    assert lines[6:] == ["no-triangle.sketch: no-triangle: well: it can't be placed as drawn",
                         "plate.FCStd: Sketch: well: good"]
