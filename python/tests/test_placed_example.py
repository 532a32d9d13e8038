"""The example that leads from a FreeCAD file to the points and a DXF of what is good."""
from __future__ import annotations

import os
import subprocess
import sys
import zipfile
from pathlib import Path

import ezdxf

from conftest import TOP
from pertxogai.program import Program

FILES = Path(__file__).parent / "files"


def told(name: str, folder: Path, program: Program) -> list[str]:
    """What the example prints of a file of the stock."""
    words = [sys.executable, str(TOP / "python/examples/placed.py"), str(FILES / name), str(folder)]
    here = {**os.environ, "PYTHONPATH": str(TOP / "python"), "PERTXOGAI_SKETCH": program.path}
    return subprocess.run(words, env=here, capture_output=True, text=True,
                          check=True).stdout.splitlines()


def test_a_triangle_of_three_sides_is_placed_and_drawn(program: Program, tmp_path: Path) -> None:
    """75, 60 and 45 mm from the origin along x: 27^2 + 36^2 = 45^2, 48^2 + 36^2 = 60^2."""
    assert told("triangle-by-sides.FCStd", tmp_path, program)[3:5] == [
        "Line2.end 27000000 36000000", "Line3.start 27000000 36000000"]
    lines = ezdxf.readfile(tmp_path / "Sketch.dxf").modelspace().query("LINE")
    assert [(tuple(each.dxf.start)[:2], tuple(each.dxf.end)[:2]) for each in lines] == [
        ((0, 0), (75, 0)), ((75, 0), (27, 36)), ((27, 36), (0, 0))]


def test_of_what_is_left_out_of_the_file_no_dxf_is_written(program: Program, tmp_path: Path,
                                                           ) -> None:
    for name, what in ("ellipse", "Ellipse5: a drawing has no ellipse"), (
            "spline", "BSplineCurve2: a drawing has no spline"):
        lines = told(f"{name}.FCStd", tmp_path, program)
        assert lines[0].startswith("Sketch: ") and lines[1] == f"  left out of the file: {what}"
    assert [*tmp_path.iterdir()] == []


def test_a_label_leads_out_of_no_folder(program: Program, tmp_path: Path) -> None:
    """A label may be any text: the DXF lies in the folder that was asked for."""
    path, folder = tmp_path / "renamed.FCStd", tmp_path / "folder"
    old, new = b'<String value="Sketch"/>', b'<String value="../Out"/>'
    with (zipfile.ZipFile(FILES / "triangle-by-sides.FCStd") as source,
          zipfile.ZipFile(path, "w") as copy):
        for name in source.namelist():
            copy.writestr(name, source.read(name).replace(old, new))
    folder.mkdir()
    told(str(path), folder, program)
    assert [each.name for each in folder.iterdir()] == ["Out.dxf"]
    assert sorted(each.name for each in tmp_path.iterdir()) == ["folder", "renamed.FCStd"]
