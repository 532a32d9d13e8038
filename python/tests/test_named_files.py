"""Names of dimensions in files: read as the names of a drawing's constraints, and written."""
from __future__ import annotations

import shutil
import subprocess
from pathlib import Path
from zipfile import ZipFile

import pytest

from pertxogai.commands.variants import Variant, drawing_of
from pertxogai.drawing import (
    Constraint, Drawing, PointRef, Which, read_drawing, write_drawing)
from pertxogai.files.contents import Addition, FileRefusal
from pertxogai.files.freecad.reading import read_freecad
from pertxogai.files.freecad.writing import (
    write_additions as write_freecad, write_variants as write_freecad_variants)
from pertxogai.files.kinds import DesignerDrawing, read_inputs
from pertxogai.files.solvespace.reading import read_solvespace
from pertxogai.files.solvespace.writing import (
    write_additions as write_solvespace, write_variants as write_solvespace_variants)
from pertxogai.judging import GoodJudgement, JudgedDrawing, good_of, judge_at_once
from pertxogai.judging.measure import measure
from pertxogai.program import Program
from pertxogai.search.equations import Equations
from pertxogai.search.rounding import solution_of

FILES = Path(__file__).parent / "files"
SOLVESPACE = shutil.which("solvespace-cli")


def addition(drawing: Drawing, line: str) -> Addition:
    """A line as what is added to a drawing, which stays where it is drawn."""
    told = read_drawing(f"{write_drawing(drawing)}{line}\n")
    unknowns = Equations(drawing).unknowns
    return Addition(told, told.constraints[len(drawing.constraints):],
                    solution_of(unknowns, unknowns.drawn()))


def names_of(constraints: tuple[Constraint, ...]) -> list[str | None]:
    return [each.name for each in constraints]


def commented(path: Path, comments: dict[bytes, bytes]) -> bytes:
    """A file of SolveSpace's in which the constraints of some numbers have comments."""
    text = (FILES / "plate.slvs").read_bytes()
    for number, comment in comments.items():
        head, mark, tail = text.partition(b"Constraint.h.v=" + number)
        assert mark
        tail = tail.replace(b"AddConstraint", b"Constraint.comment=" + comment + b"\nAddConstraint", 1)
        text = head + mark + tail
    path.write_bytes(text)
    return text


def test_a_comment_of_a_solvespace_dimension_is_its_name(tmp_path: Path) -> None:
    path = tmp_path / "plate.slvs"
    commented(path, {b"0000000a": b"Width", b"0000000b": "Höhe  oben".encode(),
                     b"0000000e": b"Width"})
    (one,) = read_solvespace(path)
    names = names_of(one.drawing.constraints)
    assert {"Width", "Höhe oben", "Width (2)"} <= set(names)
    assert "c00a-pt-pt-distance" not in names


@pytest.mark.skipif(SOLVESPACE is None, reason="without solvespace-cli")
def test_solvespace_itself_keeps_the_name_of_a_dimension(tmp_path: Path) -> None:
    path = tmp_path / "plate.slvs"
    commented(path, {b"0000000a": b"Width"})
    assert SOLVESPACE is not None
    subprocess.run([SOLVESPACE, "regenerate", path], check=True, capture_output=True, timeout=60)
    (one,) = read_solvespace(path)
    assert "Width" in names_of(one.drawing.constraints)


def test_a_name_is_written_into_a_solvespace_file(tmp_path: Path) -> None:
    given, out = FILES / "plate.slvs", tmp_path / "out.slvs"
    (before,) = read_solvespace(given)
    write_solvespace(given, out, {before.name: addition(before.drawing, "Höhe 2: length Line5 41")})
    (after,) = read_solvespace(out)
    assert names_of(after.drawing.constraints)[-1] == "Höhe 2"
    assert b"Constraint.comment=H\xc3\xb6he 2\nAddConstraint" in out.read_bytes()


def test_a_name_is_written_into_a_freecad_file(tmp_path: Path) -> None:
    given, out = FILES / "four-holes.FCStd", tmp_path / "out.FCStd"
    (before,) = read_freecad(given)
    line = "Höhe \"2\" <3>: length Line2 41"
    write_freecad(given, out, {before.name: addition(before.drawing, line)})
    (after,) = read_freecad(out)
    assert names_of(after.drawing.constraints)[-1] == 'Höhe "2" <3>'


def variant(path: Path, columns: tuple[str, ...],
            cells: tuple[str, ...]) -> GoodJudgement:
    """A file's drawing with other values, judged."""
    program = Program.find()
    (found,) = read_inputs(path)
    assert isinstance(found, DesignerDrawing)
    drawing = drawing_of(found.drawing, columns, Variant("a", cells))
    good = good_of(JudgedDrawing("a", drawing, judge_at_once(drawing, program)))
    assert isinstance(good, GoodJudgement)
    return good


def test_a_variant_of_a_freecad_file_has_its_values(tmp_path: Path) -> None:
    given, out = FILES / "named.FCStd", tmp_path / "out.FCStd"
    (before,) = read_freecad(given)
    good = variant(given, ("width", "hole x"), ("64", "30"))
    write_freecad_variants(given, out, {before.name: good})
    (after,) = read_freecad(out)
    told = {each.name: each for each in after.drawing.constraints}
    # Its height is its width * 3 / 8, by FreeCAD's own expression.
    assert [told[name].value_um for name in ("width", "height", "hole x")] == [
        64_000, 24_000, 30_000]
    assert max(each.amount for each in measure(after.drawing, good.solution)) <= 1
    assert [each.line() for each in after.drawing.values] == ["value width 64mm"]
    assert after.drawing.drawn(PointRef("Line1", Which.END)).x_um == 64_000


def test_a_dimension_that_a_spreadsheet_sets_has_no_other_value_in_a_copy(tmp_path: Path) -> None:
    given, out = tmp_path / "bound.FCStd", tmp_path / "out.FCStd"
    with ZipFile(FILES / "named.FCStd") as old, ZipFile(given, "w") as new:
        for name in old.namelist():
            new.writestr(name, old.read(name).replace(b".Constraints.width * 3 / 8", b"Sheet.A1"))
    (before,) = read_freecad(given)
    with pytest.raises(FileRefusal, match="FreeCAD sets height by an expression that isn't read"):
        write_freecad_variants(given, out, {before.name: variant(given, ("height",), ("20",))})
    assert not out.exists()


def test_what_an_expression_uses_that_is_not_read_has_no_other_value_in_a_copy(
        tmp_path: Path) -> None:
    """FreeCAD would give the height another value than the drawing has, which keeps the stored."""
    given, out = tmp_path / "bound.FCStd", tmp_path / "out.FCStd"
    with ZipFile(FILES / "named.FCStd") as old, ZipFile(given, "w") as new:
        for name in old.namelist():
            new.writestr(name, old.read(name).replace(b".Constraints.width * 3 / 8",
                                                      b"cos(60) * .Constraints.width"))
    (before,) = read_freecad(given)
    with pytest.raises(FileRefusal, match="FreeCAD sets height by an expression that uses width"):
        write_freecad_variants(given, out, {before.name: variant(given, ("width",), ("64",))})
    write_freecad_variants(given, out, {before.name: variant(given, ("hole x",), ("30",))})


def test_a_variant_of_a_solvespace_file_has_its_values(tmp_path: Path) -> None:
    path, out = tmp_path / "plate.slvs", tmp_path / "out.slvs"
    commented(path, {b"0000000a": b"Width", b"0000000e": b"Place"})
    (before,) = read_solvespace(path)
    good = variant(path, ("Width", "Place"), ("66", "41.5"))
    write_solvespace_variants(path, out, {before.name: good})
    (after,) = read_solvespace(out)
    told = {each.name: each for each in after.drawing.constraints}
    assert (told["Width"].value_um, told["Place"].value_um) == (66_000, 41_500)
    assert max(each.amount for each in measure(after.drawing, good.solution)) <= 1
    kept = [[line for line in each.read_bytes().split(b"\n")
             if not line.startswith((b"Param.val=", b"Constraint.valA="))] for each in (path, out)]
    assert kept[0] == kept[1]
    if SOLVESPACE is not None:  # SolveSpace solves what is written to the same places.
        solved = tmp_path / "solved.slvs"
        solved.write_bytes(out.read_bytes())
        subprocess.run([SOLVESPACE, "regenerate", solved], check=True, capture_output=True,
                       timeout=60)
        (again,) = read_solvespace(solved)
        for ref in after.drawing.points():
            there, here = again.drawing.drawn(ref), after.drawing.drawn(ref)
            assert abs(there.x_um - here.x_um) < 1 and abs(there.y_um - here.y_um) < 1
