"""Files of other programs by the commands, as their users call them."""
from __future__ import annotations

import json
import math
import xml.etree.ElementTree as ElementTree
from pathlib import Path
from typing import Any

import pytest

from pertxogai.commands import main
from pertxogai.drawing import PointRef, Which, read_drawing
from pertxogai.files.freecad import read_freecad
from pertxogai.files.solvespace import read_solvespace
from pertxogai.judging import judge
from test_freecad import constraints, document, geometry, segment, written

FILES = Path(__file__).parent / "files"
MM = 1_000_000


@pytest.fixture(autouse=True)
def _program(program: Any, monkeypatch: pytest.MonkeyPatch) -> None:
    monkeypatch.setenv("PERTXOGAI_SKETCH", program.path)


def called(capsys: pytest.CaptureFixture[str], *words: object) -> tuple[int, str, str]:
    """The status and what was written on both outputs."""
    status = main(list(map(str, words)))
    out, err = capsys.readouterr()
    return status, out, err


def sketch_of(capsys: pytest.CaptureFixture[str], *words: object) -> dict[str, Any]:
    """The one sketch of a file, by `judge --json`."""
    _, out, err = called(capsys, "judge", "--json", *words)
    assert err == ""
    (sketch,) = json.loads(out)["sketches"]
    return dict(sketch)


def at(place: dict[str, int]) -> tuple[int, int]:
    """A place in nm."""
    return place["x_nm"], place["y_nm"]


@pytest.mark.parametrize("file,hole,corner", [
    ("plate.FCStd", "Circle6", "Line2"), ("plate.slvs", "Circle9", "Line5")])
def test_a_plate_with_two_holes(capsys: pytest.CaptureFixture[str], file: str, hole: str,
                                corner: str) -> None:
    sketch = sketch_of(capsys, FILES / file)
    assert sketch["verdict"] == "well" and sketch["exact"] and sketch["fault"] is None
    assert sketch["left_out"] == sketch["frozen"] == sketch["spare"] == []
    assert at(sketch["places"][corner]["end"]) == (60 * MM, 40 * MM)
    assert at(sketch["places"][hole]["centre"]) == (45 * MM, 20 * MM)
    assert sketch["places"][hole]["radius_nm"] == 5 * MM
    assert [each["amount"] for each in sketch["deviations"]] == [0, 0]


def test_two_eyes_and_their_common_tangent(capsys: pytest.CaptureFixture[str]) -> None:
    """Radii 16 and 9, 52 apart: the touch lies at 16·7/52 along and 16·√(52² - 7²)/52 across."""
    sketch = sketch_of(capsys, FILES / "link.FCStd")
    x, y = at(sketch["places"]["Line3"]["start"])
    assert abs(x - 16 * 7 * MM / 52) <= 2
    assert abs(y - 16 * math.sqrt(52 ** 2 - 7 ** 2) * MM / 52) <= 2
    assert max(each["amount"] for each in sketch["deviations"] if each["unit"] == "nm") <= 2


def test_too_much_is_told_by_name(capsys: pytest.CaptureFixture[str]) -> None:
    status, out, _ = called(capsys, "judge", FILES / "twice.FCStd")
    assert status == 1 and out.startswith("Sketch: over")
    lines = out.splitlines()
    assert "    'above': redundant, off by 0 nm; without it the rest is well" in lines
    # What has FreeCAD's own name is told with its words.
    assert ("    Constraint6 (vertical Line2): redundant, off by 0 nm; without it the rest is well"
            in lines)
    spare = sketch_of(capsys, FILES / "contradiction.FCStd")["spare"]
    above = next(each for each in spare if each["name"] == "above")
    assert (above["off"], above["unit"], above["repeats"]) == (5 * MM, "nm", False)


def test_too_little_is_told_by_pieces(capsys: pytest.CaptureFixture[str]) -> None:
    status, out, _ = called(capsys, "judge", FILES / "hinge.FCStd")
    assert status == 1 and out.startswith("Sketch: open")
    assert "  at least 1 dimension is missing (by rank)" in out.splitlines()


def test_each_sketch_of_a_file_is_judged(capsys: pytest.CaptureFixture[str]) -> None:
    status, out, _ = called(capsys, "judge", FILES / "body.FCStd")
    assert status == 0
    assert [line.split(",")[0] for line in out.splitlines() if not line.startswith(" ")] == [
        "Sketch: well (fully constrained)", "Sketch001: well (fully constrained)"]


def test_what_is_left_out_is_told(capsys: pytest.CaptureFixture[str]) -> None:
    status, out, _ = called(capsys, "judge", FILES / "spline.FCStd")
    assert status == 1 and out.startswith("Sketch: well")
    assert "  left out of the file: BSplineCurve2: a drawing has no spline" in out.splitlines()


def test_what_only_measures_is_told(capsys: pytest.CaptureFixture[str]) -> None:
    status, out, _ = called(capsys, "judge", FILES / "reference.FCStd")
    assert status == 0 and "  doesn't constrain the sketch: diagonal (reference)" in out.splitlines()


def test_places_are_written_back(capsys: pytest.CaptureFixture[str], tmp_path: Path) -> None:
    out = tmp_path / "out.FCStd"
    status, _, err = called(capsys, "judge", FILES / "wedge.FCStd", "--write", out)
    assert (status, err) == (0, "")
    top = read_freecad(out)[0].drawing.drawn(PointRef("Line2", Which.END))
    assert top.x_um == 60000
    assert abs(float(top.y_um) - 60000 * math.tan(math.radians(30))) <= 0.002
    called(capsys, "judge", FILES / "slot.slvs", "--write", tmp_path / "out.slvs")
    far = read_solvespace(tmp_path / "out.slvs")[0].drawing.drawn(PointRef("Arc5", Which.CENTRE))
    assert (far.x_um, far.y_um) == (32000, 0)


def test_nothing_is_written_where_there_are_no_places(capsys: pytest.CaptureFixture[str],
                                                      tmp_path: Path) -> None:
    for name in ("hinge.FCStd", "loose.slvs"):
        status, _, err = called(capsys, "judge", FILES / name, "--write", tmp_path / "out")
        assert status == 2 and "no sketch of it is good" in err and err.count("\n") == 1
    status, _, err = called(capsys, "judge", FILES / "plate.FCStd", "--write",
                            FILES / "plate.FCStd")
    assert status == 2 and "isn't written over" in err and err.count("\n") == 1
    assert list(tmp_path.iterdir()) == []


def test_a_dxf_as_drawn_is_told_what_it_lacks(capsys: pytest.CaptureFixture[str],
                                              tmp_path: Path) -> None:
    """An ellipse, its axes, foci and own constraints, which a drawing can't express."""
    out = tmp_path / "ellipse.dxf"
    status, told, err = called(capsys, "draw", FILES / "ellipse.FCStd", "-o", out, "--as-drawn")
    assert (status, told) == (0, "") and "ELLIPSE" not in out.read_text()
    first, *_, last = err.splitlines()
    assert first == f"pertxogai: {out}: left out of the file: Ellipse5: a drawing has no ellipse"
    assert last == f"pertxogai: {out}: and 2 more: see ./pertxogai judge"
    out = tmp_path / "ellipse.svg"  # The picture says it below.
    assert called(capsys, "draw", FILES / "ellipse.FCStd", "-o", out, "--as-drawn")[2] == ""
    out = tmp_path / "hinge.dxf"
    assert called(capsys, "draw", FILES / "hinge.FCStd", "-o", out, "--as-drawn") == (0, "", "")


def test_pictures(capsys: pytest.CaptureFixture[str], tmp_path: Path) -> None:
    for name, is_well in (("link.FCStd", True), ("twice.FCStd", False), ("slot.slvs", True)):
        out = tmp_path / f"{name}.svg"
        assert called(capsys, "draw", FILES / name, "-o", out)[0] == (0 if is_well else 1)
        assert "<svg" in out.read_text()
    status, _, err = called(capsys, "draw", FILES / "twice.FCStd", "-o", tmp_path / "a.dxf")
    assert status == 2 and "no DXF is written of what isn't good: it is over" in err
    assert called(capsys, "draw", FILES / "twice.FCStd", "-o", tmp_path / "a.dxf",
                  "--as-drawn")[0] == 0
    status, _, err = called(capsys, "draw", FILES / "body.FCStd", "-o", tmp_path / "b.svg")
    assert status == 2 and "choose one by --sketch NAME" in err
    assert called(capsys, "draw", FILES / "body.FCStd", "-o", tmp_path / "b.svg", "--sketch",
                  "Sketch001")[0] == 0


def test_a_dxf_outline_is_dimensioned_by_nothing(capsys: pytest.CaptureFixture[str],
                                                 tmp_path: Path) -> None:
    out = tmp_path / "plate.dxf"
    assert called(capsys, "draw", FILES / "plate.FCStd", "-o", out)[0] == 0
    sketch = sketch_of(capsys, out)
    # By hand: four corners have 8 freedoms, less 4 level edges, and two holes 6; each is read off.
    assert sketch["verdict"] == "open" and sketch["freedoms"]["count"] == len(sketch["chosen"]) == 10


def test_names_do_not_steer_a_terminal(capsys: pytest.CaptureFixture[str], tmp_path: Path) -> None:
    whole = (Path(__file__).parent / "files" / "slot.slvs").read_bytes()
    path, out = tmp_path / "a.slvs", tmp_path / "a.svg"
    path.write_bytes(whole.replace(b"Group.name=sketch-in-plane", b"Group.name=a\x01\x1b[31m<b>&"))
    assert main(["draw", str(path), "-o", str(out)]) == 0
    assert ElementTree.parse(out).getroot().tag.endswith("svg")
    main(["judge", str(path)])
    assert "\x1b" not in capsys.readouterr().out


def tie(kind: int, first: str, second: str = "-2000 0", value: float = 0) -> str:
    """A constraint as FreeCAD writes it: of shapes by number, with the numbers of their places."""
    (one, place), (other, end) = first.split(), second.split()
    return (f'<Constrain Name="" Type="{kind}" Value="{value}" First="{one}" FirstPos="{place}" '
            f'Second="{other}" SecondPos="{end}" Third="-2000" ThirdPos="0"/>')


def test_what_is_free_in_its_place_comes_back_as_it_is_drawn(capsys: pytest.CaptureFixture[str],
                                                             tmp_path: Path) -> None:
    """Two lines that share an end, 50 mm long and square to each other, tied to nothing, at 3 : 4."""
    lines = geometry(segment(10, 10, 40, 50), segment(40, 50, 0, 80))
    ties = constraints(tie(1, "0 2", "1 1"), tie(6, "0 0", value=50), tie(6, "1 0", value=50),
                       tie(10, "0 0", "1 0"))
    path, out = written(tmp_path / "free.FCStd", document(lines + ties)), tmp_path / "out.FCStd"
    status, _, err = called(capsys, "judge", path, "--write", out)
    assert (status, err) == (0, "")
    drawing = read_freecad(out)[0].drawing
    for name, which, x, y in (("Line1", Which.START, 10, 10), ("Line1", Which.END, 40, 50),
                              ("Line2", Which.START, 40, 50), ("Line2", Which.END, 0, 80)):
        place = drawing.drawn(PointRef(name, which))
        assert abs(place.x_um - 1000 * x) <= 0.001 and abs(place.y_um - 1000 * y) <= 0.001


def test_what_is_free_and_drawn_level_is_placed_level(program: Any) -> None:
    """A triangle of 3, 4 and 5 cm by its sides, drawn upside down and roughly."""
    text = """segment A 7 9 -22 9
segment B A.end -22 -30
segment C B.end A.start
length A 30
length B 40
length C 50
"""
    judged = judge(read_drawing(text), program)
    assert judged.solution is not None
    assert judged.solution.spot(PointRef("A", Which.END)) == (-23 * MM, 9 * MM)
    assert judged.solution.spot(PointRef("B", Which.END)) == (-23 * MM, -31 * MM)
