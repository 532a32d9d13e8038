"""DXF drawings as outlines: what meets, and what is offered."""

from fractions import Fraction
from pathlib import Path
from typing import Any

import pytest

from pertxogai.drawing import (
    Arc, Coincident, Horizontal, Pair, Perpendicular, PointRef, ShapeRef, Tangent, Vertical, Which)
from pertxogai.drawing.soundness import faults
from pertxogai.files.contents import FileRefusal
from pertxogai.files.dxf import Outline, read_outline

ezdxf = pytest.importorskip("ezdxf")
START, END = Which.START, Which.END


def outline(tmp_path: Path, draw: Any, unit: int = 4, tolerance_um: int = 10) -> Outline:
    """The outline of what is drawn in a model space, in a unit by DXF's number."""
    document = ezdxf.new()
    document.header["$INSUNITS"] = unit
    draw(document.modelspace())
    document.saveas(tmp_path / "a.dxf")
    read = read_outline(tmp_path / "a.dxf", Fraction(tolerance_um))
    assert not faults(read.sketch.drawing) and not faults(read.accepted().drawing)
    return read


def joint(first: str, one: Which, second: str, other: Which) -> tuple[PointRef, PointRef]:
    """Two ends."""
    return PointRef(first, one), PointRef(second, other)


def joints(read: Outline) -> set[tuple[PointRef, PointRef]]:
    """The ends that meet."""
    return {(each.first, each.second) for each in read.sketch.drawing.constraints
            if isinstance(each, Coincident)}


def test_a_plate_of_a_closed_polyline_and_two_holes(tmp_path: Path) -> None:
    def draw(space: Any) -> None:
        space.add_lwpolyline([(0, 0), (60, 0), (60, 40), (0, 40)], close=True)
        space.add_circle((15, 20), 5)
        space.add_circle((45, 20), 5)

    read = outline(tmp_path, draw)
    assert [shape.name for shape in read.sketch.drawing.geometry] == [
        "Line1", "Line2", "Line3", "Line4", "Circle5", "Circle6"]
    assert joints(read) == {
        joint("Line1", START, "Line4", END), joint("Line1", END, "Line2", START),
        joint("Line2", END, "Line3", START), joint("Line3", END, "Line4", START)}
    assert read.offered == (Horizontal(ShapeRef("Line1")), Vertical(ShapeRef("Line2")),
                            Horizontal(ShapeRef("Line3")), Vertical(ShapeRef("Line4")))
    assert len(read.accepted().drawing.constraints) == 8


def test_a_stadium_of_bulges_is_tangent_at_its_four_joints(tmp_path: Path) -> None:
    def draw(space: Any) -> None:
        space.add_lwpolyline([(0, 0, 0), (30, 0, 1), (30, 20, 0), (0, 20, 1)], format="xyb",
                             close=True)

    read = outline(tmp_path, draw)
    bow = read.sketch.drawing.geometry[1]
    assert isinstance(bow, Arc)
    assert [read.sketch.drawing.drawn(PointRef(bow.name, which)) for which in (
        Which.CENTRE, START, END)] == [bow.centre, bow.start, bow.end]
    assert {each.at for each in read.offered if isinstance(each, Tangent)} == {
        Pair(*pair) for pair in joints(read)}
    accepted = read.accepted().drawing.constraints
    assert not any(isinstance(each, Coincident) for each in accepted) and len(accepted) == 6


def test_a_right_angle_that_no_level_edge_says(tmp_path: Path) -> None:
    def draw(space: Any) -> None:
        for start, end in (((0, 0), (40, 30)), ((40, 30), (22, 54)), ((22, 54), (-18, 24)),
                           ((-18, 24), (0, 0))):
            space.add_line(start, end)

    offered = outline(tmp_path, draw).offered
    assert len(offered) == 3 and all(isinstance(each, Perpendicular) for each in offered)


def test_the_tolerance_decides(tmp_path: Path) -> None:
    def draw(space: Any) -> None:
        space.add_line((0, 0), (50, 0.02))
        space.add_line((50.015, 0.02), (50, 30))

    assert joints(outline(tmp_path, draw)) == set()
    assert outline(tmp_path, draw).offered == ()
    near = outline(tmp_path, draw, tolerance_um=20)
    assert joints(near) == {joint("Line1", END, "Line2", START)}
    assert near.offered == (Horizontal(ShapeRef("Line1")), Vertical(ShapeRef("Line2")))


def test_three_ends_at_a_place_have_two_joints(tmp_path: Path) -> None:
    def draw(space: Any) -> None:
        for end in ((10, 3), (-7, 8), (2, -9)):
            space.add_line((0, 0), end)

    assert len(joints(outline(tmp_path, draw))) == 2


def test_inches_are_told_in_millimetres(tmp_path: Path) -> None:
    read = outline(tmp_path, lambda space: space.add_line((0, 0), (2.5, 0)), unit=1)
    assert read.sketch.drawing.drawn(PointRef("Line1", END)).x_um == 63500


def test_an_arc_seen_from_behind_is_mirrored(tmp_path: Path) -> None:
    def draw(space: Any) -> None:
        space.add_arc((5, 1), 10, 0, 90, dxfattribs={"extrusion": (0, 0, -1)})

    drawing = outline(tmp_path, draw).sketch.drawing
    centre, start, end = (drawing.drawn(PointRef("Arc1", which))
                          for which in (Which.CENTRE, START, END))
    assert (centre.x_um, centre.y_um) == (-5000, 1000)
    assert (start.x_um, start.y_um) == (-5000, 11000)
    assert (end.x_um, end.y_um) == (-15000, 1000)


def test_what_a_drawing_has_not_is_named(tmp_path: Path) -> None:
    def draw(space: Any) -> None:
        space.add_line((0, 0), (5, 5))
        space.add_text("note")
        space.add_ellipse((0, 0), (5, 0), 0.5)

    assert [str(each) for each in outline(tmp_path, draw).sketch.left_out] == [
        "Text2: a drawing has no TEXT", "Ellipse3: a drawing has no ELLIPSE"]


def test_what_rises_out_of_the_plane_is_left_out(tmp_path: Path) -> None:
    """A line from (0, 0, 0) to (40, 0, 30) is 50 mm long, and one upright of a view from above has
    no length; a polyline in the plane x = y has an edge that rises, and one that doesn't."""
    def draw(space: Any) -> None:
        space.add_line((0, 0, 7), (5, 5, 7))
        space.add_line((0, 0, 0), (40, 0, 30))
        space.add_line((9, 9, 0), (9, 9, 30))
        space.add_lwpolyline([(0, 0), (40, 0), (40, 20)],
                             dxfattribs={"extrusion": (1, -1, 0)})

    sketch = outline(tmp_path, draw).sketch
    assert [shape.name for shape in sketch.drawing.geometry] == ["Line1", "Line4"]
    assert [(each.what, each.why) for each in sketch.left_out] == [
        (name, "it is tilted out of the plane") for name in ("Line2", "Line3", "Line5")]


def refused(path: Path) -> str:
    """The one line with which a file is refused."""
    with pytest.raises(FileRefusal) as refusal:
        read_outline(path)
    assert "\n" not in str(refusal.value)
    return str(refusal.value)


def test_other_files_are_refused(tmp_path: Path) -> None:
    path = tmp_path / "a.dxf"
    assert "No such file" in refused(path)
    path.write_text("sketch 1\nend\n")
    assert "it is no DXF file" in refused(path)
    path.write_bytes(b"0\nSECTION\n2\nENTITIES\n0\nLINE\n10\nx\n")
    assert "no sound DXF file" in refused(path)
    document = ezdxf.new()
    document.saveas(path)
    assert "nothing to draw in it" in refused(path)
    document.header["$INSUNITS"] = 18
    document.modelspace().add_line((0, 0), (1, 1))
    document.saveas(path)
    assert "save it in millimetres" in refused(path)


def test_what_the_program_writes_is_read(tmp_path: Path) -> None:
    """The program's own DXF has no header; it is in millimetres."""
    path = tmp_path / "a.dxf"
    path.write_text("0\nSECTION\n2\nENTITIES\n0\nCIRCLE\n8\n0\n10\n60.5\n20\n0.0\n40\n7.25\n"
                    "0\nENDSEC\n0\nEOF\n")
    drawing = read_outline(path).sketch.drawing
    assert drawing.drawn(PointRef("Circle1", Which.CENTRE)).x_um == 60500
    assert drawing.drawn_radius_um("Circle1") == 7250
