"""FreeCAD's files, read. What FreeCAD itself solved and saved is the oracle."""

import math
import zipfile
from dataclasses import replace
from fractions import Fraction
from pathlib import Path

import pytest

from pertxogai.drawing import (
    Arc, Circle, Coincident, Degrees, Diameter, Length, PointRef, Radius, Segment, ShapeRef, Which,
    XDistance, YDistance, line_of, read_drawing, read_expression, with_values, write_drawing)
from pertxogai.drawing.soundness import faults
from pertxogai.files.contents import FileRefusal, FileSketch, NotDrivingCause
from pertxogai.files.freecad import read_freecad
from pertxogai.files.freecad.expressions import Bound, unread_uses
from pertxogai.files.freecad.markup import Kept, Node
from pertxogai.files.freecad.writing import write_places
from pertxogai.files.kinds import read_inputs
from pertxogai.judging.measure import Solution, Unit, greatest, measure

FILES = Path(__file__).parent / "files"
FACTS = [line.split() for line in (FILES / "freecad.facts").read_text().splitlines()]
SOLVED = [(fact[0], fact[1]) for fact in FACTS if fact[3] == "0"]


def found(file: str, sketch: str = "Sketch") -> FileSketch:
    """A sketch of a file of the stock."""
    sketches = {one.name: one for one in read_freecad(FILES / f"{file}.FCStd")}
    return sketches[sketch]


def stored(one: FileSketch) -> Solution:
    """The places that the file has, in nm."""
    drawing = one.drawing
    points = {}
    for ref in drawing.points():
        place = drawing.drawn(ref)
        points[ref] = (place.x_um * 1000, place.y_um * 1000)
    radii: dict[str, Fraction] = {}
    for shape in drawing.geometry:
        if isinstance(shape, Circle):
            radii[shape.name] = shape.radius_um * 1000
        elif isinstance(shape, Arc):
            centre, start = (points[PointRef(shape.name, which)]
                             for which in (Which.CENTRE, Which.START))
            away = math.hypot(start[0] - centre[0], start[1] - centre[1])
            radii[shape.name] = Fraction(round(away, 3))
    return Solution(points, radii)


@pytest.mark.parametrize("file,sketch", SOLVED)
def test_what_freecad_solved_meets_each_constraint(file: str, sketch: str) -> None:
    one = found(file, sketch)
    deviations = measure(one.drawing, stored(one))
    for unit in Unit:
        worst = greatest(deviations, unit)
        assert worst is None or worst.amount <= 1, worst


@pytest.mark.parametrize("file,sketch", [(fact[0], fact[1]) for fact in FACTS])
def test_every_drawing_is_sound(file: str, sketch: str) -> None:
    one = found(file, sketch)
    assert not faults(one.drawing)
    assert len(one.numbers) == len(one.drawing.constraints)


def test_a_plate_with_two_holes() -> None:
    one = found("plate")
    assert [shape.name for shape in one.drawing.geometry] == [
        "Line1", "Line2", "Line3", "Line4", "Circle5", "Circle6"]
    origin, hole = PointRef("Origin"), PointRef("Circle6", Which.CENTRE)
    told = one.drawing.constraints
    assert Coincident(PointRef("Line1", Which.START), origin, "Constraint9") in told
    assert any(isinstance(each, Radius) and each.value_um == 5000 for each in told)
    assert any(isinstance(each, XDistance) and (each.first, each.second) == (origin, hole)
               and each.value_um == 45000 for each in told)
    assert one.numbers == tuple(range(1, 18))
    assert one.left_out == () and one.aside == ()


def test_names_and_an_expression_by_its_value() -> None:
    named = {each.name: each for each in found("named").drawing.constraints}
    height, width = named["height"], named["width"]
    assert isinstance(width, XDistance) and width.value_um == 48000
    assert isinstance(height, YDistance) and height.value_um == 18000
    assert "hole x" in named and isinstance(named["Bohrungsgröße"], Diameter)


def test_inches() -> None:
    told = found("inches").drawing.constraints
    assert [each.value_um for each in told if isinstance(each, (XDistance, YDistance))] == [
        63500, 28575]


def test_reference_dimensions_stand_aside() -> None:
    aside = found("reference").aside
    assert [(each.name, each.why) for each in aside] == [
        ("diagonal", NotDrivingCause.REFERENCE), ("Constraint13", NotDrivingCause.REFERENCE)]
    assert all(len(each.constraints) == 1 for each in aside)


def test_what_was_switched_off_stands_aside() -> None:
    assert [(each.number, each.why) for each in found("inactive").aside] == [(12, NotDrivingCause.OFF)]


def test_what_a_drawing_has_not_is_named() -> None:
    told = [str(each) for each in found("ellipse").left_out]
    assert told[0] == "Ellipse5: a drawing has no ellipse"
    assert told[1:5] == [f"{name}: it belongs to a curve that is left out"
                         for name in ("Line6", "Line7", "Point8", "Point9")]
    assert told[-1] == "Constraint16: it refers to Ellipse5, which is left out"
    assert len(found("ellipse").drawing.geometry) == 4
    assert str(found("spline").left_out[0]) == "BSplineCurve2: a drawing has no spline"


def test_construction() -> None:
    ring = next(shape for shape in found("hexagon").drawing.geometry if isinstance(shape, Circle))
    assert ring.construction
    assert not found("hexagon").drawing.geometry[0].construction


def test_a_file_without_a_sketch() -> None:
    with pytest.raises(FileRefusal, match="no sketch in it"):
        read_freecad(FILES / "empty.FCStd")


OBJECT = '<Objects Count="1"><Object type="Sketcher::SketchObject" name="S" id="1"/></Objects>'


def document(properties: str) -> str:
    """A document with one sketch of these properties."""
    return (f'<?xml version="1.0" encoding="utf-8"?><Document SchemaVersion="4">{OBJECT}'
            f'<ObjectData Count="1"><Object name="S"><Properties>{properties}</Properties>'
            '</Object></ObjectData></Document>')


def written(path: Path, text: str | bytes, name: str = "Document.xml", level: int = 6) -> Path:
    """A zip with one member, packed at a level from 1, the quickest, to 9."""
    with zipfile.ZipFile(path, "w", zipfile.ZIP_DEFLATED, compresslevel=level) as archive:
        archive.writestr(name, text)
    return path


def geometry(*entries: str, name: str = "Geometry") -> str:
    """A list of shapes."""
    return (f'<Property name="{name}" type="Part::PropertyGeometryList">'
            f'<GeometryList count="{len(entries)}">{"".join(entries)}</GeometryList></Property>')


def segment(x1: float, y1: float, x2: float, y2: float, behind: str = "") -> str:
    """A segment as FreeCAD writes it."""
    return (f'<Geometry type="Part::GeomLineSegment" id="1"><LineSegment StartX="{x1}" '
            f'StartY="{y1}" StartZ="0" EndX="{x2}" EndY="{y2}" EndZ="0"/>{behind}</Geometry>')


def arc(normal: int, turn: float) -> str:
    """An arc of radius 10 round the origin from 0.3 to 1 rad, as FreeCAD writes it."""
    return ('<Geometry type="Part::GeomArcOfCircle"><ArcOfCircle CenterX="0" CenterY="0" '
            f'CenterZ="0" NormalX="0" NormalY="0" NormalZ="{normal}" AngleXU="{turn}" Radius="10" '
            'StartAngle="0.3" EndAngle="1.0"/></Geometry>')


CIRCLE = ('<Geometry type="Part::GeomCircle"><Circle CenterX="15" CenterY="9" CenterZ="0" '
          'NormalX="0" NormalY="0" NormalZ="1" AngleXU="0" Radius="9"/></Geometry>')
POINT = '<Geometry type="Part::GeomPoint"><GeomPoint X="15" Y="0" Z="0"/></Geometry>'


def constraints(*entries: str) -> str:
    """A list of constraints."""
    return ('<Property name="Constraints" type="Sketcher::PropertyConstraintList">'
            f'<ConstraintList count="{len(entries)}">{"".join(entries)}</ConstraintList>'
            '</Property>')


def test_version_0_18_tells_construction_by_an_element(tmp_path: Path) -> None:
    path = written(tmp_path / "old.FCStd", document(geometry(
        segment(0, 0, 5, 0, '<Construction value="1"/>'),
        segment(0, 0, 5, 0, '<Construction value="0"/>'))))
    first, second = read_freecad(path)[0].drawing.geometry
    assert first.construction and not second.construction


def test_version_1_0_stores_outer_geometry(tmp_path: Path) -> None:
    tie = ('<Constrain Name="" Type="1" Value="0" First="0" FirstPos="2" Second="-3" '
           'SecondPos="1" Third="-2000" ThirdPos="0" IsDriving="1" IsActive="1"/>')
    outer = geometry(segment(0, 0, 1, 0), segment(0, 0, 0, 1), segment(7, 0, 7, 9),
                     name="ExternalGeo")
    path = written(tmp_path / "new.FCStd",
                   document(geometry(segment(0, 0, 7, 0)) + outer + constraints(tie)))
    drawing = read_freecad(path)[0].drawing
    edge = drawing.geometry[1]
    assert isinstance(edge, Segment) and edge.outer and edge.name == "Outer1"
    assert drawing.constraints == (Coincident(
        PointRef("Line1", Which.END), PointRef("Outer1", Which.START), "Constraint1"),)


@pytest.mark.parametrize("normal,turn,start,end", [
    (1, 0.0, 0.3, 1.0),
    (1, 0.5, 0.8, 1.5),
    (-1, 0.0, math.pi - 1.0, math.pi - 0.3),
])
def test_an_arc_turned_or_seen_from_behind(tmp_path: Path, normal: int, turn: float, start: float,
                                           end: float) -> None:
    path = written(tmp_path / "arc.FCStd", document(geometry(arc(normal, turn))))
    drawing = read_freecad(path)[0].drawing
    for which, angle in ((Which.START, start), (Which.END, end)):
        place = drawing.drawn(PointRef("Arc1", which))
        assert math.isclose(float(place.x_um), 10000 * math.cos(angle), abs_tol=1e-5)
        assert math.isclose(float(place.y_um), 10000 * math.sin(angle), abs_tol=1e-5)


def test_numbers_are_read_as_they_were_typed(tmp_path: Path) -> None:
    tie = ('<Constrain Name="far: #1" Type="6" Value="59.99999999999999" First="0" FirstPos="0" '
           'Second="-2000" SecondPos="0" Third="-2000" ThirdPos="0"/>')
    angle = ('<Constrain Name="" Type="9" Value="0.52359877559829882" First="0" FirstPos="0" '
             'Second="-2000" SecondPos="0" Third="-2000" ThirdPos="0"/>')
    path = written(tmp_path / "a.FCStd",
                   document(geometry(segment(0, 0, 7, 1)) + constraints(tie, angle)))
    length, turn = read_freecad(path)[0].drawing.constraints
    assert getattr(length, "value_um") == 60000 and length.name == "far 1"
    assert getattr(turn, "value") == Degrees(Fraction(30))


def tied(kind: int, first: str, second: str, third: str = "-2000 0") -> str:
    """A constraint as FreeCAD writes it: of shapes by number, with the numbers of their places."""
    places = zip(("First", "Second", "Third"), (first, second, third))
    named = " ".join('{0}="{1}" {0}Pos="{2}"'.format(word, *each.split())
                     for word, each in places)
    return f'<Constrain Name="" Type="{kind}" Value="0" {named}/>'


COINCIDENT, TANGENT, PERPENDICULAR, POINT_ON, SYMMETRIC = 1, 5, 10, 13, 14
ON_BOTH = tied(POINT_ON, "3 1", "0 0") + tied(POINT_ON, "3 1", "2 0")


@pytest.mark.parametrize("ties,said", [
    # Through a point FreeCAD asks for the directions there alone: two lines are parallel.
    (tied(TANGENT, "0 0", "1 0", "3 1"), "parallel Line1 Line2"),
    (tied(PERPENDICULAR, "0 0", "1 0", "3 1"), "perpendicular Line1 Line2"),
    # A line along a circle's direction at a point touches the circle where the point is on both.
    (tied(TANGENT, "0 0", "2 0", "3 1") + ON_BOTH, "tangent Line1 Circle3"),
    (ON_BOTH + tied(PERPENDICULAR, "2 0", "0 0", "3 1"), "on Circle3.centre Line1"),
    (tied(TANGENT, "0 0", "2 0", "3 1") + tied(POINT_ON, "3 1", "2 0"), None),
    (tied(TANGENT, "0 0", "2 0", "3 1") + tied(POINT_ON, "3 1", "0 0"), None),
    (tied(PERPENDICULAR, "2 0", "0 0", "3 1") + tied(POINT_ON, "3 1", "0 0"), None),
    (tied(TANGENT, "0 0", "2 0", "3 1"), None),
    # An end of the line is on it; so is what is one with that. A middle isn't looked for.
    (tied(TANGENT, "0 0", "2 0", "0 2") + tied(POINT_ON, "0 2", "2 0"), "tangent Line1 Circle3"),
    (tied(COINCIDENT, "3 1", "0 1") + tied(POINT_ON, "3 1", "2 0")
     + tied(TANGENT, "2 0", "0 0", "3 1"), "tangent Circle3 Line1"),
    (tied(SYMMETRIC, "0 2", "0 1", "3 1") + tied(POINT_ON, "3 1", "2 0")
     + tied(TANGENT, "2 0", "0 0", "3 1"), None),
    # The x axis has the origin, and lines that are one line have each other's ends.
    (tied(COINCIDENT, "3 1", "-1 1") + tied(POINT_ON, "3 1", "2 0")
     + tied(TANGENT, "-1 0", "2 0", "3 1"), "tangent XAxis Circle3"),
    (tied(TANGENT, "0 0", "1 0") + tied(POINT_ON, "1 2", "2 0")
     + tied(TANGENT, "0 0", "2 0", "1 2"), "tangent Line1 Circle3"),
])
def test_a_direction_through_a_point(tmp_path: Path, ties: str, said: str | None) -> None:
    """FreeCAD 0.20.2 was asked: of a circle of radius 20 about the origin, with the point (12, 16)
    on it alone, and a line tangent through that, it puts this through (-10, 30) and (30, 0): 18 from
    the centre, so no tangent."""
    shapes = geometry(segment(0, 0, 30, 0), segment(40, 1, 70, 1), CIRCLE, POINT)
    (one,) = read_freecad(written(tmp_path / "a.FCStd", document(shapes + constraints(ties))))
    lines = [line_of(each).partition(": ")[2] for each in one.drawing.constraints]
    assert said is None or said in lines
    assert [each.why for each in one.left_out] == (
        [] if said else ["no other constraint puts its point on both of its shapes"])


def test_a_constraint_that_is_off_puts_no_point_on_a_shape(tmp_path: Path) -> None:
    off = ON_BOTH.replace("/>", ' IsActive="0"/>', 1)
    shapes = geometry(segment(0, 0, 30, 0), segment(40, 1, 70, 1), CIRCLE, POINT)
    ties = constraints(off, tied(TANGENT, "0 0", "2 0", "3 1"))
    (one,) = read_freecad(written(tmp_path / "a.FCStd", document(shapes + ties)))
    assert [each.what for each in one.left_out] == ["Constraint3"]


@pytest.mark.parametrize("properties,what", [
    (geometry(segment(float("nan"), 0, 1, 1)), "Line1: its StartX is no number"),
    (geometry(segment(1, 1, 1, 1)), "Line1: 'Line1' is drawn from a place to itself"),
    (geometry('<Geometry type="Part::GeomCircle"/>'), "Circle1: its numbers aren't in the file"),
    (constraints('<Constrain Type="77" First="0"/>'), "Constraint1: FreeCAD's kind 77"),
    (constraints('<Constrain Type="16" First="0"/>'), "Constraint1: a drawing has no constraint "
                                                      "for Snell's law"),
    (constraints('<Constrain Type="x" First="0"/>'), "Constraint1: its Type is no whole number"),
    (constraints('<Constrain Type="2" First="9"/>'), "Constraint1: it refers to a shape that "
                                                     "isn't in the file"),
])
def test_what_is_unsound_is_left_out(tmp_path: Path, properties: str, what: str) -> None:
    path = written(tmp_path / "a.FCStd", document(properties))
    assert str(read_freecad(path)[0].left_out[0]).startswith(what)


def refused(path: Path) -> str:
    """The one line with which a file is refused."""
    with pytest.raises(FileRefusal) as refusal:
        read_freecad(path)
    line = str(refusal.value)
    assert "\n" not in line and str(path) in line
    return line


def test_a_sketch_that_a_script_made_is_one(tmp_path: Path) -> None:
    """FreeCAD calls a sketch with a script of its own by another type; the lists are the same."""
    text = document(geometry(segment(0, 0, 30, 0)))
    path = written(tmp_path / "a.FCStd", text.replace("Sketcher::SketchObject\"",
                                                      "Sketcher::SketchObjectPython\""))
    (one,) = read_freecad(path)
    assert one.name == "S" and len(one.drawing.geometry) == 1
    solution = Solution({PointRef("Line1", Which.START): (0, 0),
                         PointRef("Line1", Which.END): (31_000_000, 0)}, {})
    write_places(path, tmp_path / "b.FCStd", {"S": solution})
    (one,) = read_freecad(tmp_path / "b.FCStd")
    assert one.drawing.drawn(PointRef("Line1", Which.END)).x_um == 31000


def test_a_document_type_is_refused(tmp_path: Path) -> None:
    bomb = ('<?xml version="1.0"?><!DOCTYPE d [<!ENTITY a "aaaaaaaaaa"><!ENTITY b "&a;&a;&a;">]>'
            '<Document>&b;</Document>')
    assert "declares a document type" in refused(written(tmp_path / "a.FCStd", bomb))
    outside = '<!DOCTYPE d SYSTEM "file:///etc/passwd"><Document/>'
    assert "declares a document type" in refused(written(tmp_path / "b.FCStd", outside))


def test_a_document_of_too_many_bytes_is_refused(tmp_path: Path) -> None:
    path = tmp_path / "a.FCStd"
    with zipfile.ZipFile(path, "w", zipfile.ZIP_DEFLATED) as archive:
        with archive.open("Document.xml", "w") as member:
            member.write(b"<Document>")
            for _ in range(70):
                member.write(b" " * (1 << 20))
    assert path.stat().st_size < 1 << 20
    assert "has more than 64 MiB" in refused(path)


def test_a_sketch_of_too_many_shapes_is_refused(tmp_path: Path) -> None:
    path = written(tmp_path / "a.FCStd", document(geometry(*[segment(0, 0, 1, 1)] * 8001)))
    assert "S has more than 8000 entries in its list Geometry" in refused(path)


@pytest.mark.parametrize("name", ["../out.brp", "/etc/passwd", "a/../../b", "..\\out", "C:\\out"])
def test_a_member_that_leads_out_is_refused(tmp_path: Path, name: str) -> None:
    path = written(tmp_path / "a.FCStd", document(""))
    with zipfile.ZipFile(path, "a") as archive:
        archive.writestr(name, "x")
    assert "leads out of it" in refused(path)


def test_two_members_of_one_name_are_refused(tmp_path: Path) -> None:
    path = written(tmp_path / "a.FCStd", document(""))
    with zipfile.ZipFile(path, "a") as archive, pytest.warns(UserWarning):
        archive.writestr("Document.xml", "x")
    assert "two members of one name" in refused(path)


def test_other_files_are_refused(tmp_path: Path) -> None:
    text = tmp_path / "a.FCStd"
    text.write_text("sketch 1\nend\n")
    assert "no sound zip" in refused(text)
    assert "No such file" in refused(tmp_path / "b.FCStd")
    assert "Is a directory" in refused(tmp_path)
    assert "it has no Document.xml" in refused(written(tmp_path / "c.FCStd", "x", "other.xml"))
    assert "it is no XML" in refused(written(tmp_path / "d.FCStd", "<Document>&"))
    assert "can't be read" in refused(written(tmp_path / "e.FCStd", b"\xff\xfe\x00<"))


def test_a_damaged_zip_is_refused(tmp_path: Path) -> None:
    whole = (FILES / "plate.FCStd").read_bytes()
    path = tmp_path / "a.FCStd"
    for length in range(0, len(whole), 97):
        path.write_bytes(whole[:length])
        refused(path)
    for place in range(40, 2000, 61):
        path.write_bytes(whole[:place] + bytes([whole[place] ^ 0x5a]) + whole[place + 1:])
        try:
            read_freecad(path)
        except FileRefusal as refusal:
            assert "\n" not in str(refusal)


OUTER = [line.split() for line in (FILES / "freecad.outer").read_text().splitlines()]


@pytest.mark.parametrize("name,places", [
    ("solid", 8 * 2 + 18 * 3 + 2 * 3 + 2), ("many-faces", (36 + 27) * 2 + (24 + 18) * 3)])
def test_outer_geometry_lies_where_freecad_sees_it(name: str, places: int) -> None:
    """Solids, moved and seen from a tilted plane; FreeCAD tells 0 0 of a point that isn't there."""
    drawing = found(name, "Over").drawing
    seen = 0
    for of, _, count, position, x, y in OUTER:
        if of != name:
            continue
        outer = f"Outer{count}"
        shape = drawing.shape(outer)
        which = {"1": Which.START, "2": Which.END, "3": Which.CENTRE}[position]
        if isinstance(shape, Segment) and which is Which.CENTRE:
            continue
        if isinstance(shape, Circle) and which is not Which.CENTRE:
            continue
        ref = PointRef(outer, which if isinstance(shape, (Segment, Circle, Arc)) else Which.AT)
        place = drawing.drawn(ref)
        assert math.isclose(float(place.x_um) / 1000, float(x), abs_tol=2e-9)
        assert math.isclose(float(place.y_um) / 1000, float(y), abs_tol=2e-9)
        seen += 1
    assert seen == places and not found(name, "Over").left_out


def test_outer_geometry_of_another_sketch_and_of_a_pad() -> None:
    edge, ring = (shape for shape in found("outer", "Over").drawing.geometry if shape.outer)
    assert isinstance(edge, Segment) and isinstance(ring, Circle) and ring.radius_um == 5000
    side = next(shape for shape in found("body", "Sketch001").drawing.geometry if shape.outer)
    assert isinstance(side, Segment)
    drawing = found("body", "Sketch001").drawing
    assert drawing.drawn(PointRef("Outer1", Which.END)).x_um == 82500


@pytest.mark.parametrize("sub", ["Edge99", "Vertex0", "Face1", "", "Edge"])
def test_outer_geometry_that_is_not_there_is_left_out(tmp_path: Path, sub: str) -> None:
    link = (f'<Property name="ExternalGeometry"><LinkSubList count="1"><Link obj="S" sub="{sub}"/>'
            '</LinkSubList></Property><Property name="Shape"><Part file="PartShape.brp"/></Property>')
    with zipfile.ZipFile(FILES / "plate.FCStd") as archive:
        shape = archive.read("PartShape.brp")
    path = written(tmp_path / "a.FCStd", document(link))
    with zipfile.ZipFile(path, "a") as archive:
        archive.writestr("PartShape.brp", shape)
    assert str(read_freecad(path)[0].left_out[0]).startswith("Outer1: S has no ")


def test_a_damaged_shape_is_left_out(tmp_path: Path) -> None:
    link = ('<Property name="ExternalGeometry"><LinkSubList count="1"><Link obj="S" sub="Edge2"/>'
            '</LinkSubList></Property><Property name="Shape"><Part file="PartShape.brp"/></Property>')
    with zipfile.ZipFile(FILES / "plate.FCStd") as archive:
        shape = archive.read("PartShape.brp")
    for place in range(0, len(shape), 41):
        path = written(tmp_path / "a.FCStd", document(link))
        with zipfile.ZipFile(path, "a") as archive:
            archive.writestr("PartShape.brp", shape[:place] + b"7" + shape[place + 1:])
        one = read_freecad(path)[0]
        assert len(one.left_out) + len(one.drawing.geometry) == 1


BOX = ('<Property name="ExternalGeometry"><LinkSubList count="1">'
       '<Link obj="S" sub="Edge1"/><Link obj="S" sub="Edge1"/></LinkSubList></Property>'
       '<Property name="Shape"><Part file="S.brp"/></Property>')
BREP = """Locations {locations}
Curves 1
{curve}
TShapes 1
Ed
 1e-07 1 1 0
1  1 0 0 10
0

0101100
*

+1 0"""
IDLE = "1\n1 0 0 0\n0 1 0 0\n0 0 1 0\n"
"""A motion that moves nothing, by its matrix."""


@pytest.mark.parametrize("locations,curve,what", [
    ("0", "8 0 1 " * 5000 + "1 0 0 0 1 0 0", ""),
    ("0", "6 0 -2 0 0 0 0", "its shape isn't stored as FreeCAD stores it"),
    ("0", "7 0 0 3 -100 5 1 1 1", "its shape isn't stored as FreeCAD stores it"),
    ("0", "1 1e999 0 0 1 0 0", "one of its numbers is too large"),
    ("1 2 1", "1 0 0 0 1 0 0", "its shape isn't stored as FreeCAD stores it"),
    ("1\n1 1 0 0", "1 0 0 0 1 0 0", "its shape isn't stored as FreeCAD stores it"),
    (f"2\n{IDLE}2 1 9 0", "1 0 0 0 1 0 0", "its shape isn't stored as FreeCAD stores it"),
    (f"3\n{IDLE}2 1 2 0\n2 2 1 0", "1 0 0 0 1 0 0", "its shape isn't stored as FreeCAD stores it"),
    (f"2\n{IDLE}2 " + "1 8 1 -8 " * 200_000 + "0", "1 0 0 0 1 0 0", "has more than 50000 parts"),
    ("0", "\n" * (33 << 20), "has more than 16777216 bytes in its stored shapes"),
], ids=["nested", "negative count", "negative degree", "infinite", "cut locations", "short matrix",
        "great power", "of no matrix", "many motions", "large"])
def test_a_hostile_shape_is_left_out(tmp_path: Path, locations: str, curve: str, what: str
                                     ) -> None:
    path = written(tmp_path / "a.FCStd", document(geometry(segment(0, 0, 1, 1)) + BOX))
    with zipfile.ZipFile(path, "a", zipfile.ZIP_DEFLATED) as archive:
        archive.writestr("S.brp", BREP.format(locations=locations, curve=curve))
    (one,) = read_freecad(path)
    told = [str(each) for each in one.left_out]
    assert (len(told) == 2 and all(what in line for line in told)) if what else not told


@pytest.mark.parametrize("properties", [
    geometry(arc(1, 0).replace('Radius="', 'Radius="1.7e308" R="')),
    geometry(segment(0, 0, 1, 0), segment(0, 0, 1, 1)) + constraints(
        '<Constrain Name="" Type="9" Value="1e308" First="0" FirstPos="0" Second="1" '
        'SecondPos="0" Third="-2000" ThirdPos="0"/>'),
])
def test_numbers_beyond_all_others_are_left_out(tmp_path: Path, properties: str) -> None:
    (one,) = read_freecad(written(tmp_path / "a.FCStd", document(properties)))
    assert len(one.left_out) == 1 and not faults(one.drawing)


def test_a_file_of_any_size_is_read_where_its_document_is_small(tmp_path: Path) -> None:
    path = written(tmp_path / "a.FCStd", document(geometry(segment(0, 0, 1, 1))))
    with zipfile.ZipFile(path, "a") as archive:
        archive.writestr("PartShape.brp", bytes(65 << 20))
    assert path.stat().st_size > 64 << 20
    assert len(read_inputs(path)) == 1
    path.unlink()


def test_a_zip_of_too_many_members_is_refused(tmp_path: Path) -> None:
    path = tmp_path / "a.FCStd"
    with zipfile.ZipFile(path, "w") as archive:
        for number in range(70):
            archive.writestr(f"{number}-" + "x" * 65_000, "")
    assert "no sound zip" in refused(path)


def test_a_named_constraint_that_an_expression_uses_is_a_value() -> None:
    drawing = found("named").drawing
    assert [each.line() for each in drawing.values] == ["value width 48mm"]
    lines = [line_of(each) for each in drawing.constraints]
    assert "width: x Line1.start Line1.end +width" in lines
    assert "height: y Line2.start Line2.end +(width * 3 / 8)" in lines
    assert read_drawing(write_drawing(drawing)) == drawing
    # 64 * 3 / 8 = 24
    wider = with_values(drawing, {"width": read_expression("64mm")})
    height, = (each for each in wider.constraints if each.name == "height")
    assert isinstance(height, YDistance) and height.value_um == 24_000


def test_an_expression_in_inches_is_kept() -> None:
    lines = [line_of(each) for each in found("inches").drawing.constraints]
    assert "Constraint10: x Line1.start Line1.end +(2.5in)" in lines
    assert "Constraint11: y Line2.start Line2.end +(1.125in)" in lines


def engine(*bound: tuple[str, str]) -> Kept:
    """A sketch with three named dimensions of 40 mm, 20 mm and 30 degrees, one without a name, and
    some expressions."""
    numbers = (("long", 6, 40.0), ("deep", 6, 20.0), ("slope", 9, math.radians(30)), ("", 6, 10.0))
    dimensions = [Node("Constrain", {"Name": name, "Type": str(kind), "Value": repr(value)}, 0)
                  for name, kind, value in numbers]
    expressions = [Node("Expression", {"path": path, "expression": text}, 0)
                   for path, text in bound]
    lists = {"Constraints": Node("Property", {}, 0, [Node("ConstraintList", {}, 0, dimensions)]),
             "ExpressionEngine": Node("Property", {}, 0, [Node("E", {}, 0, expressions)])}
    return Kept("Sketch", "Sketcher::SketchObject", lists)


@pytest.mark.parametrize(("path", "text", "place", "said", "values"), [
    ("Constraints.deep", "Constraints.long / 2", 2, "long / 2", ["value long 40mm"]),
    (".Constraints.deep", ".Constraints.long / 2", 2, "long / 2", ["value long 40mm"]),
    ("Constraints[3]", "Sketch.Constraints.long / 4", 4, "long / 4", ["value long 40mm"]),
    ("Constraints[3]", "<<Plate>>.Constraints.deep / 2", 4, "deep / 2", ["value deep 20mm"]),
    ("Constraints[3]", "min(Constraints.long; Constraints.deep) - 10 mm", 4,
     "min(long, deep) - 10 mm", ["value long 40mm", "value deep 20mm"]),
    ("Constraints.long", "2 * Constraints.deep", 1, "2 * deep", ["value deep 20mm"]),
    ("Constraints[3]", "Constraints.slope * 2", 4, "slope * 2", ["value slope 30deg"]),
    ("Constraints[3]", "Spreadsheet.Width / 2", 4, None, []),
    ("Constraints[3]", "Other.Constraints.long", 4, None, []),
    ("Constraints[3]", "Constraints.gone / 2", 4, None, []),
    ("Constraints[3]", "sin(Constraints.slope) * 20 mm", 4, None, []),
    ("Placement.Base.x", "Constraints.long", 4, None, []),
])
def test_expressions_over_own_constraints_are_read_and_no_others(path, text, place, said, values):
    bound = Bound.of(engine((path, text)), "Plate")
    assert bound.expressions.get(place) == said
    assert [each.line() for each in bound.values] == values


def test_an_angle_that_freecad_counts_from_an_end_keeps_its_expression(tmp_path: Path) -> None:
    """From the x axis, as FreeCAD counts: a line to (20, 20) at 45 degrees from its end, one to
    (0, 30) at 90, and one to (-20, -20) at 225. The drawing counts from start to end, and to 180."""
    def angle(first: str, second: str, degrees: int, name: str) -> str:
        ((one, place), (other, end)) = first.split(), second.split()
        return (f'<Constrain Name="{name}" Type="9" Value="{math.radians(degrees)!r}" '
                f'First="{one}" FirstPos="{place}" Second="{other}" SecondPos="{end}"/>')

    lines = geometry(segment(0, 0, 30, 0), segment(20, 20, 0, 0), segment(0, 30, 0, 0),
                     segment(0, 0, -20, -20))
    bound = ('<Property name="ExpressionEngine"><ExpressionEngine count="2">'
             '<Expression path="Constraints.twice" expression="Constraints.slope * 2"/>'
             '<Expression path="Constraints[2]" expression="Constraints.slope * 5"/>'
             '</ExpressionEngine></Property>')
    ties = constraints(angle("0 1", "1 2", 45, "slope"), angle("0 1", "2 2", 90, "twice"),
                       angle("0 1", "3 1", 225, ""))
    (one,) = read_freecad(written(tmp_path / "a.FCStd", document(lines + ties + bound)))
    assert [line_of(each) for each in one.drawing.constraints] == [
        "slope: angle Line1 Line2 +(slope - 180deg)",
        "twice: angle Line1 Line3 +(slope * 2 - 180deg)",
        "Constraint3: angle Line1 Line4 +(slope * 5 - 360deg)"]
    assert read_drawing(write_drawing(one.drawing)) == one.drawing
    steeper = with_values(one.drawing, {"slope": read_expression("50deg")})
    assert [getattr(each, "value") for each in steeper.constraints] == [
        Degrees(Fraction(turned)) for turned in (-130, -80, -110)]


@pytest.mark.parametrize("path,text,uses", [
    ("Constraints.deep", "Constraints.long / 2", {}),
    ("Constraints.deep", "sin(Constraints.slope) * 40 mm", {"slope": "deep"}),
    ("Constraints[3]", "Spreadsheet.Width - <<Plate>>.Constraints.long", {"long": "Constraint4"}),
    ("Constraints[3]", "sin(Other.Constraints.slope) * 40 mm", {}),
    ("Placement.Base.x", "sin(Constraints.slope) * 40 mm", {}),
    ("Constraints[9]", "sin(Constraints.slope) * 40 mm", {"slope": "Constraint10"}),
])
def test_which_names_are_used_by_what_is_not_read(path: str, text: str,
                                                  uses: dict[str, str]) -> None:
    assert unread_uses(engine((path, text)), "Plate") == uses


def test_a_dimension_of_nothing_is_no_value_and_follows_from_none() -> None:
    """A distance of 0 is read as vertical, without a number. So FreeCAD alone would move it."""
    sketch = engine(("Constraints.deep", "Constraints.long - 40 mm"))
    sketch.list_of("Constraints")[1].attributes["Value"] = "0"
    assert unread_uses(sketch, "Plate") == {"long": "deep"}
    sketch = engine(("Constraints[3]", "Constraints.deep + 10 mm"))
    sketch.list_of("Constraints")[1].attributes["Value"] = "0"
    assert Bound.of(sketch, "Plate") == Bound()


@pytest.mark.parametrize("flag", ["IsActive", "IsDriving"])
def test_what_does_not_drive_the_sketch_is_no_value(flag: str) -> None:
    """A copy with another value would keep the number of a constraint that is switched off, and
    FreeCAD would take what follows from it back."""
    sketch = engine(("Constraints.deep", "Constraints.long / 2"))
    sketch.list_of("Constraints")[0].attributes[flag] = "0"
    assert Bound.of(sketch, "Plate") == Bound()


def test_values_that_are_defined_by_themselves_are_none() -> None:
    bound = Bound.of(engine(("Constraints.long", "2 * Constraints.deep"),
                            ("Constraints.deep", "Constraints.long / 2")), "Plate")
    assert bound == Bound()


def test_a_number_that_its_expression_does_not_come_to_is_kept() -> None:
    bound = Bound.of(engine(("Constraints.deep", "Constraints.long / 2")), "Plate")
    stale = Length(ShapeRef("Line1"), Fraction(21_000), "deep")
    assert bound.attached(2, stale) is stale
    fresh = replace(stale, value_um=Fraction(20_000))
    assert line_of(bound.attached(2, fresh)) == "deep: length Line1 long / 2"
