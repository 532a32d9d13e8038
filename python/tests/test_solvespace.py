"""SolveSpace's files, read and written. What SolveSpace itself solved and saved is the oracle."""

from fractions import Fraction
from pathlib import Path

import pytest

from pertxogai.drawing import (
    ORIGIN, X_AXIS, Y_AXIS, AngleBetween, Arc, Circle, Coincident, Degrees, Equal, Fixed,
    Horizontal, Length, Midpoint, Pair, PointLineDistance, PointOn, PointRef, ShapeRef, Symmetric,
    Tangent, Vertical, Which, XDistance)
from pertxogai.drawing.soundness import faults
from pertxogai.drawing.wording import words_of
from pertxogai.files.contents import Addition, FileRefusal, FileSketch, NotDrivingCause
from pertxogai.files.solvespace import read_solvespace, write_solvespace
from pertxogai.files.solvespace.writing import write_additions, write_places
from pertxogai.judging.measure import Solution, Unit, greatest, measure

FILES = Path(__file__).parent / "files"
NAMES = sorted(path.stem for path in FILES.glob("*.slvs"))


def found(name: str) -> FileSketch:
    """The one sketch of a file of the stock."""
    (one,) = read_solvespace(FILES / f"{name}.slvs")
    return one


def stored(one: FileSketch) -> Solution:
    """The places that the file has, in nm."""
    points = {ref: (one.drawing.drawn(ref).x_um * 1000, one.drawing.drawn(ref).y_um * 1000)
              for ref in one.drawing.points()}
    radii = {shape.name: one.drawing.drawn_radius_um(shape.name) * 1000
             for shape in one.drawing.geometry if isinstance(shape, (Circle, Arc))}
    return Solution(points, radii)


@pytest.mark.parametrize("name", NAMES)
def test_what_solvespace_solved_meets_each_constraint(name: str) -> None:
    one = found(name)
    assert not faults(one.drawing)
    deviations = measure(one.drawing, stored(one))
    for unit in Unit:
        worst = greatest(deviations, unit)
        assert worst is None or worst.amount <= 1, worst


def test_a_plate_with_two_holes() -> None:
    one = found("plate")
    assert one.name == "g002" and one.label == "g002-sketch-in-plane"
    assert [shape.name for shape in one.drawing.geometry] == [
        "Line4", "Line5", "Line6", "Line7", "Circle8", "Circle9"]
    told = one.drawing.constraints
    assert Length(ShapeRef("Line4"), Fraction(60000), "c00a-pt-pt-distance") in told
    assert PointLineDistance(PointRef("Circle9", Which.CENTRE), ShapeRef("Line7"),
                             Fraction(45000), "c00e-pt-line-distance") in told


def test_a_touch_says_the_joint_too() -> None:
    """Four joints and four touches are four tangents at ends, each called by both names."""
    told = found("slot").drawing.constraints
    assert [each.name for each in told if isinstance(each, Tangent)] == [
        f"c00{4 + count}-arc-line-tangent and c00{count}-pts-coincident" for count in (1, 2, 3, 4)]
    assert [each.at for each in told if isinstance(each, Tangent)] == [
        Pair(PointRef("Arc4", Which.END), PointRef("Line6", Which.START)),
        Pair(PointRef("Arc4", Which.START), PointRef("Line7", Which.START)),
        Pair(PointRef("Arc5", Which.START), PointRef("Line6", Which.END)),
        Pair(PointRef("Arc5", Which.END), PointRef("Line7", Which.END))]
    assert len(told) == 9


@pytest.mark.parametrize("name,constraint", [
    ("wedge", AngleBetween(ShapeRef("Line4"), ShapeRef("Line6"), Degrees(Fraction(-150)))),
    ("parallelogram", AngleBetween(ShapeRef("Line4"), ShapeRef("Line5"), Degrees(Fraction(60)))),
    ("mirrored", Symmetric(PointRef("Line4", Which.START), PointRef("Line4", Which.END), Y_AXIS)),
    ("mirrored", PointOn(PointRef("Line4", Which.START), X_AXIS)),
    ("middle", Midpoint(PointRef("Circle9", Which.CENTRE), ShapeRef("Line8"))),
    ("pinned", Fixed(PointRef("Line4", Which.START))),
    ("offsets", XDistance(ORIGIN, PointRef("Circle4", Which.CENTRE), Fraction(22000))),
    ("offsets", PointOn(PointRef("Circle5", Which.CENTRE), Y_AXIS)),
])
def test_forms(name: str, constraint: object) -> None:
    from dataclasses import replace

    from pertxogai.drawing import Sense
    plain = [replace(each, name=None) for each in found(name).drawing.constraints]
    plain = [replace(each, sense=Sense.DRAWN) if hasattr(each, "sense") else each
             for each in plain]
    assert constraint in plain


def test_a_reference_dimension_stands_aside() -> None:
    assert [(each.number, each.why) for each in found("pinned").aside] == [(6, NotDrivingCause.REFERENCE)]


def edited(tmp_path: Path, name: str, old: bytes, new: bytes) -> Path:
    """A file of the stock of which a text of the sketch's group, or of what follows, is another."""
    head, group, rest = (FILES / f"{name}.slvs").read_bytes().partition(b"Group.h.v=00000002")
    assert old in rest
    path = tmp_path / f"{name}.slvs"
    path.write_bytes(head + group + rest.replace(old, new, 1))
    return path


def test_dimensions_of_a_group_that_takes_them_as_references_stand_aside(tmp_path: Path) -> None:
    """SolveSpace: 'treat all dimensions as reference'. By its own list of what has a label, of the
    plate these are two lengths, four distances to lines and a diameter."""
    path = edited(tmp_path, "plate", b"allDimsReference=0", b"allDimsReference=1")
    (one,) = read_solvespace(path)
    assert {(each.name.split("-", 1)[1], each.why) for each in one.aside} == {
        (word, NotDrivingCause.REFERENCE)
        for word in ("pt-pt-distance", "pt-line-distance", "diameter")}
    assert len(one.aside) == 7 and not one.left_out
    assert [words_of(said) for each in one.aside for said in each.constraints] == [
        "length Line4 60", "length Line5 40", "distance Circle8.centre Line7 15",
        "distance Circle8.centre Line4 20", "distance Circle9.centre Line7 45",
        "distance Circle9.centre Line4 20", "diameter Circle8 10"]
    assert [type(each) for each in one.drawing.constraints] == (
        4 * [Coincident] + 2 * [Horizontal, Vertical] + [Coincident, Equal])


def test_constraints_of_a_group_that_relaxes_them_stand_aside(tmp_path: Path) -> None:
    """SolveSpace: 'relax constraints and dimensions' keeps coincident points alone."""
    path = edited(tmp_path, "plate", b"relaxConstraints=0", b"relaxConstraints=1")
    (one,) = read_solvespace(path)
    assert [type(each) for each in one.drawing.constraints] == 5 * [Coincident]
    assert {each.why for each in one.aside} == {NotDrivingCause.OFF}
    assert len(one.aside) == len(found("plate").drawing.constraints) - 5


@pytest.mark.parametrize("old,new", [
    (b"Group.subtype=6000", b"Group.subtype=6001"),
    (b"Group.activeWorkplane.v=80020000", b"Group.activeWorkplane.v=00020000"),
])
def test_a_plane_by_lines_or_of_another_group_has_no_axes(tmp_path: Path, old: bytes, new: bytes
                                                          ) -> None:
    """A plane that two lines tell is turned as these are, whatever the group has of a turn; and the
    group's own turn says nothing of another plane. So neither has the reference planes as axes."""
    path = edited(tmp_path, "offsets", old, new)
    if b"activeWorkplane" in old:
        path.write_bytes(path.read_bytes().replace(
            b"Request.workplane.v=80020000", b"Request.workplane.v=00020000").replace(
            b"Constraint.workplane.v=80020000", b"Constraint.workplane.v=00020000"))
    (one,) = read_solvespace(path)
    assert [str(each) for each in one.left_out] == [
        f"c00{number}: it refers to a plane that is no axis of this drawing" for number in (
            "1-pt-plane-distance", "2-pt-plane-distance", "3-pt-in-plane")]


def test_nor_has_it_lines_along_the_axes(tmp_path: Path) -> None:
    """Each of the reference planes and of their normals, along which distances are projected."""
    (one,) = read_solvespace(edited(tmp_path, "mirrors", b"subtype=6000", b"subtype=6001"))
    assert [str(each) for each in one.left_out] == [
        *(f"c00{number}: it refers to a plane that is no axis of this drawing" for number in (
            "2-pt-plane-distance", "3-pt-plane-distance", "4-symmetric")),
        *(f"c00{number}-proj-pt-pt-distance: it is projected on a line that is no axis of this "
          "drawing" for number in (5, 6))]


def test_a_comment_says_nothing(tmp_path: Path) -> None:
    comment = (b"Constraint.h.v=00000063\nConstraint.type=1000\nConstraint.group.v=00000002\n"
               b"Constraint.workplane.v=80020000\nConstraint.comment=drill last\n"
               b"AddConstraint\n\n")
    first = b"Constraint.h.v=00000001\n"
    (one,) = read_solvespace(edited(tmp_path, "plate", first, comment + first))
    assert one.drawing == found("plate").drawing and not (one.left_out or one.aside)


def test_a_constraint_in_another_plane_is_left_out(tmp_path: Path) -> None:
    """In the yz plane a distance of two points is that of their views there: here, of their y."""
    second = b"Constraint.type=30\nConstraint.group.v=00000002\nConstraint.workplane.v="
    path = edited(tmp_path, "plate", second + b"80020000", second + b"00020000")
    (one,) = read_solvespace(path)
    assert [str(each) for each in one.left_out] == [
        "c00a-pt-pt-distance: it belongs to another plane than its sketch"]
    path = edited(tmp_path, "plate", second + b"80020000", second + b"00000000")
    assert read_solvespace(path)[0].drawing == found("plate").drawing


@pytest.mark.parametrize("plane", [b"00000000", b"00020000"], ids=["free in 3d", "the yz plane"])
def test_a_circle_that_is_drawn_elsewhere_is_left_out(tmp_path: Path, plane: bytes) -> None:
    """The second hole of the plate; and so are its two distances, and that it is as large as the
    first."""
    hole = b"Request.h.v=00000009\nRequest.type=400\nRequest.workplane.v="
    path = edited(tmp_path, "plate", hole + b"80020000", hole + plane)
    (one,) = read_solvespace(path)
    assert not one.drawing.has("Circle9")
    assert [str(each) for each in one.left_out] == [
        "r009: it isn't drawn in the plane of its sketch",
        "c00e-pt-line-distance: it refers to a point that isn't in this drawing",
        "c00f-pt-line-distance: it refers to a point that isn't in this drawing",
        "c011-equal-radius: it refers to a shape that isn't in this drawing"]


@pytest.mark.parametrize("flag", [b"allDimsReference", b"relaxConstraints"])
def test_nothing_is_added_where_it_would_not_hold(tmp_path: Path, flag: bytes) -> None:
    path = edited(tmp_path, "loose", flag + b"=0", flag + b"=1")
    (one,) = read_solvespace(path)
    addition = Addition(one.drawing, (Length(ShapeRef("Line5"), Fraction(40000)),), stored(one))
    with pytest.raises(FileRefusal, match="nothing that is added would hold"):
        write_additions(path, tmp_path / "out.slvs", {"g002": addition})
    assert not (tmp_path / "out.slvs").exists()


def test_what_a_drawing_has_not_is_named() -> None:
    assert [str(each) for each in found("curved").left_out] == [
        "r005: a drawing has no Bezier curve",
        "c004-pts-coincident: it refers to a point that isn't in this drawing"]


def test_places_are_written_and_all_else_is_kept(tmp_path: Path) -> None:
    given, out = FILES / "plate.slvs", tmp_path / "out.slvs"
    points = {PointRef("Line4", Which.START): (0, 1_500_000),
              PointRef("Line4", Which.END): (61_000_001, 0)}
    write_places(given, out, {"g002": Solution(points, {"Circle8": 6_000_000})})
    drawing = read_solvespace(out)[0].drawing
    start, end = (drawing.drawn(PointRef("Line4", which)) for which in (Which.START, Which.END))
    assert (start.x_um, start.y_um) == (0, 1500)
    assert (end.x_um, end.y_um) == (Fraction(61000001, 1000), 0)
    assert drawing.drawn_radius_um("Circle8") == 6000
    old, new = ([line for line in path.read_bytes().split(b"\n")
                 if not line.startswith(b"Param.val=")] for path in (given, out))
    assert old == new


def test_the_given_file_is_never_written(tmp_path: Path) -> None:
    given = tmp_path / "given.slvs"
    given.write_bytes((FILES / "plate.slvs").read_bytes())
    with pytest.raises(FileRefusal, match="isn't written over"):
        write_solvespace(given, given, {})
    assert given.read_bytes() == (FILES / "plate.slvs").read_bytes()


def refused(path: Path) -> str:
    """The one line with which a file is refused."""
    with pytest.raises(FileRefusal) as refusal:
        read_solvespace(path)
    line = str(refusal.value)
    assert "\n" not in line and str(path) in line
    return line


def test_other_files_are_refused(tmp_path: Path) -> None:
    magic = b"\xb1\xb2\xb3SolveSpaceREVa\n\n\n"
    path = tmp_path / "a.slvs"
    path.write_text("sketch 1\n")
    assert "no SolveSpace file" in refused(path)
    path.write_bytes(magic)
    assert "no sketch in a plane" in refused(path)
    path.write_bytes(magic + b"Param.h.v.=00040010\nParam.val=inf\nAddParam\n")
    assert "of a Param its val is no number" in refused(path)
    path.write_bytes(magic + b"Constraint.type=20\nAddConstraint\n" * 8001)
    assert "has more than 8000 constraints" in refused(path)
    assert "No such file" in refused(tmp_path / "none.slvs")


def test_a_damaged_file_is_read_or_refused(tmp_path: Path) -> None:
    whole = (FILES / "slot.slvs").read_bytes()
    path = tmp_path / "a.slvs"
    for place in range(20, len(whole), 53):
        path.write_bytes(whole[:place] + bytes([whole[place] ^ 0x15]) + whole[place + 1:])
        try:
            assert all(not faults(one.drawing) for one in read_solvespace(path))
        except FileRefusal as refusal:
            assert "\n" not in str(refusal)
