"""Places written back into a copy of a FreeCAD file."""

import math
import os
import re
import zipfile
from fractions import Fraction
from pathlib import Path

import pytest

from pertxogai.drawing import Arc, Circle, PointRef, Which
from pertxogai.files.contents import FileRefusal
from pertxogai.files.freecad import read_freecad
from pertxogai.files.freecad.writing import write_places
from pertxogai.judging.measure import Frame, Solution

FILES = Path(__file__).parent / "files"
NAMES = sorted(path.stem for path in FILES.glob("*.FCStd") if path.stem != "empty")
NUMBER = re.compile(r'"-?[0-9]+\.[0-9]{16}"')


def moved(path: Path) -> dict[str, Solution]:
    """The places of each sketch of a file, moved by 1 mm and -2 mm, in whole nm."""
    solutions = {}
    for one in read_freecad(path):
        points = {ref: (round(one.drawing.drawn(ref).x_um * 1000) + 1_000_000,
                        round(one.drawing.drawn(ref).y_um * 1000) - 2_000_000)
                  for ref in one.drawing.points()}
        radii = {}
        for shape in one.drawing.geometry:
            if isinstance(shape, Circle):
                radii[shape.name] = round(shape.radius_um * 1000)
            elif isinstance(shape, Arc):
                ends = [points[PointRef(shape.name, which)] for which in (Which.CENTRE, Which.END)]
                radii[shape.name] = round(math.dist(*ends))
        solutions[one.name] = Solution(points, radii)
    return solutions


@pytest.mark.parametrize("name", NAMES)
def test_places_are_written_and_all_else_is_kept(tmp_path: Path, name: str) -> None:
    given, out = FILES / f"{name}.FCStd", tmp_path / "out.FCStd"
    before, solutions = given.read_bytes(), moved(given)
    write_places(given, out, solutions)
    assert given.read_bytes() == before
    with zipfile.ZipFile(given) as old, zipfile.ZipFile(out) as new:
        assert old.namelist() == new.namelist() and old.comment == new.comment
        assert [info.date_time for info in old.infolist()] == [
            info.date_time for info in new.infolist()]
        assert all(old.read(member) == new.read(member) for member in old.namelist()[1:])
        lines = [archive.read("Document.xml").decode().split("\n") for archive in (old, new)]
    for line, written in zip(*lines, strict=True):
        assert line == written or (re.search(r"<(LineSegment|Circle|ArcOfCircle|GeomPoint) ", line)
                                   and NUMBER.sub("", line) == NUMBER.sub("", written))
    for one in read_freecad(out):
        for ref, (x, y) in solutions[one.name].points.items():
            if ref.shape.startswith("Outer"):
                continue
            place = one.drawing.drawn(ref)
            assert abs(place.x_um * 1000 - x) <= 2 and abs(place.y_um * 1000 - y) <= 2


def test_a_frame_that_is_turned(tmp_path: Path) -> None:
    """The x axis runs to where y was, and the origin is at 5 7: what was printed at 5 17 is at
    10 0 then, and what was at -15 7 is at 0 20."""
    mm = 1_000_000
    points = {PointRef("Line1", Which.START): (5 * mm, 17 * mm),
              PointRef("Line1", Which.END): (-15 * mm, 7 * mm)}
    turned = Solution(points, {}, Frame((5 * mm, 7 * mm), (0, 999_999_999)))
    write_places(FILES / "plate.FCStd", tmp_path / "out.FCStd", {"Sketch": turned})
    drawing = read_freecad(tmp_path / "out.FCStd")[0].drawing
    start, end = (drawing.drawn(PointRef("Line1", which)) for which in (Which.START, Which.END))
    assert (start.x_um, start.y_um) == (10000, 0)
    assert (end.x_um, end.y_um) == (0, 20000)
    second = drawing.drawn(PointRef("Line2", Which.START))
    assert (second.x_um, second.y_um) == (60000, 0)


def test_a_third_of_a_nanometre_is_written_in_sixteen_digits(tmp_path: Path) -> None:
    points = {PointRef("Line1", Which.START): (Fraction(1, 3), 0),
              PointRef("Line1", Which.END): (-1, 10 ** 12)}
    write_places(FILES / "plate.FCStd", tmp_path / "out.FCStd", {"Sketch": Solution(points)})
    with zipfile.ZipFile(tmp_path / "out.FCStd") as archive:
        text = archive.read("Document.xml").decode()
    assert ('<LineSegment StartX="0.0000003333333333" StartY="0.0000000000000000" '
            'StartZ="0.0000000000000000" EndX="-0.0000010000000000" '
            'EndY="1000000.0000000000000000" EndZ="0.0000000000000000"/>') in text


def test_the_given_file_is_never_written(tmp_path: Path) -> None:
    given = tmp_path / "given.FCStd"
    given.write_bytes((FILES / "plate.FCStd").read_bytes())
    before = given.read_bytes()
    link, hard = tmp_path / "link.FCStd", tmp_path / "hard.FCStd"
    link.symlink_to(given)
    os.link(given, hard)
    for out in (given, link, hard, tmp_path / "." / "given.FCStd"):
        with pytest.raises(FileRefusal, match="isn't written over"):
            write_places(given, out, moved(given))
    assert given.read_bytes() == before


def test_nothing_is_left_where_it_cannot_be_written(tmp_path: Path) -> None:
    given = FILES / "plate.FCStd"
    with pytest.raises(FileRefusal, match="can't be written"):
        write_places(given, tmp_path / "none" / "out.FCStd", moved(given))
    damaged = tmp_path / "damaged.FCStd"
    damaged.write_bytes(given.read_bytes())
    with zipfile.ZipFile(damaged) as archive:
        shape = archive.getinfo("PartShape.brp").header_offset
    whole = bytearray(damaged.read_bytes())
    whole[shape + 80] ^= 0x5a
    damaged.write_bytes(bytes(whole))
    with pytest.raises(FileRefusal):
        write_places(damaged, tmp_path / "out.FCStd", moved(given))
    assert [path.name for path in tmp_path.iterdir()] == ["damaged.FCStd"]
