"""DXF by ezdxf, read back by ezdxf."""
from __future__ import annotations

import builtins
import io
from pathlib import Path

import ezdxf
import pytest

from pertxogai.commands import main
from pertxogai.drawing import read_drawing
from pertxogai.exits import MissingLibrary
from pertxogai.output.dxf import dxf_text, marks_of
from pertxogai.output.picture import Bow, Dot, Ink, Manner, Ring, Stroke, scene_of_designed
from pertxogai.output.release import Release
from pertxogai.program import Program
from pertxogai.program.reports import CircleEntity, LineEntity, PointEntity

MARKS = (
    Dot((1, 2)),
    Ring((0, 0), 5),
    Stroke((0, 0), (1.5, 2), "", Ink(Manner.CONSTRUCTION)),
    Bow((10, 0), (15, 0), (10, 5)),
)


@pytest.mark.parametrize("release, version", [(Release.R12, "AC1009"), (Release.R2010, "AC1024")])
def test_every_kind_is_read_back(release: Release, version: str) -> None:
    document = ezdxf.read(io.StringIO(dxf_text(MARKS, release)))
    assert document.dxfversion == version and not document.audit().errors
    point, circle, line, arc = document.modelspace()
    assert tuple(point.dxf.location)[:2] == (1, 2) and point.dxf.layer == "EDGES"
    assert (tuple(circle.dxf.center)[:2], circle.dxf.radius) == ((0, 0), 5)
    assert tuple(line.dxf.start)[:2] == (0, 0) and tuple(line.dxf.end)[:2] == (1.5, 2)
    assert (
        line.dxf.layer == "CONSTRUCTION"
        and document.layers.get("CONSTRUCTION").dxf.linetype == "DASHED"
    )
    assert (arc.dxf.radius, arc.dxf.start_angle, arc.dxf.end_angle) == (5, 0, 90)


def test_a_designers_segments_and_arcs() -> None:
    """A quarter from below to the right of its centre, and the edge that ends where it starts."""
    drawing = read_drawing("segment Base 0 0 60 0\narc Bend 60 10 60 0 70 10\n")
    document = ezdxf.read(io.StringIO(dxf_text(scene_of_designed(drawing).marks)))
    line, arc = document.modelspace()
    assert tuple(line.dxf.start)[:2] == (0, 0) and tuple(line.dxf.end)[:2] == (60, 0)
    assert (arc.dxf.radius, arc.dxf.start_angle, arc.dxf.end_angle) == (10, 270, 0)
    assert tuple(arc.start_point)[:2] == pytest.approx((60, 0))
    assert tuple(arc.end_point)[:2] == pytest.approx((70, 10))


CORNERS = """point A 0 0
point B 40 0
point Middle 20 10
point Apart 20 20
point Top 1 30
segment Bottom A B
circle Hole Middle 5
construction segment Axis Middle Apart
segment Left 0 31 A
coincident A Origin
horizontal Bottom
length Bottom 40
vertical Left
length Left 30
coincident Top Left.start
x Middle 20
y Middle 10
diameter Hole 10
x Apart 20
y Apart 25
"""
"""Only Apart is a point that no edge of the part shows: a construction line alone ends in it."""


def test_a_point_in_which_an_edge_ends_or_that_is_a_centre_is_not_drawn_again(
        program: Program, tmp_path: Path) -> None:
    path, out = tmp_path / "corners.drawing", tmp_path / "corners.dxf"
    path.write_text(CORNERS)
    assert main(["draw", str(path), "-o", str(out), "--program", program.path]) == 0
    drawn = list(ezdxf.readfile(out).modelspace())
    assert sorted(each.dxftype() for each in drawn) == ["CIRCLE", "LINE", "LINE", "LINE", "POINT"]
    (point,) = (each for each in drawn if each.dxftype() == "POINT")
    assert tuple(point.dxf.location)[:2] == (20, 25) and point.dxf.layer == "EDGES"


def test_units_are_millimetres() -> None:
    document = ezdxf.read(io.StringIO(dxf_text(MARKS)))
    assert document.units == 4 and document.header["$MEASUREMENT"] == 1


@pytest.mark.parametrize("release", Release)
@pytest.mark.parametrize("mark, low, high", [
    (Dot((1, 2)), (1, 2), (1, 2)), (Ring((10, 20), 5), (5, 15), (15, 25)),
    (Stroke((3, 4), (-1, 7)), (-1, 4), (3, 7)),
    # Over the top of its circle, three quarters of it but for the left below, and less than one.
    (Bow((0, 0), (3, 4), (-3, 4)), (-3, 4), (3, 5)),
    (Bow((0, 0), (0, -5), (-5, 0)), (-5, -5), (5, 5)),
    (Bow((0, 0), (4, 3), (3, 4)), (3, 3), (4, 4)),
    # Nearly all of it: from below the right to above it, the other way round.
    (Bow((0, 0), (4, 3), (4, -3)), (-5, -5), (4, 5))])
def test_the_header_says_from_where_to_where_the_marks_reach(release, mark, low, high) -> None:
    header = ezdxf.read(io.StringIO(dxf_text([mark], release))).header
    assert tuple(header["$EXTMIN"])[:2] == pytest.approx(low)
    assert tuple(header["$EXTMAX"])[:2] == pytest.approx(high)


def test_the_programs_own_entities() -> None:
    marks = marks_of(
        [PointEntity(1_000_000, -1), LineEntity(0, 0, 5_000_000, 1), CircleEntity(0, 0, 2_500_000)]
    )
    assert marks == (Dot((1.0, -1e-6)), Stroke((0.0, 0.0), (5.0, 1e-6)), Ring((0.0, 0.0), 2.5))


def test_without_ezdxf(monkeypatch) -> None:
    def refuse(name: str, *rest, real=builtins.__import__):
        if name.startswith("ezdxf"):
            raise ImportError(name)
        return real(name, *rest)

    monkeypatch.setattr(builtins, "__import__", refuse)
    with pytest.raises(MissingLibrary, match="python3-ezdxf"):
        dxf_text(MARKS)
