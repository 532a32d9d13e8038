"""Damaged files and hostile ones: each is refused in one line, within 5 seconds and 500 MB, or what it
says that no drawing can have is left out by name. The files are made here."""
from __future__ import annotations

import os
import resource
import subprocess
import sys
import zipfile
from collections.abc import Callable
from pathlib import Path

import pytest

from conftest import TOP
from pertxogai.files.freecad import read_freecad
from pertxogai.files.kinds import InputRefused, read_inputs
from test_freecad import constraints, document, geometry, segment, written

MOST_SECONDS = 5
MOST_MEMORY = 500 << 20
MAGIC = b"\xb1\xb2\xb3SolveSpaceREVa\n\n\n"
JUDGE = [sys.executable, "-m", "pertxogai", "judge"]


def told(path: Path) -> str:
    """The one line by which a file is refused, in the time and the memory that it may take."""
    def limited() -> None:
        resource.setrlimit(resource.RLIMIT_AS, (MOST_MEMORY, MOST_MEMORY))

    here = {**os.environ, "PYTHONPATH": str(TOP / "python"), "OPENBLAS_NUM_THREADS": "1"}
    used = resource.getrusage(resource.RUSAGE_CHILDREN)
    done = subprocess.run([*JUDGE, str(path)], capture_output=True, text=True, env=here, preexec_fn=limited)
    spent = resource.getrusage(resource.RUSAGE_CHILDREN)
    seconds = spent.ru_utime + spent.ru_stime - used.ru_utime - used.ru_stime
    assert seconds < MOST_SECONDS, f"{seconds} s"
    assert (done.returncode, done.stdout) == (2, ""), done.stderr
    assert done.stderr.startswith("pertxogai: ") and done.stderr.count("\n") == 1, done.stderr
    return done.stderr


def packed(path: Path, text: str | bytes) -> Path:
    """A FreeCAD file with this document, which is large: packed quickly."""
    return written(path / "a.FCStd", text, level=1)


def nested(path: Path) -> Path:
    return packed(path, "<a>" * 120_000 + "</a>" * 120_000)


def many_objects(path: Path) -> Path:
    objects = '<Object name="S"/>' * 2_700_000
    return packed(path, f"<Document><Objects>{objects}</Objects></Document>")


def one_long_tag(path: Path) -> Path:
    attributes = " ".join(f'a{count}=""' for count in range(4_000_000))
    return packed(path, f"<Document {attributes}/>")


def many_elements(path: Path) -> Path:
    return packed(path, "<Document>" + "<a/>" * 15_000_000 + "</Document>")


def add_groups(path: Path) -> Path:
    (path / "a.slvs").write_bytes(MAGIC + b"AddGroup\n" * 6_000_000)
    return path / "a.slvs"


def many_records(path: Path) -> Path:
    (path / "a.slvs").write_bytes(MAGIC + b"AddRequest\n" * 900_000)
    return path / "a.slvs"


def line_feeds(suffix: str, begin: bytes = b"") -> Callable[[Path], Path]:
    """60 MB of line feeds."""
    def made(path: Path) -> Path:
        (path / f"a{suffix}").write_bytes(begin + b"\n" * 60_000_000)
        return path / f"a{suffix}"
    return made


def zipped_line_feeds(path: Path) -> Path:
    return packed(path, b"\n" * 60_000_000)


def lines_of_dxf(path: Path, count: int) -> Path:
    lines = "".join(f"0\nLINE\n8\n0\n10\n{k}.0\n20\n0.0\n11\n{k}.5\n21\n3.0\n" for k in range(count))
    (path / "a.dxf").write_text(f"0\nSECTION\n2\nENTITIES\n{lines}0\nENDSEC\n0\nEOF\n")
    return path / "a.dxf"


def many_lines(path: Path) -> Path:
    return lines_of_dxf(path, 200_000)


def some_lines(path: Path) -> Path:
    return lines_of_dxf(path, 8_001)


def cut_header(path: Path) -> Path:
    (path / "a.dxf").write_text("0\nSECTION\n2\nHEADER\n9\n$ACADVER\n1\n")
    return path / "a.dxf"


def utf_7(path: Path) -> Path:
    return packed(path, '<?xml version="1.0" encoding="utf-7"?><Document/>')


def broken(path: Path) -> Path:
    return packed(path, document(geometry())[:-20])


@pytest.mark.parametrize("made,why", [
    (nested, "nests more than 64 elements"),
    (many_objects, "has more than 50000 objects"),
    (one_long_tag, "a tag of more than 1048576 bytes"),
    (many_elements, "has more than 1000000 XML elements"),
    (add_groups, "has more than 32 MiB"),
    (many_records, "has more than 8000 shapes"),
    (line_feeds(".sketch"), "E20"),
    (line_feeds(".drawing"), "has more than 1 MiB"),
    (line_feeds(".slvs", MAGIC), "has more than 32 MiB"),
    (line_feeds(".dxf"), "has more than 16 MiB"),
    (line_feeds(".FCStd"), "no sound zip"),
    (zipped_line_feeds, "it is no XML"),
    (many_lines, "has more than 100000 pairs of lines"),
    (some_lines, "has more than 8000 shapes"),
    (cut_header, "no sound DXF file: save it as DXF again"),
    (utf_7, "has an encoding that isn't read: save it by FreeCAD again"),
    (broken, "it is no XML (unclosed token: line 1, column"),
])
def test_a_hostile_file_is_refused(tmp_path: Path, made: Callable[[Path], Path], why: str) -> None:
    assert why in told(made(tmp_path))


def test_xml_that_is_broken_says_what_to_do(tmp_path: Path) -> None:
    assert told(broken(tmp_path)).endswith("): save it by FreeCAD again\n")


def test_a_refused_sketch_names_its_path(tmp_path: Path) -> None:
    path = tmp_path / "a.sketch"
    path.write_text("sketch 1\npoint A 0\nend\n")
    assert told(path).startswith(f"pertxogai: {path}: refused line 2 E3 ")


@pytest.mark.parametrize("suffix", [".sketch", ".drawing", ".FCStd", ".slvs", ".dxf", ".other"])
def test_a_control_character_of_a_name_is_shown(tmp_path: Path, suffix: str) -> None:
    path = tmp_path / f"red\x1b[31m\x07{suffix}"
    path.write_bytes(b"nothing")
    line = told(path)
    assert "red\\x1b[31m\\x07" in line and line.rstrip("\n").isprintable()


def test_a_name_is_shown_where_its_file_is_judged(tmp_path: Path) -> None:
    path = tmp_path / "a\x1bb.drawing"
    path.write_text("point A 0 0\n")
    (found,) = read_inputs(path)
    assert found.name == "a\\x1bb"


def test_a_device_that_never_ends_is_refused(tmp_path: Path) -> None:
    path = tmp_path / "a.drawing"
    path.symlink_to("/dev/zero")
    with pytest.raises(InputRefused, match="has more than 1 MiB"):
        read_inputs(path)


BROKEN_ARC = ('<Geometry type="Part::GeomArcOfCircle" id="1"><ArcOfCircle CenterX="0" CenterY="0" CenterZ="0" '
              'NormalX="0" NormalY="0" NormalZ="1" AngleXU="1e308" Radius="5" StartAngle="1e308" EndAngle="2"/>'
              '</Geometry>')


def test_an_arc_at_angles_beyond_all_numbers_is_left_out(tmp_path: Path) -> None:
    (one,) = read_freecad(packed(tmp_path, document(geometry(segment(0, 0, 1, 1), BROKEN_ARC))))
    assert [str(each) for each in one.left_out] == ["Arc2: one of its numbers is too large"]


def test_a_type_that_is_no_number_is_left_out(tmp_path: Path) -> None:
    said = constraints('<Constrain Name="" Type="--5" Value="0" First="0" FirstPos="0" Second="-2000" '
                       'SecondPos="0" Third="-2000" ThirdPos="0"/>')
    (one,) = read_freecad(packed(tmp_path, document(geometry(segment(0, 0, 1, 1)) + said)))
    assert [str(each) for each in one.left_out] == ["Constraint1: its Type is no whole number"]


def test_a_zip_bomb_is_refused(tmp_path: Path) -> None:
    path = tmp_path / "a.FCStd"
    with zipfile.ZipFile(path, "w", zipfile.ZIP_DEFLATED, compresslevel=1) as archive:
        with archive.open("Document.xml", "w") as member:
            for _ in range(200):
                member.write(bytes(1 << 20))
    assert "Document.xml has more than 64 MiB" in told(path)

