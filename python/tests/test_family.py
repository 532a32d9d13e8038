"""The command `family`: a table of variants, judged, drawn, and gone on with where it stopped."""
from __future__ import annotations

import csv
import json
import subprocess
import sys
from pathlib import Path

import pytest

from pertxogai.commands import main
from pertxogai.drawing import read_drawing, write_drawing
from conftest import TOP

DRAWING = TOP / "python" / "tests" / "drawings" / "plate-by-values.drawing"
# By hand: Height = 2/3 Width and Margin = max(Width/8, 12); the holes are Margin wide, and their
# centres Margin from the sides, so they cross where Width - 2 * Margin < Margin: below 36.
SIZES = """name,Width
small,90
narrow,30
none,0
inches,4in*3
circle,Width
blank,
"""
ROWS = [
    ["name", "Width", "verdict", "good", "fault", "look"],
    ["small", "90", "well", "yes", "", ""],
    ["narrow", "30", "well", "yes", "", "West and East cross, but are drawn apart"],
    ["none", "0", "refused", "no", "constraint 6 (length PlateBottom Width): 'Width' comes to 0 mm, "
     "and that is no length, which is above 0: change a value in it", ""],
    ["inches", "4in*3", "well", "yes", "", ""],
    ["circle", "Width", "refused", "no", "value Width: 'Width' is defined by itself: Width uses "
     "Width", ""],
    ["blank", "", "well", "yes", "", ""],
]


@pytest.fixture
def sizes(tmp_path) -> Path:
    path = tmp_path / "sizes.csv"
    path.write_text(SIZES)
    return path


@pytest.fixture(autouse=True)
def asked(program, monkeypatch):
    monkeypatch.setenv("PERTXOGAI_SKETCH", program.path)


def rows_of(text: str) -> list[list[str]]:
    return list(csv.reader(text.splitlines()))


@pytest.mark.parametrize("jobs", ["1", "3"])
def test_each_variant_has_a_line(sizes, capsys, jobs):
    assert main(["family", str(DRAWING), str(sizes), "--jobs", jobs]) == 2
    told = capsys.readouterr()
    assert rows_of(told.out) == ROWS
    assert told.err == "6 variants: 4 good, 2 refused\n"


def test_what_is_good_is_drawn_at_its_size(sizes, tmp_path, capsys):
    out = tmp_path / "out"
    words = ["family", str(DRAWING), str(sizes), "-o", str(out), "--svg", "--dxf", "--jobs", "2"]
    assert main(words) == 2
    assert rows_of((out / "verdicts.csv").read_text()) == ROWS
    drawn = {path.name for path in out.iterdir()} - {"verdicts.csv", "family.json"}
    assert drawn == {f"{name}.{kind}" for name in ("small", "narrow", "inches", "blank")
                     for kind in ("svg", "dxf")}
    ezdxf = pytest.importorskip("ezdxf")
    lines = ezdxf.readfile(out / "small.dxf").modelspace().query("LINE")
    corners = {tuple(round(it, 6) for it in (end.x, end.y)) for line in lines
               for end in (line.dxf.start, line.dxf.end)}
    assert corners == {(0, 0), (90, 0), (90, 60), (0, 60)}


def test_it_goes_on_where_it_was_stopped(sizes, tmp_path, capsys):
    out = tmp_path / "out"
    words = ["family", str(DRAWING), str(sizes), "-o", str(out), "--jobs", "1"]
    main(words)
    whole = (out / "verdicts.csv").read_text()
    lines = whole.splitlines(keepends=True)
    (out / "verdicts.csv").write_text("".join(lines[:3]) + lines[3][:5])
    capsys.readouterr()
    assert main(words) == 2
    assert (out / "verdicts.csv").read_text() == whole
    assert capsys.readouterr().out == "6 variants: 2 good, 2 refused, 2 judged before\n"
    assert main(words) == 2  # Two of those that stand there were refused.
    assert capsys.readouterr().out == "6 variants: 6 judged before\n"
    sizes.write_text(SIZES.replace("small,90", "small,91"))
    assert main(words) == 2
    assert "the variant 'small' stands in verdicts.csv with other values" in capsys.readouterr().err


def test_a_folder_of_another_drawing_is_refused(sizes, tmp_path, capsys):
    out = tmp_path / "out"
    main(["family", str(DRAWING), str(sizes), "-o", str(out), "--jobs", "1"])
    other = tmp_path / "other.drawing"
    other.write_text(DRAWING.read_text().replace("Width/8", "Width/9"))
    assert main(["family", str(other), str(sizes), "-o", str(out), "--jobs", "1"]) == 2
    assert "was begun with another drawing, columns or options: take another folder" in (
        capsys.readouterr().err)
    assert json.loads((out / "family.json").read_text())["columns"] == ["Width"]


def test_what_a_file_has_more_since_then_keeps_its_folder(tmp_path, capsys):
    """No drawing says a ratio of two lengths. So the drawing stays the same, and isn't good."""
    plate = (TOP / "python" / "tests" / "files" / "plate.slvs").read_bytes()
    plate = plate.replace(b"Constraint.type=30\n",
                          b"Constraint.type=30\nConstraint.comment=Wide\n", 1)
    path, table, out = tmp_path / "plate.slvs", tmp_path / "sizes.csv", tmp_path / "out"
    path.write_bytes(plate)
    table.write_text("Wide\n70\n")
    words = ["family", str(path), str(table), "-o", str(out), "--jobs", "1"]
    assert main(words) == 0
    ratio = (b"Constraint.h.v=00000063\nConstraint.type=51\nConstraint.group.v=00000002\n"
             b"Constraint.workplane.v=80020000\nConstraint.valA=1.5\n"
             b"Constraint.entityA.v=00040000\nConstraint.entityB.v=00050000\n"
             b"AddConstraint\n\n")
    path.write_bytes(plate.replace(b"Constraint.h.v=00000001\n",
                                   ratio + b"Constraint.h.v=00000001\n", 1))
    assert main(words) == 2
    assert "was begun with another drawing" in capsys.readouterr().err
    assert main([*words[:3], "--jobs", "1"]) == 1
    assert rows_of(capsys.readouterr().out)[1][2:5] == [
        "well", "no", "left out of the file: c063-length-ratio: a drawing has no such constraint"]


def test_parts_of_a_table_make_the_whole(sizes, capsys):
    found = []
    for part in ("1/3", "2/3", "3/3"):
        main(["family", str(DRAWING), str(sizes), "--part", part, "--jobs", "1"])
        found += rows_of(capsys.readouterr().out)[1:]
    assert sorted(found) == sorted(ROWS[1:])


def test_columns_may_be_named_dimensions(tmp_path, capsys):
    drawing = tmp_path / "bar.drawing"
    drawing.write_text("segment Bar 0 0 40 0\ncoincident Bar.start Origin\nhorizontal Bar\n"
                       "Long: length Bar 40\n")
    table = tmp_path / "sizes.csv"
    table.write_text("Long\n50\n2*30\n-4\n")
    assert main(["family", str(drawing), str(table), "--jobs", "1"]) == 2
    rows = rows_of(capsys.readouterr().out)
    assert [row[:4] for row in rows[1:]] == [
        ["1", "50", "well", "yes"], ["2", "2*30", "well", "yes"], ["3", "-4", "refused", "no"]]


def test_a_cell_stands_for_what_its_line_says(tmp_path, capsys):
    drawing, table = tmp_path / "arm.drawing", tmp_path / "sizes.csv"
    drawing.write_text("value Half 30deg\nsegment S 0 0 40 0\nsegment T S.start 20 34\n"
                       "circle Hole 10 50 3\ncoincident S.start Origin\nhorizontal S\n"
                       "length S 40\nlength T 40\nLean: angle S T 60deg\nAside: x Hole +10\n"
                       "y Hole 50\nradius Hole 3\n")
    # 1/2 is a ratio, as in a line of the drawing; without a sign the hole stays where it is drawn.
    table.write_text("Lean,Aside\n1/2,8\n2*Half,-8\n95deg,+4\n40,8\n")
    out = tmp_path / "out"
    main(["family", str(drawing), str(table), "-o", str(out), "--dxf", "--jobs", "1"])
    rows = rows_of((out / "verdicts.csv").read_text())
    assert [row[4] for row in rows[1:]] == ["yes", "yes", "yes", "no"]
    assert rows[4][5] == ("variant 4: '40' is no angle: write 40deg, or a ratio such as 1/2")
    ezdxf = pytest.importorskip("ezdxf")
    at = [ezdxf.readfile(out / f"{each}.dxf").modelspace().query("CIRCLE")[0].dxf.center.x
          for each in (1, 2, 3)]
    assert [round(each, 6) for each in at] == [8, -8, 4]


@pytest.mark.parametrize("names", ["Wide,High,Deep", "Deep,High,Wide"])
def test_of_faulty_cells_the_first_is_named(names, tmp_path, capsys):
    drawing, table = tmp_path / "part.drawing", tmp_path / "sizes.csv"
    drawing.write_text("segment S 0 0 40 0\nsegment T S.end 40 30\nWide: length S 40\n"
                       "High: length T 30\nDeep: distance S.start T.end 50\n")
    table.write_text(f"{names}\none,two,three\n")
    assert main(["family", str(drawing), str(table), "--jobs", "1"]) == 2
    assert rows_of(capsys.readouterr().out)[1][6].startswith("variant 1: 'one' is no number")


def test_a_tolerance_in_a_cell_is_no_sum(tmp_path, capsys):
    # Judged as 50.2 mm, and copied as 50 mm with a tolerance, it would be two bars.
    drawing, table = tmp_path / "bar.drawing", tmp_path / "sizes.csv"
    drawing.write_text("value Wide 30\nsegment Bar 0 0 40 0\ncoincident Bar.start Origin\n"
                       "horizontal Bar\nLong: length Bar 40 +-0.1\npoint P 30 5\nx P Wide\n"
                       "y P 5\n")
    table.write_text("Long,Wide\n50 +0.2-0,\n,30 +-0.1\n50,30 + 0.2\n")
    assert main(["family", str(drawing), str(table), "--jobs", "1"]) == 2
    rows = rows_of(capsys.readouterr().out)
    assert [row[3] for row in rows[1:]] == ["refused", "refused", "well"]
    assert [row[5].partition(" is a tolerance")[0] for row in rows[1:]] == [
        "variant 1: '+0.2-0'", "variant 2: '+-0.1'", ""]


def test_a_name_of_two_things_is_no_column(tmp_path, capsys):
    drawing, table = tmp_path / "bar.drawing", tmp_path / "sizes.csv"
    drawing.write_text("value Width 120\nsegment S 0 0 40 0\ncoincident S.start Origin\n"
                       "horizontal S\nWidth: length S Width/2\n")
    table.write_text("Width\n90\n")
    assert main(["family", str(drawing), str(table), "--jobs", "1"]) == 2
    assert "the column 'Width' names a value and a dimension" in capsys.readouterr().err


def test_an_angle_told_by_its_own_value_less_half_a_turn_is_that_value(tmp_path, capsys):
    """As FreeCAD's angles are read that count from a line's end. Upright at 100 degrees, the free
    end lies at 20 cos 100 = -3.47 mm."""
    drawing, table = tmp_path / "bar.drawing", tmp_path / "sizes.csv"
    drawing.write_text("value turn 90deg\nsegment S 0 0 40 0\nsegment T 0 20 S.start\n"
                       "coincident S.start Origin\nhorizontal S\nlength S 40\nlength T 20\n"
                       "turn: angle S T +(turn - 180deg)\n")
    table.write_text("turn\n100deg\n")
    out = tmp_path / "out"
    assert main(["family", str(drawing), str(table), "-o", str(out), "--copy", "--jobs", "1"]) == 0
    capsys.readouterr()
    assert main(["judge", "--json", str(out / "1.drawing")]) == 0
    judged = json.loads(capsys.readouterr().out)
    assert judged["sketches"][0]["places"]["T"]["start"]["x_nm"] == pytest.approx(-3472964, abs=2)


def test_what_a_file_has_and_the_drawing_can_not_say_makes_none_good(tmp_path, capsys):
    path, table = TOP / "python" / "tests" / "files" / "ellipse.FCStd", tmp_path / "sizes.csv"
    out = tmp_path / "out"
    assert main(["judge", str(path)]) == 1
    table.write_text("Constraint10\n22\n")
    assert main(["family", str(path), str(table), "-o", str(out), "--dxf", "--jobs", "1"]) == 1
    (_, row) = rows_of((out / "verdicts.csv").read_text())
    assert row[3] == "no" and row[4].startswith("left out of the file: ")
    assert not (out / "1.dxf").exists()
    capsys.readouterr()
    assert main(["range", str(path)]) == 1
    assert "no ranges: the drawing isn't good: left out of the file" in (
        capsys.readouterr().out)


def test_what_had_no_answer_is_tried_again(sizes, tmp_path, capsys):
    out = tmp_path / "out"
    words = ["family", str(DRAWING), str(sizes), "-o", str(out), "--jobs", "1"]
    main(words)
    path = out / "verdicts.csv"
    whole = path.read_text()
    path.write_text(whole.replace("small,90,well,yes,,", "small,90,no answer,no,took too long,"))
    capsys.readouterr()
    assert main(words) == 2
    assert sorted(path.read_text().splitlines()) == sorted(whole.splitlines())
    assert "1 good, 5 judged before" in capsys.readouterr().out


def test_a_folder_that_is_none_is_refused(sizes, tmp_path, capsys):
    out = tmp_path / "out"
    out.write_text("no folder")
    assert main(["family", str(DRAWING), str(sizes), "-o", str(out), "--jobs", "1"]) == 2
    assert capsys.readouterr().err == f"pertxogai: {out}: can't be written: File exists\n"
    out = tmp_path / "other"
    out.mkdir()
    (out / "verdicts.csv").write_text("of another command\n")
    assert main(["family", str(DRAWING), str(sizes), "-o", str(out), "--jobs", "1"]) == 2
    assert "verdicts.csv is no table of verdicts: take another folder" in capsys.readouterr().err
    assert [each.name for each in out.iterdir()] == ["verdicts.csv"]
    assert (out / "verdicts.csv").read_text() == "of another command\n"
    assert main(["family", str(DRAWING), str(tmp_path / "gone.csv"), "--jobs", "1"]) == 2
    assert "can't be read as a table: No such file or directory" in capsys.readouterr().err


@pytest.mark.parametrize("words", [["family", str(DRAWING), "sizes.csv"], ["range", str(DRAWING)],
                                   ["complete", str(DRAWING)], ["fit", str(DRAWING)]])
def test_circles_taken_as_drawn_are_for_what_judges_alone(words, capsys):
    with pytest.raises(SystemExit) as ended:
        main([*words, "--freeze"])
    assert ended.value.code == 2
    assert "unrecognized arguments: --freeze" in capsys.readouterr().err


@pytest.mark.parametrize(("table", "told"), [
    ("name,Widht\na,3\n", "the column 'Widht' is no value and no named dimension of the drawing: it "
     "has Width, Height, Margin"),
    ("name\na\n", "the table has no columns: write the names of values in its first line"),
    ("name,Width,Width\na,3,4\n", "two columns of the table have one name"),
    ("name,Width\na,3\na,4\n", "two variants are called 'a': give each its own name"),
    ("name,Width\na,3,4\n", "the variant 'a' has 3 cells, and the table 2 columns"),
    ("name,Width\n../a,3\n", "'../a' is no name of a variant: write letters, digits and blanks, "
     "since its files are called so"),
])
def test_a_table_is_refused_by_name(tmp_path, capsys, table, told):
    path = tmp_path / "sizes.csv"
    path.write_text(table)
    assert main(["family", str(DRAWING), str(path), "--jobs", "1"]) == 2
    assert capsys.readouterr().err == f"pertxogai: {told}\n"


def test_drawings_need_a_folder(sizes, capsys):
    assert main(["family", str(DRAWING), str(sizes), "--svg"]) == 2
    assert "--svg, --dxf and --copy need a folder" in capsys.readouterr().err
    with pytest.raises(SystemExit):
        main(["family", str(DRAWING), str(sizes), "--part", "4/3"])


def test_a_copy_of_a_drawing_has_the_values(sizes, tmp_path, capsys):
    out = tmp_path / "out"
    assert main(["family", str(DRAWING), str(sizes), "-o", str(out), "--copy", "--jobs", "1"]) == 2
    lines = (out / "small.drawing").read_text().splitlines()
    assert lines == [line.replace("value Width 120", "value Width 90")
                     for line in write_drawing(read_drawing(DRAWING.read_text())).splitlines()]
    assert not (out / "none.drawing").exists()


def test_a_table_may_come_by_a_pipe(sizes, program):
    ended = subprocess.run(
        [sys.executable, "-m", "pertxogai", "family", str(DRAWING), "-", "--jobs", "1"],
        input=SIZES, capture_output=True, text=True, check=False, cwd=TOP / "python",
        env={"PERTXOGAI_SKETCH": program.path, "PATH": "/usr/bin:/bin"})
    assert rows_of(ended.stdout) == ROWS


def test_the_first_fault_is_told_by_names(tmp_path, capsys):
    drawing = tmp_path / "bar.drawing"
    bar = "value W 40\nsegment Bar 0 0 40 0\ncoincident Bar.start Origin\nhorizontal Bar\n"
    table = tmp_path / "sizes.csv"
    table.write_text("W\n50\n")
    drawing.write_text(bar + "Long: length Bar W\nEnd: x Bar.end 40\n")
    main(["family", str(drawing), str(table), "--jobs", "1"])
    (_, row) = rows_of(capsys.readouterr().out)
    assert row[:4] == ["1", "50", "over", "no"]
    assert row[4].startswith("it is over (over-constrained): remove one of ")
    assert "Long" in row[4] and "End" in row[4]
    drawing.write_text("value W 40\npoint A 0 0\npoint B 40 0\npoint C 14 20\ncoincident A Origin\n"
                       "horizontal A B\nBase: x A B 40\nFirst: distance A C W\n"
                       "Second: distance B C 35\n")
    table.write_text("W\n30\n80\n")
    assert main(["family", str(drawing), str(table), "--jobs", "1"]) == 1
    (_, good, bad) = rows_of(capsys.readouterr().out)
    assert good[2:] == ["well", "yes", "", ""]
    # 80 is more than 40 and 35 together.
    assert bad[2:4] == ["well", "no"] and bad[4].startswith("C can't be placed: ")
    assert "the distances make no triangle" in bad[4] and "First" in bad[4]


def test_a_family_of_a_freecad_file_by_its_named_constraints(tmp_path, capsys):
    ezdxf = pytest.importorskip("ezdxf")
    table, out = tmp_path / "sizes.csv", tmp_path / "out"
    table.write_text("width,hole x\n64,30\n")
    path = TOP / "python" / "tests" / "files" / "named.FCStd"
    assert main(["family", str(path), str(table), "-o", str(out), "--dxf", "--jobs", "1"]) == 0
    # Its height is its width * 3 / 8 = 24, by FreeCAD's own expression.
    shapes = ezdxf.readfile(out / "1.dxf").modelspace()
    corners = {tuple(round(it, 6) for it in (end.x, end.y)) for line in shapes.query("LINE")
               for end in (line.dxf.start, line.dxf.end)}
    assert corners == {(0, 0), (64, 0), (64, 24), (0, 24)}
    copied = tmp_path / "copies"
    main(["family", str(path), str(table), "-o", str(copied), "--copy", "--jobs", "1"])
    assert {each.name for each in copied.iterdir()} == {"1.FCStd", "family.json", "verdicts.csv"}
    assert main(["judge", str(copied / "1.FCStd")]) == 0
    (hole,) = shapes.query("CIRCLE")
    assert (round(hole.dxf.center.x, 6), round(hole.dxf.center.y, 6)) == (30, 10)
