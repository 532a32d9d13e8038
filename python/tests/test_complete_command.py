"""The command `complete`, and what `judge` tells of what completes a drawing."""
from __future__ import annotations

import json
from pathlib import Path

import pytest

from conftest import TOP
from pertxogai import search
from pertxogai.commands import main
from pertxogai.drawing import read_drawing
from pertxogai.files.contents import Addition, FileRefusal
from pertxogai.files.drawing_text import with_lines, write_additions
from pertxogai.files.freecad import read_freecad
from pertxogai.files.solvespace import read_solvespace
from pertxogai.judging.measure import Solution

TESTS = Path(__file__).parent
PLATE = TESTS / "drawings/open-plate-without-height.drawing"


@pytest.fixture(autouse=True)
def _program(program, monkeypatch) -> None:
    monkeypatch.setenv("PERTXOGAI_SKETCH", program.path)


def told(capsys, *words: object) -> tuple[int, list[str], str]:
    """The exit status, the lines, and what stands on the other output."""
    status = main([str(word) for word in words])
    out, err = capsys.readouterr()
    return status, out.splitlines(), err


def test_the_lines_to_add_and_what_each_fixes(capsys):
    # The plate's left side is drawn 79 long; its top and right end come with it.
    status, lines, err = told(capsys, "complete", PLATE)
    assert (status, err) == (0, "")
    assert lines[0] == ("open-plate-without-height: 1 line to add, and what each fixes "
                        "(by numbers)")
    assert lines[1].startswith("  length PlateRight 79   fixes PlateRight.end")
    assert lines[2] == "  with these it is well and placed, and meets each constraint exactly"


@pytest.mark.parametrize("end, drawn", [
    # Drawn from 64, 36 to the origin, which is 73.43; beside 30 and 40 a side is less than 70.
    ("64 36", "73.43"),
    # 69.6 makes a triangle with these, and a hundredth more doesn't.
    ("60.5 34.4", "69.6"),
])
def test_a_value_that_is_not_the_drawn_one_stands_beside_that(capsys, tmp_path, end, drawn):
    path = tmp_path / "sides.drawing"
    path.write_text(f"segment A 0 0 40 0\nsegment B A.end {end}\nsegment C B.end A.start\n"
                    "length A 30\nlength B 40\n")
    _, lines, _ = told(capsys, "complete", path)
    (side,) = [line for line in lines if line.startswith("  length C ")]
    assert not side.startswith(f"  length C {drawn} ") and side.endswith(f"; drawn: length C {drawn}")


def test_what_ties_the_whole_stands_apart(capsys):
    _, lines, _ = told(capsys, "complete", TESTS / "drawings/open-plate-not-tied.drawing")
    at = lines.index("  to tie the whole to the origin and the axes:")
    assert lines[at + 1] == "  coincident PBottom.start Origin   fixes the whole"


def test_json_has_all_lines_the_verdict_and_what_each_fixes(capsys):
    path = TESTS / "drawings/open-plate-not-tied.drawing"
    _, lines, _ = told(capsys, "complete", path, "--json")
    found = json.loads("\n".join(lines))
    assert found["file"] == str(path)
    (sketch,) = found["sketches"]
    assert sketch["verdict"] == "well" and sketch["placed"] is True and sketch["why"] is None
    assert sketch["lines"][-1:] == sketch["datum"] == ["coincident PBottom.start Origin"]
    assert len(sketch["lines"]) == len(sketch["fixes"]) == 3


@pytest.mark.parametrize("name, why, ends", [
    ("plate", "nothing is missing", 0),
    ("over-triangle", "over-constrained", 1)])
def test_why_nothing_is_proposed(name, why, ends, capsys):
    status, lines, _ = told(capsys, "complete", TESTS / f"drawings/{name}.drawing")
    assert status == ends and len(lines) == 1 and why in lines[0]


@pytest.mark.parametrize("name", ["ellipse.FCStd", "curved.slvs"])
def test_of_what_its_file_leaves_out_nothing_is_good(name, capsys):
    # An ellipse, a spline: the drawing can't say it.
    status, lines, _ = told(capsys, "complete", TESTS / "files" / name)
    assert status == 1
    assert any(line.startswith("  left out of the file: ") for line in lines)
    _, lines, _ = told(capsys, "complete", TESTS / "files" / name, "--json")
    (sketch,) = json.loads("\n".join(lines))["sketches"]
    assert sketch["good"] is False and sketch["left_out"]


def test_the_drawing_with_the_lines_is_well(capsys, tmp_path):
    out = tmp_path / "out.drawing"
    assert told(capsys, "complete", PLATE, "-o", out)[0] == 0
    before, after = read_drawing(PLATE.read_text()), read_drawing(out.read_text())
    assert after.wordings == (*before.wordings, "length PlateRight 79")
    assert [note.text for note in after.notes] == [note.text for note in before.notes]
    assert told(capsys, "judge", out)[0] == 0


WRITTEN = """# a cover
value Width 120

rectangle Plate 0 0 118 79
coincident PlateBottom.start Origin   # its corner
Wide: length PlateBottom Width
circle Hole 47 28 5
  x Hole Width/2 - 15
diameter Hole 0.5in

# its height is missing"""


@pytest.mark.parametrize("end", ["\n", "\r\n"])
@pytest.mark.parametrize("last", ["", "\n", "\n\n"])
def test_a_drawing_keeps_every_line_and_the_new_ones_stand_below(end, last, capsys, tmp_path):
    # Only the height of the plate and y of the hole are missing: drawn 79 and 28.
    given, out = tmp_path / "given.drawing", tmp_path / "out.drawing"
    text = (WRITTEN + last).replace("\n", end)
    given.write_bytes(text.encode())
    assert told(capsys, "complete", given, "-o", out)[0] == 0
    below = f"length PlateRight 79{end}y Hole.centre 28{end}"
    assert out.read_bytes().decode() == text + ("" if last else end) + below
    assert told(capsys, "judge", out)[0] == 0


@pytest.mark.parametrize("text, whole", [
    (b"circle C 0 0 5", b"circle C 0 0 5\nx C 1\n"),
    (b"circle C 0 0 5\r", b"circle C 0 0 5\r\nx C 1\r\n"),
    (b"# \xff\ncircle C 0 0 5\r", b"# \xff\ncircle C 0 0 5\r\nx C 1\n")])
def test_a_last_line_without_an_end_gets_one(text, whole):
    assert with_lines(text, ["x C 1"]) == whole


def test_a_file_that_was_changed_meanwhile_is_not_copied(tmp_path):
    given, out = tmp_path / "given.drawing", tmp_path / "out.drawing"
    given.write_text("circle C 0 0 5\ndiameter C 12\n")
    completed = read_drawing("circle C 0 0 5\ndiameter C 10\non C XAxis\n")
    added = Addition(completed, completed.constraints[1:], Solution({}))
    with pytest.raises(FileRefusal, match="was changed meanwhile"):
        write_additions(given, out, {"": added})
    assert not out.exists()


@pytest.mark.parametrize("name, read", [("plate-without-height.FCStd", read_freecad),
                                        ("hinge.FCStd", read_freecad),
                                        ("loose.slvs", read_solvespace)])
def test_a_file_with_the_constraints_written_in_is_good(name, read, capsys, tmp_path):
    given, out = TESTS / "files" / name, tmp_path / name
    status, _, err = told(capsys, "complete", given, "-o", out)
    assert (status, err) == (0, "")
    (before,), (after,) = read(given), read(out)
    assert len(after.drawing.constraints) > len(before.drawing.constraints)
    assert told(capsys, "judge", out)[0] == 0


@pytest.mark.parametrize("words, why", [
    ((TOP / "examples/hinge.sketch",), "./sketch complete"),
    ((TESTS / "drawings/plate.drawing", "-o", "/tmp/none.drawing"), "nothing is proposed"),
    ((PLATE, "-o", "/tmp/none.FCStd"), "as a .drawing"),
    ((PLATE, "--sketch", "Other"), "choose one by --sketch"),
    (("nothing.drawing",), "can't be read")])
def test_what_cannot_be_done_is_told_in_one_line(words, why, capsys):
    status, lines, err = told(capsys, "complete", *words)
    assert status == 2 and why in err and err.count("\n") == 1


def test_a_missing_library_is_named(capsys, monkeypatch):
    monkeypatch.setattr(search, "find_spec", lambda name: None if name == "numpy" else name)
    status, lines, err = told(capsys, "complete", PLATE)
    assert status == 2 and lines == [] and "apt-get install python3-numpy" in err


# -- judge

def test_judge_tells_what_completes_behind_what_to_do(capsys):
    _, lines, _ = told(capsys, "judge", PLATE)
    at = next(place for place, line in enumerate(lines)
              if line.startswith("  what to do: add these lines, with which it is well"))
    assert lines[at + 1] == "    length PlateRight 79"
    _, lines, _ = told(capsys, "judge", PLATE, "--json")
    assert json.loads("\n".join(lines))["sketches"][0]["proposed"] == ["length PlateRight 79"]
    _, lines, _ = told(capsys, "judge", PLATE, "--no-search")
    assert not any("add these" in line for line in lines)


def test_judge_tells_what_a_drawing_nearly_has_where_that_is_asked_for(capsys, tmp_path):
    path = tmp_path / "edge.drawing"
    # 0.3 of 40 are 0.43 degrees; A is free to be level, B is told to lie so.
    path.write_text("segment A 0 0 40 0.3\nfixed A.start\nlength A 40\n"
                    "segment B 0 9 40 9.3\nfixed B\n")
    _, lines, _ = told(capsys, "judge", path, "--nearly")
    assert [line for line in lines if "nearly" in line][:2] == [
        "  nearly (by numbers): horizontal A, off by 0.43 degrees; no constraint says so",
        "  nearly (by numbers): horizontal B, off by 0.43 degrees; the constraints say otherwise"]
    _, lines, _ = told(capsys, "judge", path, "--nearly", "--json")
    nearly = json.loads("\n".join(lines))["sketches"][0]["nearly"]
    assert [(each["line"], each["unit"], each["is_free"]) for each in nearly[:2]] == [
        ("horizontal A", "degrees", True), ("horizontal B", "degrees", False)]
    _, lines, _ = told(capsys, "judge", path)
    assert not any("nearly" in line for line in lines)
