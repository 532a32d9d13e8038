"""What completes a sketch of FreeCAD's or SolveSpace's, written into a copy of its file."""
from __future__ import annotations

import re
import zipfile
from dataclasses import replace
from pathlib import Path

import pytest

from pertxogai.drawing import (
    AngleBetween, Concentric, Constraint, Diameter, Drawing, Radius, XDistance, YDistance,
    read_drawing, run_um, turn, words_of, write_drawing)
from pertxogai.files.contents import Addition, FileRefusal
from pertxogai.files.freecad.archive import DOCUMENT, open_archive, read_member
from pertxogai.files.freecad.reading import read_freecad
from pertxogai.files.freecad.shapes import number_of
from pertxogai.files.freecad.writing import write_additions as write_freecad
from pertxogai.files.solvespace.reading import read_solvespace
from pertxogai.files.solvespace.writing import write_additions as write_solvespace
from pertxogai.search.equations import Equations
from pertxogai.search.rounding import solution_of

FILES = Path(__file__).parent / "files"
OF_LINES = ["horizontal Line4", "vertical Line4", "parallel Line4 Line6",
            "perpendicular Line4 Line5", "equal Line4 Line5", "length Line4 41.25",
            "horizontal Line4.start Line6.end", "coincident Line4.start Line6.end",
            "coincident Line4.start Origin", "on Line4.start XAxis", "on Line4.start YAxis",
            "on Line4.start Line6", "x Line4.start 12.5", "y Line6.end 7",
            "x Line4.start Line6.end 9", "y Line6.start Line4.start 9",
            "distance Line4.start Line6.end 30", "distance Line4.start Line6 20",
            "angle Line4 Line5 70deg", "angle Line5 Line4 110deg"]
OF_RIMS = ["diameter Circle8 9.5", "radius Circle8 5", "equal Circle8 Circle9",
           "concentric Circle8 Circle9", "x Circle8.centre 12.5", "on Line4.start Circle8"]
FREECAD_ALONE = ["angle Line4 +30deg", "angle Line4 -30deg", "tangent Line4 Circle8",
                 "tangent Circle8 Circle9"]


def addition(drawing: Drawing, line: str) -> Addition:
    """A line as what is added to a drawing, which stays where it is drawn."""
    told = read_drawing(f"{write_drawing(drawing)}{line}\n")
    unknowns = Equations(drawing).unknowns
    return Addition(told, told.constraints[len(drawing.constraints):],
                    solution_of(unknowns, unknowns.drawn()))


def meaning(drawing: Drawing, constraint: Constraint) -> object:
    """What a constraint asks, however a file has it."""
    match constraint:
        case XDistance(first, second) | YDistance(first, second):
            run, kind = run_um(drawing, constraint), type(constraint)
            return (kind, second, first, -run) if run < 0 else (kind, first, second, run)
        case AngleBetween(first, second):
            by = turn(drawing, constraint).value
            return (second, first, -by) if by < 0 else (first, second, by)
        case Radius(rim, value_um):
            return words_of(Diameter(rim, 2 * value_um))
        case Concentric(one, other):
            return f"coincident {one}.centre {other}.centre"
    return words_of(replace(constraint, name=None))


def assert_reads_back(before: Drawing, added: Addition, after: Drawing) -> None:
    """The file has the drawing's constraints, and behind them what was added."""
    count = len(before.constraints)
    assert [words_of(each) for each in after.constraints[:count]] == list(before.wordings)
    assert [meaning(after, each) for each in after.constraints[count:]] == [
        meaning(added.drawing, each) for each in added.added]


@pytest.mark.parametrize("line", OF_LINES + OF_RIMS + FREECAD_ALONE)
def test_a_freecad_file_has_what_was_added(line, tmp_path):
    # FreeCAD's Line1 is its shape 0: those of the table are moved down to where this file has them.
    line = re.sub(r"(Line|Circle)(\d)", lambda found: f"{found[1]}{int(found[2]) - 3}", line)
    given, out = FILES / "four-holes.FCStd", tmp_path / "out.FCStd"
    (sketch,) = read_freecad(given)
    added = addition(sketch.drawing, line)
    write_freecad(given, out, {sketch.name: added})
    (after,) = read_freecad(out)
    assert_reads_back(sketch.drawing, added, after.drawing)
    with open_archive(given) as old, open_archive(out) as new:
        old_text, new_text = (read_member(path, archive, DOCUMENT).decode()
                              for path, archive in ((given, old), (out, new)))
    count = len(sketch.drawing.constraints)
    assert f'<ConstraintList count="{count}">' in old_text
    assert f'<ConstraintList count="{count + 1}">' in new_text
    assert new_text.count("<Constrain ") == old_text.count("<Constrain ") + 1


@pytest.mark.parametrize("line", OF_LINES + OF_RIMS)
def test_a_solvespace_file_has_what_was_added(line, tmp_path):
    given, out = FILES / "plate.slvs", tmp_path / "out.slvs"
    (sketch,) = read_solvespace(given)
    added = addition(sketch.drawing, line)
    write_solvespace(given, out, {sketch.name: added})
    (after,) = read_solvespace(out)
    assert_reads_back(sketch.drawing, added, after.drawing)
    numbers = re.findall(rb"Constraint\.h\.v=(\w+)", out.read_bytes())
    assert len(numbers) == len(set(numbers)) == len(sketch.drawing.constraints) + 1


@pytest.mark.parametrize("line", FREECAD_ALONE)
def test_what_solvespace_has_no_constraint_for_is_named(line, tmp_path):
    given, out = FILES / "plate.slvs", tmp_path / "out.slvs"
    (sketch,) = read_solvespace(given)
    with pytest.raises(FileRefusal) as refused:
        write_solvespace(given, out, {sketch.name: addition(sketch.drawing, line)})
    assert line in str(refused.value) and ".drawing" in str(refused.value)
    assert not out.exists()


@pytest.mark.parametrize("form", ['<ConstraintList count="0"/>', '<ConstraintList count="0" />',
                                  '<ConstraintList count="0">\n</ConstraintList>'])
def test_a_freecad_file_that_had_none_has_what_was_added(form, tmp_path):
    given, bare, out = (FILES / "free-plate.FCStd", tmp_path / "bare.FCStd", tmp_path / "out.FCStd")
    with zipfile.ZipFile(given) as old, zipfile.ZipFile(bare, "w") as new:
        for name in old.namelist():
            text = old.read(name)
            if name == DOCUMENT:
                text = re.sub(rb"<ConstraintList.*?</ConstraintList>", form.encode(), text,
                              flags=re.DOTALL)
            new.writestr(name, text)
    (sketch,) = read_freecad(bare)
    assert sketch.drawing.constraints == ()
    added = addition(sketch.drawing, "length Line1 9")
    write_freecad(bare, out, {sketch.name: added})
    (after,) = read_freecad(out)
    assert [words_of(each) for each in after.drawing.constraints] == ["length Line1 9"]


@pytest.mark.parametrize("name, number", [("Line1", 0), ("Circle15", 14), ("Outer1", -3),
                                          ("Outer12", -14)])
def test_freecads_numbers_of_shapes(name, number):
    assert number_of(name) == number
