"""How far the places that a drawing was stored with are off, by the program's `measure`."""
from __future__ import annotations

import json
from collections.abc import Sequence
from pathlib import Path

import pytest

from pertxogai.commands import main
from pertxogai.drawing import Length, read_drawing
from pertxogai.files.kinds import DesignerDrawing, read_inputs
from pertxogai.judging import judge
from pertxogai.judging.as_stored import StoredOff, StoredOffs, as_stored
from pertxogai.judging.measure import Unit
from pertxogai.language import Refusal
from pertxogai.program import Answer, Program, Status

FILES = Path(__file__).parent / "files"
TRIANGLE = ("point A 0 0\npoint B {} 0\npoint C 4 3\n"
            "AB: distance A B 4\nAC: distance A C 5\nBC: distance B C 3\n")
PLATE = ("rectangle Plate 0 0 {} 40\ncoincident PlateBottom.start Origin\n"
         "Width: length PlateTop 60\nHeight: length PlateLeft 40\n")
EDGE = ("segment Edge 0 0 30 40\nfixed Edge.start\nx Edge.end 30\ny Edge.end 40\n"
        "point C {} 3\nGap: distance C Edge 5\nx C -4\n")


def stored(text: str, program: Program) -> StoredOffs:
    drawing = read_drawing(text)
    return as_stored(judge(drawing, program), program)


def amounts(offs: StoredOffs) -> dict[tuple[str, ...], int]:
    return {each.names: each.amount for each in offs.by_program}


def test_a_triangle_that_is_stored_as_it_is_said_holds(program: Program) -> None:
    found = stored(TRIANGLE.format("4"), program)
    assert amounts(found) == {("AB",): 0, ("AC",): 0, ("BC",): 0}
    assert (found.length_nm, found.angle_ppb) == (0, 0)


def test_places_are_taken_to_the_nanometre_and_not_the_micrometre(program: Program) -> None:
    """B lies 2 nm too far; BC is then the root of 3 mm squared and 2 nm squared, so less than a
    nanometre longer."""
    found = stored(TRIANGLE.format("4.000002"), program)
    assert amounts(found) == {("AB",): 2, ("AC",): 0, ("BC",): 1}
    assert found.length_nm == 2


def test_what_the_places_give_less_is_below_zero(program: Program) -> None:
    found = stored(TRIANGLE.format("3.9"), program)
    assert amounts(found)[("AB",)] == -100_000
    assert found.length_nm == 100_000


def test_a_plate_that_is_stored_too_wide_is_off_by_its_width_alone(program: Program) -> None:
    found = stored(PLATE.format("60.000003"), program)
    wide = [each for each in found.by_program if "Width" in each.names]
    assert wide and all(each.amount == 3 and each.unit is Unit.NM for each in wide)
    assert all(each.amount == 0 for each in found.by_program if "Width" not in each.names)


def test_a_line_runs_through_its_stored_ends(program: Program) -> None:
    """The edge runs along 3 4, so a point that is stored 4 nm further in x is 3.2 nm further from
    it, which is measured as 4."""
    found = stored(EDGE.format("-4.000004"), program)
    gap, = [each for each in found.by_program if each.names == ("Gap",)]
    assert gap.amount == 4


def test_the_first_beyond_the_limit_is_told_by_its_words(program: Program) -> None:
    """AB is 0.1 mm too long; BC, the root of 0.1 and 3 squared, is too by 1,666 nm."""
    first = stored(TRIANGLE.format("4.1"), program).first
    assert first == StoredOff(("AB",), 100_000, Unit.NM)
    assert stored(TRIANGLE.format("4"), program).first is None


@pytest.mark.parametrize("long_mm", ["10", "10.0001"])
def test_the_limit_is_the_drawings_also_where_the_sketch_is_larger(
        program: Program, long_mm: str) -> None:
    """Of 8 and 6.0001 four sines less three cosines are 0.0004 / 10.00006, which is shared out over
    7: 5,714 ppb. The second length makes the sketch ten times as large."""
    first = stored("segment A 0 0 8 6.0001\nfixed A.start\nLean: angle XAxis A 3/4\n"
                   f"Long: length A {long_mm}\n", program).first
    assert first is not None and (first.names, first.unit) == (("Lean",), Unit.PPB)
    assert abs(abs(first.amount) - 5_714) <= 1


def test_what_is_first_is_told_in_the_drawings_nanometres(program: Program) -> None:
    """4.1 in place of 4.0001 is 0.0999 mm, on a sketch that is ten times as large."""
    text = TRIANGLE.format("4.1").replace("distance A B 4\n", "distance A B 4.0001\n")
    assert stored(text, program).first == StoredOff(("AB",), 99_900, Unit.NM)


class Refusing:
    """A program that refuses what it is asked to measure: no sketch is known that is judged, and
    too long with its places."""

    def __init__(self, program: Program) -> None:
        self.program = program

    def ask(self, words: Sequence[str], text: str) -> Answer:
        if words[0] != "measure":
            return self.program.ask(words, text)
        return Answer(Status.REFUSED, "refused line 0 E20 too-long\n")


def test_a_refusal_of_the_program_is_handed_on(program: Program) -> None:
    drawing = read_drawing(TRIANGLE.format("4"))
    with pytest.raises(Refusal, match="E20 too-long"):
        as_stored(judge(drawing, program), Refusing(program))


def test_points_that_are_told_to_be_one_and_stored_apart_are_measured_here(
        program: Program) -> None:
    """The program has one point for both."""
    text = ("segment A 0 0 4 0\nsegment B 4.000007 0 4.000007 3\nJoin: coincident A.end B.start\n"
            "fixed A.start\nhorizontal A\nvertical B\nlength A 4\nlength B 3\n")
    others = {each.called(read_drawing(text)): each.amount for each in stored(text, program).others}
    assert others["Join"] == 7


def test_a_radius_that_no_line_of_the_sketch_says_is_measured_here(program: Program) -> None:
    text = "circle C 0 0 5.000001\nfixed C.centre\nSize: radius C 5\npoint A 9 0\nfixed A\n"
    found = stored(text, program)
    assert not any("Size" in each.names for each in found.by_program)
    others = {each.called(read_drawing(text)): each.amount for each in found.others}
    assert others["Size"] == 1


@pytest.mark.parametrize("name", ["plate", "bracket", "gusset", "flange", "hexagon"])
def test_lengths_in_freecads_files_are_off_as_they_are_measured(program: Program,
                                                               name: str) -> None:
    """What the program says of a length alone is what the exact measure of this package says of
    it."""
    for found in read_inputs(FILES / f"{name}.FCStd"):
        assert isinstance(found, DesignerDrawing)
        judged = judge(found.drawing, program)
        sketch = as_stored(judged, program)
        by_name = {each.names[0]: each for each in sketch.by_program if len(each.names) == 1}
        for number, constraint in enumerate(found.drawing.constraints, 1):
            off = by_name.get(found.drawing.called(number))
            if off is not None and isinstance(constraint, Length):
                shape = found.drawing.shape(constraint.segment.name)
                start, end = (found.drawing.drawn(ref) for ref in _ends(shape.name))
                square = (start.x_um - end.x_um) ** 2 + (start.y_um - end.y_um) ** 2
                given_nm = 1000 * float(square) ** 0.5
                said_nm = 1000 * float(constraint.value_um)
                assert abs(given_nm - said_nm - off.amount) <= 2


def _ends(name: str):
    from pertxogai.drawing import PointRef, Which

    return PointRef(name, Which.START), PointRef(name, Which.END)


def test_the_command_tells_it_behind_the_verdict(program: Program, tmp_path, capsys) -> None:
    path = tmp_path / "wide.drawing"
    path.write_text(TRIANGLE.format("4.1"))
    main(["judge", str(path), "--as-stored", "--program", program.path])
    lines = capsys.readouterr().out.splitlines()
    at = lines.index("  as stored, measured by the program: within 0.1 mm and 0 ppb")
    assert lines[at + 1] == "    'AB': off by 0.1 mm, more than it says"
    assert "    the first beyond the limit: 'AB', off by 0.1 mm, more than it says" in lines
    main(["judge", str(path), "--as-stored", "--json", "--program", program.path])
    sketch, = json.loads(capsys.readouterr().out)["sketches"]
    first = sketch["as_stored"]["by_program"][0]
    assert first == {"of": ["AB"], "off": 100_000, "unit": "nm", "turned": False}
    assert sketch["as_stored"]["first_beyond"] == first


def test_without_the_word_nothing_of_it_is_told(program: Program, tmp_path, capsys) -> None:
    path = tmp_path / "wide.drawing"
    path.write_text(TRIANGLE.format("4.1"))
    main(["judge", str(path), "--json", "--program", program.path])
    sketch, = json.loads(capsys.readouterr().out)["sketches"]
    assert "as_stored" not in sketch


def test_a_sketch_of_the_language_stores_no_places(program: Program, tmp_path, capsys) -> None:
    path = tmp_path / "two.sketch"
    path.write_text("sketch 1\npoint A 0 0\npoint B 3 4\ndistance A B 5\nend\n")
    assert main(["judge", str(path), "--as-stored", "--program", program.path]) == 2
    assert "stores no positions" in capsys.readouterr().err


def test_of_many_files_it_is_told_as_json(program: Program, tmp_path, capsys) -> None:
    paths = [str(tmp_path / f"{number}.drawing") for number in range(2)]
    for path in paths:
        Path(path).write_text(TRIANGLE.format("4"))
    words = ["judge", *paths, "--as-stored", "--jobs", "1", "--program", program.path]
    assert main(words) == 2
    capsys.readouterr()
    main([*words, "--json"])
    for line in capsys.readouterr().out.splitlines():
        sketch, = json.loads(line)["sketches"]
        assert sketch["as_stored"]["length_tolerance_nm"] == 0


ROUNDED = "segment A 0 0 {} {}\nfixed A.start\nA1: angle XAxis A {}\nlength A 10\n"


def test_a_word_of_which_a_line_is_rounded_is_measured_here_whole(program: Program) -> None:
    """The edge runs at the arctangent of 1/10, which is 0.2894 degrees less than six."""
    found = stored(ROUNDED.format(10, 1, "6deg"), program)
    assert not any("A1" in each.names for each in found.by_program)
    measured = {each.number: each for each in found.others}
    assert measured[2].unit is Unit.PPB and 5_000_000 < measured[2].amount < 5_100_000


def test_an_angle_that_is_exact_is_measured_by_the_program(program: Program) -> None:
    """A rise of 3 in 4, on an edge of 10 mm, is 6 mm and 8 mm."""
    found = stored(ROUNDED.format(8, 6, "3/4"), program)
    told = [each for each in found.by_program if "A1" in each.names]
    assert told and all(each.amount == 0 and not each.turned for each in told)
