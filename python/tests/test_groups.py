"""Against which others a dimension is too many, as the program's `why` names them."""
from __future__ import annotations

import json
from pathlib import Path

import pytest

from pertxogai.commands import main
from pertxogai.drawing import read_drawing
from pertxogai.judging import CountedDrawing, judge, judge_sketch
from pertxogai.judging.groups import groups_of
from pertxogai.judging.judgement import Judgement
from pertxogai.judging.judged_drawing import JudgedDrawing
from pertxogai.judging.naming import listed, quoted
from pertxogai.output import drawing_json, drawing_lines, sketch_json, sketch_lines
from pertxogai.program import Program
from pertxogai.program.reports import Verdict, read_why
from pertxogai.search import search_judged
from pertxogai.search.searched import Searched

DRAWINGS = Path(__file__).parent / "drawings"
TRIANGLE = ("point A 0 0\npoint B 4 0\npoint C 4 3\n"
            "Base: distance A B 4\nSide: distance B C 3\nFirst: distance A C 5\n")
BRACED = ("point A 0 0\npoint B 4 0\npoint C 4 3\npoint D 0 3\n"
          "AB: distance A B 4\nAC: distance A C 5\nAD: distance A D 3\n"
          "BC: distance B C 3\nBD: distance B D 5\nCD: distance C D 4.5\n")
SLOT = ("segment Lower 35 16 66 17\narc East 64 25 Lower.end 65 34\n"
        "segment Upper East.end 36 33\narc West 35 24 Upper.end Lower.start\n"
        "tangent Lower East\ntangent East Upper\ntangent Upper West\ntangent West Lower\n"
        "equal East West\nhorizontal West East\nx West 35\ny West 25\nlength Lower 31\n")
ROW = ("point A 0 0\npoint B 50 0\npoint C 100 0\nfixed A\ny B 0\ny C 0\n"
       "Left: x A B +50\nRight: x B C +60\nWidth: x A C +100\n")


WRONG_PLATE = ("rectangle P 0 0 118 79\ncoincident PBottom.start Origin\nWidth: length PBottom 120\n"
               "Height: length PRight 80\nAgain: length PTop 120\nLeft: length PLeft 85\n")
"""The width is told twice, and two heights contradict each other; level edges and upright ones keep
what is opposite equal, and which of these are lines of the sketch the encoding decides."""


def others(judged: Judgement) -> dict[str, set[str]]:
    return {each.name: set(each.others) for each in judged.surplus}


def test_what_is_redundant_and_what_conflicts_beside_it_are_in_no_group_of_each_other(
        program: Program) -> None:
    found = others(judge(read_drawing(WRONG_PLATE), program))
    assert found["Again"] & {"Width", "Height", "Left"} == {"Width"}
    assert found["Width"] & {"Again", "Height", "Left"} == {"Again"}
    assert found["Left"] & {"Width", "Height", "Again"} == {"Height"}
    assert found["Height"] & {"Width", "Left", "Again"} == {"Left"}


def test_what_is_no_line_of_the_sketch_stands_in_for_none_of_a_group(program: Program) -> None:
    """E and R3 hold together: both circles 12. So does R1 with either of them alone."""
    found = others(judge(read_drawing(
        "circle C 0 0 10\ncircle K 40 0 10\ncoincident C.centre Origin\non K.centre XAxis\n"
        "x K.centre 40\nR1: radius C 10\nR2: diameter C 20\nE: equal C K\nR3: radius K 12\n"),
        program))
    assert found["E"] == {"R1", "R3"} and found["R3"] == {"R1", "E"}
    twice = others(judge(read_drawing(
        "rectangle P 0 0 118 79\ncoincident PBottom.start Origin\nWidth: length PBottom 120\n"
        "Height: length PRight 80\nAgain: length PTop 120\nThird: length PBottom 120\n"), program))
    assert twice["Again"] & {"Width", "Third", "Height"} in ({"Width"}, {"Third"})


def test_a_direction_that_is_no_line_of_the_sketch_is_in_the_groups_that_need_it(program: Program) -> None:
    """Without either upright side the plate could be a trapezium with two widths; without either
    level one, with two heights."""
    text = ("rectangle P 0 0 118 79\ncoincident PBottom.start Origin\nWidth: length PBottom 120\n"
            "Height: length PRight 80\nAgain: length PTop 120\n")
    upright, level = ({f"constraint {number} ({name})" for number, name in sides} for sides in (
        ((2, "vertical PRight"), (4, "vertical PLeft")),
        ((1, "horizontal PBottom"), (3, "horizontal PTop"))))
    found = others(judge(read_drawing(text), program))
    assert found["Again"] == {"Width", *upright} and found["Width"] == {"Again", *upright}
    twice = others(judge(read_drawing(text + "Left: length PLeft 82\n"), program))
    assert twice["Again"] == {"Width", *upright}
    assert twice["Left"] == {"Height", *level} and twice["Height"] == {"Left", *level}


def test_what_follows_from_what_is_no_line_of_the_sketch_alone_has_no_group_of_the_program(program: Program) -> None:
    """Of the three that tell how both level edges run, at most one is a line of the sketch, and the program leaves that
    out for none of the others."""
    found = others(judge(read_drawing(
        "rectangle P 0 0 118 79\ncoincident PBottom.start Origin\nWidth: length PBottom 120\nHeight: length PRight 80\n"
        "Again: length PTop 120\nPara: parallel PTop PBottom\n"), program))
    level = ["constraint 1 (horizontal PBottom)", "constraint 3 (horizontal PTop)", "Para"]
    assert [found[name] for name in level] == [set(), set(), set()]
    assert "Again" in found["Width"] and "Width" in found["Again"]


@pytest.mark.parametrize("size", ["radius East 8", "diameter East 16"])
@pytest.mark.parametrize("across_mm", ["16", "17"])
def test_who_gives_an_arc_its_radius_is_named_beside_its_ends(program: Program, size: str,
                                                              across_mm: str) -> None:
    """A slot is as wide as twice the radius of its ends: either tells the other."""
    found = judge(read_drawing(f"{SLOT}Round: {size}\nAcross: distance Lower Upper {across_mm}\n"),
                  program)
    assert found.verdict is Verdict.OVER
    assert others(found) == {"Round": {"the ends of East", "Across"},
                             "Across": {"the ends of East", "Round"}}


@pytest.mark.parametrize("size", ["radius C 5", "diameter C 10"])
@pytest.mark.parametrize("up_mm", ["4", "4.5"])
def test_who_gives_a_circle_its_radius_is_named_where_a_point_lies_aslant(
        program: Program, size: str, up_mm: str) -> None:
    """From 3 to the right and 4 up it is 5 to the centre: each follows from the other three."""
    found = judge(read_drawing(f"circle C Origin 5\npoint P 3 4\nRound: {size}\nOn: on P C\n"
                               f"X: x P 3\nY: y P {up_mm}\n"), program)
    names = {"Round", "On", "X", "Y"}
    assert found.verdict is Verdict.OVER
    assert others(found) == {each: names - {each} for each in names}


@pytest.mark.parametrize("last, group", [
    (("Y", "Half"), ["      follows from (by numbers): 'Y', 'X', 'All'"]), (("Half", "Y"), [])])
def test_a_group_says_all_that_a_middle_follows_from(program: Program, last: tuple[str, str],
                                                     group: list[str]) -> None:
    """Half says M's x and M's y, as X and Y do with All. The program leaves a line out of y alone, and
    what that follows from isn't what Half follows from."""
    told = {"Y": "y M 5", "Half": "midpoint M S"}
    drawing = read_drawing("segment S -20 4 20 6\npoint M 1 5\nAll: fixed S\nX: x M 0\n"
                           + "".join(f"{name}: {told[name]}\n" for name in last))
    found = judge(drawing, program)
    assert others(found)["Half"] == set() and others(found)["Y"] == {"All", "Half"}
    lines = [*drawing_lines(CountedDrawing(
        "edge", drawing, found, finding=search_judged(drawing, found, program)))]
    half = lines.index("    'Half': redundant, off by 0 nm; without it the rest is well")
    assert [line for line in lines[half + 1:half + 2] if line.startswith("      ")] == group


@pytest.mark.parametrize("again_mm", ["5", "5.01"])
def test_a_length_told_twice_follows_from_the_other(program: Program, again_mm: str) -> None:
    found = judge(read_drawing(f"{TRIANGLE}Again: distance A C {again_mm}\n"), program)
    assert found.verdict is Verdict.OVER
    assert others(found) == {"First": {"Again"}, "Again": {"First"}}


def test_the_sixth_length_of_four_points_follows_from_all_five(program: Program) -> None:
    names = {"AB", "AC", "AD", "BC", "BD", "CD"}
    found = others(judge(read_drawing(BRACED), program))
    assert found == {name: names - {name} for name in names}


def test_a_gap_contradicts_the_width_and_the_gap_on_the_other_side(program: Program) -> None:
    found = others(judge(read_drawing(ROW), program))
    assert {"Left", "Right", "Width"} <= found.keys()
    for name in "Left", "Right", "Width":
        assert {"Left", "Right", "Width"} <= found[name] | {name}


def test_what_only_holds_the_others_in_their_places_is_in_no_group(program: Program) -> None:
    """Of a plate of two widths, 1 mm apart, and upright sides the height contradicts nothing: it
    may be any."""
    plate = read_drawing((DRAWINGS / "over-plate-contradiction.drawing").read_text())
    found = others(judge(plate, program))
    assert "Top width" in found["Bottom width"] and "Bottom width" in found["Top width"]
    assert all("Height" not in each for each in found.values())


def test_what_stands_beside_is_in_no_group(program: Program) -> None:
    beside = "point E 2 -4\nAE: distance A E 4.472\nBE: distance B E 4.472\n"
    found = others(judge(read_drawing(f"{TRIANGLE}{beside}Again: distance A C 5\n"), program))
    assert found == {"First": {"Again"}, "Again": {"First"}}


PLATE = """rectangle Plate 0 0 118 79
circle Hole 47 28 5
coincident PlateBottom.start Origin
Width: length PlateBottom 120
length PlateRight 80
Left: x Hole 45
y Hole 30
diameter Hole 12
Right: distance Hole PlateRight 60
Span: length PlateTop 120
"""
"""The hole is 45 from the left edge, so 75 from the right one, 15 more than `Right` says; and `Span`
says what `Width` does."""


def test_a_repeat_and_a_contradiction_have_groups_of_their_own(program: Program) -> None:
    judged = judge(read_drawing(PLATE), program)
    found = {each.name: each for each in judged.surplus}
    for name in "Width", "Left", "Right":
        assert found[name].repeats() is False and found[name].off.amount == 15_000_000
        assert {"Width", "Left", "Right"} <= {name, *found[name].others}
        assert "Span" not in found[name].others
    assert found["Span"].repeats() is True and found["Span"].off.amount == 0
    assert "Width" in found["Span"].others
    assert {"Left", "Right"}.isdisjoint(found["Span"].others)


def test_what_is_said_by_numbers_is_said_by_the_program(program: Program) -> None:
    drawing = read_drawing(PLATE)
    surplus = {each.name: each.repeats() for each in judge(drawing, program).surplus}
    found = Searched(drawing).finding()
    (repeat,), (contradiction,) = found.repeats, found.contradictions
    assert repeat[0] == "Span" and "Width" in repeat and found.in_doubt == ()
    assert {"Right", "Left", "Width"} <= set(contradiction)
    assert surplus["Span"] and not any(surplus[name] for name in contradiction)


def test_the_group_is_told_below_the_dimension_and_in_json(program: Program) -> None:
    drawing = read_drawing(f"{TRIANGLE}Again: distance A C 5.01\n")
    judged = JudgedDrawing("it", drawing, judge(drawing, program))
    lines = list(drawing_lines(judged))
    place = next(at for at, line in enumerate(lines) if line.startswith("    'Again': conflicting, off by"))
    assert lines[place + 1] == "      conflicts with: 'First'"
    spare = {each["name"]: each["follows_from"] for each in drawing_json(judged)["spare"]}
    assert spare == {"First": ["Again"], "Again": ["First"]}


def test_a_dimension_without_a_group_of_the_program_has_that_of_the_search(
        program: Program, tmp_path: Path, capsys: pytest.CaptureFixture[str]) -> None:
    """Two widths and two upright sides contradict: each of the four conflicts with others of them,
    named by `why`, or else by the search."""
    path = str(DRAWINGS / "over-plate-contradiction.drawing")
    assert main(["judge", path, "--program", program.path]) == 1
    lines = capsys.readouterr().out.splitlines()
    names = ["constraint 2 (vertical PlateRight)", "constraint 4 (vertical PlateLeft)",
             "'Bottom width'", "'Top width'"]
    for name in names:
        (at,) = (at for at, line in enumerate(lines) if line.startswith(f"    {name}: conflicting"))
        group = lines[at + 1].partition(": ")
        assert group[0].strip() in ("conflicts with", "conflicts with (by numbers)")
        assert group[2] and set(group[2].split(", ")) <= set(names) - {name}
    assert main(["judge", "--no-search", path, "--program", program.path]) == 1
    assert "conflicts with (by numbers)" not in capsys.readouterr().out


@pytest.mark.parametrize("words", [(), ("--no-search",)], ids=["searched", "not searched"])
def test_json_has_each_group_that_the_lines_have_and_says_whose_it_is(
        words: tuple[str, ...], program: Program, capsys: pytest.CaptureFixture[str]) -> None:
    path = str(DRAWINGS / "over-plate-contradiction.drawing")
    told = ["judge", *words, path, "--program", program.path]
    assert main(told) == 1
    lines = capsys.readouterr().out.splitlines()
    assert main([*told, "--json"]) == 1
    sketch, = json.loads(capsys.readouterr().out)["sketches"]
    assert len(sketch["spare"]) == 4
    for each in sketch["spare"]:
        start = f"    {quoted(each['name'])}: conflicting"
        at = next(at for at, line in enumerate(lines) if line.startswith(start))
        head, _, group = "".join(lines[at + 1:at + 2]).strip().partition(": ")
        said = {"conflicts with": "", "conflicts with (by numbers)": ""} | {head: group}
        assert listed(each["follows_from"]) == said["conflicts with"]
        assert listed(each["follows_from_by_numbers"]) == said["conflicts with (by numbers)"]
    by_numbers = [each["name"] for each in sketch["spare"] if each["follows_from_by_numbers"]]
    assert bool(by_numbers) is (not words)  # The search alone gives such a group.


def test_a_repeat_says_that_it_repeats(program: Program, tmp_path, capsys) -> None:
    path = tmp_path / "twice.drawing"
    path.write_text(f"{TRIANGLE}Again: distance A C 5\n")
    assert main(["judge", str(path), "--program", program.path]) == 1
    assert "      follows from: 'First'" in capsys.readouterr().out.splitlines()
    main(["judge", str(path), "--json", "--program", program.path])
    sketch, = json.loads(capsys.readouterr().out)["sketches"]
    assert [each["follows_from"] for each in sketch["spare"]] == [["Again"], ["First"]]


def test_of_many_only_the_first_are_asked_for(program: Program, monkeypatch) -> None:
    """Points of which four lengths from one point are told twice."""
    text = "point O 0 0\n" + "".join(
        f"point P{number} {number} 0\ndistance O P{number} {number}\n"
        f"Again{number}: distance O P{number} {number}\n" for number in range(1, 5))
    judged = judge(read_drawing(text), program)
    numbers = {each.number: each.beside for each in judged.surplus}
    assert len(numbers) == 8 and all(each.others for each in judged.surplus)
    monkeypatch.setattr("pertxogai.judging.groups.MOST", 2)
    groups = groups_of(judged.names, program, numbers, judged.asked.check)
    assert groups.keys() == set([*numbers][:2])


def test_as_many_are_asked_for_as_are_answered_soon(program: Program, monkeypatch) -> None:
    text = TRIANGLE + "Again: distance A C 5\nOnce: distance A C 5\n"
    judged = judge(read_drawing(text), program)
    numbers, check = {each.number: () for each in judged.surplus}, judged.asked.check
    assert (len(numbers), check.constraints, check.too_many()) == (3, 5, 2)
    monkeypatch.setattr("pertxogai.judging.groups.TOGETHER", 104)  # Thrice 7 times 5 is 105.
    assert groups_of(judged.names, program, numbers, check).keys() == set([*numbers][:2])


def test_what_is_kept_stays_over_where_too_little_is_left_out() -> None:
    over = "why 1\npart 1 over elements 3 held {} due 3 : A B C\n"
    line = "c4 : distance A B 5 follows from c1\n"
    assert not read_why(over.format(4) + line).stays_over()
    assert read_why(over.format(5) + line).stays_over()
    assert not read_why("why 0\n").stays_over()


SQUARE = ("sketch 1\npoint A 0 0\npoint B 4 0\npoint C 4 3\npoint D 0 3\ndistance A B 4\n"
          "distance A C 5\ndistance A D 3\ndistance B C 3\ndistance B D 5\ndistance C D 4\nend\n")


def test_of_a_sketch_each_that_is_left_out_follows_from_others(program: Program) -> None:
    judged = judge_sketch("square", SQUARE, program)
    assert "    c6 follows from c1, c2, c3, c4, c5" in list(sketch_lines(judged))
    part, = sketch_json(judged)["excess"]
    assert [each["follows_from"] for each in part["left_out"]] == [[1, 2, 3, 4, 5]]


def test_a_sketch_that_would_take_long_is_not_asked_about(program: Program, monkeypatch) -> None:
    monkeypatch.setattr("pertxogai.judging.judged_sketch.WORK", 41)
    judged = judge_sketch("square", SQUARE, program)  # One too many of six: 7 times 6.
    assert judged.why is None and judged.excess is not None
    assert not any("follows from" in line for line in sketch_lines(judged))


ON_ONE_LINE = ("segment A 0 0 40 0\nsegment B 10 1 30 1\npoint P 20 0\ncoincident A.start Origin\nhorizontal A\n"
               "length A 40\nlength B 20\nLine: collinear A B\nFirst: midpoint P A\nOther: midpoint P B\n")
"""That B's middle lies on A is told twice. Without the line B may turn about P, without either middle it may slide."""
UPRIGHT = ("segment Left 0 0 0 40\nsegment Right 100 0 102 40\ncoincident Left.start Origin\nvertical Left\n"
           "Upright: vertical Right\nlength Left 40\nlength Right 40\nWidth: distance Left Right 100\n"
           "y Right.start 0\nFar: x Right.end 105\n")
"""Without its upright Right ends 105 from Left, and begins 100 from there."""


@pytest.mark.parametrize("text, told", [
    (ON_ONE_LINE, {name: (True, True, None) for name in ("Line", "First", "Other")}),
    (UPRIGHT, {"Upright": (False, False, {"amount": 5_000_000, "unit": "nm", "of": "Width"}),
               "Width": (False, False, None), "Far": (False, False, None)}),
])
def test_json_says_what_becomes_of_the_rest_and_what_follows_in_part(
        text: str, told: dict[str, tuple[object, ...]], program: Program, tmp_path: Path,
        capsys: pytest.CaptureFixture[str]) -> None:
    path = tmp_path / "part.drawing"
    path.write_text(text)
    assert main(["judge", str(path), "--json", "--program", program.path]) == 1
    sketch, = json.loads(capsys.readouterr().out)["sketches"]
    spare = {each["name"]: each for each in sketch["spare"] if each["name"] in told}
    assert {name: (each["in_part"], each["opens"], each["beyond"]) for name, each in spare.items()} == told
    main(["judge", str(path), "--program", program.path])
    lines = capsys.readouterr().out.splitlines()
    groups = [line for line in lines if line.startswith("      ")]
    assert {line.startswith("      in part ") for line in groups} == {each[0] for each in told.values()}


LEANING = ("segment A 0.1 0.2 8 6\nsegment B A.end 12.8 4.6\nRise: y A.start A.end +6\nAside: distance B.end A 4\n"
           "Long: length B 5\nAcross: distance A.start B.end sqrt(185)\nLow: y B.end 4.6\nx B.end 12.8\n"
           "Lean: angle A +3/4\nHigh: y A.end 6\nCorner: angle A B 4/3\n")
"""A is 10 long, rises 6, and B goes on from it, 3 along it and 4 aside."""


def test_a_line_that_several_say_gives_none_of_them_a_group_from_which_it_does_not_follow(
        program: Program) -> None:
    """Two lengths and a corner tell how A and B lie to each other, and the height of one point nothing of how both
    lean. So of these and the height of the other, or the rise and the way across, some are in the group."""
    lean = others(judge(read_drawing(LEANING), program))["Lean"]
    assert not lean or {"Low", "High"} <= lean or {"Rise", "Across"} <= lean
