"""What `judge` tells of a drawing that isn't well: by numbers, and by whom."""

from __future__ import annotations

import json
from pathlib import Path

import pytest

from pertxogai import search
from pertxogai.commands import main
from pertxogai.program import Program
from pertxogai.search import constructing
from pertxogai.search.searched import Searched
from shared_drawings import SHRUNKEN_TRIANGLE

TESTS = Path(__file__).parent
KEYS = {"freedoms", "moves", "chosen", "only_measured", "repeats", "contradictions", "places_by"}


@pytest.fixture(autouse=True)
def _program(program, monkeypatch) -> None:
    monkeypatch.setenv("PERTXOGAI_SKETCH", program.path)


def lines_of(capsys, name: str, *words: str) -> list[str]:
    main(["judge", str(TESTS / f"{name}.drawing"), *words])
    return capsys.readouterr().out.splitlines()


def json_of(capsys, name: str, *words: str) -> dict:
    (sketch,) = json.loads("\n".join(lines_of(capsys, name, "--json", *words)))["sketches"]
    return sketch


def test_what_is_well_is_told_as_before_and_not_searched(capsys, monkeypatch):
    monkeypatch.setattr(search, "check_libraries", None)  # It would be called, and fail.
    found = json_of(capsys, "drawings/plate")
    assert found["freedoms"] is None and found["places_by"] == "program"
    for key in ("moves", "free_radii", "chosen", "only_measured", "contradictions"):
        assert found[key] == []
    assert lines_of(capsys, "drawings/plate") == lines_of(capsys, "drawings/plate", "--no-search")


def test_what_is_open_has_a_count_places_and_who_says_so(capsys):
    found = json_of(capsys, "drawings/open-hole-without-y")
    assert KEYS <= found.keys()
    assert found["verdict"] == "open" and found["good"] is False
    assert found["freedoms"] == {"count": 1, "of_the_whole": 0, "doubtful": False}
    assert found["moves"] == [{"point": "Hole.centre", "dx": 0.0, "dy": 1.0}]
    assert found["places_by"] == "program"
    assert found["chosen"] == ["y Hole.centre +28"] and found["only_measured"] == []
    # By hand: the plate of 120 by 80 stands on the origin, and the hole is 45 from it.
    assert found["places"]["Hole"]["centre"] == {"x_nm": 45_000_000, "y_nm": 28_000_000}
    assert found["places"]["PlateTop"]["start"] == {"x_nm": 120_000_000, "y_nm": 80_000_000}
    assert [each["amount"] for each in found["deviations"]] == [0, 0]


def test_the_first_line_tells_the_degrees_of_freedom(capsys):
    first, *rest = lines_of(capsys, "drawings/open-hinge")
    assert first.startswith("open-hinge: open (under-constrained, or rigid in a way not found), "
                            "4 degrees of freedom (by numbers), encoding ")
    assert "  of the degrees of freedom 3 move the whole sketch (by numbers)" in rest
    assert any(line.startswith("  constructed by the program with chosen values: ") for line in rest)
    assert any(line.startswith("  can still move (by numbers): Door.end along ") for line in rest)


def test_what_is_rigid_beyond_triangles_is_constructed_with_a_word_only_measured(capsys):
    found = json_of(capsys, "beyond_triangles/sangaku-two-equal-circles-and-a-square")
    assert found["freedoms"] == {"count": 0, "of_the_whole": 0, "doubtful": False}
    assert found["places_by"] == "program"
    assert len(found["only_measured"]) == len(found["chosen"]) == 1
    # By hand: r = 3924 / 240.
    assert found["places"]["C1"]["radius_nm"] == pytest.approx(16_350_000, abs=2)


def test_what_takes_three_drawings_is_constructed_whatever_the_time(capsys, monkeypatch):
    monkeypatch.setattr(constructing, "MOST_SECONDS", 0.0)
    found = json_of(capsys, "beyond_triangles/sangaku-two-equal-circles-and-a-square")
    assert found["places_by"] == "program"


def test_a_circle_that_equals_one_from_outside_is_constructed_beside_what_is_rigid(
        capsys, tmp_path):
    # The equal circles in the square are rigid by more than triangles. Beside them stands a circle as
    # large as one that is given from outside: it has no column, and is no edge with a length.
    square = (TESTS / "beyond_triangles/sangaku-two-equal-circles-and-a-square.drawing").read_text()
    (tmp_path / "given.drawing").write_text(
        "outer circle Given 100 20 5\ncircle Own 130 20 4\nequal Given Own\n"
        f"x Own.centre 130\ny Own.centre 20\n{square}")
    main(["judge", "--json", str(tmp_path / "given.drawing")])
    (found,) = json.loads(capsys.readouterr().out)["sketches"]
    assert (found["freedoms"]["count"], found["places_by"]) == (0, "program")
    assert found["places"]["Own"]["radius_nm"] == pytest.approx(5_000_000, abs=2)
    assert found["places"]["C1"]["radius_nm"] == pytest.approx(16_350_000, abs=2)


def test_what_repeats_in_what_is_over_is_a_group_with_the_latest_first(capsys):
    found = json_of(capsys, "drawings/over-hole-row")
    assert found["verdict"] == "over"
    assert found["repeats"] == [["Total", "Second", "First"]]
    assert found["contradictions"] == []
    assert found["places_by"] == "numbers" and found["places"]["C"]["centre"]["x_nm"] == 70_000_000


def test_what_contradicts_is_told_and_has_no_places(capsys):
    found = json_of(capsys, "drawings/over-plate-contradiction")
    (group,) = found["contradictions"]
    assert group[:2] == ["Top width", "Bottom width"]
    assert found["places"] is None and found["places_by"] is None
    assert found["freedoms"]["doubtful"] is True


def test_a_contradiction_in_what_is_open_is_told(capsys, tmp_path):
    # Two triangles with nothing between them: the sides of the second can't be met.
    (tmp_path / "two.drawing").write_text(
        "segment A 0 0 40 0\nsegment B A.end 0 30\nsegment C B.end A.start\n"
        "length A 40\nlength B 50\nlength C 30\n"
        "segment D 60 0 90 0\nsegment E D.end 60 40\nsegment F E.end D.start\n"
        "One: length D 30\nTwo: length E 100\nThree: length F 40\n")
    main(["judge", str(tmp_path / "two.drawing")])
    out = capsys.readouterr().out
    assert "  can't all be met (by numbers): 'Three', 'Two', 'One'" in out.splitlines()


def test_an_open_drawing_is_searched_once_and_nothing_is_asked_twice(capsys, monkeypatch):
    searched, asked = [], []
    begin, ask = Searched.__init__, Program.ask

    def searching(self, drawing, *seconds):
        searched.append(drawing)
        begin(self, drawing, *seconds)

    def asking(self, words, text):
        asked.append((tuple(words), text))
        return ask(self, words, text)

    monkeypatch.setattr(Searched, "__init__", searching)
    monkeypatch.setattr(Program, "ask", asking)
    assert json_of(capsys, "drawings/open-hinge")["proposed"]
    constraints = min(len(each.constraints) for each in searched)
    assert sum(len(each.constraints) == constraints for each in searched) == 1
    assert len(asked) == len(set(asked))


def test_where_edges_have_come_to_nothing_the_search_asks_the_program_nothing(
        capsys, monkeypatch, tmp_path):
    path, asked, ask = tmp_path / "triangle.drawing", [], Program.ask
    path.write_text(SHRUNKEN_TRIANGLE)

    def asking(self, words, text):
        asked.append((tuple(words), text))
        return ask(self, words, text)

    monkeypatch.setattr(Program, "ask", asking)
    main(["judge", "--no-search", str(path)])
    alone = len(asked)
    capsys.readouterr()
    main(["judge", "--json", str(path)])
    (found,) = json.loads(capsys.readouterr().out)["sketches"]
    assert (found["verdict"], found["places_by"], found["proposed"]) == ("open", "numbers", [])
    assert len(asked) == 2 * alone


def test_without_a_search_nothing_is_counted(capsys):
    found = json_of(capsys, "drawings/open-hinge", "--no-search")
    assert found["freedoms"] is None and found["places"] is None and found["places_by"] is None
    assert not any("by numbers" in line
                   for line in lines_of(capsys, "drawings/open-hinge", "--no-search"))


def test_a_missing_library_is_named_and_all_else_is_told(capsys, monkeypatch):
    monkeypatch.setattr(search, "find_spec", lambda name: None if name == "scipy" else name)
    told = lines_of(capsys, "drawings/open-hinge")
    lacks = "  not told: degrees of freedom, what can still move, and what is redundant or conflicting by numbers"
    line = told[told.index(lacks) + 1]
    assert "scipy" in line and "apt-get install python3-scipy" in line and "numpy" not in line
    assert told[0].startswith("open-hinge: open (under-constrained, or rigid in a way not found), encoding ")
