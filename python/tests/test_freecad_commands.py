"""The work of each command of FreeCAD's add-on, done in FreeCAD's console on files of the stock.
Passed over where FreeCAD isn't installed (Debian's `freecad`)."""
from __future__ import annotations

import hashlib
import json
import os
import re
import shutil
import sys
from importlib.util import find_spec
from pathlib import Path
from typing import Any

import pytest

from addon import ADDON, CHECKS, CONSOLE, FILES, Installed
from conftest import TOP
from pertxogai import __version__
from pertxogai.program import Program

sys.path.insert(0, str(TOP / "tools"))
from packing.addon import make_addon  # noqa: E402
from packing.made import Made  # noqa: E402

pytestmark = [
    pytest.mark.freecad,
    pytest.mark.skipif(CONSOLE is None, reason="Debian's freecad isn't installed")]

WELL = "Sketch is well (fully constrained)"
OPEN = "Sketch is open (under-constrained, or rigid in a way not found)"
CHANGED = "the sketch was changed since: judge it again"
NOON = 1764331200
"""28 November 2025, 12:00, in seconds since 1970."""
HAS_RANGES = find_spec("pertxogai.ranging") is not None
SOLVED = [0, True]
"""FreeCAD's own solver has solved it, and calls it fully constrained."""


@pytest.fixture(scope="module")
def told(program: Program, tmp_path_factory: pytest.TempPathFactory) -> dict[str, Any]:
    """The facts of each check."""
    here = Installed.by_link(tmp_path_factory.mktemp("home"))
    here.copy(*(each.stem for each in FILES.glob("*.FCStd")))
    out = here.home / "told"
    ended = here.console(CHECKS / "addon_check.py", TOLD=str(out), PERTXOGAI_SKETCH=program.path)
    assert out.exists(), ended.all
    found: dict[str, Any] = json.loads(out.read_text())
    for facts in found.values():
        assert "error" not in facts, facts["error"]
    return found


def test_a_plate_is_judged_constraint_by_constraint(told: dict[str, Any]) -> None:
    plate = told["judge plate"]
    assert plate["headline"] == WELL and plate["good"]
    assert plate["freedoms"] == "0 degrees of freedom (by numbers)"
    assert plate["tolerance"] == "placed within 0 nm and 0 ppb"
    # Four corners, four directions, the pin, two sizes, and three dimensions of each hole.
    assert [row[0] for row in plate["rows"]] == list(range(17))
    assert {(row[3], row[4]) for row in plate["rows"]} == {("0 nm", "holds")}
    assert plate["rows"][4][1:3] == ["Constraint5", "horizontal Line1"]


def test_what_is_left_out_is_told_by_the_constraint(told: dict[str, Any]) -> None:
    plate = told["judge ellipse"]
    assert not plate["good"] and len(plate["rows"]) == 16
    assert [row[4] for row in plate["rows"]] == ["holds"] * 11 + ["left out"] * 5
    assert plate["rows"][15][1:3] == ["Constraint16", "it refers to Ellipse5, which is left out"]


def test_an_open_plate_has_its_freedom_counted(told: dict[str, Any]) -> None:
    plate = told["judge plate-without-height"]
    assert plate["headline"] == OPEN and not plate["good"]
    assert plate["freedoms"] == "1 degree of freedom (by numbers)"
    assert plate["tolerance"] == "not placed by the program"


@pytest.mark.parametrize("name", ["plate", "ellipse", "plate-without-height"])
def test_judging_changes_nothing(name: str, told: dict[str, Any]) -> None:
    facts = told[f"judge {name}"]
    assert facts["unchanged"] and facts["undo"] == [] and facts["file"] == f"{name}.FCStd"


@pytest.mark.parametrize("name,standing,off", [
    ("twice", "redundant", "0 nm"), ("contradiction", "conflicting", "5 mm")])
def test_what_may_go_goes_and_comes_back(name: str, standing: str, off: str,
                                         told: dict[str, Any]) -> None:
    """Two widths, 60 and 60 or 55 mm, and the two upright sides between them: any may go."""
    facts = told[f"repair {name}"]
    each = [standing, off, "fully constrained", "by rank, and tried by the program"]
    assert facts["told"] == dict.fromkeys(["above", "below", "Constraint6", "Constraint8"], each)
    assert facts["untouched"] and facts["wrong"] == "constraint 1 isn't removable"
    assert facts["left"] == [11, False] and facts["says"] == SOLVED and facts["then"] == WELL
    assert facts["undo"] == ["Remove above (Pertxogai)"] and facts["undone"]
    assert facts["stale"] == CHANGED


def test_what_moves_with_a_repair_comes_back_with_it(told: dict[str, Any]) -> None:
    """A plate that is drawn 60 mm wide, of which 55 mm are left."""
    assert told["repair_moves width"] == {"widths": [60, 55, 60], "undone": True}


def test_what_others_follow_from_stays(told: dict[str, Any]) -> None:
    """By expressions of the sketch itself, of a box and of a cell; another sketch has a `below`
    of its own."""
    facts = told["repair_followed width"]
    stays = "it can't be removed while Constraint11, Box.Length, Sheet.A1 follow from it"
    assert facts["stays"] == {"above": stays, "below": "", "Constraint6": "", "Constraint8": ""}
    assert facts["trouble"] == f"above: {stays}: give that a number first, or remove another"
    assert facts["same"]


def test_what_another_open_document_follows_from_stays(told: dict[str, Any]) -> None:
    assert told["repair_linked width"] == {
        "above": ["other#Box.Length", "other#Sheet.A1"], "below": ["Constraint11"]}
    assert told["repair_linked alone"] == {"above": [], "below": ["Constraint11"]}


def test_what_says_two_things_is_tried_as_a_whole(told: dict[str, Any]) -> None:
    """A tangency at an end has the end on the circle, and the line along it there. That is said
    once more of the end, and without the tangency the line may turn."""
    facts = told["repair_in_part tangency"]
    assert facts["told"]["Constraint3"] == [
        "redundant in part", "", "under-constrained", "by rank, and tried by the program"]
    assert facts["then"] == OPEN


def test_what_would_leave_a_corner_open_comes_last_and_says_so(told: dict[str, Any]) -> None:
    """With the second width, the second height and the equality gone, the rectangle needs each of
    its corners."""
    rest = told["repair_opening corner"]["rest"]
    over = "still over-constrained"
    corners = [[f"Constraint{number}", f"{over}, and under-constrained once enough is removed"]
               for number in (1, 2, 3, 4)]
    assert rest[-4:] == corners
    assert {each for _, each in rest[:-4]} == {over} and len(rest) > 6


def test_a_rest_that_is_not_good_is_told_as_that(told: dict[str, Any]) -> None:
    """Without its radius the ring would have one of -0.05 mm. Without the distance it touches the
    disc with its centre 5.05 away."""
    rest = told["repair_not_good ring"]["rest"]
    assert rest["Constraint6"] == "fully constrained, but not good"
    assert rest["Constraint5"] == "fully constrained"


def test_a_shape_that_was_drawn_since_keeps_dimensions_from_being_added(
        told: dict[str, Any]) -> None:
    assert told["complete_moved shape"] == {"stale": CHANGED, "same": True}


@pytest.mark.parametrize("name", ["plate-without-height", "hinge", "plate-with-loose-hole"])
def test_the_one_dimension_that_is_missing_is_taken_and_comes_back(
        name: str, told: dict[str, Any]) -> None:
    facts = told[f"complete {name}"]
    assert len(facts["lines"]) == facts["one"] == facts["added"] == 1 and facts["untouched"]
    assert facts["says"] == SOLVED and facts["then"] == WELL
    assert facts["undo"] == ["Add 1 dimension (Pertxogai)"] and facts["undone"]
    assert facts["stale"] == CHANGED


def test_all_that_is_missing_is_one_step_of_undo(told: dict[str, Any]) -> None:
    facts = told["complete_two plate"]
    assert facts["proposed"] == facts["added"] == 2 and facts["steps"] == 1
    assert facts["says"] == SOLVED and facts["then"] == WELL and facts["undone"]


def test_where_nothing_is_missing_nothing_is_added(told: dict[str, Any]) -> None:
    facts = told["complete_nothing plate"]
    assert facts["lines"] == ["Sketch: well: nothing is missing"]
    assert facts["take"] == "nothing is proposed, so nothing is added"


def test_shapes_are_placed_and_come_back(told: dict[str, Any]) -> None:
    facts = told["place link"]
    assert facts["moved_nm"] < 2000  # FreeCAD's own rounding.
    assert facts["says"] == SOLVED and facts["undo"] == ["Place (Pertxogai)"]
    assert facts["stale"] == CHANGED and facts["undone"]


def test_shapes_come_to_lie_where_the_plate_has_them(told: dict[str, Any]) -> None:
    """60 x 40 mm, its second hole of 5 mm at 45, 20; without FreeCAD's solver, to its rounding."""
    facts = told["place_rough plate"]
    assert facts["ends"] == [pytest.approx([60, 0], abs=2e-3), pytest.approx([45, 20], abs=2e-3)]
    assert facts["radius"] == pytest.approx(5, abs=2e-3)


def test_what_is_construction_geometry_stays_so(told: dict[str, Any]) -> None:
    """The outline is the one line: two ends, and not the point."""
    facts = told["place_point mark"]
    assert facts["before"] == facts["after"] == [[True, True, False], 2]
    assert facts["undo"] == ["Place (Pertxogai)"]


def test_an_outer_edge_that_lies_elsewhere_keeps_dimensions_from_being_added(
        told: dict[str, Any]) -> None:
    facts = told["complete_outer edge"]
    assert facts["proposed"] > 0 and facts["stale"] == CHANGED and facts["same"]


def test_a_claim_and_its_verification_lie_beside_the_document(told: dict[str, Any]) -> None:
    facts = told["certify link"]
    assert facts["files"] == ["link-Sketch.claim", "link-Sketch.verification"]
    assert facts["beside"] and facts["accepted"] and facts["claim"] == "sketch 1\n"
    assert told["certify again"]["line"].endswith(".verification, in place of earlier ones")
    checkers = [line.partition(": ") for line in facts["verification"]]
    assert [each[0] for each in checkers] == ["sketch verify", "sketch_claim.py", "sketch_claim.c"]
    assert all(each[2].startswith("verified steps ") for each in checkers)


def test_no_claim_of_what_is_not_good_or_not_saved(told: dict[str, Any]) -> None:
    over = "Sketch isn't good, so no claim is written: it is over"
    assert told["certify twice"]["trouble"] == over
    earlier = "; twice-Sketch.claim beside it is of an earlier state"
    assert told["certify earlier"]["trouble"] == over + earlier
    assert told["certify unsaved"]["trouble"].startswith("the document was never saved: save it")
    assert told["certify changed"]["trouble"].startswith("the sketch isn't saved as it is: save")


def test_a_construction_joins_three_clusters_at_each_step(told: dict[str, Any]) -> None:
    """13 constraints of 8 elements become one cluster by 6 steps; what each makes lies by two of
    its three clusters."""
    facts = told["construction plate"]
    assert facts["steps"] == [1, 2, 3, 4, 5, 6] and facts["loci"] == [2] * 6
    assert facts["last"] == [0, 1, 2, 3, 4, 5]
    assert told["construction twice"]["trouble"].endswith("so it has no construction: it is over")


@pytest.mark.skipif(not HAS_RANGES, reason="the package has no ranges yet")
def test_a_plate_is_as_narrow_as_its_second_hole_lets_it_be(told: dict[str, Any]) -> None:
    """The hole's centre lies 45 mm from the left edge, and its radius is 5 mm. A height of two
    thirds of the width is 25 mm, as much as the holes take, at 37.5 mm only."""
    for name, called in (("plate", "Constraint10"), ("height by width", "width")):
        first, second, *_ = told[f"range {name}"]["lines"]
        assert first == "Sketch: 1 range"
        least = re.match(rf"  {called}: from (\S+) to \S+ mm, now 60, ", second)
        assert least is not None and 49.999 <= float(least[1]) <= 50.001
    assert "no dimension is selected: click on one" in told["range nothing"]["trouble"]


@pytest.mark.skipif(not HAS_RANGES, reason="the package has no ranges yet")
def test_what_a_spreadsheet_sets_has_no_range_and_is_held(told: dict[str, Any]) -> None:
    """The hole's centre lies 15 mm from the left edge and 20 mm above the lower one."""
    assert told["range by a sheet"]["lines"] == [
        "Sketch: 0 ranges", "  Constraint11: no range, since FreeCAD sets it by Sheet.wide * 2 / 3"]
    _, hole, *_, last = told["range beside a sheet"]["lines"]
    most = re.match(r"  Constraint12: from \S+ to (\S+) mm, now 5, ", hole)
    assert most is not None and 14.999 <= float(most[1]) <= 15.001
    held, _, names = last.rpartition(": ")
    assert held == "  held as they are, since FreeCAD sets them by expressions"
    assert set(names.split(", ")) == {"width", "Constraint11"}


@pytest.mark.skipif(HAS_RANGES, reason="the package has ranges")
def test_without_ranges_it_is_told_what_is_missing(told: dict[str, Any]) -> None:
    assert told["range plate"]["lines"] == []
    assert "its module pertxogai.ranging is missing" in told["range plate"]["trouble"]


def test_what_is_set_wrongly_is_told_by_name(told: dict[str, Any]) -> None:
    lost = told["program lost"]["trouble"]
    assert lost.startswith("/nowhere/sketch is no program that can be run")
    assert told["program within"]["trouble"].endswith("change it in Edit, Preferences.., Pertxogai")
    assert "No such file or directory: '/nowhere/" in told["program room"]["trouble"]
    full = told["program full"]
    assert re.fullmatch(r"FreeCAD couldn't write .*/full\.FCStd: look at its folder, and whether "
                        "the disk is full", full["trouble"]) and not full["left"]


def sums(folder: Path) -> dict[str, str]:
    """The checksum of each document of a folder."""
    return {each.name: hashlib.sha256(each.read_bytes()).hexdigest()
            for each in folder.glob("*.FCStd")}


def asked(here: Installed, program: Program, *words: str) -> tuple[int, list[str]]:
    """How FreeCAD ends that is asked about a folder, and what is told of its documents."""
    code = f"from pertxogai_freecad.documents import main; main{words!r}"
    ended = here.console("-c", code, PERTXOGAI_SKETCH=program.path)
    return ended.status, [each for each in ended.all.splitlines()
                              if re.match(r"\S+\.FCStd( \w+)?: |pertxogai: ", each)]


def test_a_folder_of_documents_is_judged_without_a_window(program: Program,
                                                          tmp_path: Path) -> None:
    here = Installed.by_link(tmp_path)
    here.copy("plate", "twice", "empty")
    before = sums(here.folder)
    status, lines = asked(here, program, "judge", str(here.folder))
    assert status == 2
    assert "empty.FCStd: empty has no sketch: draw one in the Sketcher" in lines
    for name, verdict in (("plate", "well (fully constrained)"), ("twice", "over (over-constrained)")):
        begins = f"{name}.FCStd Sketch: Sketch: {verdict}, "
        assert any(each.startswith(begins) for each in lines)
    assert sums(here.folder) == before


def test_a_sketch_that_is_not_good_is_told_from_what_cannot_be_done(program: Program,
                                                                    tmp_path: Path) -> None:
    here = Installed.by_link(tmp_path)
    here.copy("twice")
    status, lines = asked(here, program, "certify", str(here.folder / "twice.FCStd"))
    assert status == 1 and lines[0].endswith("so no claim is written: it is over")


def test_a_fault_of_the_package_keeps_no_document_from_being_asked(program: Program,
                                                                   tmp_path: Path) -> None:
    here = Installed.by_link(tmp_path)
    here.copy("plate", "twice")
    code = ("from pertxogai_freecad import documents; "
            "documents.COMMANDS['judge'] = lambda read, asked: {}['lost']; "
            f"documents.main('judge', {str(here.folder)!r})")
    ended = here.console("-c", code, PERTXOGAI_SKETCH=program.path)
    assert ended.status == 2
    told = [line for line in ended.out.splitlines() if "KeyError" in line]
    assert told == ["plate.FCStd: KeyError: 'lost'", "twice.FCStd: KeyError: 'lost'"]


def test_a_folder_is_completed_into_another(program: Program, tmp_path: Path) -> None:
    here = Installed.by_link(tmp_path)
    here.copy("plate-without-height")
    before, out = sums(here.folder), tmp_path / "completed"
    status, lines = asked(here, program, "complete", str(here.folder), str(out))
    assert status == 0 and sums(here.folder) == before, lines
    name = "plate-without-height.FCStd"
    assert lines[-1] == f"{name}: wrote {out / name}"
    status, lines = asked(here, program, "judge", str(out))
    assert status == 0 and lines[0].startswith(f"{name} Sketch: Sketch: well (fully constrained), ")
    assert asked(here, program, "judge", str(here.folder), str(out)) == (
        2, [f"pertxogai: judge writes no copies, so {out} isn't taken: leave it out"])


def test_the_add_on_of_a_release_has_all_that_it_needs(program: Program, tmp_path: Path) -> None:
    """Unpacked among FreeCAD's add-ons, with nothing else installed, and nothing named."""
    made = Made(TOP, Path(program.path), tmp_path, tmp_path, "1.2.3", NOON, "gate\n")
    packed = make_addon(made, tmp_path)
    assert packed.name == "pertxogai-freecad-1.2.3-x86_64-linux.zip"
    first = packed.read_bytes()
    assert make_addon(made, tmp_path).read_bytes() == first
    here = Installed.empty(tmp_path)
    shutil.unpack_archive(packed, here.mod)
    assert not os.access(here.mod / "Pertxogai" / "bin" / "sketch", os.X_OK)  # FreeCAD's own way.
    here.copy("link")
    code = f"from pertxogai_freecad.documents import main; main('certify', {str(here.folder)!r})"
    ended = here.console("-c", code, PERTXOGAI_SKETCH="")
    assert ended.status == 0, ended.all
    assert (here.folder / "link-Sketch.verification").read_text().count(": verified steps 12 ") == 3


def test_another_version_of_the_package_is_told(program: Program, tmp_path: Path) -> None:
    here = Installed.by_link(tmp_path)
    here.copy("plate")
    old = tmp_path / "old" / "python" / "pertxogai"
    old.mkdir(parents=True)
    (old / "__init__.py").write_text('__version__ = "0.0.1"\n')
    code = f"from pertxogai_freecad.documents import main; main('judge', {str(here.folder)!r})"
    ended = here.console("-c", code, PERTXOGAI_SKETCH=program.path,
                         PERTXOGAI_HOME=str(tmp_path / "old"))
    assert ended.status == 2
    assert (f"the Python package pertxogai is 0.0.1, and the add-on {__version__}: install the same"
            in ended.complaint)


@pytest.mark.skipif(Path("/usr/lib/python3/dist-packages/pertxogai").exists(),
                    reason="the package is installed, so FreeCAD finds it")
def test_without_the_package_its_name_is_told(program: Program, tmp_path: Path) -> None:
    here = Installed.by_copy(tmp_path)
    here.copy("plate")
    status, lines = asked(here, program, "judge", str(here.folder))
    assert status == 2
    assert lines == [
        "pertxogai: the Python package pertxogai isn't found: install Pertxogai, or name the "
        "folder that has it in Edit, Preferences.., Pertxogai"]
    assert not (ADDON / "python").exists()
