"""The add-on in FreeCAD's own window, worked as a user does on a screen that isn't seen. Passed
over where FreeCAD or Xvfb isn't installed (Debian's `freecad`, `xvfb`)."""
from __future__ import annotations

import json
import re
from importlib.util import find_spec
from typing import Any

import pytest

from addon import ADDON, CHECKS, FILES, WINDOW, Installed
from pertxogai.program import Program
from screens import XVFB

pytestmark = [
    pytest.mark.freecad,
    pytest.mark.skipif(WINDOW is None, reason="Debian's freecad isn't installed"),
    pytest.mark.skipif(XVFB is None, reason="Debian's xvfb isn't installed")]

WELL = "Sketch is well (fully constrained)"
OVER = "Sketch is over (over-constrained)"
HAS_RANGES = find_spec("pertxogai.ranging") is not None
CHANGED = "the sketch was changed since: judge it again"
PICTURES = {"judge", "repair", "repaired", "complete", "construction", "range", "certify",
            "clusters"}


@pytest.fixture(scope="module")
def told(program: Program, tmp_path_factory: pytest.TempPathFactory) -> dict[str, Any]:
    """The facts of each check; `pictures`: how many bytes each picture has."""
    here = Installed.by_link(tmp_path_factory.mktemp("home"))
    here.copy(*(each.stem for each in FILES.glob("*.FCStd")))
    out, pictures = here.home / "told", here.home / "pictures"
    pictures.mkdir()
    ended = here.window(CHECKS / "window_check.py", TOLD=str(out), PICTURES=str(pictures),
                        ADDON=str(ADDON), PERTXOGAI_SKETCH=program.path)
    assert out.exists(), ended.all
    found: dict[str, Any] = json.loads(out.read_text())
    for facts in found.values():
        assert "error" not in facts, facts
    return {**found, "pictures": {each.stem: each.stat().st_size
                                  for each in pictures.glob("*.png")}}


def test_the_workbench_has_its_commands_and_preferences(told: dict[str, Any]) -> None:
    facts = told["workbench"]
    assert facts["name"] == "PertxogaiWorkbench" and facts["menu"]
    assert facts["buttons"] == ["Judge", "Repair", "Complete", "Range", "Certify", "Construction"]
    assert not facts["active"]  # There is no sketch.
    assert facts["preferences"] == ["package", "program", "seconds", "within"]


def test_no_dialogue_waits_for_an_answer(told: dict[str, Any]) -> None:
    assert told["dialogues"] == []


def test_no_command_by_itself_modifies_a_document(told: dict[str, Any]) -> None:
    facts = told["untouched"]
    assert not facts["before"] and set(facts["after"].values()) == {False}
    assert len(facts["after"]) == 6


def test_a_sketch_is_judged_and_stays_as_it_is(told: dict[str, Any]) -> None:
    facts = told["judge"]
    assert facts["seen"] and facts["headline"] == OVER and not facts["place"]
    assert [row[0] for row in facts["rows"]][8:] == ["Constraint9", "below", "above",
                                                     "Constraint12"]
    assert [row[1] for row in facts["rows"]].count("redundant") == 4
    assert facts["told"].startswith("Sketch: over (over-constrained), ")
    assert facts["same"] and facts["undo"] == []
    assert facts["selected"] == [["Constraint11"]]


def test_a_conflict_is_removed_by_a_button_and_comes_back(told: dict[str, Any]) -> None:
    facts = told["repair"]
    assert {row[0] for row in facts["rows"]} == {"above", "below", "Constraint6", "Constraint8"}
    assert {tuple(row[1:3]) for row in facts["rows"]} == {("conflicting", "5 mm")}
    assert not facts["before"] and facts["selected"] == [["Constraint12"]] and facts["untouched"]
    assert facts["pressed"] and facts["headline"] == WELL and facts["count"] == 11
    assert facts["note"].startswith("good: ") and facts["left"] == "nothing is redundant"
    assert facts["undo"] == ["Remove above (Pertxogai)"]
    assert facts["undone"] and facts["stale"] == CHANGED


def test_a_button_changes_the_sketch_that_was_asked_about_or_none(told: dict[str, Any]) -> None:
    facts = told["two_documents"]
    assert facts["note"].startswith("the sketch's document isn't in front: choose its tab")
    assert facts["same"] and facts["undo"] == []
    assert facts["headline"] == f"contradiction: {WELL}" and facts["count"] == 11


def test_what_is_shown_of_a_sketch_goes_with_it(told: dict[str, Any]) -> None:
    facts = told["gone"]
    assert facts["left"] == 0 and facts["note"] == CHANGED
    assert facts["before"] > 0 and facts["after"] == [] and facts["headline"] == ""


def test_what_is_missing_is_added_by_a_button_and_goes_again(told: dict[str, Any]) -> None:
    facts = told["complete"]
    assert len(facts["rows"]) == 1 and facts["untouched"] and facts["pressed"]
    assert facts["headline"] == WELL and facts["count"] == 11
    assert facts["undo"] == ["Add 1 dimension (Pertxogai)"] and facts["undone"]


def test_a_construction_is_drawn_over_the_sketch_and_goes_with_the_panel(
        told: dict[str, Any]) -> None:
    facts = told["construction"]
    assert facts["steps"] == 6 and facts["first"].startswith("step 1 makes ")
    assert facts["drawn"] == 1 and facts["left"] == 0 and facts["same"]
    assert facts["plays"] == "Pause"


def test_a_construction_lies_over_construction_lines_alone(told: dict[str, Any]) -> None:
    facts = told["construction_lines"]
    assert facts["edges"] == 0 and facts["steps"] == 6 and facts["drawn"] == 1
    assert facts["last"].startswith("step 6 makes ") and facts["last"].endswith(" (6 / 6)")


def test_a_construction_lies_over_a_sketch_that_is_turned(told: dict[str, Any]) -> None:
    """A plate of 60 x 40 mm that stands on its lower edge, 20 mm behind the origin."""
    facts = told["construction_turned"]
    assert facts["least"][0] <= 10.001 and facts["most"][0] >= 69.999
    assert facts["least"][2] <= 30.001 and facts["most"][2] >= 69.999
    assert all(abs(facts[end][1] - 20) < 0.02 for end in ("least", "most"))
    assert facts["sheet"].startswith("the document's 3D view isn't in front: choose its tab")


def test_a_range_and_a_claim(told: dict[str, Any]) -> None:
    facts = told["range_and_certify"]
    if HAS_RANGES:
        assert re.match(r"Sketch: 1 range\n  Constraint10: from (49\.999|50) ", facts["range"])
    else:
        assert "its module pertxogai.ranging is missing" in facts["note"]
    assert facts["files"] == ["plate-Sketch.claim", "plate-Sketch.verification"]
    assert [": verified steps 6 " in line for line in facts["claim"][1:]] == [True] * 3


def test_shapes_are_placed_by_a_button_and_come_back(told: dict[str, Any]) -> None:
    facts = told["place"]
    assert facts["pressed"] and facts["undo"] == ["Place (Pertxogai)"] and facts["undone"]
    assert facts["solves"] == 0 and facts["fully"]


def test_clusters_have_their_colours_while_a_button_is_pressed(told: dict[str, Any]) -> None:
    facts = told["clusters"]
    assert facts["drawn"] == [0, 1, 0] and min(facts["pixels"]) > 100
    assert facts["modified"] == [False, False, False]
    assert facts["next"] == WELL  # Of another sketch, once the coloured one was closed.


def test_without_a_sketch_the_panel_says_so(told: dict[str, Any]) -> None:
    assert told["nothing"]["note"].startswith("no sketch is selected: click on one in the tree")


def test_each_check_has_its_picture(told: dict[str, Any]) -> None:
    assert set(told["pictures"]) == PICTURES
    assert all(size > 10_000 for size in told["pictures"].values())
