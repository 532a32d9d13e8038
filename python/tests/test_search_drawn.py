"""What `draw` shows of a drawing that is open: all of it, and where to it still moves."""

from __future__ import annotations

from pathlib import Path

import pytest

from pertxogai.commands import main

TESTS = Path(__file__).parent


@pytest.fixture(autouse=True)
def _program(program, monkeypatch) -> None:
    monkeypatch.setenv("PERTXOGAI_SKETCH", program.path)


def test_a_picture_of_what_is_open_is_whole_with_what_is_free_lighter(tmp_path):
    out = tmp_path / "plate.svg"
    status = main(["draw", str(TESTS / "drawings/open-hole-without-y.drawing"), "-o", str(out)])
    svg = out.read_text()
    assert status == 1, "what is open isn't good"
    assert svg.count('class="edge ') == 4, "the plate is fixed"
    assert svg.count('<circle class="free ') == 1, "the hole is free"
    assert svg.count('<polyline class="move"') == 1, "and moves one way"


def test_a_picture_of_what_is_well_has_no_style_of_what_is_free(tmp_path):
    out = tmp_path / "plate.svg"
    main(["draw", str(TESTS / "drawings/plate.drawing"), "-o", str(out)])
    assert ".free" not in out.read_text() and ".move" not in out.read_text()
