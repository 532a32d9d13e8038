"""Sketches that FreeCAD calls fully constrained come out well, and as FreeCAD has them.

`freecad.facts` beside the files is what FreeCAD itself said of each: what its solver answered, and
whether it is fully constrained."""
from __future__ import annotations

from pathlib import Path

import pytest

from pertxogai.files.freecad import read_freecad
from pertxogai.judging import judge
from pertxogai.judging.measure import Unit
from pertxogai.program.reports import Verdict

FILES = Path(__file__).parent / "files"
FREE_RADIUS = {"cam"}
"""Files in which a radius is told by nothing but by where it touches."""


def full() -> list[str]:
    """The files of which FreeCAD says so of each sketch."""
    said: dict[str, list[str]] = {}
    for line in (FILES / "freecad.facts").read_text().splitlines():
        name, *_, solved, _, fully = line.split()
        said.setdefault(name, []).append(f"{solved} {fully}")
    return [name for name, facts in said.items() if set(facts) == {"0 yes"}]


@pytest.mark.parametrize("name", sorted(set(full()) - FREE_RADIUS))
def test_what_freecad_calls_full_is_well_within_two_nanometres(name, program):
    for found in read_freecad(FILES / f"{name}.FCStd"):
        if found.left_out:
            continue
        judged = judge(found.drawing, program)
        assert judged.verdict is Verdict.WELL and not judged.left_out and not judged.warnings
        assert all(each.amount <= 2 for each in judged.deviations if each.unit is Unit.NM)


@pytest.mark.parametrize("name", sorted(FREE_RADIUS))
def test_a_radius_that_nothing_tells_can_be_taken_as_freecad_has_it(name, program):
    found, = read_freecad(FILES / f"{name}.FCStd")
    judged = judge(found.drawing, program, freeze=True)
    assert judged.verdict is Verdict.WELL and judged.frozen
    assert all(each.amount <= 2 for each in judged.deviations if each.unit is Unit.NM)


def test_there_are_forty():
    assert len(full()) >= 40
