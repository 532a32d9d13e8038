"""Drawings that are sound, and too large for the program; and programs that are another than `sketch`."""
from __future__ import annotations

from pathlib import Path

import pytest

from pertxogai.commands import main
from pertxogai.drawing import read_drawing
from pertxogai.judging import DrawingRefused, judge
from pertxogai.language import Refusal
from pertxogai.program import Program, ProgramSpoke

UPRIGHT = "".join(f"segment S{number} {number} 0 {number} 10\nvertical S{number}\n" for number in range(670))
"""1,340 points and 670 lines, and the program takes 2,000 elements: the 2,001st stands in line 2002."""


def test_a_drawing_that_needs_too_many_lines_is_refused_as_one_of_too_many_points(program: Program) -> None:
    told = "the program rejects the encoded sketch \\(refused line 2002 E13 too-many-elements\\): split the drawing"
    with pytest.raises(DrawingRefused, match=told) as found:
        judge(read_drawing(UPRIGHT), program)
    assert isinstance(found.value, Refusal) and found.value.refused.line == 2002


def test_the_command_says_to_split_it(program: Program, tmp_path: Path, capsys: pytest.CaptureFixture[str]) -> None:
    path = tmp_path / "upright.drawing"
    path.write_text(UPRIGHT)
    assert main(["judge", str(path), "--program", program.path]) == 2
    err = capsys.readouterr().err
    assert err.count("\n") == 1 and "E13 too-many-elements): split the drawing" in err


@pytest.mark.parametrize("body", ["echo hello", "echo 'usage: sketch [-options] file'; exit 1", "exit 1", "printf hello"])
def test_of_another_program_it_says_how_to_name_the_right_one(body: str, tmp_path: Path) -> None:
    other = tmp_path / "sketch"
    other.write_text(f"#!/bin/sh\n{body}\n")
    other.chmod(0o755)
    advice = "is the program that was asked `sketch`\\? PERTXOGAI_SKETCH names another"
    with pytest.raises(ProgramSpoke, match=advice):
        judge(read_drawing("segment A 0 0 40 0\nlength A 40\n"), Program(str(other)))
