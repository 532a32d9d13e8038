"""A claim is written of what is good and of nothing else, and three checkers read it."""
from __future__ import annotations

from pathlib import Path

import pytest

import checkers
from pertxogai.commands import main
from pertxogai.judging.claims import checked
from pertxogai.language import Claim
from pertxogai.program import Program
from test_claims import TRIANGLE


def test_what_is_good_is_certified_and_read_by_all_three(
    tmp_path: Path, capsys: pytest.CaptureFixture[str]
) -> None:
    out = tmp_path / "plate.claim"
    plate = checkers.TOP / "python/tests/files/plate.FCStd"
    assert main(["certify", str(plate), "-o", str(out), "--check"]) == 0
    verified = "verified steps 6 length 0 nm angle 0 ppb"
    assert capsys.readouterr().out.splitlines() == [
        f"sketch verify: {verified}",
        f"sketch_claim.py: {verified}",
        f"sketch_claim.c: {verified}",
    ]
    assert Claim.parse(out.read_text()).text() == out.read_text()


@pytest.mark.parametrize("name", ["open-hinge", "over-triangle"])
def test_nothing_is_certified_of_what_is_not_good(tmp_path: Path, name: str) -> None:
    out = tmp_path / "none.claim"
    drawing = checkers.TOP / f"python/tests/drawings/{name}.drawing"
    assert main(["certify", str(drawing), "-o", str(out)]) == 1
    assert not out.exists()


def test_a_sketch_that_is_larger_than_the_drawing_is_told(
    tmp_path: Path, capsys: pytest.CaptureFixture[str]
) -> None:
    """The values have half a micrometre, so the sketch is told at least twice as large."""
    drawing, out = tmp_path / "half.drawing", tmp_path / "half.claim"
    drawing.write_text("segment Edge 0 0 40 0\nlength Edge 40.0005\n")
    assert main(["certify", str(drawing), "-o", str(out)]) == 0
    told = capsys.readouterr().out
    scale = int(told.split()[6])
    assert told == f"the sketch of the claim is {scale} times as large as the drawing\n"
    (length,) = Claim.parse(out.read_text()).sketch.constraints
    assert scale > 1 and f" {scale * 40.0005:g}" in length.text()


def test_a_checker_that_cannot_be_asked_is_named(
    tmp_path: Path,
    capsys: pytest.CaptureFixture[str],
    monkeypatch: pytest.MonkeyPatch,
    program: Program,
) -> None:
    out = tmp_path / "triangle.claim"
    monkeypatch.setenv("PATH", str(tmp_path))
    monkeypatch.setenv("PERTXOGAI_SKETCH", program.path)
    triangle = checkers.TOP / "examples/triangle.sketch"
    assert main(["certify", str(triangle), "-o", str(out), "--check"]) == 1
    assert capsys.readouterr().out.splitlines()[-1].startswith("sketch_claim.c: not asked: cc ")


def test_a_claim_that_was_changed_is_accepted_by_none(program: Program) -> None:
    changed = TRIANGLE.replace("3000000", "3000001")
    answers = list(checked(changed, program))
    assert [each.accepts() for each in answers] == [False] * 3
    assert {(each.status, each.line) for each in answers} == {(9, "verify fails c2")}
