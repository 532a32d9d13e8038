"""`judge` on many files: a line each, a summary, the worst exit status."""
from __future__ import annotations

import json
from pathlib import Path

import pytest

from conftest import TOP
from pertxogai.commands import main

FILES = TOP / "python" / "tests" / "files"
GOOD, NOT_GOOD = FILES / "plate.FCStd", TOP / "examples" / "no-triangle.sketch"


@pytest.fixture(autouse=True)
def _program(program, monkeypatch) -> None:
    monkeypatch.setenv("PERTXOGAI_SKETCH", program.path)


@pytest.fixture
def bad(tmp_path: Path) -> Path:
    """A file that no one can read as a sketch."""
    path = tmp_path / "broken.drawing"
    path.write_text("segment A\n")
    return path


@pytest.mark.parametrize("jobs", ["1", "2"])
def test_a_line_each_in_their_order_and_a_summary(jobs: str, bad: Path, capsys) -> None:
    files = [str(each) for each in (NOT_GOOD, bad, GOOD, GOOD)]
    status = main(["judge", "--jobs", jobs, *files])
    out, err = capsys.readouterr()
    first, second, third, fourth, summary = out.splitlines()
    assert (status, err) == (2, "")
    assert first == f"{NOT_GOOD}: no-triangle: well, not good: it can't be placed as drawn"
    assert second.startswith(f"{bad}: refused: ") and "its start" in second
    assert third == fourth == f"{GOOD}: Sketch: well, good"
    assert summary == "4 files: 2 good, 1 not good, 1 refused"


@pytest.mark.parametrize("files, status", [
    ([GOOD, GOOD], 0),
    ([GOOD, NOT_GOOD], 1),
    ([NOT_GOOD, FILES / "nowhere.drawing"], 2),
])
def test_the_exit_status_is_the_worst(files: list[Path], status: int, capsys) -> None:
    assert main(["judge", "--jobs", "1", *map(str, files)]) == status


def test_a_program_that_gives_no_answer(tmp_path: Path, capsys) -> None:
    silent = tmp_path / "silent"
    silent.write_text("#!/bin/sh\nexit 77\n")
    silent.chmod(0o755)
    assert main(["judge", "--jobs", "1", "--program", str(silent), str(GOOD), str(GOOD)]) == 3
    assert capsys.readouterr().out.endswith("2 files: 2 without an answer\n")


def test_an_object_of_json_for_each_file_on_a_line(bad: Path, capsys) -> None:
    assert main(["judge", "--json", "--jobs", "1", str(GOOD), str(bad)]) == 2
    out, err = capsys.readouterr()
    good, refused = map(json.loads, out.splitlines())
    assert good["file"] == str(GOOD) and good["sketches"][0]["good"] is True
    assert refused["file"] == str(bad) and "its start" in refused["refused"]
    assert err == "2 files: 1 good, 1 refused\n"


@pytest.mark.parametrize("words, told", [
    (["--write", "out.FCStd"], "--write takes one file"),
    (["--jobs", "0"], "--jobs takes a whole number from 1 on"),
    (["--seconds", "0"], "--seconds takes a number above 0"),
])
def test_words_that_cannot_be(words: list[str], told: str, capsys) -> None:
    assert main(["judge", *words, str(GOOD), str(GOOD)]) == 2
    assert capsys.readouterr().err == f"pertxogai: {told}\n"
