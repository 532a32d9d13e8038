"""What ./sketch tells of an answer that no proved program gives, before and after it."""
from __future__ import annotations

import os
import shutil
import subprocess
from pathlib import Path

import pytest
from conftest import TOP

ANSWERS = 'echo "verdict well"; echo "run=ended status=0" >&2\n'
FAILS = 'echo "run=stopped at 60 seconds" >&2; exit 7\n'
BEFORE = ["sketch: building the program without proofs: about a minute on a free machine; no answer yet"]
AFTER = ["sketch: the answer is by an unproved build; run ./sketch prove once, and then each answer is"
         " proved and takes milliseconds"]


@pytest.fixture
def clone(tmp_path: Path) -> Path:
    """A clone without a proved program. A stand-in for `rt` is put there by each test: what the
    real one builds takes a minute, and bench/from-nothing runs it."""
    for name in ("sketch", "crates/sk_cli/src/top.rt"):
        (tmp_path / name).parent.mkdir(parents=True, exist_ok=True)
        shutil.copy(TOP / name, tmp_path / name)
    for name in ("crates/sketch/src", "bin"):
        (tmp_path / name).mkdir(parents=True)
    (tmp_path / "crates.txt").write_text("sketch: sk_cli\n")
    return tmp_path


def answered(clone: Path, kit: str) -> tuple[int, str, list[str]]:
    """The status, the answer, and the lines on standard error."""
    (clone / "bin/rt").write_text("#!/bin/sh\n" + kit)
    (clone / "bin/rt").chmod(0o755)
    path = f"{clone}/bin:{os.environ['PATH']}"
    done = subprocess.run([clone / "sketch", "check"], stdin=subprocess.DEVNULL, capture_output=True,
                          text=True, env={**os.environ, "PATH": path})
    return done.returncode, done.stdout, done.stderr.splitlines()


def test_an_unproved_answer_is_told_before_and_after(clone: Path) -> None:
    first = ["sketch: the program isn't proved yet"]
    assert answered(clone, ANSWERS) == (0, "verdict well\n", first + BEFORE + AFTER)


def test_where_there_is_no_answer_none_is_told(clone: Path) -> None:
    status, written, said = answered(clone, FAILS)
    assert (status, written) == (126, "") and not set(AFTER) & set(said)
    assert said[-1].startswith("sketch: the unproved build gave no answer; its run has a minute")


def test_a_program_that_is_older_than_its_sources_is_not_used(clone: Path) -> None:
    built = clone / "crates/sketch/out/sketch"
    built.parent.mkdir()
    built.write_text("#!/bin/sh\necho of old\n")
    built.chmod(0o755)
    assert answered(clone, ANSWERS) == (0, "of old\n", [])
    os.utime(built, (0, 0))
    first = ["sketch: the proved program is older than its sources, so it isn't used"]
    assert answered(clone, ANSWERS) == (0, "verdict well\n", first + BEFORE + AFTER)
