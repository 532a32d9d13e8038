"""Commands that judge in several processes, and are ended by Ctrl-C."""
from __future__ import annotations

import os
import signal
import subprocess
import sys
import time
from pathlib import Path

import pytest

from conftest import TOP

TESTS = TOP / "python" / "tests"
PLATE = TESTS / "drawings" / "plate-by-values.drawing"
SECONDS = 60


def heeding() -> None:
    """Ctrl-C ends the process also where the tests were started in the background, by a shell that
    has them pass over it."""
    signal.signal(signal.SIGINT, signal.SIG_DFL)


@pytest.fixture
def slow(program, tmp_path: Path) -> Path:
    """The program, which notes each call, and takes its time."""
    path = tmp_path / "slow"
    path.write_text(f"#!/bin/sh\necho >> {tmp_path}/calls\nsleep 0.5\nexec {program.path} \"$@\"\n")
    path.chmod(0o755)
    return path


@pytest.mark.parametrize("words, count", [
    (["judge", str(PLATE), "nowhere.drawing"], 0),
    (["family", str(PLATE), "sizes.csv"], 1),
    (["family", str(PLATE), "sizes.csv"], 60),
], ids=["judge", "family", "large family"])
def test_ctrl_c_prints_no_traceback_and_gives_up_what_is_not_begun(
        words: list[str], count: int, slow: Path, tmp_path: Path) -> None:
    """Of few a process has none left, and waits for more."""
    sizes, calls = tmp_path / "sizes.csv", tmp_path / "calls"
    sizes.write_text("\n".join(["Width", *map(str, range(60, 60 + count))]) + "\n")
    words = [sys.executable, "-m", "pertxogai", *words, "--jobs", "2", "--program", str(slow)]
    environment = {**os.environ, "PYTHONPATH": str(TOP / "python")}
    with subprocess.Popen(words, stdout=subprocess.PIPE, stderr=subprocess.PIPE, text=True,
                          cwd=tmp_path, env=environment, preexec_fn=heeding,
                          start_new_session=True) as process:
        begun = time.monotonic()
        while not calls.exists():
            assert time.monotonic() < begun + SECONDS
            time.sleep(0.01)
        time.sleep(0.2)
        os.killpg(process.pid, signal.SIGINT)  # As a terminal sends it: to all of them.
        assert (process.communicate(timeout=SECONDS)[1], process.returncode) == ("", 130)
    assert len(calls.read_text().splitlines()) < 12
