"""What .ci/run says, and leaves for ./release, where its halves end well or badly."""
from __future__ import annotations

import hashlib
import os
import shutil
import subprocess
from pathlib import Path

import pytest
from conftest import TOP

pytestmark = pytest.mark.skipif(shutil.which("git") is None, reason="git is missing")
RECORD = "crates/sketch/out/gate"


def put(path: Path, text: str) -> None:
    """Writes a program into a file."""
    path.parent.mkdir(parents=True, exist_ok=True)
    path.write_text("#!/bin/sh\n" + text)
    path.chmod(0o755)


def git(folder: Path, *words: str) -> str:
    who = ["-c", "user.name=nobody", "-c", "user.email=nobody@localhost"]
    line = ["git", "-C", str(folder), *who, *words]
    return subprocess.run(line, capture_output=True, text=True, check=True).stdout


@pytest.fixture
def repository(tmp_path: Path) -> Path:
    """A committed .ci/run between stand-ins for rt and python/tests/run, which say what HALF_1 and HALF_2 hold and end with
    the statuses END_1 and END_2: a real gate takes an hour."""
    top = tmp_path / "repository"
    put(top / "python/tests/run", 'echo "$HALF_2"; exit "$END_2"\n')
    put(tmp_path / "bin/rt", '[ "$1" = ci ] || { echo "kit-1 logic 0"; exit; }\n'
                             'echo "$RT_JOBS" >"$0.jobs"; echo "$HALF_1"; exit "$END_1"\n')
    (top / ".ci").mkdir()
    shutil.copy(TOP / ".ci/run", top / ".ci/run")
    (top / "tools").mkdir()
    shutil.copy(TOP / "tools/lanes", top / "tools/lanes")
    (top / ".gitignore").write_text("out/\n")
    git(top, "init", "-q")
    git(top, "add", "-A")
    git(top, "commit", "-q", "-m", "all")
    put(top / "crates/sketch/out/sketch", "")
    return top


def gate(top: Path, first: str, second: str, ends: str = "0 0") -> tuple[int, list[str]]:
    """The status of the gate and the lines that it writes."""
    end_1, end_2 = ends.split()
    halves = {"HALF_1": first, "HALF_2": second, "END_1": end_1, "END_2": end_2}
    here = {**os.environ, **halves, "PATH": f"{top.parent}/bin:{os.environ['PATH']}"}
    done = subprocess.run([top / ".ci/run"], capture_output=True, text=True, env=here)
    return done.returncode, done.stdout.splitlines()


def test_where_both_halves_pass_the_kit_the_commit_and_the_program_are_told_and_recorded(repository: Path) -> None:
    status, lines = gate(repository, "30 passed, 0 failed", "12 passed, 0 failed")
    checksum = hashlib.sha256((repository / "crates/sketch/out/sketch").read_bytes()).hexdigest()
    commit = git(repository, "rev-parse", "HEAD").strip()
    told = ["kit kit-1 logic 0", f"commit {commit}", f"program {checksum}", "42 passed, 0 failed"]
    assert status == 0 and lines[-4:] == told
    assert (repository / RECORD).read_text().splitlines() == told


@pytest.mark.parametrize("first, second, ends, last", [
    ("30 passed, 2 failed", "12 passed, 0 failed", "1 0", "42 passed, 2 failed"),
    ("30 passed, 2 failed", "12 passed, 0 failed", "0 0", "42 passed, 2 failed"),
    ("30 passed, 0 failed", "12 passed, 10 failed", "0 1", "42 passed, 10 failed"),
    ("30 passed, 0 failed", "12 passed, 0 failed", "1 0", "42 passed, 1 failed"),
    ("30 passed, 0 failed", "12 passed, 0 failed", "0 137", "42 passed, 1 failed"),
    ("Killed", "12 passed, 0 failed", "137 0", "12 passed, 1 failed"),
    ("", "12 passed, 0 failed", "0 0", "12 passed, 1 failed"),
    ("0 passed, 0 failed", "12 passed, 0 failed", "0 0", "12 passed, 1 failed"),
    ("0 passed, 0 failed", "0 passed, 0 failed", "0 0", "0 passed, 2 failed"),
])
def test_a_half_that_ends_badly_or_does_nothing_fails(
        first: str, second: str, ends: str, last: str, repository: Path) -> None:
    gate(repository, "30 passed, 0 failed", "12 passed, 0 failed")
    status, lines = gate(repository, first, second, ends)
    assert status == 1 and lines[-1] == last
    assert not (repository / RECORD).exists()


def test_a_program_that_the_gate_made_is_older_than_what_was_changed_meanwhile(repository: Path) -> None:
    source, program = repository / "crates/lib.rt", repository / "crates/sketch/out/sketch"
    put(repository.parent / "bin/rt", f'sleep 0.05; touch {source}; sleep 0.05; touch {program}; echo "$HALF_1"\n')
    gate(repository, "30 passed, 1 failed", "12 passed, 0 failed")
    assert program.stat().st_mtime_ns < source.stat().st_mtime_ns


def test_a_program_that_the_gate_did_not_make_keeps_its_date(repository: Path) -> None:
    program = repository / "crates/sketch/out/sketch"
    os.utime(program, (1, 1))
    gate(repository, "Killed", "12 passed, 0 failed", "137 0")
    assert program.stat().st_mtime == 1


def test_of_a_changed_tree_nothing_is_recorded(repository: Path) -> None:
    git(repository, "config", "status.showUntrackedFiles", "no")
    (repository / "new").touch()
    status, lines = gate(repository, "30 passed, 0 failed", "12 passed, 0 failed")
    assert status == 0 and lines == ["30 passed, 0 failed", "12 passed, 0 failed", "42 passed, 0 failed"]
    assert not (repository / RECORD).exists()


@pytest.mark.parametrize("version", ['cat "$0.kit"', 'cat "$0.kit" | grep kit-1', 'cat "$0.kit" | grep kit-2', "true"])
def test_of_a_kit_that_is_changed_meanwhile_or_does_not_say_which_it_is_nothing_is_recorded(
        version: str, repository: Path) -> None:
    rt = repository.parent / "bin/rt"
    put(rt, f'[ "$1" = ci ] || {{ {version}; exit; }}\necho kit-2 >"$0.kit"; echo "$HALF_1"\n')
    rt.with_name("rt.kit").write_text("kit-1\n")
    status, lines = gate(repository, "30 passed, 0 failed", "12 passed, 0 failed")
    assert status == 0 and lines == ["30 passed, 0 failed", "12 passed, 0 failed", "42 passed, 0 failed"]
    assert not (repository / RECORD).exists()


def test_at_most_one_proof_more_goes_side_by_side_than_there_are_processors(repository: Path, monkeypatch: pytest.MonkeyPatch) -> None:
    monkeypatch.delenv("RT_JOBS", raising=False)
    gate(repository, "30 passed, 0 failed", "12 passed, 0 failed")
    jobs = (repository.parent / "bin/rt.jobs").read_text().strip()
    assert 1 <= int(jobs) <= len(os.sched_getaffinity(0)) + 1


def test_whoever_says_how_many_go_side_by_side_is_heard(repository: Path, monkeypatch: pytest.MonkeyPatch) -> None:
    monkeypatch.setenv("RT_JOBS", "7")
    gate(repository, "30 passed, 0 failed", "12 passed, 0 failed")
    assert (repository.parent / "bin/rt.jobs").read_text() == "7\n"
