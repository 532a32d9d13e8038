"""The command `watch`: a file is judged each time that it is saved."""
from __future__ import annotations

import os
import shutil
import signal
import subprocess
import sys
from collections.abc import Callable, Iterator
from contextlib import contextmanager
from pathlib import Path

import pytest

from conftest import TOP
from pertxogai.commands import main
from pertxogai.commands.watching import saves
from pertxogai.program import Program

FILES = TOP / "python" / "tests" / "files"
SECONDS = 60


class Ended(Exception):
    """The script of a test is at its end."""


def counted(path: Path, script: list[Callable[[], object]]) -> list[int]:
    """Before which step of a script, from 0, each save comes; a step is done at each pause."""
    steps, done = iter(script), 0

    def pause(_: float) -> None:
        nonlocal done
        step = next(steps, None)
        if step is None:
            raise Ended
        step()
        done += 1

    found = []
    with pytest.raises(Ended):
        for _ in saves(path, pause):
            found.append(done)
    return found


def nothing() -> None:
    """Nothing is done."""


def test_a_save_comes_once_two_looks_see_the_same(tmp_path: Path) -> None:
    path = tmp_path / "a.drawing"
    path.write_text("point A 0 0\n")
    # Seen at looks 0 and 1; written before looks 3 and 4, and seen the same at 4 and 5.
    script = [nothing, nothing, lambda: path.write_text("point A 0 0\npoint"),
              lambda: path.write_text("point A 0 0\npoint B 4 0\n"), nothing, nothing]
    assert counted(path, script) == [1, 5]


def test_a_file_that_is_replaced_is_waited_for(tmp_path: Path) -> None:
    path, other = tmp_path / "a.drawing", tmp_path / "b.drawing"
    path.write_text("point A 0 0\n")
    other.write_text("point B 0 0\n")
    script = [nothing, path.unlink, nothing, lambda: os.replace(other, path), nothing, nothing]
    assert counted(path, script) == [1, 5]


def heeding() -> None:
    """Ctrl+C ends the process also where the tests were started in the background, by a shell that
    has them pass over it."""
    signal.signal(signal.SIGINT, signal.SIG_DFL)


@contextmanager
def watched(path: Path, program: Program) -> Iterator[subprocess.Popen[str]]:
    """A running `./pertxogai watch`."""
    environment = {**os.environ, "PYTHONPATH": str(TOP / "python"),
                   "PERTXOGAI_SKETCH": program.path}
    words = [sys.executable, "-m", "pertxogai", "watch", str(path), "--no-search"]
    with subprocess.Popen(words, stdout=subprocess.PIPE, stderr=subprocess.PIPE, text=True,
                          env=environment, preexec_fn=heeding) as process:
        try:
            yield process
        finally:
            process.kill()


def told(process: subprocess.Popen[str], begins: str) -> str:
    """The next line that begins so."""
    assert process.stdout is not None
    for line in process.stdout:
        if line.startswith(begins):
            return line
    raise AssertionError("it has ended")


def test_each_save_is_judged_and_an_unreadable_one_told(program: Program, tmp_path: Path) -> None:
    path = tmp_path / "part.slvs"
    shutil.copy(FILES / "plate.slvs", path)
    with watched(path, program) as process:
        assert ": well (fully constrained), " in told(process, "g002-")
        copied = tmp_path / "saved"
        shutil.copy(FILES / "loose.slvs", copied)
        os.replace(copied, path)
        assert ": open (under-constrained, or rigid" in told(process, "g002-")
        path.write_text("no file of SolveSpace's")
        assert str(path) in told(process, str(path))
        shutil.copy(FILES / "plate.slvs", path)
        assert ": well (fully constrained), " in told(process, "g002-")
        process.send_signal(signal.SIGINT)
        assert process.wait(SECONDS) == 130


def test_a_file_that_is_not_there_is_refused(program: Program, tmp_path: Path) -> None:
    with watched(tmp_path / "none.slvs", program) as process:
        said = process.communicate(timeout=SECONDS)[1]
        assert process.returncode == 2 and "there is no such file: save it once" in said


@pytest.mark.parametrize("name, words, said", [
    ("folder.drawing", [], "it is a folder: name one file in it"),
    ("pipe.drawing", [], "it is a pipe or a device, which isn't saved: name a file"),
    ("notes.txt", [], "the ending .txt isn't known: rename it to one of "),
    ("a" * 300 + ".drawing", [], "can't be read: File name too long"),
    ("notes.txt/a.drawing", [], "there is no such file: save it once"),
    ("a.drawing", ["--seconds", "0"], "--seconds takes a number above 0"),
    ("a.drawing", ["--program", "/nowhere/sketch"], "/nowhere/sketch is no program that can be"),
])
def test_what_no_save_mends_is_refused_at_once(
        name: str, words: list[str], said: str, program: Program, tmp_path: Path,
        capsys: pytest.CaptureFixture[str], monkeypatch: pytest.MonkeyPatch) -> None:
    monkeypatch.setenv("PERTXOGAI_SKETCH", program.path)
    monkeypatch.setattr("pertxogai.commands.watching.saves", lambda path: iter(()))
    (tmp_path / "folder.drawing").mkdir()
    os.mkfifo(tmp_path / "pipe.drawing")
    for plain in ("notes.txt", "a.drawing"):
        (tmp_path / plain).write_text("point A 0 0\n")
    status = main(["watch", str(tmp_path / name), *words])
    out, complaint = capsys.readouterr()
    assert status == (3 if "--program" in words else 2) and out == ""
    assert said in complaint and complaint.count("\n") == 1
