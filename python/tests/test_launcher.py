"""Which Python ./pertxogai takes."""
from __future__ import annotations

import os
import subprocess
import sys
from pathlib import Path

import pytest

import start
from conftest import TOP
from pertxogai import __version__


def python_without_ezdxf(folder: Path) -> str:
    """A Python that has the standard library alone."""
    path = folder / "bare"
    path.write_text(f'#!/bin/sh\necho bare >&2\nexec {sys.executable} -S "$@"\n')
    path.chmod(0o755)
    return str(path)


@pytest.mark.parametrize(("pythons", "said"), [
    ("{bare}", "bare\n"),
    ("{bare} {whole}", "bare\n"),
    ("{whole} {bare}", ""),
    ("/nowhere/python3 {bare}", "bare\n"),
    ("{bare} /nowhere/python3", "bare\n"),
    ("{bare} {bare}", "bare\nbare\n"),
], ids=["bare", "bare-whole", "whole", "nowhere", "bare-nowhere", "bare-bare"])
def test_the_launcher_takes_the_first_python_that_has_all(pythons, said, tmp_path) -> None:
    bare = python_without_ezdxf(tmp_path)
    named = pythons.format(bare=bare, whole=sys.executable)
    done = subprocess.run([str(TOP / "pertxogai"), "--version"], capture_output=True, text=True,
                          env={**os.environ, "PERTXOGAI_PYTHON": named})
    assert (done.returncode, done.stderr) == (0, said)
    assert done.stdout == f"pertxogai {__version__}\n"


def test_the_launcher_passes_over_a_python_that_is_too_old(monkeypatch) -> None:
    handed: list[list[str]] = []

    def execvp(python: str, words: list[str]) -> None:
        handed.append(words[2:])
        raise SystemExit

    monkeypatch.setattr(os, "execvp", execvp)
    monkeypatch.setattr(sys, "version_info", (3, 10, 12))
    for others, fitting in ([["b", "c"], ""], [[], "z"], [["b"], "z"]):
        with pytest.raises(SystemExit):
            start.main("a", others, fitting, ["judge", "x y"])
    assert handed == [["b", "c", "", "judge", "x y"], ["z", "", "z", "judge", "x y"],
                      ["b", "", "z", "judge", "x y"]]
    assert "no Python of 3.11" in start.main("a", [], "", ["judge"])
