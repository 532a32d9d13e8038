"""How the package is written: types, names, lengths of lines, and how many branches a function
has."""
from __future__ import annotations

import ast
import importlib.util
import subprocess
import sys
from collections.abc import Iterator
from pathlib import Path

import pytest

from conftest import LONGEST, SHARED, TESTS, TOP

PYTHON = TOP / "python"
SOURCES = sorted((PYTHON / "pertxogai").rglob("*.py")) + sorted((TOP / "freecad").rglob("*.py"))
MOST_COLUMNS = 100
MOST_BRANCHES = 12

BRANCHES = (ast.If, ast.For, ast.While, ast.ExceptHandler, ast.IfExp, ast.Match)
Function = ast.FunctionDef | ast.AsyncFunctionDef


def run(*words: str) -> str:
    """What a module of Python writes that finds nothing to say, or says it."""
    ended = subprocess.run([sys.executable, "-m", *words], cwd=PYTHON, capture_output=True,
                           text=True, check=False)
    assert "No module named" not in ended.stderr, ended.stderr
    return ended.stdout


def test_every_name_stands_and_is_used() -> None:
    told = run("pyflakes", "pertxogai", "tests", "../tools", "../freecad")
    allowed = "'ezdxf' imported but unused"  # Whether it is there is what is asked.
    assert [line for line in told.splitlines() if not line.endswith(allowed)] == []


def test_the_files_that_begin_first_or_are_shared_stand() -> None:
    assert [name for name in LONGEST + SHARED if not (TESTS / f"{name}.py").is_file()] == []


@pytest.mark.types
@pytest.mark.skipif(importlib.util.find_spec("mypy") is None, reason="without python3-mypy")
def test_types_hold_throughout() -> None:
    """What mypy keeps in python/.mypy_cache makes it quick where little has changed."""
    told = run("mypy", "--strict", "--no-error-summary", "pertxogai", "../freecad/pertxogai_freecad")
    assert told.splitlines() == []


@pytest.mark.parametrize("path", SOURCES, ids=lambda it: str(it.relative_to(TOP)))
def test_lines_and_functions_are_short(path: Path) -> None:
    text = path.read_text()
    assert [line for line in text.splitlines() if len(line) > MOST_COLUMNS] == []
    assert [found for found in functions(text) if found[1] > MOST_BRANCHES] == []


def functions(text: str) -> Iterator[tuple[str, int]]:
    """Each function of a module, and how many branches it has."""
    for node in ast.walk(ast.parse(text)):
        if isinstance(node, Function):
            yield node.name, branches(node)


def branches(function: Function) -> int:
    """One more than the conditions at which what a function does forks: each if, loop, handler
    and guard; a match once, however many cases it tells apart; each further part of a condition."""
    nodes = list(ast.walk(function))
    more = sum(len(node.values) - 1 for node in nodes if isinstance(node, ast.BoolOp))
    more += sum(len(node.ifs) for node in nodes if isinstance(node, ast.comprehension))
    more += sum(node.guard is not None for node in nodes if isinstance(node, ast.match_case))
    return 1 + more + sum(isinstance(node, BRANCHES) for node in nodes)


def test_branches_are_counted() -> None:
    text = """
def plain(a):
    return a

def forked(a, b):
    for each in a:
        if each and b or each > 3:
            return 1 if b else 2
    match b:
        case 1 if a:
            return [each for each in a if each]
        case 2:
            return 4
    return 5
"""
    # forked: for, if, and, or, the conditional, match, its guard, the comprehension's if.
    assert dict(functions(text)) == {"plain": 1, "forked": 9}
