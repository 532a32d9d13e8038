"""The reference of python/README.md: each public name stands in it, and says what it is."""
from __future__ import annotations

import ast
import sys
from collections.abc import Iterator

import pytest

from conftest import TOP

sys.path.insert(0, str(TOP / "tools"))
import import_graph  # noqa: E402
import python_api  # noqa: E402

FILES = import_graph.modules()
HANDED_ON = {"pertxogai", "pertxogai.board", "pertxogai.commands"}
"""What hands on the names of others, and what only the commands call."""


def names_of(package: str) -> list[str]:
    return python_api.names(ast.parse(FILES[package].read_text()))


def entries(package: str) -> Iterator[python_api.Entry]:
    for name in names_of(package):
        whole = python_api.entry(package, name, FILES)
        yield whole
        yield from (each for each in whole.parts if "(" in each.head)


@pytest.mark.parametrize("package", python_api.PACKAGES)
def test_each_public_name_says_what_it_is(package: str) -> None:
    found = list(entries(package))
    assert found and [each.head for each in found if not each.says.endswith(".")] == []


def test_each_package_that_exports_names_is_in_the_reference() -> None:
    exporting = {name for name, path in FILES.items()
                 if path.name == "__init__.py" and "__all__" in path.read_text()}
    assert exporting - HANDED_ON <= set(python_api.PACKAGES)


@pytest.mark.parametrize(("package", "name", "line"), [
    ("pertxogai.language", "Element",
     "- `Element = Point | Line | Circle`: An element of a sketch: drawn positions in micrometres."),
    ("pertxogai.language", "Choice",
     "- `Choice`: Which of two solutions a step takes. `TURN_PLUS`, `TURN_MINUS`, `ADVANCE_PLUS`,"
     " `ADVANCE_MINUS`, `NONE`."),
    ("pertxogai.program", "MissingProgram",
     "- `MissingProgram(ProgramError)`: No program was found, or the file that was named can't be"
     " run."),
])
def test_a_line_of_the_reference(package: str, name: str, line: str) -> None:
    assert list(python_api.entry(package, name, FILES).lines()) == [line]


def test_what_is_in_a_class_stands_below_it() -> None:
    lines = list(python_api.entry("pertxogai.program", "Program", FILES).lines())
    assert lines[0].startswith(
        "- `Program(path: str, seconds: float = 60.0, memory_mib: int | None = 4096)`: ")
    assert [line.partition("(")[0] for line in lines[1:]] == ["  - `find", "  - `ask"]
    assert lines[2].startswith("  - `ask(words: Sequence[str], text: str) -> Answer`: ")


def head(package: str, name: str) -> str:
    return python_api.entry(package, name, FILES).head


def test_a_class_that_extends_another_is_called_with_the_other_s_fields_first() -> None:
    assert head("pertxogai.program.reports", "Solved") == (
        "Solved(places: tuple[Placed, ...], tolerances: Tolerances, steps: int, bits: int)")


def test_a_field_that_is_declared_anew_keeps_its_place() -> None:
    assert head("pertxogai.judging", "CountedDrawing").startswith(
        "CountedDrawing(name: str, drawing: Drawing, judgement: CountedJudgement,"
        " not_drawn: tuple[str, ...] = (), ")


def test_what_is_given_by_name_alone_stands_behind_a_star() -> None:
    assert head("pertxogai.drawing", "Diameter") == (
        "Diameter(rim: ShapeRef, value_um: Fraction, name: str | None = None, *,"
        " expression: Expression | None = None, tolerance: Tolerance | None = None)")


def test_a_name_that_no_module_defines_is_told() -> None:
    with pytest.raises(ValueError, match="no Nothing, which pertxogai.program.running has"):
        python_api.entry("pertxogai.program.running", "Nothing", FILES)
