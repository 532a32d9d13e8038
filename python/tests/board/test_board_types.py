"""The types of the board: the page's modules by TypeScript, and what the server and the page tell
each other by the protocol that both have."""
from __future__ import annotations

import json
import shutil
import subprocess
from collections.abc import Iterator
from dataclasses import dataclass, field
from pathlib import Path

import pytest

from conforming import unlike
from conftest import TOP
from boards import DRAWINGS

from pertxogai.board import calls, protocol
from pertxogai.board.calls import Desk
from pertxogai.board.document import read_document
from pertxogai.board.edit_fields import read_edit
from pertxogai.board.fields import Fields
from pertxogai.program import Program

BOARD = TOP / "python/pertxogai/board"
SCRIPTS = sorted((BOARD / "static").glob("*.js"))
TSC, NODE = shutil.which("tsc"), shutil.which("node")
MOST_COLUMNS = 100
MOST_BRANCHES = 12


# The page's own modules.

@pytest.mark.types
@pytest.mark.skipif(TSC is None, reason="types are checked by Debian's node-typescript")
def test_the_pages_types_hold() -> None:
    told = subprocess.run([str(TSC), "-p", BOARD / "jsconfig.json"], capture_output=True,
                          text=True, check=False)
    assert (told.stdout, told.returncode) == ("", 0)


@pytest.mark.types
@pytest.mark.skipif(TSC is None, reason="types are checked by Debian's node-typescript")
def test_a_wrong_field_of_an_answer_is_found(tmp_path: Path) -> None:
    """So the types are those of the protocol, and not `any`."""
    shutil.copytree(BOARD / "static", tmp_path / "static")
    shutil.copy(BOARD / "jsconfig.json", tmp_path)
    path = tmp_path / "static/asked.js"
    path.write_text(path.read_text().replace("each.told", "each.said"))
    told = subprocess.run([str(TSC), "-p", tmp_path / "jsconfig.json"], capture_output=True,
                          text=True, check=False)
    assert "Property 'said' does not exist on type 'Excess'" in told.stdout


@pytest.mark.parametrize("path", SCRIPTS, ids=lambda it: it.name)
def test_every_module_is_checked_and_its_lines_are_short(path: Path) -> None:
    lines = path.read_text().splitlines()
    assert lines[0] == "// @ts-check"
    assert [line for line in lines if len(line) > MOST_COLUMNS or "@ts-ignore" in line] == []


@pytest.mark.types
@pytest.mark.skipif(TSC is None or NODE is None, reason="read by Debian's node-typescript")
def test_functions_have_few_branches(tmp_path: Path) -> None:
    assert branches(MOST_BRANCHES, *SCRIPTS) == []
    small = tmp_path / "small.js"
    small.write_text("const plain = (a) => a;\n"
                     "function forked(a, b) {\n"
                     "  for (const each of a) if (each && (b ?? each > 3)) return b ? 1 : 2;\n"
                     "  switch (b) { case 1: case 2: return a; default: return null; }\n"
                     "}\n")
    # for, if, and, or else, the conditional, the switch.
    assert branches(6, small) == ["small.js:2 forked has 7"]
    assert branches(7, small) == []


def branches(most: int, *paths: Path) -> list[str]:
    """The functions of some files that have more branches than a number."""
    script = Path(__file__).with_name("branches.js")
    told = subprocess.run([str(NODE), script, str(most), *paths], capture_output=True, text=True,
                          check=True, env={"NODE_PATH": "/usr/share/nodejs"})
    return told.stdout.splitlines()


# What the server and the page tell each other.

def test_every_call_has_its_types() -> None:
    assert list(protocol.CALLS) == list(calls.CALLS)


def sent(desk: Desk, call: str, given: object) -> dict[str, object]:
    """What a call gives, as the page reads it."""
    told = json.loads(desk.text(call, given))
    assert isinstance(told, dict)
    return told


@pytest.mark.parametrize("path", sorted(DRAWINGS.glob("*.drawing")), ids=lambda it: it.stem)
def test_answers_are_of_their_types(path: Path, program: Program) -> None:
    """What each call gives of a drawing of the gallery."""
    desk, text = Desk(program), path.read_text()
    name = read_document(text).geometry[0].name
    edit = {"do": "shift", "shapes": [name], "dx": 0.5, "dy": 0}
    known = desk.answer("judge", {"text": text})
    given: dict[str, dict[str, object]] = {
        "judge": {}, "edit": {"edit": edit, "knows": known["told"]},
        "drag": {"drag": "a", "names": [name], "begin": {"x": 0, "y": 0}, "x": 1, "y": 1,
                 "taken": 0, "turns": False}, "offers": {"names": [name]},
        "weigh": {}, "complete": {}, "fit": {}, "range": {"name": "Nothing"}, "plan": {},
        "flips": {"steps": [1]}, "redraw": {"steps": []}, "verify": {},
        "svg": {"name": path.stem}, "program-dxf": {}}
    for call, more in given.items():
        gives = protocol.CALLS[call][1]
        told = sent(desk, call, {"text": text, **more})
        assert list(unlike(told, gives)) == [], call


@pytest.mark.parametrize("text", ["", "# a note\n", "segment A 0 0\n", "segment A 0 0 40 0\n"])
def test_answers_to_other_texts_are_of_their_types(text: str, program: Program) -> None:
    for call in ("judge", "weigh", "plan", "verify"):
        told = sent(Desk(program), call, {"text": text})
        assert list(unlike(told, protocol.CALLS[call][1])) == [], call


EDITS: list[dict[str, object]] = [
    {"do": "draw", "figure": "circle", "spots": [{"point": "A.end"}], "radius": 4,
     "sides": 6, "construction": True, "asks": [["equal", "*", "C"]]},
    {"do": "draw", "figure": "segment", "spots": [{"x": 1, "y": 2.5}, {"point": "A.end"}]},
    {"do": "move", "points": [{"of": "A.end", "x": 41, "y": 1}],
     "radii": [{"of": "C", "radius": 3}], "asks": [["horizontal", "A"]]},
    {"do": "shift", "shapes": ["A"], "points": ["C.centre"], "dx": 1, "dy": -2},
    {"do": "erase", "shapes": ["C"], "constraints": [1], "references": [1]},
    {"do": "ask", "words": ["length", "A"], "value": "40", "reference": 1},
    {"do": "reference", "words": ["length", "A"], "number": 1},
    {"do": "label", "number": -1, "x": 0.5, "y": 3},
    {"do": "lines", "lines": ["length A 40"]}, {"do": "value", "number": 1, "value": "41"},
    {"do": "set-value", "name": "Width", "expression": "40"},
    {"do": "drop-value", "name": "Width"},
    {"do": "call", "number": 1, "name": "Width"},
    {"do": "rename", "old": "A", "new": "N"},
    {"do": "corner", "kind": "fillet", "first": "A", "second": "B", "size": "5"},
    {"do": "trim", "shape": "A", "x": 10, "y": 0}, {"do": "extend", "shape": "B", "x": 40, "y": 1},
    {"do": "construction", "shapes": ["A"], "construction": True},
    {"do": "mirror", "shapes": ["A"], "about": "YAxis"},
    {"do": "row", "shapes": ["A"], "dx": 1.5, "dy": 0, "count": 3},
    {"do": "ring", "shapes": ["A"], "about": {"point": "A.end"}, "count": 3},
    {"do": "offset", "shapes": ["A"], "size": "3", "x": 1, "y": 0.5},
    {"do": "paste", "source": "segment A 0 0 1 0\n", "shapes": ["A"], "dx": 1, "dy": 0},
]
TEXT = "segment A 0 0 40 0\nsegment B A.end 40 30\ncircle C 10 10 4\nlength A 40\n"


@dataclass(frozen=True)
class Read(Fields):
    """Fields that note which of them are read."""

    names: set[str] = field(default_factory=set)

    def has(self, name: str) -> bool:
        self.names.add(name)
        return super().has(name)

    def text(self, name: str) -> str:
        self.names.add(name)
        return super().text(name)

    def flag(self, name: str) -> bool:
        self.names.add(name)
        return super().flag(name)

    def um(self, name: str):
        self.names.add(name)
        return super().um(name)

    def whole(self, name: str) -> int:
        self.names.add(name)
        return super().whole(name)

    def lines(self, name: str) -> tuple[tuple[str, ...], ...]:
        self.names.add(name)
        return super().lines(name)

    def single(self, name: str) -> Fields:
        self.names.add(name)
        return super().single(name)

    def _items(self, name: str) -> Iterator[object]:
        self.names.add(name)
        return super()._items(name)


@pytest.mark.parametrize("edit", EDITS, ids=lambda it: str(it["do"]))
def test_an_edit_has_the_fields_that_are_read(edit: dict[str, object]) -> None:
    assert list(unlike(edit, protocol.Edit)) == []
    read = Read(edit)
    read_edit(read_document(TEXT), read)
    (mine,) = [each for each in protocol.Edit.__args__ if not any(unlike(edit, each))]
    assert read.names == set(mine.__annotations__)


def test_what_isnt_of_a_type_is_found() -> None:
    assert list(unlike({"do": "erase", "shapes": [1]}, protocol.Edit)) != []
    assert list(unlike({"do": "erase", "more": 1}, protocol.EraseEdit)) == ["it has more besides: 1"]
    assert list(unlike({"point": 1}, protocol.PointSpot)) == ["it.point is no <class 'str'>: 1"]
    assert list(unlike({}, protocol.PointSpot)) == ["it lacks point"]
    assert list(unlike([1.0, True], protocol.Point)) == ["it[1] is no <class 'float'>: True"]
    assert list(unlike([1.0], protocol.Point)) != []
