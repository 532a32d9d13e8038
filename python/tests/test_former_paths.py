"""The import paths of 0.1.0 lead to what they led to, and warn; importing the package is quick."""
from __future__ import annotations

import re

import subprocess
import sys
from importlib import import_module
from pathlib import Path

import pytest

import pertxogai
from conftest import TOP
from pertxogai import _former, output
from pertxogai.judging import judge_sketch

OF_THE_README = [
    "from pertxogai.answers import judge",
    "from pertxogai.drawing import PointRef, Which, read_drawing, write_drawing",
    "from pertxogai.judged import concerned, judge_sketch",
    "from pertxogai.language import Distance, Point, Sketch, micrometres",
    "from pertxogai.program import Program",
    "from pertxogai.reports import read_answer",
]
"""What the README of 0.1.0 and its examples import."""
MODULES = """
answers answers.asking answers.faults answers.freezing answers.growing answers.judgement
answers.limits answers.missing answers.naming answers.placing answers.solution answers.warnings
commands drawing drawing.constraint_checks drawing.constraint_lines drawing.constraints
drawing.conveniences drawing.cursor drawing.exact drawing.geometry drawing.kinds drawing.meetings
drawing.names drawing.numbers drawing.places drawing.reading drawing.references drawing.refusal
drawing.scene drawing.senses drawing.shape_lines drawing.sketching drawing.soundness
drawing.wording drawing.writing drawing_sheet dxf encoding errors found freecad freecad.archive
freecad.brep freecad.markup freecad.outer freecad.reading freecad.shapes freecad.space
freecad.ties freecad.values freecad.writing gathering inputs judged kept language language.claim
language.clusters language.constraints language.declared language.elements language.entries
language.flips language.names language.numbers language.offers language.places language.refusal
language.rows language.session language.sketch library measure measure.amounts measure.circular
measure.deviation measure.directions measure.exact measure.measuring measure.placed
measure.solution outline outline.dxf outline.joining outline.reading page page.attending
page.calls page.command page.construction page.document page.edit_fields page.edits page.fields
page.frame page.freenames page.from_language page.guard page.judging page.motion page.offers
page.opening page.panel page.parts_laid page.removal page.rereading page.server page.serving
page.shown page.signs page.spots page.worker page.workers picture picture.cells picture.designed
picture.marks picture.page picture.placed picture.plane picture.sketches picture.svg
picture.texts pieces process program reports reports.answer reports.check reports.derived
reports.dxf reports.faults reports.flips reports.grown reports.offers reports.parts reports.plan
reports.refused reports.rows reports.session reports.solved reports.spare reports.verified saving
shape_parts sketch_sheet sketch_told solvespace solvespace.reading solvespace.records
solvespace.shapes solvespace.ties solvespace.touches solvespace.writing spelling spelling.axes
spelling.directions spelling.drafts spelling.facts spelling.knots spelling.lean spelling.lines
spelling.lowering spelling.middles spelling.mirrors spelling.polygons spelling.rails
spelling.settling spelling.slots spelling.style spelling.writing told upright values
""".split()
"""The modules of 0.1.0, as its tree has them."""


@pytest.mark.parametrize("line", OF_THE_README)
@pytest.mark.filterwarnings("ignore::DeprecationWarning")
def test_the_imports_of_the_last_readme(line: str) -> None:
    exec(line, {})


@pytest.mark.parametrize("module", MODULES)
@pytest.mark.filterwarnings("ignore::DeprecationWarning")
def test_each_module_of_the_last_release_is_found(module: str) -> None:
    import_module(f"pertxogai.{module}")


@pytest.mark.parametrize("former", sorted(_former.PATHS))
def test_a_former_path_has_what_the_new_one_has(former: str) -> None:
    sys.modules.pop(f"pertxogai.{former}", None)
    with pytest.warns(DeprecationWarning, match=rf"pertxogai\.{former} is pertxogai\.") as warned:
        found = import_module(f"pertxogai.{former}")
    new = import_module(f"pertxogai.{_former.new_path(former)}")
    assert warned
    names = {name for name, thing in vars(new).items()
             if getattr(thing, "__module__", None) == new.__name__
             and name not in _former.NAMES.get(former, {})}  # Which was called so before.
    assert all(getattr(found, name) is getattr(new, name) for name in names)


@pytest.mark.parametrize(
    "module, name", [(module, name) for module, of in _former.NAMES.items() for name in of])
@pytest.mark.filterwarnings("ignore::DeprecationWarning")
def test_a_former_name_is_the_new_one(module: str, name: str) -> None:
    new = _former.NAMES[module][name]
    home = new.rpartition(".")[0] or _former.new_path(module) or module
    found = getattr(import_module(f"pertxogai.{module}"), name)
    assert found is getattr(import_module(f"pertxogai.{home}"), new.rpartition(".")[2])


@pytest.mark.parametrize("line, told", [
    ("from pertxogai.drawing import Spot", ["pertxogai.drawing.Spot is pertxogai.drawing.Anchor"]),
    ("from pertxogai.talk import Talk", [
        "pertxogai.talk is pertxogai.program.live",
        "pertxogai.talk.Talk is pertxogai.program.live.LiveProgram"]),
    ("from pertxogai.answers import judge", ["pertxogai.answers is pertxogai.judging"]),
    ("from pertxogai.spelling import Lines", [
        "pertxogai.spelling.Lines is pertxogai.spelling.lines.Lines"]),
])
def test_a_warning_names_what_to_write_and_the_line_that_imports(
        line: str, told: list[str], tmp_path: Path) -> None:
    script = tmp_path / "script.py"
    script.write_text(line + "\n")
    words = [sys.executable, "-W", "always::DeprecationWarning", str(script)]
    ended = subprocess.run(words, env={"PYTHONPATH": str(TOP / "python")}, capture_output=True,
                           text=True, check=True)
    found = [each for each in ended.stderr.splitlines() if "DeprecationWarning" in each]
    assert [each.partition(" now;")[0] for each in found] == [
        f"{script}:1: DeprecationWarning: {each}" for each in told]


def test_a_judged_sketch_draws_itself_as_before_and_warns(program) -> None:
    judged = judge_sketch("t", (TOP / "examples" / "triangle.sketch").read_text(), program)
    with pytest.warns(DeprecationWarning, match="picture_of_judged of pertxogai.output"):
        assert judged.picture().svg == output.picture_of_judged(judged).svg


def test_no_page_names_a_former_path() -> None:
    """In back quotes, `a.b` or `pertxogai.a.b`; `a.js` is one of the board's own modules, and
    `a.py` a file."""
    former = "|".join(re.escape(each) for each in sorted(_former.PATHS, key=len, reverse=True))
    named = re.compile(rf"`(?:pertxogai\.(?:{former})|(?:{former})\.(?!(?:js|py)`)\w+)(?:\.\w+)*`")
    pages = [*(TOP / "python").rglob("*.md"), *(TOP / "docs").glob("*.md"), TOP / "README.md"]
    said = {str(page.relative_to(TOP)): named.findall(page.read_text()) for page in pages}
    assert {page: names for page, names in said.items() if names} == {}


@pytest.mark.parametrize("folder", ["judging", "spelling"])
def test_the_table_of_a_folder_names_its_modules(folder: str) -> None:
    place = TOP / "python" / "pertxogai" / folder
    rows = re.findall(r"^\| (`[a-z_`, ]+) \|", (place / "README.md").read_text(), re.MULTILINE)
    named = sorted(name for row in rows for name in re.findall(r"`(\w+)`", row))
    modules = sorted(each.stem for each in place.iterdir()
                     if each.suffix == ".py" and each.stem != "__init__"
                     or (each / "__init__.py").exists())
    assert named == modules


def test_what_never_was_is_told_as_ever() -> None:
    with pytest.raises(ModuleNotFoundError):
        import_module("pertxogai.nowhere")
    with pytest.raises(ImportError):
        exec("from pertxogai.drawing import Nothing", {})


def test_the_package_has_what_most_programs_need() -> None:
    assert all(getattr(pertxogai, name).__name__ == name for name in pertxogai.__all__)


def test_the_output_has_what_it_names() -> None:
    assert all(getattr(output, name).__name__ == name for name in output.__all__)


def test_importing_the_package_imports_none_of_its_folders() -> None:
    words = ("import sys, pertxogai; print(*sorted(each for each in sys.modules"
             " if each.startswith('pertxogai')))")
    ended = subprocess.run([sys.executable, "-c", words], env={"PYTHONPATH": str(TOP / "python")},
                           capture_output=True, text=True, check=True)
    assert ended.stdout.split() == ["pertxogai", "pertxogai._former", "pertxogai._later"]


def test_pieces_gives_the_one_answer_that_there_is(monkeypatch) -> None:
    from pertxogai.judging import parts

    monkeypatch.setattr(parts, "parts_of_shapes", lambda judgement: {"Hole": judgement})
    with pytest.warns(DeprecationWarning, match="parts_of_shapes"):
        assert _former.pieces(None, 2) == {"Hole": 2}
