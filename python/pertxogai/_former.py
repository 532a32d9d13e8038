"""Import paths and names of 0.1.0, which work for one more release, and warn.

A path is looked for here once it is found nowhere else: what it leads to hands on what the module
at the new place has. Nothing is kept twice.
"""
from __future__ import annotations

import sys
import warnings
from collections.abc import Callable, Sequence
from importlib import import_module
from importlib.machinery import ModuleSpec
from types import ModuleType
from typing import TYPE_CHECKING, Any

if TYPE_CHECKING:
    from importlib.abc import Loader
else:  # Importing that takes longer than all of this.
    Loader = object

PATHS = {
    "answers": "judging",
    "answers.asking": "judging.trials",
    "answers.freezing": "judging.as_drawn",
    "answers.growing": "judging.from_parts",
    "answers.placing": "judging.printed",
    "answers.solution": "judging.settled",
    "answers.warnings": "judging.departures",
    "certifying": "judging.claims",
    "choices": "judging.choices",
    "drawing.conveniences": "drawing.shorthands",
    "drawing.exact": "drawing.roots",
    "drawing.kinds": "drawing.checks",
    "drawing.moved": "drawing.changes",
    "drawing.scene": "drawing.named_shapes",
    "drawing.sketching": "drawing.drawing",
    "drawing.spoken": "drawing.mentions",
    "drawing_sheet": "output.drawing_sheet",
    "dxf": "output.dxf",
    "encoding": "language.encoding",
    "errors": "program.errors",
    "found": "files.contents",
    "freecad": "files.freecad",
    "freecad.ties": "files.freecad.constraints",
    "freecad.values": "files.freecad.numbers",
    "gathering": "files.builder",
    "good": "judging.good",
    "inputs": "files.kinds",
    "judged": "judging.judged_sketch",
    "judged_drawing": "judging.judged_drawing",
    "kept": "cached",
    "language.rows": "language.lines",
    "library": "program.library",
    "limits": "files.limits",
    "measure": "judging.measure",
    "measure.exact": "exact",
    "outline": "files.dxf",
    "outline.dxf": "files.dxf.entities",
    "page": "board",
    "page.attending": "board.overlap",
    "page.frame": "output.placed_elements",
    "page.freenames": "board.new_names",
    "page.judging": "board.board_drawing",
    "page.motion": "output.picture.fitting",
    "page.opening": "board.opened_files",
    "page.parts_laid": "board.placed_parts",
    "page.rereading": "board.line_reader",
    "page.server": "board.app",
    "page.serving": "board.serve",
    "page.shown": "board.judgement_json",
    "page.sight": "board.drawing_json",
    "page.signs": "board.marks",
    "page.spots": "board.anchors",
    "picture": "output.picture",
    "picture.designed": "output.picture.drawings",
    "pieces": "judging.parts",
    "process": "program.process",
    "reports": "program.reports",
    "saving": "files.atomic",
    "shape_parts": "judging.parts",
    "shown": "files.printable",
    "sketch_sheet": "output.sketch_sheet",
    "sketch_told": "output.sketch_text",
    "solvespace": "files.solvespace",
    "solvespace.ties": "files.solvespace.constraints",
    "spelling.spellings": "spelling.interpretation",
    "talk": "program.live",
    "told": "output.drawing_text",
    "upright": "judging.measure.upright",
    "values": "spelling.linear",
}
"""Where a module is now, by where it was, both behind `pertxogai.`; a package takes along those in
it that aren't named themselves."""
NAMES = {
    "answers": {"Asked": "Trial", "Departure": "DepartureKind", "Place": "PlaceBy",
                "Warning": "Departure", "ask_styles": "first_good"},
    "answers.asking": {"Asked": "Trial", "Place": "PlaceBy", "ask_styles": "first_good"},
    "answers.placing": {"Plate": "PrintedPlaces"},
    "answers.warnings": {"Departure": "DepartureKind", "Warning": "Departure"},
    "drawing": {"Said": "Expansion", "Scene": "NamedShapes", "Spot": "Anchor"},
    "drawing.conveniences": {"Said": "Expansion"},
    "drawing.scene": {"Scene": "NamedShapes"},
    "found": {"Apart": "NotDrivingCause", "Aside": "NotDriving", "FoundSketch": "FileSketch",
              "Unsaid": "NotSayable"},
    "gathering": {"Gathering": "DrawingBuilder"},
    "kept": {"kept": "cached_on"},
    "measure": {"Spot": "PointNm"},
    "measure.solution": {"Spot": "PointNm"},
    "page.attending": {"Attending": "Overlapping", "Later": "Deferred"},
    "page.judging": {"Judged": "BoardDrawing"},
    "page.motion": {"laid": "fitted"},
    "page.removal": {"refs_of": "drawing.mentions.refs_of"},
    "page.worker": {"Hasty": "WithDeadline"},
    "picture": {"Spot": "PointMm"},
    "picture.designed": {"Whereabouts": "DrawnPlaces"},
    "picture.marks": {"Spot": "PointMm"},
    "pieces": {"pieces": "_former.pieces"},
    "program": {"Asks": "Solver"},
    "reports.answer": {"Report": "program.reports.report.Report"},
    "saving": {"saving": "written_whole"},
    "shown": {"shown": "printable"},
    "sketch_told": {"sketch_json": "output.json_of_sketch.sketch_json",
                    "sketch_told": "sketch_lines"},
    "spelling": {"Lines": "spelling.lines.Lines", "Spellings": "Interpretation",
                 "with_halves": "spelling.mirrors.with_halves",
                 "with_implied": "spelling.mirrors.with_implied"},
    "spelling.spellings": {"Spellings": "Interpretation"},
    "talk": {"Talk": "LiveProgram", "TalkEnded": "LiveEnded"},
    "told": {"drawing_json": "output.json_of_drawing.drawing_json",
             "spelled_json": "output.json_of_drawing.spelled_json", "told": "drawing_lines",
             "within_json": "output.json_of_drawing.within_json"},
    "values": {"Told": "Redundant"},
}
"""What a name of such a module is called now, by what it was called; with its module, behind
`pertxogai.`, where it stands in another."""


def new_path(module: str) -> str | None:
    """Where a module is now, both behind `pertxogai.`; None where it is no former path."""
    parts = module.split(".")
    for size in range(len(parts), 0, -1):
        head = ".".join(parts[:size])
        if head in PATHS:
            return ".".join([PATHS[head], *parts[size:]])
    return None


def former_names(module: str, calls: int = 0) -> Callable[[str], object]:
    """A `__getattr__` for a module that stays, behind `pertxogai.`, by which its former names
    lead to the new ones, and warn once. calls: how many calls stand between it and the line that
    is warned."""
    def find(name: str) -> object:
        if name not in NAMES.get(module, {}):
            raise AttributeError(f"module 'pertxogai.{module}' has no attribute {name!r}")
        return _renamed(sys.modules[f"pertxogai.{module}"], module, module, name, calls)

    return find


def _renamed(keeper: ModuleType, former: str, module: str, name: str, calls: int = 0) -> object:
    """What a module at a former path called so, from where it is now; kept by the module that is
    asked, so that it warns once."""
    new = NAMES[former][name]
    home, _, last = (f"{module}.{new}" if "." not in new else new).rpartition(".")
    found: object = getattr(import_module(f"pertxogai.{home}"), last)
    vars(keeper)[name] = found
    _warn(f"pertxogai.{former}.{name}", f"pertxogai.{home}.{last}", 4 + calls)
    return found


def picture(judged: object, as_drawn: bool) -> Any:
    """What `JudgedSketch.picture` gave: the output draws it now."""
    output = import_module("pertxogai.output.sketch_picture")
    _warn("JudgedSketch.picture", "picture_of_judged of pertxogai.output", 4)
    return output.picture_of_judged(judged, as_drawn)


def pieces(drawing: object, judgement: object) -> Any:
    """What `pieces` gave: the number of the part that a shape lies in, by the shape's name; the
    greatest of several parts, and no longer the first."""
    parts = import_module("pertxogai.judging.parts")
    _warn("pieces(drawing, judgement)", "parts_of_shapes(judgement) of pertxogai.judging.parts", 3)
    return parts.parts_of_shapes(judgement)


class FormerPaths(Loader):
    """Finds modules at their former paths."""

    def find_spec(self, name: str, path: Sequence[str] | None,
                  target: ModuleType | None = None) -> ModuleSpec | None:
        """What stands for a module that was moved; None of any other."""
        package, _, module = name.partition(".")
        if package != "pertxogai" or new_path(module) is None:
            return None
        return ModuleSpec(name, self, is_package=True)

    def create_module(self, spec: ModuleSpec) -> ModuleType | None:
        """A module as any other."""
        return None

    def exec_module(self, module: ModuleType) -> None:
        """Has the module hand on what that at the new place has."""
        former = module.__name__.partition(".")[2]
        path = new_path(former) or former
        found = import_module(f"pertxogai.{path}")
        _warn(module.__name__, found.__name__, 3)

        def find(name: str) -> object:
            if name in NAMES.get(former, {}):
                return _renamed(module, former, path, name)
            return getattr(found, name)

        vars(module)["__getattr__"] = find


def _warn(former: str, new: str, level: int) -> None:
    warnings.warn(f"{former} is {new} now; the former name goes with the next release",
                  DeprecationWarning, stacklevel=level)


def install() -> None:
    """Has former paths found behind all others."""
    if not any(isinstance(each, FormerPaths) for each in sys.meta_path):
        sys.meta_path.append(FormerPaths())
