"""The files that the commands read, by the ending of their names."""
from __future__ import annotations

from collections.abc import Callable, Mapping
from dataclasses import dataclass
from pathlib import Path
from typing import NamedTuple

from pertxogai.drawing import Drawing, DrawingRefusal, read_drawing, write_drawing
from pertxogai.files.atomic import written_whole
from pertxogai.files.contents import Addition, FileRefusal, FileSketch
from pertxogai.files.limits import TEXT_BYTES, read_bytes
from pertxogai.files.printable import printable
from pertxogai.judging.good import GoodJudgement


class InputRefused(Exception):
    """A file can't be read as a sketch. The message is one line, and says what to do."""


@dataclass(frozen=True)
class SketchText:
    """A text of the sketch language, as it stands in the file: whether it is one, the program
    says."""

    name: str
    text: str


@dataclass(frozen=True)
class DesignerDrawing:
    """A designer's drawing, as a file has it. key: the file's own name of it. aside: which of the
    file's constraints only measure or are switched off."""

    name: str
    drawing: Drawing
    key: str = ""
    aside: tuple[str, ...] = ()

    @property
    def left_out(self) -> tuple[str, ...]:
        """What of the file couldn't be said in the drawing, a line for each."""
        return self.drawing.not_drawn


Input = SketchText | DesignerDrawing
"""A sketch of a file."""


class Kind(NamedTuple):
    """A kind of file: the ending of its name, what it is, what reads it, what copies it with good
    sketches, what copies it with more constraints and the places that meet them, and what copies it
    with other values of its dimensions. What reads it has the limits of `limits`."""

    suffix: str
    what: str
    read: Callable[[Path], tuple[Input, ...]]
    write: Callable[[Path, Path, Mapping[str, GoodJudgement]], None] | None = None
    add: Callable[[Path, Path, Mapping[str, Addition]], None] | None = None
    vary: Callable[[Path, Path, Mapping[str, GoodJudgement]], None] | None = None


def kind_of(path: Path) -> Kind | None:
    """The kind of a file, by its name; None if it isn't known."""
    return next((it for it in KINDS if it.suffix.lower() == path.suffix.lower()), None)


def check_kind(path: Path) -> Kind:
    """The kind of a file, by its name. Raises InputRefused if it isn't known."""
    kind = kind_of(path)
    if kind is None:
        known = ", ".join(f"{it.suffix} ({it.what})" for it in KINDS)
        raise InputRefused(
            f"{path}: the ending {path.suffix or 'of its name'} isn't known: rename it to one of"
            f" {known}"
        )
    return kind


def read_inputs(path: Path) -> tuple[Input, ...]:
    """The sketches of a file. Raises InputRefused."""
    if path.is_dir():
        raise InputRefused(f"{path}: it is a folder: name the files in it, such as {path / '*'}")
    kind = check_kind(path)
    try:
        return kind.read(path)
    except OSError as error:
        raise InputRefused(f"{path}: can't be read: {error.strerror or error}") from None
    except (DrawingRefusal, FileRefusal) as refusal:
        raise InputRefused(_with_path(path, str(refusal))) from None


def _with_path(path: Path, refusal: str) -> str:
    return refusal if refusal.startswith(str(path)) else f"{path}: {refusal}"


def _read_sketch(path: Path) -> tuple[Input, ...]:
    with open(path, "rb") as source:
        data = source.read(TEXT_BYTES + 1)  # One more than the program takes: it refuses that.
    return (SketchText(printable(path.stem), data.decode("utf-8", "surrogateescape")),)


def _read_drawing(path: Path) -> tuple[Input, ...]:
    text = read_bytes(path, TEXT_BYTES).decode("utf-8", "surrogateescape")
    return (DesignerDrawing(printable(path.stem), read_drawing(text)),)


def _read_freecad(path: Path) -> tuple[Input, ...]:
    from pertxogai.files.freecad.reading import read_freecad

    return tuple(map(_designer_drawing, read_freecad(path)))


def _read_solvespace(path: Path) -> tuple[Input, ...]:
    from pertxogai.files.solvespace.reading import read_solvespace

    return tuple(map(_designer_drawing, read_solvespace(path)))


def _read_outline(path: Path) -> tuple[Input, ...]:
    from pertxogai.files.dxf.reading import read_outline

    return (_designer_drawing(read_outline(path).accepted()),)


def _designer_drawing(found: FileSketch) -> DesignerDrawing:
    aside = tuple(printable(f"{each.name} ({each.why.value})") for each in found.aside)
    return DesignerDrawing(
        printable(found.label or found.name), found.drawing, found.name, aside)


def _write_freecad(path: Path, out: Path, good: Mapping[str, GoodJudgement]) -> None:
    from pertxogai.files.freecad.writing import write_freecad

    write_freecad(path, out, good)


def _add_freecad(path: Path, out: Path, additions: Mapping[str, Addition]) -> None:
    from pertxogai.files.freecad.writing import write_additions

    write_additions(path, out, additions)


def _write_solvespace(path: Path, out: Path, good: Mapping[str, GoodJudgement]) -> None:
    from pertxogai.files.solvespace.writing import write_solvespace

    write_solvespace(path, out, good)


def _add_solvespace(path: Path, out: Path, additions: Mapping[str, Addition]) -> None:
    from pertxogai.files.solvespace.writing import write_additions

    write_additions(path, out, additions)


def _add_drawing(path: Path, out: Path, additions: Mapping[str, Addition]) -> None:
    from pertxogai.files.drawing_text import write_additions

    write_additions(path, out, additions)


def _vary_drawing(path: Path, out: Path, good: Mapping[str, GoodJudgement]) -> None:
    (each,) = good.values()
    with written_whole(out, path) as stream:
        stream.write(write_drawing(each.drawing).encode("utf-8", "surrogateescape"))


def _vary_freecad(path: Path, out: Path, good: Mapping[str, GoodJudgement]) -> None:
    from pertxogai.files.freecad.writing import write_variants

    write_variants(path, out, good)


def _vary_solvespace(path: Path, out: Path, good: Mapping[str, GoodJudgement]) -> None:
    from pertxogai.files.solvespace.writing import write_variants

    write_variants(path, out, good)


KINDS = (
    Kind(".sketch", "the sketch language", _read_sketch),
    Kind(".drawing", "a designer's drawing", _read_drawing, add=_add_drawing, vary=_vary_drawing),
    Kind(".FCStd", "FreeCAD", _read_freecad, _write_freecad, _add_freecad, _vary_freecad),
    Kind(".slvs", "SolveSpace", _read_solvespace, _write_solvespace, _add_solvespace,
         _vary_solvespace),
    Kind(".dxf", "a DXF drawing", _read_outline),
)
