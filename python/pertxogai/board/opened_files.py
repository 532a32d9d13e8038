"""Files that are opened on the board: their bytes come from the browser."""
from __future__ import annotations

import base64
import binascii
import tempfile
from collections.abc import Iterator
from pathlib import Path

from pertxogai.board.document import write_document
from pertxogai.board.fields import FieldRefused
from pertxogai.board.from_language import drawn_from
from pertxogai.board.protocol import FileSketch, GalleryDrawing
from pertxogai.files.kinds import DesignerDrawing, Input, InputRefused, SketchText, read_inputs
from pertxogai.judging.limits import TextRefused
from pertxogai.language import Refusal, Sketch

_ROOM = "file"
"""What a file is called while it is read."""


def opened(name: str, data: str) -> list[FileSketch]:
    """The sketches of a file, each with its text, what couldn't be said, and its name. `data` is
    in base 64. Raises FieldRefused, and InputRefused with the name of the file alone."""
    try:
        content = base64.b64decode(data, validate=True)
    except (binascii.Error, ValueError):
        raise FieldRefused("'data' has to be in base 64") from None
    plain = Path(name).name or "drawing"
    with tempfile.TemporaryDirectory(prefix="pertxogai-") as room:
        path = Path(room) / f"{_ROOM}{Path(plain).suffix}"
        try:
            path.write_bytes(content)
        except (OSError, ValueError):
            raise FieldRefused("'name' has to be the name of a file") from None
        try:
            return [_json(each, plain) for each in read_inputs(path)]
        except InputRefused as refusal:
            raise InputRefused(str(refusal).replace(str(path), plain)) from None


def _json(found: Input, plain: str) -> FileSketch:
    stem = Path(plain).stem
    if isinstance(found, SketchText):
        taken = drawn_from(_sketch(found, plain))
        return {"name": stem, "text": write_document(taken.drawing),
                "left_out": list(taken.left_out), "aside": []}
    assert isinstance(found, DesignerDrawing)
    return {"name": _called(found, stem), "text": write_document(found.drawing),
            "left_out": list(found.left_out), "aside": list(found.aside)}


def _called(found: DesignerDrawing, stem: str) -> str:
    """What a sketch is called: as its file, and behind it by its own name, where it has one."""
    return stem if found.name in (_ROOM, stem) else f"{stem} {found.name}"


def _sketch(found: SketchText, plain: str) -> Sketch:
    try:
        return Sketch.parse(found.text)
    except Refusal as refusal:
        told = TextRefused(plain, refusal.refused, found.text)
        raise InputRefused(str(told)) from None


def gallery(folder: Path) -> Iterator[GalleryDrawing]:
    """The drawings to begin from, by their names."""
    for path in sorted(folder.glob("*.drawing")):
        yield {"name": path.stem, "text": path.read_text(encoding="utf-8")}


