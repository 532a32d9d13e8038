"""The command `draw`."""
from __future__ import annotations

import argparse
import sys
from fractions import Fraction
from pathlib import Path

from pertxogai.commands.judging import chosen, outcome_of, program_of
from pertxogai.exits import CommandError, Exit
from pertxogai.files.atomic import written_whole
from pertxogai.files.kinds import DesignerDrawing, Input, read_inputs
from pertxogai.files.printable import printable
from pertxogai.output.drawing_sheet import MOST_SHOWN, NoPlaces
from pertxogai.output.outcome import Sheet
from pertxogai.output.release import Release
from pertxogai.program.called import COMMAND


def draw(options: argparse.Namespace) -> Exit:
    """Draws a sketch of a file as SVG or DXF. Raises CommandError, InputRefused, FileRefusal,
    TextRefused and ProgramError."""
    suffix = options.output.suffix.lower()
    if suffix not in (".svg", ".dxf"):
        raise CommandError(f"{options.output}: the output's name ends in .svg or .dxf")
    found = chosen(read_inputs(options.file), options.sketch)
    sheet = outcome_of(found, program_of(options), options).sheet(options.as_drawn)
    if suffix == ".dxf" and options.scale:
        raise CommandError("a DXF has millimetres, and no scale: --scale is for .svg")
    text = _svg(sheet, options.scale) if suffix == ".svg" else _dxf(sheet, Release(options.release))
    with written_whole(options.output, options.file) as file:
        file.write(text.encode("utf-8", "replace"))
    if suffix == ".dxf":
        _tell_left_out(options.output, found)
    if sheet.is_good():
        return Exit.GOOD
    print(f"pertxogai: {printable(str(options.output))}: drawn, but the sketch isn't good, and the "
          "picture says why", file=sys.stderr)
    return Exit.NOT_GOOD


def _tell_left_out(out: Path, found: Input) -> None:
    """Tells what of the file a DXF lacks, which has no place for a text."""
    left_out = found.left_out if isinstance(found, DesignerDrawing) else ()
    lines = [f"left out of the file: {what}" for what in left_out[:MOST_SHOWN]]
    if len(left_out) > MOST_SHOWN:
        lines.append(f"and {len(left_out) - MOST_SHOWN} more: see {COMMAND} judge")
    for line in lines:
        print(printable(f"pertxogai: {out}: {line}"), file=sys.stderr)


def _svg(sheet: Sheet, scale: Fraction | None) -> str:
    """The sheet as SVG, to that scale where one is asked for."""
    picture = sheet.picture()
    return picture.to_scale(scale).svg if scale else picture.svg


def _dxf(sheet: Sheet, release: Release) -> str:
    """The sheet as DXF. Raises CommandError where it isn't good."""
    try:
        return sheet.dxf(release)
    except NoPlaces as error:
        hint = "; --as-drawn draws it all the same" if error.as_drawn else ""
        raise CommandError(f"{error}{hint}") from None
