"""Pertxogai: the proved CAD-sketch program `sketch`, for people who script CAD in Python.

`pertxogai.language` has the lines of a sketch as values, `pertxogai.program` runs the program,
`pertxogai.program.reports` reads what it answers. `drawing` and `spelling` do the same for a
designer's own words, and `judging` asks and measures; `files` reads and writes those of other
programs, `output` makes lines, JSON, pictures and DXF, `board` is the page in the browser. What
most programs need of them is here too.

Nothing here is proved, and nothing here decides: every verdict, place and tolerance is the
program's.
"""
from typing import TYPE_CHECKING

from pertxogai import _former

if TYPE_CHECKING:
    from pertxogai.drawing import Drawing, read_drawing, write_drawing
    from pertxogai.files import read_inputs
    from pertxogai.judging import good_of, judge, judge_sketch
    from pertxogai.language import Sketch
    from pertxogai.output import picture_of_judged
    from pertxogai.program import Program

__version__ = "0.2.0"
"""The version of a release: of the program, the library, this package, the manual pages."""
__all__ = ["Drawing", "Program", "Sketch", "good_of", "judge", "judge_sketch", "picture_of_judged",
           "read_drawing", "read_inputs", "write_drawing"]

_former.install()

if not TYPE_CHECKING:  # A type checker reads the imports above, and knows each name.
    from pertxogai._later import handed_on

    __getattr__, __dir__ = handed_on(__name__, {
        ".drawing": "Drawing read_drawing write_drawing",
        ".files": "read_inputs",
        ".judging": "good_of judge judge_sketch",
        ".language": "Sketch",
        ".output": "picture_of_judged",
        ".program": "Program"})
