"""Sketches in files of other programs: FreeCAD, SolveSpace, DXF, and the two texts. A path goes in;
drawings or sketch texts come out, with what of the file the drawing can't express. A good result
goes back into a copy of a FreeCAD or SolveSpace file."""
from pertxogai.files.contents import FileRefusal, FileSketch, LeftOut
from pertxogai.files.drawing_text import with_lines
from pertxogai.files.kinds import (
    DesignerDrawing, Input, InputRefused, SketchText, kind_of, read_inputs)

__all__ = ["DesignerDrawing", "FileRefusal", "FileSketch", "Input", "InputRefused", "LeftOut",
           "SketchText", "kind_of", "read_inputs", "with_lines"]
