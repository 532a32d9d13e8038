"""Output of a judgement: lines to read, JSON, pictures as SVG, DXF. A judged drawing or sketch goes
in; texts come out. Nothing here decides what they say."""
from typing import TYPE_CHECKING

if TYPE_CHECKING:
    from pertxogai.output.drawing_sheet import DrawingSheet, NoPlaces
    from pertxogai.output.drawing_text import drawing_lines
    from pertxogai.output.json_of_drawing import drawing_json
    from pertxogai.output.json_of_sketch import sketch_json
    from pertxogai.output.outcome import DrawingOutcome, Outcome, Sheet, SketchOutcome
    from pertxogai.output.picture import Picture
    from pertxogai.output.release import Release
    from pertxogai.output.sketch_picture import picture_of_judged
    from pertxogai.output.sketch_sheet import SketchSheet
    from pertxogai.output.sketch_text import sketch_lines
else:
    from pertxogai._later import handed_on

    __getattr__, __dir__ = handed_on(__name__, {
        ".drawing_sheet": "DrawingSheet NoPlaces",
        ".drawing_text": "drawing_lines",
        ".json_of_drawing": "drawing_json",
        ".json_of_sketch": "sketch_json",
        ".outcome": "DrawingOutcome Outcome Sheet SketchOutcome",
        ".picture": "Picture",
        ".release": "Release",
        ".sketch_picture": "picture_of_judged",
        ".sketch_sheet": "SketchSheet",
        ".sketch_text": "sketch_lines"})

__all__ = ["DrawingOutcome", "DrawingSheet", "NoPlaces", "Outcome", "Picture", "Release", "Sheet",
           "SketchOutcome", "SketchSheet", "drawing_json", "drawing_lines", "picture_of_judged",
           "sketch_json", "sketch_lines"]
