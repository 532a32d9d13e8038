"""Pictures as SVG, drawn in floating point. Numbers in them come from the program's reports."""
from pertxogai.output.picture.drawings import Marking, picture_of_designed, scene_of_designed
from pertxogai.output.picture.marks import (
    Bow, Dimension, Dot, Ink, LengthBar, Manner, Mark, PointMm, Ring, Scene, Square, Stroke, Tag)
from pertxogai.output.picture.sketches import (
    picture_of_drawing, picture_of_parts, picture_of_shape)
from pertxogai.output.picture.svg import Picture, picture_of

__all__ = ["Bow", "Dimension", "Dot", "Ink", "LengthBar", "Manner", "Mark", "Marking", "Picture",
           "PointMm", "Ring", "Scene", "Square", "Stroke", "Tag", "picture_of",
           "picture_of_designed", "picture_of_drawing", "picture_of_parts", "picture_of_shape",
           "scene_of_designed"]
