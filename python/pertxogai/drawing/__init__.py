"""A designer's words: shapes, constraints, and their text, a `.drawing` file."""
from typing import TYPE_CHECKING

from pertxogai.drawing.changes import moved
from pertxogai.drawing.constraints import (
    VALUED, AngleBetween, AngleValue, Coincident, Collinear, Concentric, Constraint, Degrees,
    Diameter, Distance, Equal, Fixed, Horizontal, Length, Midpoint, Parallel, ParallelDistance,
    Perpendicular, PointLineDistance, PointOn, Radius, Ratio, Sense, Symmetric, Tangent, Valued,
    Vertical, XDistance, YDistance)
from pertxogai.drawing.drawing import Drawing, Note
from pertxogai.drawing.geometry import (
    Anchor, Arc, Axis, Circle, Datum, Origin, Point, Segment, Shape)
from pertxogai.drawing.meetings import Meetings
from pertxogai.drawing.named_shapes import NamedShapes, points_of, spot_of
from pertxogai.drawing.places import Place, place_mm, um_of_mm
from pertxogai.drawing.reading import read_drawing
from pertxogai.drawing.references import (
    DATUM_NAMES, ORIGIN, X_AXIS, Y_AXIS, Pair, PointRef, ShapeRef, Which)
from pertxogai.drawing.refusal import DrawingRefusal, DrawingUnsound, WordFault
from pertxogai.drawing.senses import Slope, Touch, Turn, run_um, touch, turn, way
from pertxogai.drawing.shorthands import Expansion, polyline, rectangle
from pertxogai.drawing.soundness import (
    checked, ends_made_one, faults, mirrored_in_itself)
from pertxogai.drawing.tolerances.check import Check, Tolerancing
from pertxogai.drawing.tolerances.iso2768 import GeneralTolerance, Grade
from pertxogai.drawing.tolerances.tolerance import Tolerance
from pertxogai.drawing.values.quantity import Quantity
from pertxogai.drawing.values.reckoning import (
    ReckonedValue, reckoned_values, rounded_roots, with_values)
from pertxogai.drawing.values.table import Value
from pertxogai.drawing.wording import asked_of, line_of, value_text, words_of
from pertxogai.drawing.writing import write_drawing

__all__ = ["Anchor", "AngleBetween", "AngleValue", "Arc", "Axis", "Check", "Circle", "Coincident",
           "Collinear", "Concentric", "Constraint", "DATUM_NAMES", "Datum", "Degrees", "Diameter",
           "Dimension", "Distance", "Drawing", "DrawingRefusal", "DrawingUnsound", "Equal",
           "Expansion", "Expression", "Fixed", "GeneralTolerance", "Grade", "Horizontal", "Length",
           "Meetings", "Midpoint", "NamedShapes", "NamedValue", "Note", "ORIGIN", "Origin", "Pair",
           "Parallel", "ParallelDistance", "Parameter", "Perpendicular", "Place", "Point",
           "PointLineDistance", "PointOn", "PointRef", "Quantity", "Radius", "Ratio",
           "ReckonedValue", "Segment", "Sense", "Shape", "ShapeRef", "Slope", "Symmetric",
           "Tangent", "Tolerance", "Tolerancing", "Touch", "Turn", "Unit", "VALUED", "Value",
           "Valued", "Vertical", "Which", "WordFault", "XDistance", "X_AXIS", "YDistance",
           "Y_AXIS", "asked_of", "checked", "ends_made_one", "faults", "line_of",
           "mirrored_in_itself", "moved", "parameters", "place_mm", "points_of", "polyline",
           "read_drawing", "read_expression", "reckoned_values", "rectangle", "rounded_roots",
           "run_um", "spot_of", "touch", "turn", "um_of_mm", "value_text", "way", "with_values",
           "words_of", "write_drawing"]

if TYPE_CHECKING:
    from pertxogai.drawing.values.expression import Expression
    from pertxogai.drawing.values.parameters import (
        Dimension, NamedValue, Parameter, Unit, parameters)
    from pertxogai.drawing.values.parsing import read_expression
else:
    from pertxogai._former import former_names
    from pertxogai._later import handed_on

    __getattr__, __dir__ = handed_on(__name__, {
        ".values.expression": "Expression",
        ".values.parameters": "Dimension NamedValue Parameter Unit parameters",
        ".values.parsing": "read_expression"}, former_names("drawing", calls=1))
